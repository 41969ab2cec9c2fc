// The work of reading and writing lines as plain C++ loops, for the comparison of speed. They judge nothing.
#pragma once

#include <cstddef>
#include <cstdint>

inline int digit_value(uint8_t b) {
  if (b >= '0' && b <= '9') return b - '0';
  if (b >= 'a' && b <= 'f') return b - 'a' + 10;
  return -1;
}

// The frames of whole well-formed lines go to the table; their count.
inline std::size_t plain_read(const uint8_t *bytes, std::size_t n, uint64_t *table, std::size_t m) {
  std::size_t lines = 0;
  for (; lines < m && 17 * (lines + 1) <= n; ++lines) {
    const uint8_t *line = bytes + 17 * lines;
    uint64_t frame = 0;
    for (int i = 0; i < 16; ++i) {
      const int value = digit_value(line[i]);
      if (value < 0) return lines;
      frame = frame << 4 | static_cast<uint64_t>(value);
    }
    if (line[16] != '\n') return lines;
    table[lines] = frame;
  }
  return lines;
}

inline std::size_t plain_write(const uint64_t *table, std::size_t n, uint8_t *bytes) {
  for (std::size_t i = 0; i < n; ++i) {
    uint64_t frame = table[i];
    uint8_t *line = bytes + 17 * i;
    for (int k = 15; k >= 0; --k, frame >>= 4) line[k] = static_cast<uint8_t>("0123456789abcdef"[frame & 15]);
    line[16] = '\n';
  }
  return 17 * n;
}
