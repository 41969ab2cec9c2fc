// One plain instruction, in the words of document 01 and in wide numbers; nothing here is fast.
#pragma once

#include <cstdint>
#include <optional>

struct Fields {
  unsigned op, d, a, b;
  uint32_t imm;
};

inline Fields fields_of(uint64_t f) {
  return {static_cast<unsigned>(f >> 56), static_cast<unsigned>(f >> 48 & 0xff), static_cast<unsigned>(f >> 40 & 0xff),
          static_cast<unsigned>(f >> 32 & 0xff), static_cast<uint32_t>(f)};
}

// A value or the number of a stop.
struct Made {
  uint32_t stop;
  uint32_t value;
};

inline Made unsigned_made(unsigned op, uint64_t x, uint64_t y) {
  const uint64_t modulus = uint64_t{1} << 32;
  switch (op) {
  case 0x10: return {0, static_cast<uint32_t>((x + y) % modulus)};
  case 0x11: return {0, static_cast<uint32_t>((x + modulus - y) % modulus)};
  case 0x12: return {0, static_cast<uint32_t>((x * y) % modulus)};
  }
  if (y == 0) return {14, 0};
  return {0, static_cast<uint32_t>(op == 0x13 ? x / y : x % y)};
}

inline Made signed_made(unsigned op, int64_t x, int64_t y) {
  const int64_t end = int64_t{1} << 31;
  if (op >= 0x1b && y == 0) return {14, 0};
  if (op >= 0x1b && x == -end && y == -1) return {15, 0};
  int64_t r = 0;
  switch (op) {
  case 0x18: r = x + y; break;
  case 0x19: r = x - y; break;
  case 0x1a: r = x * y; break;
  case 0x1b: r = x / y; break;
  case 0x1c: r = x % y; break;
  }
  if (r < -end || r >= end) return {15, 0};
  return {0, static_cast<uint32_t>(r)};
}

inline uint32_t bits_or_truth(unsigned op, uint32_t x, uint32_t y) {
  const int64_t sx = static_cast<int32_t>(x);
  const int64_t sy = static_cast<int32_t>(y);
  switch (op) {
  case 0x20: return x & y;
  case 0x21: return x | y;
  case 0x22: return ~x;
  case 0x28: return x == y;
  case 0x29: return x != y;
  case 0x2a: return x < y;
  case 0x2b: return x <= y;
  case 0x2c: return sx < sy;
  case 0x2d: return sx <= sy;
  default: return x == 0;
  }
}

// The value that d takes, for the ops that make one of the values of a and b.
inline std::optional<Made> made_of(const Fields &f, uint32_t x, uint32_t y) {
  if (f.op == 0x01) return Made{0, f.imm};
  if (f.op == 0x02) return Made{0, x};
  if (f.op >= 0x10 && f.op <= 0x14) return unsigned_made(f.op, x, y);
  if (f.op >= 0x18 && f.op <= 0x1c) return signed_made(f.op, static_cast<int32_t>(x), static_cast<int32_t>(y));
  if (f.op >= 0x20 && f.op <= 0x2e) return Made{0, bits_or_truth(f.op, x, y)};
  return std::nullopt;
}
