// Frames and the 64-bit numbers that stand for them in tables: from the top byte down op, d, a, b, and 32 bits of imm.
#pragma once

#include <cstdint>

namespace independent {

struct Frame {
  uint32_t op, d, a, b, imm;
};

inline Frame frame_of(uint64_t number) {
  const auto byte = [number](int shift) { return static_cast<uint32_t>(number >> shift & 0xff); };
  return {byte(56), byte(48), byte(40), byte(32), static_cast<uint32_t>(number)};
}

inline uint64_t number_of(const Frame &f) {
  return uint64_t{f.op} << 56 | uint64_t{f.d} << 48 | uint64_t{f.a} << 40 | uint64_t{f.b} << 32 | f.imm;
}

} // namespace independent
