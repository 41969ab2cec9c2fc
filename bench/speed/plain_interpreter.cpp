#include "plain_interpreter.hpp"

#include <limits>

static bool no_quotient(int32_t x, int32_t y) { return x == std::numeric_limits<int32_t>::min() && y == -1; }

PlainEnd plain_interpret(const uint64_t *body, uint32_t n, uint32_t budget, uint32_t *cells) {
  uint32_t place = 0;
  uint32_t left = budget;
  while (place < n) {
    if (left == 0) return {22, place, left};
    const uint64_t f = body[place];
    const uint32_t imm = static_cast<uint32_t>(f);
    uint32_t &d = cells[f >> 48 & 0xff];
    const uint32_t a = cells[f >> 40 & 0xff];
    const uint32_t b = cells[f >> 32 & 0xff];
    const int32_t x = static_cast<int32_t>(a);
    const int32_t y = static_cast<int32_t>(b);
    const uint32_t length = f >> 32 & 0xff;
    int32_t r = 0;
    switch (f >> 56) {
    case 0x01: d = imm; break;
    case 0x02: d = a; break;
    case 0x10: d = a + b; break;
    case 0x11: d = a - b; break;
    case 0x12: d = a * b; break;
    case 0x13:
      if (b == 0) return {14, place, left};
      d = a / b;
      break;
    case 0x14:
      if (b == 0) return {14, place, left};
      d = a % b;
      break;
    case 0x18:
      if (__builtin_add_overflow(x, y, &r)) return {15, place, left};
      d = static_cast<uint32_t>(r);
      break;
    case 0x19:
      if (__builtin_sub_overflow(x, y, &r)) return {15, place, left};
      d = static_cast<uint32_t>(r);
      break;
    case 0x1a:
      if (__builtin_mul_overflow(x, y, &r)) return {15, place, left};
      d = static_cast<uint32_t>(r);
      break;
    case 0x1b:
      if (y == 0) return {14, place, left};
      if (no_quotient(x, y)) return {15, place, left};
      d = static_cast<uint32_t>(x / y);
      break;
    case 0x1c:
      if (y == 0) return {14, place, left};
      if (no_quotient(x, y)) return {15, place, left};
      d = static_cast<uint32_t>(x % y);
      break;
    case 0x20: d = a & b; break;
    case 0x21: d = a | b; break;
    case 0x22: d = ~a; break;
    case 0x28: d = a == b; break;
    case 0x29: d = a != b; break;
    case 0x2a: d = a < b; break;
    case 0x2b: d = a <= b; break;
    case 0x2c: d = x < y; break;
    case 0x2d: d = x <= y; break;
    case 0x2e: d = a == 0; break;
    case 0x30:
      if (a >= length) return {16, place, left};
      d = cells[imm + a];
      break;
    case 0x31:
      if (a >= length) return {16, place, left};
      cells[imm + a] = d;
      break;
    case 0x40:
      --left;
      place = imm;
      continue;
    case 0x41:
      --left;
      place = a != 0 ? imm : place + 1;
      continue;
    case 0x50:
      if (a == 0) return {12, place, left};
      break;
    case 0x51:
      if (a == 0) return {13, place, left};
      break;
    default: return {255, place, left};
    }
    --left;
    ++place;
  }
  return {0, place, left};
}
