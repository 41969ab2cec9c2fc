#include "arithmetic.hpp"

namespace independent {

namespace {

constexpr int64_t least = -2147483648;
constexpr int64_t greatest = 2147483647;

// Two's complement, in a type with room for every sum, difference, product and quotient of two cells.
int64_t as_signed(uint32_t cell) { return cell <= greatest ? int64_t{cell} : int64_t{cell} - 4294967296; }

// Number 15, on the table of numbers: the true result has no place among the signed cells.
uint32_t in_range(int64_t result) {
  if (result < least || result > greatest) throw Stop{15};
  return static_cast<uint32_t>(result);
}

// Number 14: nothing can be divided by 0, signed or not.
template <typename Number> Number divisor(Number b) {
  if (b == 0) throw Stop{14};
  return b;
}

// The paragraph under the instructions has quotients cut, not rounded down. C++ cuts as well.
uint32_t signed_quotient(int64_t a, int64_t b) { return in_range(a / divisor(b)); }

// The same paragraph lets the remainder follow the dividend's sign, as C++ does. -2^31 by -1 stops here as the quotient does.
uint32_t signed_remainder(int64_t a, int64_t b) {
  signed_quotient(a, b);
  return static_cast<uint32_t>(a % b);
}

} // namespace

uint32_t compute(uint32_t op, uint32_t a, uint32_t b) {
  const int64_t sa = as_signed(a), sb = as_signed(b);
  switch (op) {
  case 0x02: return a;
  // Modulo 2^32: what C++ does with unsigned numbers of 32 bits.
  case 0x10: return a + b;
  case 0x11: return a - b;
  case 0x12: return a * b;
  case 0x13: return a / divisor(b);
  case 0x14: return a % divisor(b);
  case 0x18: return in_range(sa + sb);
  case 0x19: return in_range(sa - sb);
  case 0x1a: return in_range(sa * sb);
  case 0x1b: return signed_quotient(sa, sb);
  case 0x1c: return signed_remainder(sa, sb);
  case 0x20: return a & b;
  case 0x21: return a | b;
  case 0x22: return ~a;
  case 0x28: return a == b;
  case 0x29: return a != b;
  case 0x2a: return a < b;
  case 0x2b: return a <= b;
  case 0x2c: return sa < sb;
  case 0x2d: return sa <= sb;
  case 0x2e: return a == 0;
  }
  return 0;
}

} // namespace independent
