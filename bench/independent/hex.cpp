#include "hex.hpp"

namespace independent {

namespace {

const std::string lower_case = "0123456789abcdef";

} // namespace

std::optional<uint64_t> hex_number(const std::string &bytes, std::size_t at, std::size_t digits) {
  if (at > bytes.size() || bytes.size() - at < digits) return std::nullopt;
  uint64_t number = 0;
  for (std::size_t i = at; i < at + digits; ++i) {
    const std::size_t value = lower_case.find(bytes[i]);
    if (value == std::string::npos) return std::nullopt;
    number = number * 16 + value;
  }
  return number;
}

std::string hex_digits(uint64_t number, std::size_t digits) {
  std::string text(digits, '0');
  for (std::size_t i = digits; i-- > 0; number /= 16) text[i] = lower_case[number % 16];
  return text;
}

} // namespace independent
