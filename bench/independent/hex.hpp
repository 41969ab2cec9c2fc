// Numbers as lower-case hexadecimal digits.
#pragma once

#include <cstddef>
#include <cstdint>
#include <optional>
#include <string>

namespace independent {

// The number that `digits` digits from byte `at` on spell, or nothing where one of them is missing or isn't 0-9a-f.
std::optional<uint64_t> hex_number(const std::string &bytes, std::size_t at, std::size_t digits);

std::string hex_digits(uint64_t number, std::size_t digits);

} // namespace independent
