// One case through the four C functions and through the independent simulator.
#pragma once

#include "case.hpp"

#include <array>
#include <cstdint>
#include <optional>
#include <string>

namespace compare {

struct Difference {
  std::string call; // read, judge, write or run
  std::string what;
};

// How often each number was answered, by the library.
struct Reached {
  std::array<uint64_t, 24> read{}, run{};
};

// The first difference between the two, or between them and what is known beforehand. Every field of every answer and every element of
// every lent buffer is looked at, those that are only read and the guards around them included.
std::optional<Difference> difference(const Case &c, const Expected &expected = {}, Reached *reached = nullptr);

} // namespace compare
