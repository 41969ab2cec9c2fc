// Ops 02 and 10 to 2e: what an op makes of the values of cells a and b.
#pragma once

#include <cstdint>

namespace independent {

// Thrown where an instruction stops the run; number is document 01's.
struct Stop {
  uint32_t number;
};

uint32_t compute(uint32_t op, uint32_t a, uint32_t b);

} // namespace independent
