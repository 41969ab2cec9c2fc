// The job with a given number under a given seed: it can be drawn alone, without those before it.
#pragma once

#include "kinds.hpp"

#include <cstdint>

namespace compare {

struct Drawn {
  const Kind *kind;
  Made made;
};

Drawn drawn_job(uint64_t seed, uint64_t number);

} // namespace compare
