// The run: a design, a budget, and who is chosen and what is put in.
#pragma once

#include "design.hpp"

#include <cstddef>
#include <cstdint>
#include <functional>
#include <optional>
#include <vector>

namespace independent {

struct Answer {
  uint32_t number, body, place, time, instructions, choices, inputs, threads;
};

struct Outcome {
  Answer answer;
  std::vector<uint32_t> cells; // the design's, afterwards; none where the run is refused
};

// The next choice byte, or nothing where they are used up. It is told the runnable threads, thread 0 as bit 0, and may make use of them.
using Chooser = std::function<std::optional<uint8_t>(uint32_t runnable)>;

// The run of a design that the judge has accepted.
Outcome run(const Design &design, uint32_t budget, const Chooser &chooser, const std::vector<uint32_t> &inputs);

struct Job {
  uint32_t budget = 0;
  std::vector<uint8_t> choices;
  std::vector<uint32_t> inputs;
  std::vector<uint64_t> table;
};

// The run as it is called, which may be refused before it begins.
Outcome run(const Job &job, std::size_t room_in_cells);

} // namespace independent
