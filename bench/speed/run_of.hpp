// One run of a table; the pointers of empty lists are valid ones, as the interface asks.
#pragma once

#include "fishdavit.h"

#include <array>
#include <vector>

using Run = decltype(fishdavit_run);
using Cells = std::array<uint32_t, 256>;

inline fishdavit_answer run_of(Run *run, const std::vector<uint64_t> &table, const std::vector<uint8_t> &choices, uint32_t budget, Cells &cells) {
  static const uint8_t no_choice = 0;
  static const uint32_t no_input = 0;
  return run(table.data(), table.size(), choices.empty() ? &no_choice : choices.data(), choices.size(), &no_input, 0, budget, cells.data(),
             cells.size());
}
