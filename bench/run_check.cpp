// The run through the C interface: document 01's two looms, stops and refusals, each answer worked out by hand; no cell touched but the design's.
#include "checks.hpp"
#include "fishdavit.h"
#include "guarded.hpp"

#include <array>
#include <vector>

namespace {

using Answer = std::array<uint32_t, 8>;

// Main starts; loom 0 waits for event 1 and then notifies event 0, loom 1 the other way round. One cell.
const std::vector<uint64_t> looms = {0xa002020000000001, 0xa100000000000001, 0xa100000000000002, 0xa100000000000002, 0x6800000000000000,
                                     0x6001000000000000, 0x6200000000000000, 0x6000000000000000, 0x6201000000000000};

struct Case {
  const char *label;
  std::size_t frames;
  std::vector<uint8_t> choices;
  std::size_t inputs;
  uint32_t budget;
  std::size_t cells;
  Answer answer;
};

const std::vector<Case> cases = {
    {"both looms wait for each other", 9, {0, 1}, 0, 100, 256, {0, 0xff, 0, 0, 3, 2, 0, 3}},
    {"the other order", 9, {1, 0}, 0, 100, 300, {0, 0xff, 0, 0, 3, 2, 0, 3}},
    {"no choices", 9, {}, 0, 100, 256, {20, 0xff, 0, 0, 1, 0, 0, 3}},
    {"a thread that waits is chosen", 9, {0, 0}, 0, 100, 256, {21, 0xff, 0, 0, 2, 1, 0, 3}},
    {"a thread that is not there is chosen", 9, {2}, 0, 100, 256, {21, 0xff, 0, 0, 1, 0, 0, 3}},
    {"a budget of 2", 9, {0, 1}, 0, 2, 256, {22, 2, 0, 0, 2, 2, 0, 3}},
    {"a budget of 3 is enough", 9, {0, 1}, 0, 3, 256, {0, 0xff, 0, 0, 3, 2, 0, 3}},
    {"no budget", 9, {0, 1}, 0, 0, 256, {22, 0, 0, 0, 0, 0, 0, 3}},
    {"4,097 choices come before 1,025 inputs", 9, std::vector<uint8_t>(4097), 1025, 100, 255, {9, 0xff, 1, 0, 0, 0, 0, 0}},
    {"1,025 inputs come before 255 cells", 9, std::vector<uint8_t>(4096), 1025, 100, 255, {9, 0xff, 2, 0, 0, 0, 0, 0}},
    {"255 cells come before a short table", 8, {}, 1024, 100, 255, {8, 0xff, 0, 0, 0, 0, 0, 0}},
    {"a short table", 8, {0, 1}, 0, 100, 256, {6, 0xff, 8, 0, 0, 0, 0, 0}},
    {"no table", 0, {0, 1}, 0, 100, 256, {6, 0xff, 0, 0, 0, 0, 0, 0}},
};

Checks checks;

void expect(bool holds, const char *label, const char *what) { checks.expect(holds, std::string(label) + ": " + what); }

void runs(const Case &c) {
  Guarded<uint32_t> cells(c.cells, 7);
  Guarded<uint8_t> choices = lent(c.choices);
  Guarded<uint32_t> inputs(c.inputs, 0);
  const auto a = fishdavit_run(looms.data(), c.frames, choices.data(), choices.size(), inputs.data(), inputs.size(), c.budget, cells.data(),
                               cells.size());
  const Answer said = {a.number, a.body, a.place, a.time, a.instructions, a.choices, a.inputs, a.threads};
  expect(said == c.answer, c.label, "answer");
  const bool refused = a.number >= 2 && a.number <= 9;
  bool same = cells.guards_stand() && cells[0] == (refused ? 7u : 0u);
  for (std::size_t i = 1; i < c.cells; ++i) same = same && cells[i] == 7;
  expect(same, c.label, "cells");
}

} // namespace

int main() {
  for (const Case &c : cases) runs(c);
  return checks.close();
}
