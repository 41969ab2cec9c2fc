// What is measured is the same work: the plain interpreter and fishdavit_run agree on random bodies of plain instructions, and every load of
// dispatches takes all its choices.
#include "../checks.hpp"
#include "dispatch_loads.hpp"
#include "plain_interpreter.hpp"
#include "run_of.hpp"

#include <random>

namespace {

constexpr int bodies = 5000;
constexpr uint64_t seed = 20261115;
constexpr uint64_t used_cells = 8;

Checks checks;

// The unused fields of an op are zero: b for those that take a alone, d for gotos and tests.
uint64_t random_frame(std::mt19937_64 &random, uint64_t length) {
  static constexpr uint64_t ops[] = {0x01, 0x01, 0x01, 0x02, 0x10, 0x11, 0x12, 0x13, 0x14, 0x18, 0x19, 0x1a, 0x1b, 0x1c, 0x20, 0x21,
                                     0x22, 0x28, 0x29, 0x2a, 0x2b, 0x2c, 0x2d, 0x2e, 0x30, 0x31, 0x40, 0x41, 0x41, 0x50, 0x51};
  static constexpr uint64_t values[] = {0, 1, 2, 7, 46340, 46341, 0x7fffffff, 0x80000000, 0x80000001, 0xffffffff};
  const uint64_t op = ops[random() % std::size(ops)];
  const uint64_t d = random() % used_cells, a = random() % used_cells, b = random() % used_cells;
  switch (op) {
  case 0x01: return frame(op, d, 0, 0, values[random() % std::size(values)]);
  case 0x02:
  case 0x22:
  case 0x2e: return frame(op, d, a);
  case 0x30:
  case 0x31: return frame(op, d, a, 1 + random() % 16, random() % used_cells);
  case 0x40: return frame(op, 0, 0, 0, random() % (length + 1));
  case 0x41: return frame(op, 0, a, 0, random() % (length + 1));
  case 0x50:
  case 0x51: return frame(op, 0, a);
  default: return frame(op, d, a, b);
  }
}

void check_body(std::mt19937_64 &random) {
  Design design;
  const uint64_t length = random() % 24;
  for (uint64_t i = 0; i < length; ++i) design.main.push_back(random_frame(random, length));
  const uint32_t budget = static_cast<uint32_t>(random() % 300);
  Cells ours = {}, theirs = {};
  const fishdavit_answer answer = run_of(fishdavit_run, table_of(design), {}, budget, ours);
  const PlainEnd end = plain_interpret(design.main.data(), static_cast<uint32_t>(length), budget, theirs.data());
  const bool ended = end.number == 0;
  const bool same = answer.number == (ended ? 11 : end.number) && answer.body == (ended ? 0xff : 0) && answer.place == (ended ? 0 : end.place) &&
                    answer.instructions == budget - end.left && ours == theirs;
  checks.expect(same, "number " + std::to_string(answer.number) + " by fishdavit_run, " + std::to_string(end.number) + " by the plain interpreter");
}

void check_load(const DispatchLoad &load) {
  Cells cells = {};
  const fishdavit_answer answer = run_of(fishdavit_run, load.table, load.choices, 0xffffffff, cells);
  checks.expect(answer.number == 20 && answer.choices == load.choices.size(), load.name);
}

} // namespace

int main() {
  std::cout << "seed " << seed << '\n';
  std::mt19937_64 random(seed);
  for (int i = 0; i < bodies; ++i) check_body(random);
  for (const DispatchLoad &load : {delta_ring("ping-pong", 2), delta_ring("ring", 16), timed_waits(16), one_to_many(16), thousand_instructions(""),
                                   one_among(1, 32), one_among(16, 1)})
    check_load(load);
  return checks.close();
}
