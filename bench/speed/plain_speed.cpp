// Plain instructions: fishdavit_run beside a C++ interpreter of the same body, in one process, in turns, the best of several; the mean over
// four places of the code.
#include "aligned.hpp"
#include "plain_loads.hpp"
#include "timing.hpp"

#include <cstdio>
#include <cstdlib>

namespace {

constexpr uint32_t budget = 100'000'000;
constexpr int rounds = 500;
constexpr std::size_t places = aligned_runs.size();

// Both run the load; the instructions completed, which must be the same number and leave the same cells.
uint32_t agreed(const char *name, const std::vector<uint64_t> &table, const Body &main) {
  Cells ours = {}, theirs = {};
  const fishdavit_answer answer = run_of(fishdavit_run_0, table, {}, budget, ours);
  const PlainEnd end = plain_interpret_0(main.data(), static_cast<uint32_t>(main.size()), budget, theirs.data());
  if (answer.number != 11 || end.number != 0 || answer.instructions != budget - end.left || ours != theirs) {
    std::printf("FAILED: %s: the two interpreters differ\n", name);
    std::exit(1);
  }
  return answer.instructions;
}

void add(std::vector<Work> &works, const PlainLoad &load) {
  Design design;
  design.main = load.main;
  const std::vector<uint64_t> table = table_of(design);
  const double instructions = agreed(load.name, table, load.main);
  static Cells cells;
  for (Run *run : aligned_runs)
    works.push_back([table, instructions, run] {
      run_of(run, table, {}, budget, cells);
      return instructions;
    });
  for (Interpret *interpret : aligned_interpreters)
    works.push_back([&load, instructions, interpret] {
      cells.fill(0);
      interpret(load.main.data(), static_cast<uint32_t>(load.main.size()), budget, cells.data());
      return instructions;
    });
}

void print(const char *name, const std::vector<double> &best, std::size_t first) {
  const double ours = mean_of(best, first, places);
  const double theirs = mean_of(best, first + places, places);
  std::printf("%-26s %10.2f %10.2f %8.2f  ", name, ours, theirs, ours / theirs);
  for (std::size_t k = first; k < first + 2 * places; ++k) std::printf(" %.2f", best[k]);
  std::printf("\n");
}

} // namespace

int main() {
  const std::vector<PlainLoad> loads = {{"arithmetic", arithmetic_loop(10'000)},
                                        {"mixed", mixed_loop(7'500)},
                                        {"signed", signed_loop(10'000)},
                                        {"branches", branch_loop(10'000)}};
  std::vector<Work> works;
  for (const PlainLoad &load : loads) add(works, load);
  const std::vector<double> best = best_of(rounds, works);
  std::printf("%-26s %10s %10s %8s   fishdavit and C++ at 0, 16, 32, 48 bytes\n", "ns a plain instruction", "fishdavit", "C++", "ratio");
  for (std::size_t i = 0; i < loads.size(); ++i) print(loads[i].name, best, 2 * places * i);
}
