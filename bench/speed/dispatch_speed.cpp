// Dispatches: fishdavit_run beside the same loads as C++ threads on the SystemC kernel and beside the independent simulator, in one process,
// in turns, the best of several; of fishdavit_run the mean over four places of the code.
#include "../independent/run.hpp"
#include "aligned.hpp"
#include "native_loads.hpp"
#include "timing.hpp"

#include <cstdio>
#include <cstdlib>

namespace {

constexpr int rounds = 250;
constexpr int empty_runs = 100;
constexpr std::size_t places = aligned_runs.size();

// A load and where its measurements stand among all: fishdavit_run in its four places, then the others.
struct Row {
  DispatchLoad load;
  NativeLoad *native;
  std::size_t first;
};

fishdavit_answer run_load(Run *run, const DispatchLoad &load) {
  static Cells cells;
  return run_of(run, load.table, load.choices, 0xffffffff, cells);
}

void demand_end(const DispatchLoad &load) {
  const fishdavit_answer answer = run_load(fishdavit_run_0, load);
  if (answer.number == 20 && answer.choices == load.choices.size()) return;
  std::printf("FAILED: %s: number %u after %u choices\n", load.name.c_str(), answer.number, answer.choices);
  std::exit(1);
}

void add_ours(std::vector<Work> &works, const DispatchLoad &load) {
  demand_end(load);
  for (Run *run : aligned_runs)
    works.push_back([&load, run] {
      run_load(run, load);
      return static_cast<double>(load.choices.size());
    });
}

// The set-up alone: a run without choices.
void add_empty(std::vector<Work> &works, const DispatchLoad &load) {
  DispatchLoad empty = {load.name, load.table, {}};
  works.push_back([empty] {
    for (int i = 0; i < empty_runs; ++i) run_load(fishdavit_run_0, empty);
    return static_cast<double>(empty_runs);
  });
}

void add_independent(std::vector<Work> &works, const DispatchLoad &load) {
  independent::Job job;
  job.budget = 0xffffffff;
  job.choices = load.choices;
  job.table = load.table;
  works.push_back([job] { return static_cast<double>(independent::run(job, 256).answer.choices); });
}

void add(std::vector<Work> &works, Row &row) {
  row.first = works.size();
  add_ours(works, row.load);
  if (row.native != nullptr) {
    works.push_back([&row] { return static_cast<double>(row.native->run(row.load.choices.size())); });
    add_independent(works, row.load);
  } else {
    add_empty(works, row.load);
  }
}

void print_beside(const std::vector<Row> &rows, const std::vector<double> &best) {
  std::printf("%-40s %10s %11s %6s %11s %6s\n", "ns a dispatch", "fishdavit", "SystemC", "ratio", "independent", "ratio");
  for (const Row &row : rows) {
    if (row.native == nullptr) continue;
    const double ours = mean_of(best, row.first, places), native = best[row.first + places], simulator = best[row.first + places + 1];
    std::printf("%-40s %10.1f %11.1f %6.2f %11.1f %6.2f\n", row.load.name.c_str(), ours, native, ours / native, simulator, ours / simulator);
  }
}

void print_growth(const std::vector<Row> &rows, const std::vector<double> &best) {
  std::printf("\n%-40s %10s %11s\n", "one thread runs, fishdavit", "ns a", "ns an");
  std::printf("%-40s %10s %11s\n", "", "dispatch", "empty run");
  for (const Row &row : rows)
    if (row.native == nullptr) std::printf("%-40s %10.1f %11.1f\n", row.load.name.c_str(), mean_of(best, row.first, places), best[row.first + places]);
}

} // namespace

int sc_main(int, char **) {
  sc_core::sc_report_handler::set_actions(sc_core::SC_WARNING, sc_core::SC_DO_NOTHING);
  NativeRing two("two", 2);
  NativeRing sixteen("sixteen", 16);
  NativeTimed timed("timed", 16);
  NativeOneToMany many("many", 16);
  NativeThousand compiled("compiled", false);
  NativeThousand interpreted("interpreted", true);
  sc_core::sc_start(sc_core::SC_ZERO_TIME);
  std::vector<Row> rows = {{delta_ring("delta ping-pong of 2", 2), &two, 0},
                           {delta_ring("delta ring of 16", 16), &sixteen, 0},
                           {timed_waits(16), &timed, 0},
                           {one_to_many(16), &many, 0},
                           {thousand_instructions(", compiled"), &compiled, 0},
                           {thousand_instructions(", interpreted"), &interpreted, 0}};
  for (const uint8_t threads : {1, 2, 4, 8, 16}) rows.push_back({one_among(threads, 1), nullptr, 0});
  for (const uint8_t events : {2, 4, 8, 16, 32}) rows.push_back({one_among(1, events), nullptr, 0});
  rows.push_back({one_among(16, 32), nullptr, 0});
  std::vector<Work> works;
  for (Row &row : rows) add(works, row);
  const std::vector<double> best = best_of(rounds, works);
  print_beside(rows, best);
  print_growth(rows, best);
  return 0;
}

int main(int argc, char **argv) {
  setenv("SYSTEMC_DISABLE_COPYRIGHT_MESSAGE", "1", 1);
  return sc_core::sc_elab_and_sim(argc, argv);
}
