// The comparison: compare [JOBS [SEED]]. Sweeps and seeded random jobs through the C functions and through the independent simulator.
#include "drawn.hpp"
#include "sweep.hpp"
#include "tally.hpp"

#include <filesystem>
#include <iostream>
#include <string>

#ifndef DEFAULT_JOBS
#define DEFAULT_JOBS 200000
#endif

int main(int argc, char **argv) {
  using namespace compare;
  const uint64_t jobs = argc > 1 ? std::stoull(argv[1]) : DEFAULT_JOBS;
  const uint64_t seed = argc > 2 ? std::stoull(argv[2]) : 1;
  std::cout << "seed " << seed << ", " << jobs << " random jobs\n";
  Tally tally(std::filesystem::absolute(argv[0]).lexically_normal().parent_path().string());
  const auto sweep = [&tally](const char *kind, void (*all)(const Take &)) {
    uint64_t n = 0;
    all([&](const Made &made) { tally.take(kind, "sweep-" + std::to_string(n++), made); });
  };
  sweep("document 01's both sides of the line", both_sides);
  sweep("a small image cut at every position", cut_images);
  sweep("a small image damaged at every position", damaged_images);
  sweep("arithmetic on all pairs of values", arithmetic_pairs);
  for (uint64_t i = 0; i < jobs; ++i) {
    const Drawn drawn = drawn_job(seed, i);
    tally.take(drawn.kind->name, std::to_string(seed) + "-" + std::to_string(i), drawn.made);
  }
  return tally.report(jobs >= 10000);
}
