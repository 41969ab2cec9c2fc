// The best of several measurements that are taken in turns.
#pragma once

#include <algorithm>
#include <chrono>
#include <functional>
#include <limits>
#include <numeric>
#include <vector>

// A piece of work that says how many units of it were done.
using Work = std::function<double()>;

inline double nanoseconds_a_unit(const Work &work) {
  const auto start = std::chrono::steady_clock::now();
  const double units = work();
  return std::chrono::duration<double, std::nano>(std::chrono::steady_clock::now() - start).count() / units;
}

// The least nanoseconds a unit of each piece of work; every round does each of them once.
inline std::vector<double> best_of(int rounds, const std::vector<Work> &works) {
  std::vector<double> best(works.size(), std::numeric_limits<double>::max());
  for (int i = 0; i < rounds; ++i)
    for (std::size_t k = 0; k < works.size(); ++k) best[k] = std::min(best[k], nanoseconds_a_unit(works[k]));
  return best;
}

inline double mean_of(const std::vector<double> &best, std::size_t from, std::size_t count) {
  const auto first = best.begin() + static_cast<std::ptrdiff_t>(from);
  return std::accumulate(first, first + static_cast<std::ptrdiff_t>(count), 0.0) / static_cast<double>(count);
}
