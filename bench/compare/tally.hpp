// What a comparison has seen: jobs and differences by kind, how often each number came, and the closing count.
#pragma once

#include "differ.hpp"

#include <cstdint>
#include <string>
#include <vector>

namespace compare {

class Tally {
public:
  // `directory` is where the job files of differences go.
  explicit Tally(std::string directory) : directory_(std::move(directory)) {}

  // Compares one job and reports a difference, reduced to a small job.
  void take(const std::string &kind, const std::string &label, const Made &made);

  // Prints the table and 'N passed, M failed'. One check for each kind and, where enough jobs ran, one for each number: 0 to 22 must have
  // come, 23 can't, as 16 threads and 32 events have no more than 48 due times. The exit status.
  int report(bool enough_jobs) const;

private:
  struct Row {
    std::string kind;
    uint64_t jobs, differences;
  };

  Row &row(const std::string &kind);
  void show(const Row &row, const std::string &label, const Made &made, const Difference &found) const;

  std::string directory_;
  std::vector<Row> rows_;
  Reached reached_;
};

} // namespace compare
