#include "tally.hpp"

#include "reduce.hpp"

#include "../checks.hpp"

#include <fstream>
#include <iomanip>
#include <iostream>

namespace compare {

namespace {

constexpr uint64_t most_shown = 2; // differences of one kind; the rest is counted only

// What the run program can be run on: the image of the call that differs.
std::string file_of(Case c, const Difference &found) {
  if (found.call != "read") c.text = lines_of(c.job.table);
  return job_file(c);
}

} // namespace

Tally::Row &Tally::row(const std::string &kind) {
  for (Row &row : rows_)
    if (row.kind == kind) return row;
  rows_.push_back({kind, 0, 0});
  return rows_.back();
}

void Tally::take(const std::string &kind, const std::string &label, const Made &made) {
  Row &counted = row(kind);
  ++counted.jobs;
  const auto found = difference(made.job, made.expected, &reached_);
  if (!found) return;
  ++counted.differences;
  if (counted.differences <= most_shown) show(counted, label, made, *found);
}

// What only the maker's knowledge shows isn't reduced: a smaller job would have other answers.
void Tally::show(const Row &row, const std::string &label, const Made &made, const Difference &found) const {
  Case small = made.job;
  Difference last = found;
  if (difference(made.job)) {
    small = reduced(made.job, [](const Case &c) { return difference(c).has_value(); });
    last = *difference(small);
  }
  const std::string path = directory_ + "/difference-" + label + ".job";
  const std::string file = file_of(small, last);
  std::ofstream(path, std::ios::binary) << file;
  std::cout << "DIFFERENCE: " << row.kind << ", job " << label << ", " << found.call << ": " << found.what << '\n'
            << "reduced: " << last.call << ": " << last.what << " (room: " << small.cell_room << " cells, " << small.word_room << " words, "
            << small.byte_room << " bytes)\n"
            << "job file " << path << ":\n"
            << file << "end of job file\n";
}

int Tally::report(bool enough_jobs) const {
  Checks checks;
  uint64_t jobs = 0;
  for (const Row &row : rows_) {
    std::cout << std::setw(9) << row.jobs << " jobs: " << row.kind << '\n';
    checks.expect(row.differences == 0, row.kind + ": " + std::to_string(row.differences) + " differences");
    jobs += row.jobs;
  }
  std::cout << std::setw(9) << jobs << " jobs in all\nnumber: times answered by read, by run\n";
  for (std::size_t n = 0; n < 24; ++n) {
    const uint64_t times = reached_.read[n] + reached_.run[n];
    std::cout << std::setw(6) << n << ": " << reached_.read[n] << ", " << reached_.run[n] << '\n';
    if (enough_jobs)
      checks.expect(n == 23 ? times == 0 : times > 0, "number " + std::to_string(n) + " came " + std::to_string(times) + " times");
  }
  return checks.close();
}

} // namespace compare
