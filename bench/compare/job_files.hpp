// Job files for the run program, and what it must print where that is known beforehand.
#pragma once

#include "case.hpp"
#include "random.hpp"

#include <optional>
#include <string>
#include <vector>

namespace compare {

struct JobFile {
  std::string bytes;
  std::optional<std::string> printed; // known from how the job was made
  std::optional<Case> from;           // the case that the file was made of, where it was
};

std::vector<JobFile> drawn_files(uint64_t seed, std::size_t count);
std::vector<JobFile> bad_line_files(Random &r, std::size_t count); // 9 at a known line
std::vector<JobFile> cut_files();                                  // document 01's job, cut at every position
std::vector<JobFile> damaged_files(Random &r, std::size_t count);
std::vector<JobFile> long_files(); // the greatest job, and more bytes than are needed to decide

} // namespace compare
