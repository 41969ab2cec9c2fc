// One job to be compared, with the room that each call is lent, and what is known of its answers from how it was made.
#pragma once

#include "../independent/image.hpp"
#include "../independent/run.hpp"
#include "../job_text.hpp"

#include <optional>
#include <string>
#include <vector>

namespace compare {

using independent::Answer;
using independent::Verdict;

struct Case {
  independent::Job job;
  std::string text;       // the image as bytes, for the reader and the program
  bool text_only = false; // only read is called
  std::size_t cell_room = 256;
  std::size_t word_room = 1058;
  std::size_t byte_room = 0;
};

// Known beforehand, from neither simulator.
struct Expected {
  std::optional<Verdict> read;
  std::optional<Verdict> judge;
  std::optional<Verdict> write;
  std::optional<Answer> run;
};

struct Made {
  Case job;
  Expected expected;
};

// A case around that table: the text holds its lines, and every call has room enough.
Case case_of(std::vector<uint64_t> table);

// The answer of a run that is refused.
Answer refusal(uint32_t number, uint32_t line);

// What all four calls answer to a table with that fault.
Expected faulty(uint32_t number, uint32_t line);

// The job as the run program reads it.
std::string job_file(const Case &c);

} // namespace compare
