// A job for both simulators, and what the reference kernel made of it.
#pragma once

#include "../job_text.hpp"
#include "design.hpp"
#include "fishdavit.h"

#include <array>
#include <string>
#include <vector>

struct Job {
  Design design;
  std::vector<uint32_t> inputs;
  uint32_t budget = 0;
  std::vector<std::size_t> order; // of the threads' declarations, which is the reference kernel's first order of dispatch
};

// Plain data, because it lies in memory that two processes share.
struct Record {
  bool whole;
  fishdavit_answer answer;
  std::array<uint8_t, 4096> choices;
  std::array<uint32_t, 256> cells;
};

// The job as the run program reads it, under the choices that were taken.
inline std::string job_text(const Job &job, const Record &record) {
  const std::vector<uint8_t> choices(record.choices.begin(), record.choices.begin() + record.answer.choices);
  return job_text(job.budget, choices, job.inputs, lines_of(table_of(job.design)));
}
