#include "case.hpp"

namespace compare {

Case case_of(std::vector<uint64_t> table) {
  Case c;
  c.text = lines_of(table);
  c.byte_room = c.text.size();
  c.job.table = std::move(table);
  return c;
}

Answer refusal(uint32_t number, uint32_t line) { return {number, 0xff, line, 0, 0, 0, 0, 0}; }

Expected faulty(uint32_t number, uint32_t line) {
  const Verdict verdict{number, line};
  return {verdict, verdict, verdict, refusal(number, line)};
}

std::string job_file(const Case &c) { return job_text(c.job.budget, c.job.choices, c.job.inputs, c.text); }

} // namespace compare
