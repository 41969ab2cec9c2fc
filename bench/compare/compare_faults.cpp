// Does the comparison notice? compare_faults [SEED]: each wrong rule is planted in the independent simulator, one at a time, and jobs are
// compared until a difference shows, which is then reduced. A rule counts as passed if one does.
#include "differ.hpp"
#include "drawn.hpp"
#include "reduce.hpp"

#include "../checks.hpp"
#include "planted.hpp"

#include <exception>
#include <iostream>
#include <string>

namespace {

using namespace compare;

constexpr uint64_t most_jobs = 200000; // as many as the comparison draws

struct Noticed {
  uint64_t jobs;
  std::string how;
};

std::string told(const Drawn &drawn, const Difference &difference) {
  const Case small = reduced(
      drawn.made.job, [](const Case &c) { return compare::difference(c).has_value(); }, 2000);
  return drawn.kind->name + ", " + difference.call + ": " + difference.what + "; reduced to " + std::to_string(small.job.table.size()) +
         " frames, " + std::to_string(small.job.choices.size()) + " choices";
}

// A wrong rule may also make the simulator itself fail while it is asked for choices.
std::optional<Noticed> noticed(uint64_t seed) {
  for (uint64_t i = 0; i < most_jobs; ++i) try {
      const Drawn drawn = drawn_job(seed, i);
      const auto difference = compare::difference(drawn.made.job, drawn.made.expected);
      if (difference) return Noticed{i + 1, told(drawn, *difference)};
    } catch (const std::exception &failure) {
      return Noticed{i + 1, std::string("the simulator failed: ") + failure.what()};
    }
  return std::nullopt;
}

} // namespace

int main(int argc, char **argv) {
  const uint64_t seed = argc > 1 ? std::stoull(argv[1]) : 1;
  std::cout << "seed " << seed << ", " << independent::first_job_rule << " wrong rules\n";
  Checks checks;
  for (std::size_t rule = 0; rule < independent::first_job_rule; ++rule) {
    independent::planted_rule = rule;
    const std::optional<Noticed> found = noticed(seed);
    const std::string words = independent::wrong_rules[rule];
    checks.expect(found.has_value(), "not found: " + words);
    if (found) std::cout << "found after " << found->jobs << " jobs: " << words << " (" << found->how << ")\n";
  }
  return checks.close();
}
