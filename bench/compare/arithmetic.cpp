// Sums, products, quotients and comparisons of values at the ends of the range, in a main that just computes.
#include "kinds.hpp"

namespace compare {

Made arithmetic(Random &r) {
  Plan plan(0, 0, 0, r.between(3, 10));
  Code &main = plan.bodies[0];
  for (uint32_t c = 0; c < plan.cells; ++c) main.push_back(set(c, edge_value(r)));
  for (uint32_t i = r.between(1, 30); i > 0; --i) main.push_back(any_plain(r, plan));
  if (r.chance(500)) main.push_back(start());
  Case c = case_of(plan.table());
  for (uint32_t i = r.below(6); i > 0; --i) c.job.inputs.push_back(edge_value(r));
  c.job.budget = r.chance(900) ? 1000 : r.below(50);
  const auto frames = static_cast<uint32_t>(c.job.table.size());
  return {c, {Verdict{0, frames}, Verdict{0, frames}, Verdict{0, 17 * frames}, {}}};
}

} // namespace compare
