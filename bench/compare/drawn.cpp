#include "drawn.hpp"

namespace compare {

namespace {

const Kind &drawn_kind(Random &r) {
  uint32_t all = 0;
  for (const Kind &kind : kinds()) all += kind.weight;
  uint32_t left = r.below(all);
  for (const Kind &kind : kinds()) {
    if (left < kind.weight) return kind;
    left -= kind.weight;
  }
  return kinds().front();
}

} // namespace

Drawn drawn_job(uint64_t seed, uint64_t number) {
  Random r(Random(seed ^ number * 0x9e3779b97f4a7c15).next());
  const Kind &kind = drawn_kind(r);
  return {&kind, kind.make(r)};
}

} // namespace compare
