// The stops 0, 11 to 16 and 18 to 22 on purpose.
#include "kinds.hpp"
#include "scene.hpp"

namespace compare {

namespace {

constexpr uint32_t no_body = 0xff;
const std::vector<Where> anywhere = {Where::main_before, Where::main_after, Where::thread, Where::update};

// The answer of a run stopped by the instruction of that moment, the n-th of the run.
Answer stopped(uint32_t number, const Moment &m, std::size_t n) {
  return {number, m.body, m.place, 0, static_cast<uint32_t>(n), m.choices, m.inputs, m.threads};
}

// The answer of a run that no instruction stops.
Answer ended(uint32_t number, const Moment &m, std::size_t n) {
  return {number, no_body, 0, 0, static_cast<uint32_t>(n), m.choices, m.inputs, m.threads};
}

std::size_t index_of(const std::vector<Moment> &moments, uint32_t body, uint32_t place) {
  std::size_t n = 0;
  while (moments[n].body != body || moments[n].place != place) ++n;
  return n;
}

// The scene's stop, met with budget enough; now and then with a budget that is used up just there, which is 22 instead.
Made stop_at(Random &r, const Scene &scene, uint32_t number) {
  const std::vector<Moment> moments = scene.moments();
  const std::size_t n = index_of(moments, scene.stop_body, scene.stop_place);
  const bool used_up = r.chance(100);
  Case c = scene.to_case(r, number == 19 ? moments[n].inputs : scene.after(scene.order.size()).inputs);
  c.job.budget = static_cast<uint32_t>(n) + (used_up ? 0 : r.chance(500) ? 1 : r.between(1, 5000));
  return {c, {{}, {}, {}, stopped(used_up ? 22 : number, moments[n], n)}};
}

Made stop_with(Random &r, uint32_t number, const std::vector<Where> &places, const std::vector<Code> &codes) {
  for (;;) {
    Scene scene(r);
    if (scene.put(r, r.pick(places), r.pick(codes))) return stop_at(r, scene, number);
  }
}

constexpr uint32_t least = 0x80000000, greatest = 0x7fffffff, minus_one = 0xffffffff;

Code pair(uint32_t op, uint32_t a, uint32_t b) { return {set(1, a), set(2, b), make(op, 8, 1, 2)}; }

} // namespace

Made quiet_scene(Random &r) {
  const Scene scene(r);
  const std::size_t n = scene.moments().size();
  const Moment after = scene.after(scene.order.size());
  Case c = scene.to_case(r, after.inputs + r.below(3));
  c.job.budget = r.chance(200) ? 0xffffffff : static_cast<uint32_t>(n) + r.below(2) * r.below(100);
  for (uint32_t i = r.below(3); i > 0; --i) c.job.choices.push_back(static_cast<uint8_t>(r.below(256))); // not asked for
  return {c, {{}, {}, {}, ended(0, after, n)}};
}

Made no_start_scene(Random &r) {
  Scene scene(r);
  scene.without_start();
  const std::size_t n = scene.moments().size();
  const Moment after = scene.after(0);
  Case c = scene.to_case(r, after.inputs);
  c.job.budget = static_cast<uint32_t>(n) + r.below(2);
  return {c, {{}, {}, {}, ended(11, after, n)}};
}

Made assert_scene(Random &r) { return stop_with(r, 12, anywhere, {{assert_that(0)}, {set(1, 1), assert_that(1), assert_that(0)}}); }
Made assume_scene(Random &r) { return stop_with(r, 13, anywhere, {{assume_that(0)}, {set(1, least), assume_that(1), assume_that(0)}}); }

Made divisor_scene(Random &r) {
  const uint32_t a = edge_value(r);
  return stop_with(r, 14, anywhere, {pair(0x13, a, 0), pair(0x14, a, 0), pair(0x1b, a, 0), pair(0x1c, a, 0), pair(0x1b, least, 0)});
}

Made range_scene(Random &r) {
  const uint32_t small = r.between(1, 1000);
  return stop_with(r, 15, anywhere,
                   {pair(0x18, greatest, small), pair(0x18, least, 0u - small), pair(0x19, least, small), pair(0x19, 0, least),
                    pair(0x19, greatest, 0u - small), pair(0x1a, 46341, 46341), pair(0x1a, least, minus_one), pair(0x1a, 65536, 32768),
                    pair(0x1a, least, 2), pair(0x1b, least, minus_one), pair(0x1c, least, minus_one)});
}

// The place just past the region, and far past it.
Made place_scene(Random &r) {
  const uint32_t length = r.between(1, 8);
  const uint32_t place = r.chance(500) ? length : r.between(length, 0xffffffff);
  const uint32_t near = length - 1;
  return stop_with(r, 16, anywhere,
                   {{set(1, place), region(0x30, 8, 1, length, r.below(8))},
                    {set(1, place), region(0x31, 8, 1, length, 8)},
                    {set(1, near), region(0x31, 8, 1, length, 8), set(1, place), region(0x30, 8, 1, length, 8)}});
}

// A second start, and kernel work after the phase.
Made after_scene(Random &r) {
  for (;;) {
    Scene scene(r);
    std::vector<Frame> may = {start(), start_with(edge_value(r))};
    if (scene.plan.events > 0) may.insert(may.end(), {notify(r.below(scene.plan.events)), notify_after(r.below(scene.plan.events), 0)});
    if (scene.plan.updates > 0) may.push_back(request(r.below(scene.plan.updates)));
    if (scene.plan.threads > 0) may.insert(may.end(), {suspend(r.below(scene.plan.threads)), resume(r.below(scene.plan.threads))});
    if (scene.put(r, Where::main_after, {r.pick(may)})) return stop_at(r, scene, 18);
  }
}

Made inputs_scene(Random &r) { return stop_with(r, 19, anywhere, {{input(8)}}); }

// A scene after some of its dispatches, with budget left or just used up.
struct Cut {
  Case c;
  std::size_t kept;
  std::size_t completed;
  Moment after;
  uint32_t threads;
};

Cut cut_scene(Random &r) {
  for (;;) {
    const Scene scene(r);
    if (scene.order.empty()) continue;
    const std::size_t kept = r.below(scene.order.size());
    const std::size_t n = scene.moments(kept).size();
    const Moment after = scene.after(kept);
    Case c = scene.to_case(r, after.inputs);
    c.job.budget = static_cast<uint32_t>(n) + r.below(2) * r.below(100);
    return {c, kept, n, after, scene.plan.threads};
  }
}

// The choices end before the threads do.
Made choices_scene(Random &r) {
  Cut cut = cut_scene(r);
  cut.c.job.choices.resize(cut.kept);
  return {cut.c, {{}, {}, {}, ended(20, cut.after, cut.completed)}};
}

// A choice names a thread that has ended, or none at all.
Made bad_choice_scene(Random &r) {
  Cut cut = cut_scene(r);
  std::vector<uint8_t> &choices = cut.c.job.choices;
  choices[cut.kept] = static_cast<uint8_t>(cut.kept > 0 && r.chance(500) ? choices[r.below(cut.kept)] : r.between(cut.threads, 255));
  return {cut.c, {{}, {}, {}, ended(21, cut.after, cut.completed)}};
}

// Any instruction of the run may be the one that the budget doesn't cover.
Made budget_scene(Random &r) {
  const Scene scene(r);
  const std::vector<Moment> moments = scene.moments();
  const std::size_t n = r.below(moments.size());
  Case c = scene.to_case(r, scene.after(scene.order.size()).inputs);
  c.job.budget = static_cast<uint32_t>(n);
  return {c, {{}, {}, {}, stopped(22, moments[n], n)}};
}

} // namespace compare
