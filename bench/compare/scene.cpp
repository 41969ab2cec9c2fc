#include "scene.hpp"

#include <algorithm>
#include <set>

namespace compare {

namespace {

constexpr uint32_t first_noise_cell = 8;

} // namespace

Scene::Scene(Random &r)
    : plan(r.chance(100) ? 16 : r.below(6), r.chance(100) ? 32 : r.below(5), r.chance(100) ? 16 : r.below(5), r.between(16, 256)) {
  for (uint32_t k = 0; k < plan.threads; ++k) order.push_back(static_cast<uint8_t>(k));
  r.shuffle(order);
  Code &main = plan.bodies[0];
  main = noise(r, BodyKind::main, false);
  start_place_ = main.size();
  main.push_back(r.chance(500) ? start() : start_with(edge_value(r)));
  for (const Frame &f : noise(r, BodyKind::main, true)) main.push_back(f);
  for (std::size_t body = 1; body < plan.bodies.size(); ++body) plan.bodies[body] = noise(r, plan.kind(body), false);
  settle();
}

// What neither stops nor ends a dispatch.
Frame Scene::noise_plain(Random &r) const {
  static const std::vector<uint32_t> ops = {0x10, 0x11, 0x12, 0x20, 0x21, 0x28, 0x29, 0x2a, 0x2b, 0x2c, 0x2d};
  const auto cell = [&] { return r.between(first_noise_cell, plan.cells - 1); };
  switch (r.below(9)) {
  case 0: return set(cell(), edge_value(r));
  case 1: return make(0x02, cell(), cell());
  case 2: return make(r.chance(500) ? 0x22 : 0x2e, cell(), cell());
  case 3: return input(cell());
  case 4: return region(0x30, cell(), 0, r.between(1, 8), r.below(8));
  case 5: return region(0x31, cell(), 0, r.between(1, 8), first_noise_cell);
  case 6: return go(0); // settled later: to the next place
  case 7: return go_if(cell(), 0);
  default: return make(r.pick(ops), cell(), cell(), cell());
  }
}

// Nobody waits in a scene, so that notifications and resumes change nothing that shows.
Code Scene::noise(Random &r, BodyKind kind, bool after_the_phase) const {
  Code code;
  for (uint32_t i = r.below(6); i > 0; --i) {
    std::vector<Frame> may = {noise_plain(r), noise_plain(r), noise_plain(r)};
    const bool kernel = !after_the_phase && kind != BodyKind::update;
    if (!after_the_phase && plan.events > 0) may.push_back(notify_after(r.below(plan.events), 0));
    if (kernel && plan.events > 0) may.push_back(notify(r.below(plan.events)));
    if (kernel && plan.updates > 0) may.insert(may.end(), 2, request(r.below(plan.updates)));
    if (kernel && plan.threads > 0) may.push_back(resume(r.below(plan.threads)));
    code.push_back(r.pick(may));
  }
  return code;
}

// Every goto leads to the place after it.
void Scene::settle() {
  for (Code &code : plan.bodies)
    for (std::size_t place = 0; place < code.size(); ++place)
      if (code[place].op == 0x40 || code[place].op == 0x41) code[place].imm = static_cast<uint32_t>(place) + 1;
}

bool Scene::put(Random &r, Where where, const Code &code) {
  uint32_t body = 0;
  if (where == Where::thread) {
    if (plan.threads == 0) return false;
    body = 1 + r.below(plan.threads);
  }
  if (where == Where::update) {
    if (plan.updates == 0) return false;
    const uint32_t update = r.below(plan.updates);
    body = 1 + plan.threads + update;
    put(r, plan.threads > 0 && r.chance(500) ? Where::thread : Where::main_before, {request(update)});
  }
  Code &into = plan.bodies[body];
  const std::size_t first = where == Where::main_after ? start_place_ + 1 : 0;
  const std::size_t last = where == Where::main_before ? start_place_ : into.size();
  const std::size_t at = first + r.below(last - first + 1);
  into.insert(into.begin() + static_cast<std::ptrdiff_t>(at), code.begin(), code.end());
  if (where == Where::main_before) start_place_ += code.size();
  stop_body = body;
  stop_place = static_cast<uint32_t>(at + code.size()) - 1;
  settle();
  return true;
}

void Scene::without_start() {
  plan.bodies[0].resize(start_place_);
  started_ = false;
}

std::vector<Moment> Scene::walk(std::size_t dispatches, Moment &now) const {
  std::vector<Moment> moments;
  std::set<uint32_t> requested;
  const auto pass = [&](uint32_t body, std::size_t from, std::size_t to) {
    for (std::size_t place = from; place < to; ++place) {
      now.body = body;
      now.place = static_cast<uint32_t>(place);
      moments.push_back(now);
      const Frame &f = plan.bodies[body][place];
      if (f.op == 0x03) ++now.inputs;
      if (f.op == 0x64) requested.insert(f.d);
    }
  };
  const auto pass_updates = [&] {
    const std::set<uint32_t> due = requested;
    requested.clear();
    for (uint32_t u : due) pass(1 + plan.threads + u, 0, plan.bodies[1 + plan.threads + u].size());
  };
  if (!started_) {
    pass(0, 0, plan.bodies[0].size());
    return moments;
  }
  pass(0, 0, start_place_ + 1);
  pass_updates();
  for (std::size_t i = 0; i < dispatches; ++i) {
    ++now.choices;
    pass(1u + order[i], 0, plan.bodies[1u + order[i]].size());
    now.threads &= ~(1u << order[i]);
  }
  if (dispatches < order.size()) return moments; // the evaluation doesn't come to its end
  pass_updates();
  pass(0, start_place_ + 1, plan.bodies[0].size());
  return moments;
}

std::vector<Moment> Scene::moments(std::size_t dispatches) const {
  Moment now{0, 0, 0, 0, (1u << plan.threads) - 1};
  return walk(dispatches, now);
}

Moment Scene::after(std::size_t dispatches) const {
  Moment now{0, 0, 0, 0, (1u << plan.threads) - 1};
  walk(dispatches, now);
  return now;
}

Case Scene::to_case(Random &r, std::size_t inputs) const {
  Case c = case_of(plan.table());
  c.job.choices = order;
  for (std::size_t i = 0; i < inputs; ++i) c.job.inputs.push_back(edge_value(r));
  return c;
}

} // namespace compare
