#include "plan.hpp"

#include <algorithm>

namespace compare {

namespace {

const std::vector<uint32_t> three_cells = {0x10, 0x11, 0x12, 0x13, 0x14, 0x18, 0x19, 0x1a, 0x1b,
                                           0x1c, 0x20, 0x21, 0x28, 0x29, 0x2a, 0x2b, 0x2c, 0x2d};
const std::vector<uint32_t> two_cells = {0x02, 0x22, 0x2e};

bool among(const std::vector<uint32_t> &ops, uint32_t op) { return std::find(ops.begin(), ops.end(), op) != ops.end(); }

Frame any_region(Random &r, const Plan &plan) {
  const uint32_t length = r.between(1, std::min<uint32_t>(plan.cells, r.chance(500) ? 4 : 255));
  return region(r.chance(500) ? 0x30 : 0x31, r.below(plan.cells), r.below(plan.cells), length, r.between(0, plan.cells - length));
}

} // namespace

Plan::Plan(const independent::Design &design) : Plan(design.threads, design.events, design.updates, design.cells) {
  for (std::size_t i = 0; i < bodies.size(); ++i) bodies[i] = design.bodies[i].code;
}

BodyKind Plan::kind(std::size_t body) const {
  if (body == 0) return BodyKind::main;
  return body < 1 + threads ? BodyKind::thread : BodyKind::update;
}

std::size_t Plan::instructions() const {
  std::size_t sum = 0;
  for (const Code &code : bodies) sum += code.size();
  return sum;
}

std::vector<uint64_t> Plan::table() const {
  std::vector<uint64_t> table = {independent::number_of({0xa0, threads, events, updates, cells})};
  for (const Code &code : bodies) table.push_back(independent::number_of({0xa1, 0, 0, 0, static_cast<uint32_t>(code.size())}));
  for (const Code &code : bodies)
    for (const Frame &f : code) table.push_back(independent::number_of(f));
  return table;
}

Frame any_plain(Random &r, const Plan &plan) {
  const auto cell = [&] { return r.below(plan.cells); };
  switch (r.below(24)) {
  case 0: return any_region(r, plan);
  case 1: return input(cell());
  case 2:
  case 3: return set(cell(), edge_value(r));
  case 4:
  case 5:
  case 6: return make(r.pick(two_cells), cell(), cell());
  default: return make(r.pick(three_cells), cell(), cell(), cell());
  }
}

Frame any_instruction(Random &r, const Plan &plan, BodyKind kind, uint32_t length) {
  const auto cell = [&] { return r.below(plan.cells); };
  std::vector<Frame> may = {any_plain(r, plan),  any_region(r, plan), go(r.between(0, length)), go_if(cell(), r.between(0, length)),
                            assert_that(cell()), assume_that(cell())};
  if (plan.events > 0) may.push_back(notify_after(r.below(plan.events), cell()));
  if (plan.events > 0 && kind != BodyKind::update) may.push_back(notify(r.below(plan.events)));
  if (plan.events > 0 && kind == BodyKind::thread) may.push_back(wait_event(r.below(plan.events)));
  if (kind == BodyKind::thread) may.push_back(wait_time(cell()));
  if (plan.updates > 0 && kind != BodyKind::update) may.push_back(request(r.below(plan.updates)));
  if (plan.threads > 0 && kind != BodyKind::update) {
    may.push_back(suspend(r.below(plan.threads)));
    may.push_back(resume(r.below(plan.threads)));
  }
  if (kind == BodyKind::main) {
    may.push_back(start());
    may.push_back(start_with(edge_value(r)));
  }
  return r.pick(may);
}

bool spoil_field(Random &r, const Plan &plan, uint32_t length, Frame &f) {
  std::vector<Frame> spoilt;
  const auto past = [&](uint32_t Frame::*field, uint32_t end) { // a number from `end` on, where a byte can hold one
    if (end > 255) return;
    spoilt.push_back(f);
    spoilt.back().*field = r.chance(500) ? end : r.between(end, 255);
  };
  const auto past_target = [&] {
    spoilt.push_back(f);
    spoilt.back().imm = r.chance(500) ? length + 1 : r.between(length + 1, 0xffffffff);
  };
  const auto unused = [&](uint32_t Frame::*field) { past(field, 1); };
  const auto unused_imm = [&] {
    spoilt.push_back(f);
    spoilt.back().imm = r.chance(500) ? 1u << r.below(32) : r.between(1, 0xffffffff);
  };
  const bool three = among(three_cells, f.op), two = among(two_cells, f.op), in_region = f.op == 0x30 || f.op == 0x31;
  if (f.op == 0x01 || f.op == 0x03 || two || three || in_region) past(&Frame::d, plan.cells);
  if (two || three || in_region || f.op == 0x41 || f.op == 0x50 || f.op == 0x51 || f.op == 0x61 || f.op == 0x63)
    past(&Frame::a, plan.cells);
  if (three) past(&Frame::b, plan.cells);
  if (in_region) {
    spoilt.insert(spoilt.end(), 3, f);
    spoilt[spoilt.size() - 3].b = 0;
    spoilt[spoilt.size() - 2].imm = plan.cells - f.b + 1;
    spoilt[spoilt.size() - 1].imm = 0xffffffff - r.below(2 * f.b); // imm + b may pass 2^32
  }
  if (f.op == 0x40 || f.op == 0x41) past_target();
  if (f.op == 0x60 || f.op == 0x62 || f.op == 0x63) past(&Frame::d, plan.events);
  if (f.op == 0x64) past(&Frame::d, plan.updates);
  if (f.op == 0x65 || f.op == 0x66) past(&Frame::d, plan.threads);
  if (f.op == 0x40 || f.op == 0x41 || f.op == 0x50 || f.op == 0x51 || f.op == 0x61 || f.op == 0x67 || f.op == 0x68) unused(&Frame::d);
  if (f.op == 0x01 || f.op == 0x03 || f.op == 0x40 || f.op == 0x60 || f.op == 0x62 || (f.op >= 0x64 && f.op <= 0x68)) unused(&Frame::a);
  if (!three && !in_region) unused(&Frame::b);
  if (f.op != 0x01 && f.op != 0x40 && f.op != 0x41 && f.op != 0x67 && !in_region) unused_imm();
  if (spoilt.empty()) return false;
  f = r.pick(spoilt);
  return true;
}

uint32_t edge_value(Random &r) {
  static const std::vector<uint32_t> edges = {0,          1,          2,          3,          7,          0xffffffff, 0xfffffffe,
                                              0xfffffff9, 0x80000000, 0x80000001, 0x7fffffff, 0x7ffffffe, 46340,      46341,
                                              0xffff4afc, 0xffff4afb, 65535,      65536,      0xffff0000, 0x55555555, 4,
                                              5,          10,         100,        255,        256};
  return r.chance(150) ? static_cast<uint32_t>(r.next()) : r.pick(edges);
}

} // namespace compare
