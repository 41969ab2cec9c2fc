// A design under construction, and makers of its instructions.
#pragma once

#include "../independent/design.hpp"
#include "random.hpp"

#include <cstdint>
#include <vector>

namespace compare {

using independent::BodyKind;
using independent::Frame;
using Code = std::vector<Frame>;

struct Plan {
  uint32_t threads = 0, events = 0, updates = 0, cells = 1;
  std::vector<Code> bodies; // main, then the threads, then the updates

  Plan(uint32_t t, uint32_t e, uint32_t u, uint32_t c) : threads(t), events(e), updates(u), cells(c), bodies(1 + t + u) {}
  explicit Plan(const independent::Design &design);

  BodyKind kind(std::size_t body) const;
  std::size_t instructions() const;
  std::size_t first_instruction_line() const { return 1 + bodies.size(); }
  std::vector<uint64_t> table() const;
};

inline Frame set(uint32_t d, uint32_t imm) { return {0x01, d, 0, 0, imm}; }
inline Frame input(uint32_t d) { return {0x03, d, 0, 0, 0}; }
inline Frame make(uint32_t op, uint32_t d, uint32_t a = 0, uint32_t b = 0) { return {op, d, a, b, 0}; }
inline Frame region(uint32_t op, uint32_t d, uint32_t a, uint32_t length, uint32_t from) { return {op, d, a, length, from}; }
inline Frame go(uint32_t target) { return {0x40, 0, 0, 0, target}; }
inline Frame go_if(uint32_t a, uint32_t target) { return {0x41, 0, a, 0, target}; }
inline Frame assert_that(uint32_t a) { return {0x50, 0, a, 0, 0}; }
inline Frame assume_that(uint32_t a) { return {0x51, 0, a, 0, 0}; }
inline Frame wait_event(uint32_t e) { return {0x60, e, 0, 0, 0}; }
inline Frame wait_time(uint32_t a) { return {0x61, 0, a, 0, 0}; }
inline Frame notify(uint32_t e) { return {0x62, e, 0, 0, 0}; }
inline Frame notify_after(uint32_t e, uint32_t a) { return {0x63, e, a, 0, 0}; }
inline Frame request(uint32_t u) { return {0x64, u, 0, 0, 0}; }
inline Frame suspend(uint32_t t) { return {0x65, t, 0, 0, 0}; }
inline Frame resume(uint32_t t) { return {0x66, t, 0, 0, 0}; }
inline Frame start_with(uint32_t limit) { return {0x67, 0, 0, 0, limit}; }
inline Frame start() { return {0x68, 0, 0, 0, 0}; }

// A random plain instruction (below op 40) on the plan's cells, and one of any op that a body of that kind and length may hold. Both are
// well-formed.
Frame any_plain(Random &r, const Plan &plan);
Frame any_instruction(Random &r, const Plan &plan, BodyKind kind, uint32_t length);

// The instruction with one field spoilt, so that it is 5; the op stays. Nothing is changed where no field can be spoilt.
bool spoil_field(Random &r, const Plan &plan, uint32_t length, Frame &f);

// A value at or near an end of the signed or unsigned range, or a small one, or any.
uint32_t edge_value(Random &r);

} // namespace compare
