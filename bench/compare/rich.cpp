// Designs with much for the kernel to do: threads that wait, notify, suspend and resume each other in loops, over cells that hold small
// delays.
#include "kinds.hpp"

#include "../independent/limits.hpp"

#include <algorithm>

namespace compare {

namespace {

// The lower half of the cells holds delays; results go to the upper half, mostly.
uint32_t delay_cell(Random &r, const Plan &plan) { return r.below(plan.cells / 2 + 1); }
uint32_t result_cell(Random &r, const Plan &plan) {
  return r.chance(970) ? r.between(plan.cells / 2, plan.cells - 1) : r.below(plan.cells);
}
uint32_t small_delay(Random &r) { return r.chance(8) ? edge_value(r) : r.chance(300) ? 0 : r.between(1, 6); }

Frame quiet_plain(Random &r, const Plan &plan) {
  static const std::vector<uint32_t> ops = {0x02, 0x10, 0x11, 0x12, 0x20, 0x21, 0x28, 0x29, 0x2a, 0x2b, 0x2c, 0x2d};
  if (r.chance(10)) return any_plain(r, plan);
  if (r.chance(30)) return input(result_cell(r, plan));
  const uint32_t op = r.pick(ops);
  return make(op, result_cell(r, plan), r.below(plan.cells), op == 0x02 ? 0 : r.below(plan.cells));
}

// Kernel work that main (before its start) and threads may do.
Frame kernel_work(Random &r, const Plan &plan) {
  const uint32_t what = r.below(60);
  if (what < 14 && plan.events > 0) return notify(r.below(plan.events));
  if (what < 30 && plan.events > 0) return notify_after(r.below(plan.events), delay_cell(r, plan));
  if (what < 40 && plan.updates > 0) return request(r.below(plan.updates));
  if (what < 47 && plan.threads > 0) return suspend(r.below(plan.threads));
  if (what < 58 && plan.threads > 0) return resume(r.below(plan.threads));
  return set(delay_cell(r, plan), small_delay(r));
}

Frame thread_wait(Random &r, const Plan &plan) {
  return plan.events > 0 && r.chance(450) ? wait_event(r.below(plan.events)) : wait_time(delay_cell(r, plan));
}

// Mostly forwards, as a loop without a wait takes the whole budget.
Frame jump(Random &r, const Plan &plan, uint32_t next, uint32_t length) {
  const uint32_t target = r.between(r.chance(850) ? next : 0, length);
  return r.chance(300) ? go(target) : go_if(r.below(plan.cells), target);
}

// A thread that keeps the others going: it notifies, requests and resumes, waits a little, and begins again.
Code pacer_code(Random &r, const Plan &plan) {
  Code code;
  for (uint32_t k = 0; k < plan.threads; ++k)
    if (r.chance(500)) code.push_back(resume(k));
  for (uint32_t e = 0; e < std::min(plan.events, 6u); ++e)
    if (r.chance(500)) code.push_back(r.chance(500) ? notify(e) : notify_after(e, delay_cell(r, plan)));
  if (plan.updates > 0) code.push_back(request(r.below(plan.updates)));
  r.shuffle(code);
  const uint32_t pace = delay_cell(r, plan);
  code.insert(code.end(), {set(pace, r.between(1, 4)), wait_time(pace), go(0)});
  return code;
}

Code thread_code(Random &r, const Plan &plan, uint32_t length) {
  Code code;
  while (code.size() < length) {
    const uint32_t what = r.below(100);
    if (what < 35) code.push_back(thread_wait(r, plan));
    else if (what < 85) code.push_back(kernel_work(r, plan));
    else if (what < 95) code.push_back(quiet_plain(r, plan));
    else if (what < 99) code.push_back(jump(r, plan, static_cast<uint32_t>(code.size()) + 1, length));
    else code.push_back(any_instruction(r, plan, BodyKind::thread, length));
  }
  if (length >= 2 && r.chance(700)) { // a loop that waits
    code[length - 2] = thread_wait(r, plan);
    code[length - 1] = go(0);
  }
  return code;
}

Code update_code(Random &r, const Plan &plan, uint32_t length) {
  Code code;
  while (code.size() < length) {
    const uint32_t next = static_cast<uint32_t>(code.size()) + 1;
    if (plan.events > 0 && r.chance(500)) code.push_back(notify_after(r.below(plan.events), delay_cell(r, plan)));
    else if (r.chance(150)) code.push_back(go_if(r.below(plan.cells), r.between(next, length)));
    else if (r.chance(5)) code.push_back(any_instruction(r, plan, BodyKind::update, length));
    else if (r.chance(500)) code.push_back(make(0x10, result_cell(r, plan), r.below(plan.cells), r.below(plan.cells)));
    else code.push_back(quiet_plain(r, plan));
  }
  return code;
}

Code main_code(Random &r, const Plan &plan, uint32_t before, uint32_t after) {
  Code code;
  for (uint32_t c = 0; c < plan.cells / 2 + 1 && code.size() < before; ++c) code.push_back(set(c, small_delay(r)));
  while (code.size() < before) code.push_back(r.chance(800) ? kernel_work(r, plan) : quiet_plain(r, plan));
  code.push_back(r.chance(600) ? start() : start_with(r.chance(800) ? r.below(60) : edge_value(r)));
  const auto length = static_cast<uint32_t>(code.size()) + after;
  while (code.size() < length) {
    const auto next = static_cast<uint32_t>(code.size()) + 1;
    if (r.chance(30)) code.push_back(any_instruction(r, plan, BodyKind::main, length));
    else if (r.chance(100)) code.push_back(go_if(r.below(plan.cells), r.between(next, length)));
    else code.push_back(quiet_plain(r, plan));
  }
  return code;
}

std::vector<uint32_t> any_inputs(Random &r, std::size_t count) {
  std::vector<uint32_t> inputs(count);
  for (uint32_t &input : inputs) input = edge_value(r);
  return inputs;
}

void known_well_formed(Made &made) {
  const auto frames = static_cast<uint32_t>(made.job.job.table.size());
  made.expected.judge = Verdict{0, frames};
  if (made.job.word_room >= independent::most_lines) made.expected.read = Verdict{0, frames};
  if (made.job.byte_room >= made.job.text.size()) made.expected.write = Verdict{0, 17 * frames};
}

} // namespace

Plan rich_plan(Random &r) {
  const uint32_t threads = r.chance(20) ? 0 : r.chance(50) ? 16 : r.between(1, 6);
  const uint32_t events = r.chance(30) ? 0 : r.chance(50) ? r.between(6, 32) : r.between(1, 5);
  const uint32_t updates = r.chance(300) ? 0 : r.chance(50) ? r.between(5, 16) : r.between(1, 4);
  Plan plan(threads, events, updates, r.chance(30) ? r.between(1, 256) : r.between(6, 16));
  plan.bodies[0] = main_code(r, plan, r.between(0, 20), r.chance(500) ? 0 : r.between(0, 6));
  for (uint32_t k = 0; k < threads; ++k) plan.bodies[1 + k] = thread_code(r, plan, r.between(0, 12));
  if (threads > 0 && r.chance(700)) plan.bodies[1 + r.below(threads)] = pacer_code(r, plan);
  for (uint32_t u = 0; u < updates; ++u) plan.bodies[1 + threads + u] = update_code(r, plan, r.between(0, 5));
  return plan;
}

void follow(Random &r, Case &c, std::size_t most, bool bad_ones) {
  independent::Design design;
  if (independent::judge(c.job.table, &design).number != 0) return;
  std::vector<uint8_t> &choices = c.job.choices;
  const auto chooser = [&](uint32_t runnable) -> std::optional<uint8_t> {
    if (choices.size() == most || (bad_ones && r.chance(1))) return std::nullopt;
    std::vector<uint8_t> may;
    for (uint8_t k = 0; k < 16; ++k)
      if ((runnable >> k & 1) != 0) may.push_back(k);
    const bool bad = bad_ones && r.chance(2);
    choices.push_back(bad ? static_cast<uint8_t>(r.below(r.chance(500) ? 17 : 256)) : r.pick(may));
    return choices.back();
  };
  const independent::Outcome outcome = independent::run(design, c.job.budget, chooser, c.job.inputs);
  if (bad_ones && r.chance(200)) c.job.budget = r.between(0, outcome.answer.instructions + 1);
}

Made rich(Random &r) {
  Made made{case_of(rich_plan(r).table()), {}};
  Case &c = made.job;
  c.job.inputs = any_inputs(r, r.chance(100) ? 0 : r.between(1, 60));
  c.job.budget = r.chance(100) ? r.between(0, 60) : r.between(100, 1500);
  follow(r, c, r.chance(50) ? 1000 : r.between(1, 120), true);
  c.cell_room = r.chance(800) ? 256 : r.between(256, 300);
  if (r.chance(200)) c.byte_room += r.between(1, 20);
  if (r.chance(200)) c.word_room += r.between(1, 20);
  known_well_formed(made);
  return made;
}

// 16 threads, 32 events, 16 updates, 256 cells, 1,024 instructions, 1,024 inputs, up to 4,096 choices.
Made at_the_limits(Random &r) {
  Plan plan(16, 32, 16, 256);
  plan.bodies[0] = main_code(r, plan, r.between(100, 150), r.between(0, 20));
  const bool lasting = r.chance(300); // all choices are taken then, mostly
  for (uint32_t k = 0; k < 16; ++k) plan.bodies[1 + k] = lasting ? pacer_code(r, plan) : thread_code(r, plan, r.between(20, 40));
  for (uint32_t u = 0; u < 15; ++u) plan.bodies[17 + u] = update_code(r, plan, r.between(0, 10));
  for (Frame &f : plan.bodies[0])
    if (lasting && f.op == 0x67) f = start();
  plan.bodies[32] = update_code(r, plan, 1024 - static_cast<uint32_t>(plan.instructions()));
  Made made{case_of(plan.table()), {}};
  made.job.job.inputs = any_inputs(r, 1024);
  made.job.job.budget = lasting ? 200000 : r.between(0, 40000);
  follow(r, made.job, 4096, false);
  made.job.job.choices.resize(r.chance(500) ? 4096 : made.job.job.choices.size());
  known_well_formed(made);
  return made;
}

// One of the limits passed by one or by much.
Made over_the_limits(Random &r) {
  Plan plan(r.chance(500) ? 16 : r.below(17), r.chance(500) ? 32 : r.below(33), r.chance(500) ? 16 : r.below(17), r.between(1, 256));
  std::vector<uint64_t> table = plan.table();
  const auto put = [&table](int shift, uint64_t width, uint64_t value) { table[0] = (table[0] & ~(width << shift)) | value << shift; };
  const uint32_t what = r.below(6);
  if (what == 0) put(48, 0xff, r.chance(500) ? 17 : r.between(17, 255));
  if (what == 1) put(40, 0xff, r.chance(500) ? 33 : r.between(33, 255));
  if (what == 2) put(32, 0xff, r.chance(500) ? 17 : r.between(17, 255));
  if (what == 3) put(0, 0xffffffff, r.chance(300) ? 0 : r.chance(500) ? 257 : r.between(257, 0xffffffff));
  if (what <= 3) return {case_of(table), faulty(2, 0)};
  // The lengths of the bodies up to one of them pass 1,024 together, and just reach it before.
  const uint32_t body = r.below(plan.bodies.size());
  uint32_t left = 1024;
  for (uint32_t i = 0; i < body; ++i) {
    const uint32_t length = r.chance(300) ? r.between(0, left) : std::min(left, r.below(40));
    left -= length;
    table[1 + i] |= length;
  }
  table[1 + body] |= what == 4 ? left + 1 : r.chance(500) ? 0xffffffff - r.below(1100) : r.between(left + 1, 0xffffffff);
  return {case_of(table), faulty(3, 1 + body)};
}

} // namespace compare
