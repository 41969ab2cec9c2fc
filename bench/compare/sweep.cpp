#include "sweep.hpp"

#include "plan.hpp"

namespace compare {

namespace {

// Document 01's job: two looms that wait for each other.
Plan two_looms() {
  Plan plan(2, 2, 0, 1);
  plan.bodies[0] = {start()};
  plan.bodies[1] = {wait_event(1), notify(0)};
  plan.bodies[2] = {wait_event(0), notify(1)};
  return plan;
}

Case looms_case(std::vector<uint8_t> choices, uint32_t budget) {
  Case c = case_of(two_looms().table());
  c.job.choices = std::move(choices);
  c.job.budget = budget;
  return c;
}

Made answered(const Case &c, const Answer &answer) { return {c, {{}, {}, {}, answer}}; }

Case text_case(const std::string &text) {
  Case c;
  c.text = text;
  c.text_only = true;
  return c;
}

// A main that asks for as many frames as a limit allows.
Made counts(uint32_t threads, uint32_t cells, uint32_t length, uint32_t number, uint32_t line) {
  Plan plan(threads, 0, 0, cells);
  plan.bodies[0].assign(length, set(0, 1));
  const auto frames = static_cast<uint32_t>(plan.table().size());
  if (number != 0) return {case_of(plan.table()), faulty(number, line)};
  return {case_of(plan.table()), {Verdict{0, frames}, Verdict{0, frames}, Verdict{0, 17 * frames}, {}}};
}

// All counts at their limits, 1,058 lines, with so many frames too many.
Made largest(uint32_t extra) {
  Plan plan(16, 32, 16, 256);
  plan.bodies[0].assign(1024, set(255, 1));
  std::vector<uint64_t> table = plan.table();
  table.insert(table.end(), extra, table.back());
  if (extra > 0) return {case_of(table), faulty(7, 1058)};
  return {case_of(table), {Verdict{0, 1058}, Verdict{0, 1058}, Verdict{0, 17 * 1058}, {}}};
}

} // namespace

void cut_images(const Take &take) {
  const std::string whole = lines_of(two_looms().table());
  for (std::size_t kept = 0; kept < whole.size(); ++kept) {
    const bool at_a_line = kept % 17 == 0;
    take({text_case(whole.substr(0, kept)), {Verdict{at_a_line ? 6u : 1u, static_cast<uint32_t>(kept / 17)}, {}, {}, {}}});
  }
}

void damaged_images(const Take &take) {
  const std::string whole = lines_of(two_looms().table());
  for (std::size_t at = 0; at < whole.size(); ++at) {
    std::string text = whole;
    for (int byte = 0; byte < 256; ++byte) { // every bit turned is among them
      text[at] = static_cast<char>(byte);
      take({text_case(text), {}});
    }
    text = whole;
    take({text_case(text.insert(at, 1, whole[at])), {}});
    text = whole;
    take({text_case(text.erase(at, 1)), {}});
  }
  for (std::size_t line = 0; line < whole.size(); line += 17) {
    std::string text = whole;
    take({text_case(text.erase(line, 17)), {}});
    text = whole;
    take({text_case(text.insert(line, whole.substr(line, 17))), {}});
  }
}

void arithmetic_pairs(const Take &take) {
  const std::vector<uint32_t> values = {0,          1,          2,     7,     0xffffffff, 0xfffffffe, 0xfffffff9, 0x80000000, 0x80000001,
                                        0x7fffffff, 0x7ffffffe, 46340, 46341, 65536,      0xffff4afc, 0xffff4afb, 0xffff0000, 0x12345678};
  for (uint32_t op = 0x10; op <= 0x2d; ++op) {
    const bool known = op <= 0x14 || (op >= 0x18 && op <= 0x1c) || op == 0x20 || op == 0x21 || op >= 0x28;
    if (!known) continue;
    for (uint32_t a : values)
      for (uint32_t b : values) {
        Plan plan(0, 0, 0, 3);
        plan.bodies[0] = {set(0, a), set(1, b), make(op, 2, 0, 1)};
        Case c = case_of(plan.table());
        c.job.budget = 3;
        take({c, {}});
      }
  }
}

void both_sides(const Take &take) {
  take(answered(looms_case({0, 1}, 100), {0, 0xff, 0, 0, 3, 2, 0, 3}));
  take(answered(looms_case({0, 0}, 100), {21, 0xff, 0, 0, 2, 1, 0, 3}));
  take(answered(looms_case({0}, 100), {20, 0xff, 0, 0, 2, 1, 0, 3}));
  take(answered(looms_case({0, 1}, 2), {22, 2, 0, 0, 2, 2, 0, 3}));
  for (uint32_t limit : {5u, 4u}) {
    Plan plan(1, 0, 0, 1);
    plan.bodies[0] = {set(0, 5), start_with(limit)};
    plan.bodies[1] = {wait_time(0)};
    Case c = case_of(plan.table());
    c.job.choices = {0, 0};
    c.job.budget = 100;
    take(answered(c, limit == 5 ? Answer{0, 0xff, 0, 5, 3, 2, 0, 0} : Answer{10, 0xff, 0, 0, 3, 1, 0, 1}));
  }
  for (uint32_t wait : {0xfffffffeu, 0xffffffffu}) { // after a wait for 1
    Plan plan(1, 0, 0, 2);
    plan.bodies[0] = {set(0, 1), set(1, wait), start()};
    plan.bodies[1] = {wait_time(0), wait_time(1)};
    Case c = case_of(plan.table());
    c.job.choices = {0, 0, 0};
    c.job.budget = 100;
    take(answered(c, wait == 0xfffffffe ? Answer{0, 0xff, 0, 0xffffffff, 5, 3, 0, 0} : Answer{17, 1, 1, 1, 4, 2, 0, 1}));
  }
  take(counts(16, 1, 0, 0, 0));
  take(counts(17, 1, 0, 2, 0));
  take(counts(0, 256, 0, 0, 0));
  take(counts(0, 0, 0, 2, 0));
  take(counts(0, 257, 0, 2, 0));
  take(counts(0, 1, 1024, 0, 0));
  take(counts(0, 1, 1025, 3, 1));
  take(largest(0));
  take(largest(1));
  take({text_case(""), {Verdict{6, 0}, {}, {}, {}}});
}

} // namespace compare
