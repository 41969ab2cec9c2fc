// Each refusal on purpose: a well-formed image with one fault at a known line, or room that is too short.
#include "kinds.hpp"

#include "../independent/limits.hpp"

#include <algorithm>

namespace compare {

namespace {

// A well-formed plan that holds an instruction, and one of its instructions drawn.
struct Drawn {
  Plan plan;
  std::size_t body, place;
  uint32_t line;
};

Drawn drawn_instruction(Random &r) {
  for (;;) {
    const Plan plan = rich_plan(r);
    uint32_t line = static_cast<uint32_t>(plan.first_instruction_line());
    uint32_t left = r.below(plan.instructions() + 1);
    for (std::size_t body = 0; body < plan.bodies.size(); ++body) {
      if (left < plan.bodies[body].size()) return {plan, body, left, line + left};
      left -= static_cast<uint32_t>(plan.bodies[body].size());
      line += static_cast<uint32_t>(plan.bodies[body].size());
    }
  }
}

// Junk in the lines after the fault changes nothing.
void spoil_after(Random &r, std::vector<uint64_t> &table, std::size_t line) {
  if (r.chance(500)) return;
  for (std::size_t i = line + 1; i < table.size(); ++i)
    if (r.chance(300)) table[i] = r.next();
  if (r.chance(200)) table.resize(line + 1);
}

Made with_fault(Random &r, std::vector<uint64_t> table, uint32_t number, uint32_t line) {
  spoil_after(r, table, line);
  Case c = case_of(table);
  c.byte_room = r.chance(500) ? c.text.size() : r.below(c.text.size() + 1); // write's 2 to 7 come before its 8
  return {c, faulty(number, line)};
}

uint64_t with_byte(uint64_t frame, int shift, uint64_t byte) { return (frame & ~(uint64_t{0xff} << shift)) | byte << shift; }

uint8_t byte_but(Random &r, uint32_t not_this) {
  const uint32_t byte = r.below(255);
  return static_cast<uint8_t>(byte < not_this ? byte : byte + 1);
}

} // namespace

// A byte of a line isn't a digit, its 0a isn't there, or the input ends inside it.
Made line_fault(Random &r) {
  static const std::string odd("ABCDEFgG/:`@ \r\n\t\0x+-\xff\x80", 23);
  Case c = case_of(rich_plan(r).table());
  const auto line = r.below(c.text.size() / 17);
  const std::size_t column = r.below(17), at = 17 * line + column;
  if (r.chance(300)) {
    const std::size_t kept = r.between(1, 16);
    c.text.resize(17 * line + kept);
  } else if (column == 16) {
    c.text[at] = static_cast<char>(byte_but(r, '\n'));
  } else {
    c.text[at] = odd[r.below(odd.size())];
  }
  c.text_only = true;
  return {c, {Verdict{1, line}, {}, {}, {}}};
}

Made header_fault(Random &r) {
  std::vector<uint64_t> table = rich_plan(r).table();
  switch (r.below(5)) {
  case 0: table[0] = with_byte(table[0], 56, byte_but(r, 0xa0)); break;
  case 1: table[0] = with_byte(table[0], 48, r.between(17, 255)); break;
  case 2: table[0] = with_byte(table[0], 40, r.between(33, 255)); break;
  case 3: table[0] = with_byte(table[0], 32, r.between(17, 255)); break;
  case 4: table[0] = (table[0] >> 32 << 32) | (r.chance(500) ? 0 : r.between(257, 0xffffffff)); break;
  }
  return with_fault(r, table, 2, 0);
}

Made body_fault(Random &r) {
  const Plan plan = rich_plan(r);
  std::vector<uint64_t> table = plan.table();
  const uint32_t body = r.below(plan.bodies.size());
  uint64_t &frame = table[1 + body];
  uint32_t before = 0;
  for (uint32_t i = 0; i < body; ++i) before += static_cast<uint32_t>(plan.bodies[i].size());
  switch (r.below(5)) {
  case 0: frame = with_byte(frame, 56, byte_but(r, 0xa1)); break;
  case 1: frame = with_byte(frame, 48, r.between(1, 255)); break;
  case 2: frame = with_byte(frame, 40, r.between(1, 255)); break;
  case 3: frame = with_byte(frame, 32, r.between(1, 255)); break;
  case 4: frame = (frame >> 32 << 32) | (r.chance(500) ? 1025 - before : r.between(1025 - before, 0xffffffff)); break;
  }
  return with_fault(r, table, 3, 1 + body);
}

// An op that no body may hold, or not that one. The fields may be anything then.
Made op_fault(Random &r) {
  static const std::vector<uint32_t> unknown = {0x00, 0x04, 0x0f, 0x15, 0x17, 0x1d, 0x1f, 0x23, 0x27, 0x2f, 0x32,
                                                0x3f, 0x42, 0x4f, 0x52, 0x5f, 0x69, 0x80, 0xa0, 0xa1, 0xff};
  const Drawn drawn = drawn_instruction(r);
  std::vector<uint32_t> barred = {r.pick(unknown)};
  const BodyKind kind = drawn.plan.kind(drawn.body);
  if (kind == BodyKind::main) barred.insert(barred.end(), {0x60, 0x61});
  if (kind == BodyKind::thread) barred.insert(barred.end(), {0x67, 0x68});
  if (kind == BodyKind::update) barred.insert(barred.end(), {0x60, 0x61, 0x62, 0x64, 0x65, 0x66, 0x67, 0x68});
  std::vector<uint64_t> table = drawn.plan.table();
  const uint64_t fields = r.chance(500) ? 0 : r.next();
  table[drawn.line] = with_byte(fields, 56, r.pick(barred));
  return with_fault(r, table, 4, drawn.line);
}

Made field_fault(Random &r) {
  for (;;) {
    const Drawn drawn = drawn_instruction(r);
    const auto length = static_cast<uint32_t>(drawn.plan.bodies[drawn.body].size());
    Frame f = any_instruction(r, drawn.plan, drawn.plan.kind(drawn.body), length);
    if (!spoil_field(r, drawn.plan, length, f)) continue;
    std::vector<uint64_t> table = drawn.plan.table();
    table[drawn.line] = independent::number_of(f);
    return with_fault(r, table, 5, drawn.line);
  }
}

Made short_image(Random &r) {
  std::vector<uint64_t> table = rich_plan(r).table();
  const uint32_t kept = r.below(table.size());
  table.resize(kept);
  return {case_of(table), faulty(6, kept)};
}

// Frames, or bytes of any kind, after the last due frame.
Made extra_frames(Random &r) {
  std::vector<uint64_t> table = rich_plan(r).table();
  const auto due = static_cast<uint32_t>(table.size());
  for (uint32_t i = r.between(1, 3); i > 0; --i) table.push_back(r.chance(500) ? table.back() : r.next());
  Case c = case_of(table);
  if (r.chance(500)) {
    c.text.resize(17 * due);
    for (uint32_t i = r.between(1, 20); i > 0; --i) c.text += r.chance(300) ? '\n' : static_cast<char>(r.below(256));
  }
  return {c, faulty(7, due)};
}

// Reading looks at the room first, writing last, the run between the job and the table.
Made short_room(Random &r) {
  const bool well_formed = r.chance(600);
  Case c = case_of(rich_plan(r).table());
  const auto frames = static_cast<uint32_t>(c.job.table.size());
  c.byte_room = r.chance(500) ? c.text.size() - 1 : r.below(c.text.size());
  c.word_room = r.chance(500) ? 1057 : r.below(1058);
  c.cell_room = r.chance(500) ? 255 : r.below(256);
  Expected expected{Verdict{8, 0}, Verdict{0, frames}, Verdict{8, 0}, refusal(8, 0)};
  if (!well_formed) {
    const uint32_t kept = r.below(frames);
    c.job.table.resize(kept);
    c.text = r.chance(500) ? lines_of(c.job.table) : "?";
    expected.judge = expected.write = Verdict{6, kept};
  }
  return {c, expected};
}

// Over 4,096 choices, then over 1,024 inputs; both before the room and the table.
Made long_job(Random &r) {
  Case c = case_of(rich_plan(r).table());
  if (r.chance(300)) c.job.table.resize(r.below(c.job.table.size()));
  c.cell_room = r.chance(500) ? 256 : r.below(256);
  const bool choices = r.chance(600), inputs = !choices || r.chance(500);
  c.job.choices.assign(choices ? (r.chance(700) ? 4097 : r.between(4097, 5000)) : r.chance(500) ? 4096 : 0, 0);
  c.job.inputs.assign(inputs ? (r.chance(700) ? 1025 : r.between(1025, 2000)) : r.chance(500) ? 1024 : 0, 0);
  return {c, {{}, {}, {}, refusal(9, choices ? 1 : 2)}};
}

} // namespace compare
