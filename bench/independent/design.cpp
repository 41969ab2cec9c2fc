#include "design.hpp"

#include "limits.hpp"

namespace independent {

bool Inspector::due() const { return !header_taken_ || design_.bodies.size() < bodies_due_ || filling_ < bodies_due_; }

// An image begins with its header, goes on with the frames that give the bodies' lengths, and ends with the bodies' code.
uint32_t Inspector::take(uint64_t number) {
  const Frame f = frame_of(number);
  if (!header_taken_) return take_header(f);
  if (design_.bodies.size() < bodies_due_) return take_body(f);
  return take_instruction(f);
}

// Number 2, for whatever is wrong with a header.
uint32_t Inspector::take_header(const Frame &f) {
  if (f.op != 0xa0 || f.d > most_threads || f.a > most_events || f.b > most_updates) return 2;
  if (f.imm < 1 || f.imm > most_cells) return 2;
  design_ = {f.d, f.a, f.b, f.imm, {}};
  bodies_due_ = 1 + f.d + f.b;
  header_taken_ = true;
  return 0;
}

// Number 3, for whatever is wrong with a body frame. The lengths count as they come: the frame that takes them past the limit is at fault.
uint32_t Inspector::take_body(const Frame &f) {
  if (f.op != 0xa1) return 3;
  if ((f.d | f.a | f.b) != 0) return 3;
  lengths_ += f.imm;
  if (lengths_ > most_instructions) return 3;
  design_.bodies.push_back({kind_of(design_.bodies.size()), f.imm, {}});
  if (design_.bodies.size() == bodies_due_) skip_full_bodies();
  return 0;
}

// Number 4 says that this op has no business here, number 5 that its fields are wrong; 4 comes first.
uint32_t Inspector::take_instruction(const Frame &f) {
  Body &body = design_.bodies[filling_];
  const Op *const op = op_of(f.op);
  if (op == nullptr) return 4;
  if (!may_hold(body.kind, f.op)) return 4;
  if (!fields_fit(*op, f, body)) return 5;
  body.code.push_back(f);
  skip_full_bodies();
  return 0;
}

bool Inspector::fields_fit(const Op &op, const Frame &f, const Body &body) const {
  return fits(op.d, f.d, f, body) && fits(op.a, f.a, f, body) && fits(op.b, f.b, f, body) && fits(op.imm, f.imm, f, body);
}

bool Inspector::fits(Use use, uint32_t field, const Frame &f, const Body &body) const {
  switch (use) {
  case Use::unused: return field == 0;
  case Use::cell: return field < design_.cells;
  case Use::event: return field < design_.events;
  case Use::update: return field < design_.updates;
  case Use::thread: return field < design_.threads;
  case Use::number: return true;
  case Use::target: return field <= body.length;
  case Use::length: return field >= 1;
  case Use::region: return uint64_t{f.imm} + f.b <= design_.cells;
  }
  return false;
}

// By the numbering of bodies: main is the first, updates are the last.
BodyKind Inspector::kind_of(std::size_t body) const {
  if (body == 0) return BodyKind::main;
  return body <= design_.threads ? BodyKind::thread : BodyKind::update;
}

void Inspector::skip_full_bodies() {
  while (filling_ < bodies_due_ && design_.bodies[filling_].code.size() == design_.bodies[filling_].length) ++filling_;
}

} // namespace independent
