#include "ops.hpp"

namespace independent {

namespace {

constexpr Use no = Use::unused;
constexpr Use cell = Use::cell;

constexpr Op ops[] = {
    // op    d            a     b            imm
    {0x01, cell, no, no, Use::number}, // d takes imm
    {0x02, cell, cell, no, no},        // d takes the value of a
    {0x03, cell, no, no, no},          // d takes the next input

    {0x10, cell, cell, cell, no}, // unsigned: sum
    {0x11, cell, cell, cell, no}, // difference
    {0x12, cell, cell, cell, no}, // product
    {0x13, cell, cell, cell, no}, // quotient
    {0x14, cell, cell, cell, no}, // remainder
    {0x18, cell, cell, cell, no}, // signed: the same five
    {0x19, cell, cell, cell, no},
    {0x1a, cell, cell, cell, no},
    {0x1b, cell, cell, cell, no},
    {0x1c, cell, cell, cell, no},

    {0x20, cell, cell, cell, no}, // and
    {0x21, cell, cell, cell, no}, // or
    {0x22, cell, cell, no, no},   // complement

    {0x28, cell, cell, cell, no}, // equal
    {0x29, cell, cell, cell, no}, // not equal
    {0x2a, cell, cell, cell, no}, // unsigned: less
    {0x2b, cell, cell, cell, no}, // at most
    {0x2c, cell, cell, cell, no}, // signed: less
    {0x2d, cell, cell, cell, no}, // at most
    {0x2e, cell, cell, no, no},   // is 0

    {0x30, cell, cell, Use::length, Use::region}, // load
    {0x31, cell, cell, Use::length, Use::region}, // store

    {0x40, no, no, no, Use::target},   // goto
    {0x41, no, cell, no, Use::target}, // goto if a is not 0

    {0x50, no, cell, no, no}, // assert
    {0x51, no, cell, no, no}, // assume

    {0x60, Use::event, no, no, no},   // wait for an event
    {0x61, no, cell, no, no},         // wait for a time
    {0x62, Use::event, no, no, no},   // notify at once
    {0x63, Use::event, cell, no, no}, // notify after a delay
    {0x64, Use::update, no, no, no},  // request
    {0x65, Use::thread, no, no, no},  // suspend
    {0x66, Use::thread, no, no, no},  // resume
    {0x67, no, no, no, Use::number},  // start with a limit
    {0x68, no, no, no, no},           // start without one
};

} // namespace

const Op *op_of(uint32_t code) {
  for (const Op &op : ops)
    if (op.code == code) return &op;
  return nullptr;
}

// Only threads wait and only main starts. An update's one kernel instruction is the delayed notification.
bool may_hold(BodyKind kind, uint32_t code) {
  switch (kind) {
  case BodyKind::main: return code != 0x60 && code != 0x61;
  case BodyKind::thread: return code != 0x67 && code != 0x68;
  case BodyKind::update: return code < 0x60 || code > 0x68 || code == 0x63;
  }
  return false;
}

} // namespace independent
