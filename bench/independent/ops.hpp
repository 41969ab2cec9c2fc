// The instructions: which fields each op uses and what they name, and which bodies may hold it.
#pragma once

#include <cstdint>

namespace independent {

enum class Use {
  unused, // must be zero
  cell,
  event,
  update,
  thread,
  number, // any number
  target, // a place of the body, or its end
  length, // of a region, at least 1
  region, // the first cell of one, which lies inside the cells
};

struct Op {
  uint32_t code;
  Use d, a, b, imm;
};

enum class BodyKind { main, thread, update };

// The op of that code, or nothing where the code is unknown.
const Op *op_of(uint32_t code);

bool may_hold(BodyKind kind, uint32_t code);

} // namespace independent
