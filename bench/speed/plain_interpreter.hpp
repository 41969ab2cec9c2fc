// The plain instructions of one body as a C++ programmer writes an interpreter: a switch over the op, cells in an array. The table is judged
// already; every check that a run makes of an instruction is made here too.
#pragma once

#include <cstdint>

struct PlainEnd {
  uint32_t number; // 0 at the body's end, 255 at an instruction that is not plain, else the number of the stop
  uint32_t place;
  uint32_t left; // of the budget
};

// Runs a body of n frames from its first one on. There are 256 cells.
extern "C" PlainEnd plain_interpret(const uint64_t *body, uint32_t n, uint32_t budget, uint32_t *cells);
