// Loads of plain instructions, each a main that loops and ends without a start.
#pragma once

#include "design.hpp"

struct PlainLoad {
  const char *name;
  Body main;
};

// Cell 1 holds 1 and cell 0 counts down to 0 around the body; the first two frames set them.
inline Body looped(uint32_t rounds, const Body &before, const Body &body) {
  Body main = {frame(0x01, 0, 0, 0, rounds), frame(0x01, 1, 0, 0, 1)};
  main.insert(main.end(), before.begin(), before.end());
  const uint64_t top = main.size();
  main.insert(main.end(), body.begin(), body.end());
  main.push_back(frame(0x11, 0, 0, 1));
  main.push_back(frame(0x41, 0, 0, 0, top));
  return main;
}

// Sums and products modulo 2^32.
inline Body arithmetic_loop(uint32_t rounds) {
  return looped(rounds, {frame(0x01, 2, 0, 0, 1664525), frame(0x01, 3, 0, 0, 1013904223)},
                {frame(0x12, 4, 4, 2), frame(0x10, 4, 4, 3), frame(0x10, 5, 5, 4), frame(0x11, 6, 5, 0), frame(0x12, 7, 6, 5),
                 frame(0x10, 8, 8, 7), frame(0x20, 9, 8, 3), frame(0x21, 10, 9, 6)});
}

// A region of sixteen cells is read, changed and stored; comparisons and gotos between.
inline Body mixed_loop(uint32_t rounds) {
  return looped(rounds, {frame(0x01, 2, 0, 0, 15), frame(0x01, 3, 0, 0, 7)},
                {frame(0x20, 4, 0, 2), frame(0x30, 5, 4, 16, 64), frame(0x10, 5, 5, 3), frame(0x31, 5, 4, 16, 64),
                 frame(0x2a, 6, 5, 0), frame(0x41, 0, 6, 0, 12), frame(0x10, 7, 7, 1), frame(0x40, 0, 0, 0, 13),
                 frame(0x11, 7, 7, 1), frame(0x28, 8, 4, 2), frame(0x02, 9, 8), frame(0x50, 0, 1)});
}

// Signed sums, differences, products, quotients and remainders within their range.
inline Body signed_loop(uint32_t rounds) {
  return looped(rounds, {frame(0x01, 2, 0, 0, 0xfffffff9), frame(0x01, 3, 0, 0, 1000)},
                {frame(0x1c, 4, 0, 3), frame(0x1a, 5, 4, 2), frame(0x18, 6, 5, 3), frame(0x19, 7, 6, 4), frame(0x1a, 8, 7, 2),
                 frame(0x1b, 9, 8, 3), frame(0x2c, 10, 9, 5), frame(0x18, 11, 9, 10)});
}

// Branches that the bits of a congruential series decide.
inline Body branch_loop(uint32_t rounds) {
  return looped(rounds,
                {frame(0x01, 2, 0, 0, 1664525), frame(0x01, 3, 0, 0, 1013904223), frame(0x01, 5, 0, 0, 0x10000), frame(0x01, 6, 0, 0, 0x800000)},
                {frame(0x12, 4, 4, 2), frame(0x10, 4, 4, 3), frame(0x20, 7, 4, 5), frame(0x41, 0, 7, 0, 12), frame(0x10, 8, 8, 1),
                 frame(0x40, 0, 0, 0, 13), frame(0x11, 8, 8, 1), frame(0x20, 7, 4, 6), frame(0x41, 0, 7, 0, 16), frame(0x40, 0, 0, 0, 17),
                 frame(0x10, 9, 9, 1)});
}
