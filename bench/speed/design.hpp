// A design as the lists of its bodies' frames, and the image table it makes.
#pragma once

#include <cstdint>
#include <vector>

using Body = std::vector<uint64_t>;

constexpr uint64_t frame(uint64_t op, uint64_t d = 0, uint64_t a = 0, uint64_t b = 0, uint64_t imm = 0) {
  return op << 56 | d << 48 | a << 40 | b << 32 | imm;
}

struct Design {
  Body main;
  std::vector<Body> threads;
  uint64_t events = 0;
  std::vector<Body> updates;
  uint64_t cells = 256;
};

inline std::vector<const Body *> bodies_of(const Design &design) {
  std::vector<const Body *> all = {&design.main};
  for (const Body &body : design.threads) all.push_back(&body);
  for (const Body &body : design.updates) all.push_back(&body);
  return all;
}

inline std::vector<uint64_t> table_of(const Design &design) {
  std::vector<uint64_t> table = {frame(0xa0, design.threads.size(), design.events, design.updates.size(), design.cells)};
  for (const Body *body : bodies_of(design)) table.push_back(frame(0xa1, 0, 0, 0, body->size()));
  for (const Body *body : bodies_of(design)) table.insert(table.end(), body->begin(), body->end());
  return table;
}
