// The C functions on a table of texts: each number from 0 to 8 with its line, nothing written but what the header says.
#include "checks.hpp"
#include "fishdavit.h"
#include "guarded.hpp"

#include <string>
#include <vector>

namespace {

const std::string header = "a002020000000001\n";
const std::string bodies = "a100000000000001\na100000000000002\na100000000000002\n";
const std::string code = "6800000000000000\n6001000000000000\n6200000000000000\n6000000000000000\n6201000000000000\n";
const std::string looms = header + bodies + code;

struct Case {
  const char *label;
  std::string text;
  std::size_t room;
  uint32_t number;
  uint32_t line;
};

const std::vector<Case> cases = {
    {"the two looms", looms, 1058, 0, 9},
    {"the smallest image", "a000000000000001\na100000000000000\n", 1058, 0, 2},
    {"empty input", "", 1058, 6, 0},
    {"upper case", "A002020000000001\n", 1058, 1, 0},
    {"a last part without 0a", looms.substr(0, looms.size() - 1), 1058, 1, 8},
    {"the first frame isn't a0", bodies, 1058, 2, 0},
    {"17 threads", "a011020000000001\n", 1058, 2, 0},
    {"a body frame with a field", header + "a101000000000001\n", 1058, 3, 1},
    {"1,025 instructions", header + "a100000000000401\n", 1058, 3, 1},
    {"a wait in main", header + bodies + "6000000000000000\n", 1058, 4, 4},
    {"an event out of range", header + bodies + "6202000000000000\n", 1058, 5, 4},
    {"frames still due", header + bodies, 1058, 6, 4},
    {"junk after the last frame", looms + "?", 1058, 7, 9},
    {"a table of 1,057 words", looms, 1057, 8, 0},
    {"no table comes before an empty input", "", 0, 8, 0},
};

Checks checks;

void expect(bool holds, const char *label, const char *what) { checks.expect(holds, std::string(label) + ": " + what); }

bool says(fishdavit_verdict v, uint32_t number, uint32_t line) { return v.number == number && v.line == line; }

// From word `from` on the table holds what it held.
bool untouched(const Guarded<uint64_t> &table, std::size_t from) {
  for (std::size_t i = from; i < table.size(); ++i)
    if (table[i] != 7) return false;
  return table.guards_stand();
}

void reads(const Case &c) {
  Guarded<uint64_t> table(c.room, 7);
  const auto *bytes = reinterpret_cast<const uint8_t *>(c.text.data());
  expect(says(fishdavit_read(bytes, c.text.size(), table.data(), table.size()), c.number, c.line), c.label, "read's verdict");
  expect(untouched(table, c.number == 0 ? c.line : 0), c.label, "read's table");
}

// What was read is judged and written back, with room for one byte more, for just enough and for one less.
void writes_back() {
  const char *const label = "the two looms, written";
  std::vector<uint64_t> table(1058);
  fishdavit_read(reinterpret_cast<const uint8_t *>(looms.data()), looms.size(), table.data(), table.size());
  expect(says(fishdavit_judge(table.data(), 9), 0, 9), label, "judge");
  expect(says(fishdavit_judge(table.data(), 8), 6, 8), label, "judge of eight frames");
  expect(says(fishdavit_judge(table.data(), 10), 7, 9), label, "judge of ten frames");
  for (std::size_t room : {looms.size() + 1, looms.size(), looms.size() - 1}) {
    Guarded<uint8_t> bytes(room, 7);
    const bool fits = room >= looms.size();
    const auto verdict = fishdavit_write(table.data(), 9, bytes.data(), bytes.size());
    expect(fits ? says(verdict, 0, 153) : says(verdict, 8, 0), label, "write's verdict");
    bool same = bytes.guards_stand();
    for (std::size_t i = 0; i < room; ++i)
      same = same && bytes[i] == (fits && i < looms.size() ? static_cast<uint8_t>(looms[i]) : 7);
    expect(same, label, "write's bytes");
  }
  Guarded<uint8_t> none(0, 7);
  expect(says(fishdavit_write(table.data(), 8, none.data(), 0), 6, 8), label, "write's 6 before its 8");
}

} // namespace

int main() {
  for (const Case &c : cases) reads(c);
  writes_back();
  return checks.close();
}
