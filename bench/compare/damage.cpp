// Images with bits, bytes and lines damaged at random.
#include "kinds.hpp"

#include "../independent/limits.hpp"

namespace compare {

namespace {

constexpr std::size_t line = independent::line_bytes;

void damage_once(Random &r, std::string &text) {
  const std::size_t at = text.empty() ? 0 : r.below(text.size());
  const std::size_t line_at = at / line * line;
  switch (text.empty() ? 2 : r.below(9)) {
  case 0: text[at] = static_cast<char>(text[at] ^ 1 << r.below(8)); break;
  case 1: text[at] = static_cast<char>(r.below(256)); break;
  case 2: text.insert(at, 1, r.chance(300) ? '\n' : static_cast<char>(r.below(256))); break;
  case 3: text.erase(at, 1); break;
  case 4: text.erase(line_at, line); break;
  case 5: text.insert(line_at, text.substr(line_at, line)); break;
  case 6: text.resize(at); break;
  case 7: text[at] = "0123456789abcdef"[r.below(16)]; break; // well-formed still, mostly
  case 8: text += r.chance(500) ? std::string(1, static_cast<char>(r.below(256))) : text.substr(line_at, line); break;
  }
}

// A frame that is nearly right: one field of it drawn anew, or a bit turned.
uint64_t damaged(Random &r, uint64_t frame) {
  static const std::vector<int> shifts = {56, 48, 40, 32, 24, 16, 8, 0};
  const int shift = r.pick(shifts);
  if (r.chance(300)) return frame ^ uint64_t { 1 } << r.below(64);
  const uint64_t byte = r.chance(300) ? r.below(256) : r.below(r.chance(500) ? 4 : 105);
  return (frame & ~(uint64_t{0xff} << shift)) | byte << shift;
}

} // namespace

Made damaged_text(Random &r) {
  Case c = case_of(rich_plan(r).table());
  for (uint32_t times = r.between(1, 3); times > 0; --times) damage_once(r, c.text);
  c.text_only = true;
  c.word_room = r.chance(900) ? 1058 : r.between(1056, 1060);
  return {c, {}};
}

Made damaged_table(Random &r) {
  std::vector<uint64_t> table = rich_plan(r).table();
  for (uint32_t times = r.between(1, 2); times > 0; --times) {
    uint64_t &frame = table[r.below(table.size())];
    frame = damaged(r, frame);
  }
  if (r.chance(50)) table.resize(r.below(table.size() + 1));
  if (r.chance(50)) table.push_back(r.next());
  Case c = case_of(table);
  c.byte_room = r.chance(700) ? c.text.size() : r.below(c.text.size() + 20);
  c.cell_room = r.chance(950) ? 256 : r.between(254, 258);
  c.job.budget = 200;
  follow(r, c, 50, true); // the damage may have left it well-formed
  return {c, {}};
}

} // namespace compare
