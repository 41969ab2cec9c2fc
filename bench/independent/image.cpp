#include "image.hpp"

#include "hex.hpp"
#include "limits.hpp"

namespace independent {

namespace {

// The frame of the line at that offset, or nothing unless sixteen digits and 0a stand there.
std::optional<uint64_t> line_at(const std::string &bytes, std::size_t at) {
  if (bytes.size() < at + line_bytes) return std::nullopt;
  if (bytes[at + 16] != '\n') return std::nullopt;
  return hex_number(bytes, at, 16);
}

} // namespace

// Faults are met frame by frame, so the one that comes first is told. Only a table without any can be too short (6) or too long (7).
Verdict judge(const std::vector<uint64_t> &table, Design *design) {
  Inspector inspector;
  uint32_t taken = 0;
  for (; inspector.due() && taken < table.size(); ++taken) {
    const uint32_t fault = inspector.take(table[taken]);
    if (fault != 0) return {fault, taken};
  }
  if (inspector.due()) return {6, taken};
  if (taken < table.size()) return {7, taken};
  if (design != nullptr) *design = inspector.design();
  return {0, taken};
}

// The paragraph on reading: room before all else; then line by line, its form before its meaning. What follows the last line is 7 unseen.
Read read(const std::string &bytes, std::size_t room_in_words) {
  if (room_in_words < most_lines) return {{8, 0}, {}};
  Inspector inspector;
  std::vector<uint64_t> words;
  while (inspector.due()) {
    const auto line = static_cast<uint32_t>(words.size());
    const std::size_t at = line_bytes * words.size();
    if (at >= bytes.size()) return {{6, line}, {}};
    const std::optional<uint64_t> frame = line_at(bytes, at);
    if (!frame) return {{1, line}, {}};
    const uint32_t fault = inspector.take(*frame);
    if (fault != 0) return {{fault, line}, {}};
    words.push_back(*frame);
  }
  const auto count = static_cast<uint32_t>(words.size());
  if (bytes.size() > line_bytes * count) return {{7, count}, {}};
  return {{0, count}, words};
}

// The same paragraph on writing: here the room is looked at last.
Written write(const std::vector<uint64_t> &table, std::size_t room_in_bytes) {
  const std::size_t needed = line_bytes * table.size();
  const Verdict verdict = judge(table);
  if (verdict.number != 0) return {verdict, {}};
  if (room_in_bytes < needed) return {{8, 0}, {}};
  std::string bytes;
  for (uint64_t frame : table) bytes += hex_digits(frame, 16) + '\n';
  return {{0, static_cast<uint32_t>(needed)}, bytes};
}

} // namespace independent
