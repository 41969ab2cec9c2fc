// Images judged, read and written.
#pragma once

#include "design.hpp"

#include <cstddef>
#include <cstdint>
#include <string>
#include <vector>

namespace independent {

struct Verdict {
  uint32_t number, line;
};

// A fault and its line, or 0 and how many frames there are. An accepted table's design stands in `design`, if it is wanted.
Verdict judge(const std::vector<uint64_t> &table, Design *design = nullptr);

struct Read {
  Verdict verdict;
  std::vector<uint64_t> words; // the first words of the lent table afterwards; none where it is refused
};

struct Written {
  Verdict verdict;
  std::string bytes; // the first bytes of the lent buffer afterwards; none where it is refused
};

Read read(const std::string &bytes, std::size_t room_in_words);
Written write(const std::vector<uint64_t> &table, std::size_t room_in_bytes);

} // namespace independent
