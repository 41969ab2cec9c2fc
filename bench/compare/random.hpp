// Random numbers that are the same on every machine for the same seed (splitmix64). The jobs drawn with them are the same for the same
// compiler: the order in which it works out the arguments of a call is its own.
#pragma once

#include <cstddef>
#include <cstdint>
#include <vector>

namespace compare {

class Random {
public:
  explicit Random(uint64_t seed) : state_(seed) {}

  uint64_t next() {
    uint64_t z = state_ += 0x9e3779b97f4a7c15;
    z = (z ^ z >> 30) * 0xbf58476d1ce4e5b9;
    z = (z ^ z >> 27) * 0x94d049bb133111eb;
    return z ^ z >> 31;
  }

  // 0 to n - 1; n isn't 0.
  uint32_t below(std::size_t n) { return static_cast<uint32_t>((next() >> 32) * n >> 32); }

  // Both ends included.
  uint32_t between(uint32_t low, uint32_t high) { return low + below(uint64_t{high} - low + 1); }

  // True that many times in a thousand.
  bool chance(uint32_t in_a_thousand) { return below(1000) < in_a_thousand; }

  template <typename T> const T &pick(const std::vector<T> &from) { return from[below(from.size())]; }

  template <typename T> void shuffle(std::vector<T> &items) {
    for (std::size_t i = items.size(); i > 1; --i) std::swap(items[i - 1], items[below(i)]);
  }

private:
  uint64_t state_;
};

} // namespace compare
