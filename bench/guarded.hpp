// A buffer between guards, to see that a call touches nothing but what it was lent. Its pointer is valid even where it is empty, as the interface
// asks; that of an empty vector may be null.
#pragma once

#include <algorithm>
#include <cstddef>
#include <type_traits>
#include <vector>

template <typename T> class Guarded {
public:
  Guarded(std::size_t size, T fill) : all_(size + 2 * guards, guard), size_(size) {
    std::fill_n(data(), size, fill);
  }

  T *data() { return all_.data() + guards; }
  std::size_t size() const { return size_; }
  T operator[](std::size_t i) const { return all_[guards + i]; }

  bool guards_stand() const {
    const auto whole = [](T x) { return x == guard; };
    return std::all_of(all_.begin(), all_.begin() + guards, whole) && std::all_of(all_.end() - guards, all_.end(), whole);
  }

private:
  static constexpr std::size_t guards = 8;
  static constexpr T guard = static_cast<T>(0xa5a5a5a5a5a5a5a5);
  std::vector<T> all_;
  std::size_t size_;
};

// A buffer with these contents.
template <typename Items> auto lent(const Items &items) {
  using Item = std::make_unsigned_t<typename Items::value_type>;
  Guarded<Item> buffer(items.size(), 0);
  std::copy(items.begin(), items.end(), buffer.data());
  return buffer;
}
