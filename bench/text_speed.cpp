// Reading and writing the largest image, 1,058 lines, beside plain loops that judge nothing: one run, interleaved, the best of several.
#include "fishdavit.h"
#include "plain_text.hpp"

#include <algorithm>
#include <chrono>
#include <cstdio>
#include <vector>

namespace {

constexpr std::size_t lines = 1058;
constexpr int rounds = 9;
constexpr int calls = 400;

// 16 threads, 32 events, 16 updates, 256 cells; main holds all 1,024 instructions.
std::vector<uint64_t> largest_image() {
  std::vector<uint64_t> table = {0xa010201000000100, 0xa100000000000400};
  table.insert(table.end(), 32, 0xa100000000000000);
  for (uint64_t i = 0; table.size() < lines; ++i) table.push_back(0x1000000000000000 | (i % 256) << 48 | (i * 7 % 256) << 40);
  return table;
}

volatile std::size_t sink;

template <typename Work> double seconds(Work work) {
  const auto start = std::chrono::steady_clock::now();
  for (int i = 0; i < calls; ++i) sink = work();
  return std::chrono::duration<double>(std::chrono::steady_clock::now() - start).count() / calls;
}

void row(const char *name, double best, double plain) {
  std::printf("%-28s %8.1f MB/s   %5.2f of the plain loop's time\n", name, 17.0 * lines / best / 1e6, best / plain);
}

} // namespace

int main() {
  const std::vector<uint64_t> image = largest_image();
  std::vector<uint64_t> table(lines);
  std::vector<uint8_t> bytes(17 * lines);
  if (fishdavit_write(image.data(), lines, bytes.data(), bytes.size()).number != 0) return 1;
  double read = 1, write = 1, judge = 1, plain_in = 1, plain_out = 1;
  for (int i = 0; i < rounds; ++i) {
    plain_in = std::min(plain_in, seconds([&] { return plain_read(bytes.data(), bytes.size(), table.data(), lines); }));
    read = std::min(read, seconds([&] { return fishdavit_read(bytes.data(), bytes.size(), table.data(), lines).line; }));
    plain_out = std::min(plain_out, seconds([&] { return plain_write(table.data(), lines, bytes.data()); }));
    write = std::min(write, seconds([&] { return fishdavit_write(table.data(), lines, bytes.data(), bytes.size()).line; }));
    judge = std::min(judge, seconds([&] { return fishdavit_judge(table.data(), lines).line; }));
  }
  std::printf("The largest image: %zu lines, %zu bytes; buffers are not cleared between calls.\n", lines, 17 * lines);
  row("plain loop, read", plain_in, plain_in);
  row("fishdavit_read, judging", read, plain_in);
  row("plain loop, write", plain_out, plain_out);
  row("fishdavit_write, judging", write, plain_out);
  std::printf("fishdavit_judge alone        %8.1f frames a microsecond\n", lines / judge / 1e6);
}
