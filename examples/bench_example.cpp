// A bench of one's own: one design under two orders of its threads, each answer held to what is expected.
#include "fishdavit.h"

#include <cstdio>

int main() {
  // Two looms, each of which waits for the other's event: the header, the lengths of main and both looms, main's start, the looms.
  const uint64_t table[] = {0xa002020000000001, 0xa100000000000001, 0xa100000000000002, 0xa100000000000002, 0x6800000000000000,
                            0x6001000000000000, 0x6200000000000000, 0x6000000000000000, 0x6201000000000000};
  const uint8_t orders[2][2] = {{0, 1}, {1, 0}};
  const uint32_t inputs[1] = {0}; // none are taken, but the pointer must be valid
  uint32_t cells[256];
  int passed = 0;
  int failed = 0;
  for (const auto &choices : orders) {
    const fishdavit_answer a = fishdavit_run(table, 9, choices, 2, inputs, 0, 100, cells, 256);
    std::printf("number %u at time %u after %u instructions, threads left %x\n", a.number, a.time, a.instructions, a.threads);
    a.number == 0 && a.instructions == 3 && a.threads == 3 ? ++passed : ++failed;
  }
  std::printf("%d passed, %d failed\n", passed, failed);
  return failed == 0 ? 0 : 1;
}
