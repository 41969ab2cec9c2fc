// Judges the image files named on the command line: how a C++ program calls Fishdavit.
#include "fishdavit.h"

#include <fstream>
#include <iostream>
#include <iterator>
#include <string>
#include <vector>

static const char *const meaning[] = {"accepted", "line",  "header", "body", "op",
                                      "field",    "short", "extra",  "room"};

int main(int argc, char **argv) {
  std::vector<uint64_t> table(1058);
  for (int i = 1; i < argc; ++i) {
    std::ifstream file(argv[i], std::ios::binary);
    if (!file) {
      std::cerr << argv[i] << ": cannot be opened\n";
      return 2;
    }
    // The pointer of a string is valid even where the string is empty, as the interface asks; that of a vector may be null.
    const std::string text{std::istreambuf_iterator<char>(file), std::istreambuf_iterator<char>()};
    const auto verdict = fishdavit_read(reinterpret_cast<const uint8_t *>(text.data()), text.size(), table.data(), table.size());
    std::cout << argv[i] << ": " << verdict.number << ' ' << meaning[verdict.number]
              << (verdict.number == 0 ? ", frames: " : " at line ") << verdict.line << '\n';
  }
}
