// A table as an image's lines, and a job as the run program reads it.
#pragma once

#include <cstdint>
#include <cstdio>
#include <string>
#include <vector>

// The independent simulator's digits are among what is compared, so they aren't used here.
inline std::string hex_of(uint64_t number, int digits) {
  char text[17];
  std::snprintf(text, sizeof text, "%0*llx", digits, static_cast<unsigned long long>(number));
  return text;
}

inline std::string lines_of(const std::vector<uint64_t> &table) {
  std::string text;
  for (const uint64_t frame : table) text += hex_of(frame, 16) + '\n';
  return text;
}

inline std::string job_text(uint32_t budget, const std::vector<uint8_t> &choices, const std::vector<uint32_t> &inputs, const std::string &image) {
  std::string text = hex_of(budget, 8) + '\n';
  for (const uint8_t choice : choices) text += hex_of(choice, 2);
  text += '\n';
  for (const uint32_t input : inputs) text += hex_of(input, 8);
  return text + '\n' + image;
}
