// Runs a program on job files and gathers what it prints. A shell does the work: the standard library has no more for that.
#pragma once

#include <string>
#include <vector>

namespace compare {

struct Printed {
  std::string output, errors;
  int status;
};

// One run for each input, in a folder that is made anew. Throws std::runtime_error where the shell doesn't come to its end.
std::vector<Printed> run_program(const std::string &program, const std::vector<std::string> &inputs, const std::string &folder);

} // namespace compare
