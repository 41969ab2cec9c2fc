// The run program over the independent simulator: a job on standard input, the answer on standard output. Useful beside target/bin/ivlrun
// when a difference is looked into.
#include "job.hpp"

#include <iostream>
#include <iterator>

int main() {
  const std::string input{std::istreambuf_iterator<char>(std::cin), std::istreambuf_iterator<char>()};
  std::cout << independent::answer_job(input);
}
