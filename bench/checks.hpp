// The checks of a program, counted, and the line that it closes with, which run_checks looks for.
#pragma once

#include <iostream>
#include <string>

class Checks {
public:
  // Counts a check; one that fails is told.
  void expect(bool holds, const std::string &what) {
    holds ? ++passed_ : ++failed_;
    if (!holds) std::cout << "FAILED: " << what << '\n';
  }

  // The same where a check that holds is told as well.
  void tell(bool holds, const std::string &what) {
    if (holds) std::cout << "ok: " << what << '\n';
    expect(holds, what);
  }

  int failed() const { return failed_; }

  // The closing line; the exit status.
  int close() const {
    std::cout << passed_ << " passed, " << failed_ << " failed\n";
    return failed_ == 0 ? 0 : 1;
  }

private:
  int passed_ = 0;
  int failed_ = 0;
};
