// Makes a case with a difference small.
#pragma once

#include "case.hpp"

#include <functional>

namespace compare {

// Deletes choices, inputs, instructions, threads and updates, and lowers the budget and the counts, as long as `differs` still holds.
// Where the image isn't well-formed, frames and bytes are deleted instead. At most so many smaller cases are tried.
Case reduced(Case c, const std::function<bool(const Case &)> &differs, int most_tries = 20000);

} // namespace compare
