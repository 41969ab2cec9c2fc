// Jobs that are gone through one by one, not drawn.
#pragma once

#include "case.hpp"

#include <functional>

namespace compare {

using Take = std::function<void(const Made &)>;

// A small image cut at every position; and with every byte at each place, one byte or line dropped, one doubled.
void cut_images(const Take &take);
void damaged_images(const Take &take);

// Each op of two values on every pair of values at the ends of the range.
void arithmetic_pairs(const Take &take);

// Document 01's lines of both sides that a program runs.
void both_sides(const Take &take);

} // namespace compare
