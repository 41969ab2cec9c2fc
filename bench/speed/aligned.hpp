// The run and the plain interpreter four times each, the copies 16 bytes apart modulo 64: where code lies alone moves its time by up to a third,
// so both are measured in all four places.
#pragma once

#include "plain_interpreter.hpp"
#include "run_of.hpp"

using Interpret = decltype(plain_interpret);

extern "C" Run fishdavit_run_0, fishdavit_run_16, fishdavit_run_32, fishdavit_run_48;
extern "C" Interpret plain_interpret_0, plain_interpret_16, plain_interpret_32, plain_interpret_48;

constexpr std::array<Run *, 4> aligned_runs = {fishdavit_run_0, fishdavit_run_16, fishdavit_run_32, fishdavit_run_48};
constexpr std::array<Interpret *, 4> aligned_interpreters = {plain_interpret_0, plain_interpret_16, plain_interpret_32, plain_interpret_48};
