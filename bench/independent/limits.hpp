// The limits that document 01 sets on images and jobs.
#pragma once

#include <cstddef>
#include <cstdint>

namespace independent {

constexpr uint32_t most_threads = 16;
constexpr uint32_t most_events = 32;
constexpr uint32_t most_updates = 16;
constexpr uint32_t most_cells = 256;
constexpr uint32_t most_instructions = 1024;
constexpr std::size_t most_lines = 1 + 1 + most_threads + most_updates + most_instructions;
constexpr std::size_t most_choices = 4096;
constexpr std::size_t most_inputs = 1024;
constexpr std::size_t most_due_times = 48;
constexpr uint64_t last_time = 4294967295;

constexpr std::size_t line_bytes = 17; // sixteen digits and 0a

static_assert(most_lines == 1058, "an image has at most 1,058 lines");

} // namespace independent
