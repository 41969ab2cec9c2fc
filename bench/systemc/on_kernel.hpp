// A job on the reference kernel: each thread an SC_THREAD, each event an sc_event, each update an sc_prim_channel.
#pragma once

#include "job.hpp"

#include <string>

// A rule to break on purpose, to see that a difference is found. The first four drop an adaptation to document 01.
enum class Plant { none, updates, resume, limit, notify_before, later_wins, missed_while_suspended, notify_keeps, remembered };

// Runs the job in this process, which can do it once, writes the record and ends the process.
[[noreturn]] void run_on_kernel(const Job &job, Plant plant, Record &record);
