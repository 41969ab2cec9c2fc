#include "differ.hpp"

#include "fishdavit.h"

#include "../guarded.hpp"

#include <exception>
#include <vector>

namespace compare {

namespace {

constexpr uint32_t held = 7; // what lent cells, words and bytes hold before a call

using Found = std::optional<Difference>;

// Where the buffer doesn't hold the new items and then what it held before, or a guard is touched.
template <typename T, typename Items>
Found content_differs(const char *call, const char *name, const Guarded<T> &buffer, const Items &items) {
  if (!buffer.guards_stand()) return Difference{call, std::string("beside the ") + name + " something is touched"};
  for (std::size_t i = 0; i < buffer.size(); ++i) {
    const T due = i < items.size() ? static_cast<T>(items[i]) : static_cast<T>(held);
    if (buffer[i] == due) continue;
    return Difference{call, std::string(name) + " hold " + std::to_string(buffer[i]) + " at " + std::to_string(i) + ", not " +
                                std::to_string(due)};
  }
  return std::nullopt;
}

std::string says(const std::string &field, uint32_t library, const std::string &who, uint32_t other) {
  return field + ": the library says " + std::to_string(library) + ", " + who + " " + std::to_string(other);
}

Found verdicts_differ(const char *call, fishdavit_verdict library, const Verdict &other, const std::string &who) {
  if (library.number != other.number) return Difference{call, says("number", library.number, who, other.number)};
  if (library.line != other.line) return Difference{call, says("line", library.line, who, other.line)};
  return std::nullopt;
}

Found verdict(const char *call, fishdavit_verdict library, const Verdict &simulator, const std::optional<Verdict> &known) {
  if (const Found found = verdicts_differ(call, library, simulator, "the simulator")) return found;
  return known ? verdicts_differ(call, library, *known, "its maker") : std::nullopt;
}

Found answers_differ(const fishdavit_answer &l, const Answer &o, const std::string &who) {
  const std::array<const char *, 8> fields = {"number", "body", "place", "time", "instructions", "choices", "inputs", "threads"};
  const std::array<uint32_t, 8> library = {l.number, l.body, l.place, l.time, l.instructions, l.choices, l.inputs, l.threads};
  const std::array<uint32_t, 8> other = {o.number, o.body, o.place, o.time, o.instructions, o.choices, o.inputs, o.threads};
  for (std::size_t i = 0; i < fields.size(); ++i)
    if (library[i] != other[i]) return Difference{"run", says(fields[i], library[i], who, other[i])};
  return std::nullopt;
}

Found judge_differs(const Case &c, const Expected &expected) {
  auto table = lent(c.job.table);
  const fishdavit_verdict library = fishdavit_judge(table.data(), table.size());
  if (const Found found = verdict("judge", library, independent::judge(c.job.table), expected.judge)) return found;
  return content_differs("judge", "frames", table, c.job.table);
}

Found read_differs(const Case &c, const Expected &expected, Reached *reached) {
  auto bytes = lent(c.text);
  Guarded<uint64_t> words(c.word_room, held);
  const fishdavit_verdict library = fishdavit_read(bytes.data(), bytes.size(), words.data(), words.size());
  if (reached != nullptr && library.number < 24) ++reached->read[library.number];
  const independent::Read simulator = independent::read(c.text, c.word_room);
  if (const Found found = verdict("read", library, simulator.verdict, expected.read)) return found;
  if (const Found found = content_differs("read", "words", words, simulator.words)) return found;
  return content_differs("read", "bytes", bytes, c.text);
}

Found write_differs(const Case &c, const Expected &expected) {
  auto table = lent(c.job.table);
  Guarded<uint8_t> bytes(c.byte_room, held);
  const fishdavit_verdict library = fishdavit_write(table.data(), table.size(), bytes.data(), bytes.size());
  const independent::Written simulator = independent::write(c.job.table, c.byte_room);
  if (const Found found = verdict("write", library, simulator.verdict, expected.write)) return found;
  if (const Found found = content_differs("write", "bytes", bytes, simulator.bytes)) return found;
  return content_differs("write", "frames", table, c.job.table);
}

Found run_differs(const Case &c, const Expected &expected, Reached *reached) {
  const independent::Job &job = c.job;
  auto table = lent(job.table);
  auto choices = lent(job.choices);
  auto inputs = lent(job.inputs);
  Guarded<uint32_t> cells(c.cell_room, held);
  const fishdavit_answer library = fishdavit_run(table.data(), table.size(), choices.data(), choices.size(), inputs.data(), inputs.size(),
                                                 job.budget, cells.data(), cells.size());
  if (reached != nullptr && library.number < 24) ++reached->run[library.number];
  const independent::Outcome simulator = independent::run(job, c.cell_room);
  if (const Found found = answers_differ(library, simulator.answer, "the simulator")) return found;
  if (expected.run) {
    if (const Found found = answers_differ(library, *expected.run, "its maker")) return found;
  }
  if (const Found found = content_differs("run", "cells", cells, simulator.cells)) return found;
  if (const Found found = content_differs("run", "frames", table, job.table)) return found;
  if (const Found found = content_differs("run", "choices", choices, job.choices)) return found;
  return content_differs("run", "inputs", inputs, job.inputs);
}

} // namespace

Found difference(const Case &c, const Expected &expected, Reached *reached) try {
  if (const Found found = read_differs(c, expected, reached); found || c.text_only) return found;
  if (const Found found = judge_differs(c, expected)) return found;
  if (const Found found = write_differs(c, expected)) return found;
  return run_differs(c, expected, reached);
} catch (const std::exception &failure) { // a simulator with a planted wrong rule may leave its cells
  return Difference{"run", std::string("the simulator failed: ") + failure.what()};
}

} // namespace compare
