#include "run.hpp"

#include "arithmetic.hpp"
#include "image.hpp"
#include "kernel.hpp"
#include "limits.hpp"

namespace independent {

namespace {

constexpr uint32_t no_body = 0xff;
constexpr uint32_t quiet = 0, limit_passed = 10, no_start = 11;

// Thrown where the evaluation stops the run, not an instruction: 20, 21.
struct BadChoice {
  uint32_t number;
};

class Machine {
public:
  Machine(const Design &design, uint32_t budget, const Chooser &chooser, const std::vector<uint32_t> &inputs)
      : design_(design), budget_(budget), chooser_(chooser), inputs_(inputs), kernel_(design.threads, design.events, design.updates),
        cells_(design.cells, 0) {}

  Outcome run();

private:
  uint32_t run_main();
  uint32_t phase(uint32_t limit);
  void evaluation();
  void dispatch(uint32_t thread);
  void update_phase();
  void run_update(uint32_t update);
  std::optional<uint32_t> time_phase(uint32_t limit);

  uint32_t step(uint32_t body, uint32_t place);
  void start(const Frame &f);
  uint32_t obey(const Frame &f, uint32_t body, uint32_t place);
  void obey_kernel(const Frame &f, uint32_t body);
  uint32_t next_input();
  uint32_t &cell_of_region(const Frame &f);
  void holds(uint32_t value, uint32_t number) const;
  Answer answer(uint32_t number, uint32_t body, uint32_t place) const;

  const Design &design_;
  const uint32_t budget_;
  const Chooser &chooser_;
  const std::vector<uint32_t> &inputs_;

  Kernel kernel_;
  std::vector<uint32_t> cells_; // all 0 when the run begins
  uint32_t completed_ = 0, accepted_ = 0, taken_ = 0;
  std::optional<uint32_t> phase_end_; // 0 or 10, once there was a phase
  uint32_t body_ = 0, place_ = 0;     // of the instruction being carried out
};

Outcome Machine::run() {
  try {
    const uint32_t number = run_main();
    return {answer(number, no_body, 0), cells_};
  } catch (const BadChoice &bad) {
    return {answer(bad.number, no_body, 0), cells_};
  } catch (const Stop &stop) {
    return {answer(stop.number, body_, place_), cells_};
  }
}

// Main up to its end. How the phase ended is told only then; 11 says that there was none.
uint32_t Machine::run_main() {
  uint32_t place = 0;
  while (place < design_.bodies[0].length) place = step(0, place);
  return phase_end_.value_or(no_start);
}

// The rules on start, evaluation and time together. The phase begins with updates and a delta phase. Then rounds of evaluation, updates and
// delta phase follow each other, and between them time moves until somebody can run.
uint32_t Machine::phase(uint32_t limit) {
  update_phase();
  kernel_.delta_phase();
  for (;;) {
    evaluation();
    update_phase();
    kernel_.delta_phase();
    while (kernel_.runnable_threads() == 0) {
      const std::optional<uint32_t> end = time_phase(limit);
      if (end) return *end;
    }
  }
}

// The rule on evaluation: a choice for each dispatch, until nobody can run. 20 and 21 are found here.
void Machine::evaluation() {
  for (uint32_t runnable = kernel_.runnable_threads(); runnable != 0; runnable = kernel_.runnable_threads()) {
    const std::optional<uint8_t> choice = chooser_(runnable);
    if (!choice) throw BadChoice{20};
    if (*choice >= design_.threads || !kernel_.is_runnable(*choice)) throw BadChoice{21};
    ++accepted_;
    dispatch(*choice);
  }
}

// The rule on dispatches. After an instruction that made the thread wait or suspend itself it stands at the next place, which may be its
// end; then it takes another dispatch to end it.
void Machine::dispatch(uint32_t thread) {
  Thread &t = kernel_.threads[thread];
  const uint32_t length = design_.bodies[thread + 1].length;
  while (t.place < length) {
    t.place = step(thread + 1, t.place);
    if (!kernel_.is_runnable(thread)) return;
  }
  t.ended = true;
}

// The rule on updates: lowest number first, and a request is used up by one run.
void Machine::update_phase() {
  for (uint32_t u = 0; u < design_.updates; ++u)
    if (kernel_.requested[u]) run_update(u);
}

void Machine::run_update(uint32_t update) {
  const uint32_t body = 1 + design_.threads + update;
  uint32_t place = 0;
  while (place < design_.bodies[body].length) place = step(body, place);
  kernel_.requested[update] = false;
}

// The rule on time: the number with which the phase ends, or nothing if it goes on. The limit itself still belongs to the phase.
std::optional<uint32_t> Machine::time_phase(uint32_t limit) {
  const std::optional<uint32_t> due = kernel_.least_due_time();
  if (!due) return quiet;
  if (*due > limit) return limit_passed;
  kernel_.serve(*due);
  return std::nullopt;
}

// One instruction; what is answered is the place after it. The paragraph on instructions orders the stops: budget, then 18, then those of
// the op. A stop is thrown before anything is changed or counted.
uint32_t Machine::step(uint32_t body, uint32_t place) {
  body_ = body;
  place_ = place;
  const Frame &f = design_.bodies[body].code[place];
  const bool after_the_phase = body == 0 && phase_end_ && f.op >= 0x62 && f.op <= 0x68;
  if (completed_ == budget_) throw Stop{22};
  if (after_the_phase) throw Stop{18};
  if (f.op == 0x67 || f.op == 0x68) {
    start(f);
    return place + 1;
  }
  const uint32_t next = obey(f, body, place);
  ++completed_;
  return next;
}

// The rule on start: it is counted before anything of the phase happens.
void Machine::start(const Frame &f) {
  const uint32_t limit = f.op == 0x67 ? f.imm : static_cast<uint32_t>(last_time); // no due time is above the last one
  ++completed_;
  phase_end_ = phase(limit);
}

uint32_t Machine::obey(const Frame &f, uint32_t body, uint32_t place) {
  switch (f.op) {
  case 0x01: cells_[f.d] = f.imm; break;
  case 0x03: cells_[f.d] = next_input(); break;
  case 0x30: cells_[f.d] = cell_of_region(f); break;
  case 0x31: cell_of_region(f) = cells_[f.d]; break;
  case 0x40: return f.imm;
  case 0x41: return cells_[f.a] != 0 ? f.imm : place + 1;
  case 0x50: holds(cells_[f.a], 12); break;
  case 0x51: holds(cells_[f.a], 13); break;
  default:
    if (f.op >= 0x60) obey_kernel(f, body);
    else cells_[f.d] = compute(f.op, cells_[f.a], cells_[f.b]);
  }
  return place + 1;
}

void Machine::obey_kernel(const Frame &f, uint32_t body) {
  switch (f.op) {
  case 0x60: kernel_.wait_for_event(body - 1, f.d); break;
  case 0x61: kernel_.wait_for_time(body - 1, cells_[f.a]); break;
  case 0x62: kernel_.notify_at_once(f.d); break;
  case 0x63: kernel_.notify_after(f.d, cells_[f.a]); break;
  case 0x64: kernel_.requested[f.d] = true; break;
  case 0x65: kernel_.suspend(f.d); break;
  case 0x66: kernel_.resume(f.d); break;
  }
}

// Number 19: there is no further input.
uint32_t Machine::next_input() {
  if (taken_ == inputs_.size()) throw Stop{19};
  return inputs_[taken_++];
}

// The cell that a load or store means: a's value counts from cell imm, and must stay inside the b cells from there; number 16 otherwise.
uint32_t &Machine::cell_of_region(const Frame &f) {
  const uint32_t place = cells_[f.a];
  if (place >= f.b) throw Stop{16};
  return cells_.at(f.imm + place);
}

// Asserts and assumes hold for every value but 0.
void Machine::holds(uint32_t value, uint32_t number) const {
  if (value == 0) throw Stop{number};
}

Answer Machine::answer(uint32_t number, uint32_t body, uint32_t place) const {
  return {number, body, place, kernel_.now, completed_, accepted_, taken_, kernel_.living_threads()};
}

Outcome refusal(uint32_t number, uint32_t line) { return {{number, no_body, line, 0, 0, 0, 0, 0}, {}}; }

} // namespace

Outcome run(const Design &design, uint32_t budget, const Chooser &chooser, const std::vector<uint32_t> &inputs) {
  return Machine(design, budget, chooser, inputs).run();
}

// The paragraph on refusals, for the run: first the job's lists, then the room for cells, then the table.
Outcome run(const Job &job, std::size_t room_in_cells) {
  if (job.choices.size() > most_choices) return refusal(9, 1);
  if (job.inputs.size() > most_inputs) return refusal(9, 2);
  if (room_in_cells < most_cells) return refusal(8, 0);
  Design design;
  const Verdict verdict = judge(job.table, &design);
  if (verdict.number != 0) return refusal(verdict.number, verdict.line);
  std::size_t next = 0;
  const Chooser given = [&](uint32_t) { return next < job.choices.size() ? std::optional<uint8_t>(job.choices[next++]) : std::nullopt; };
  return run(design, job.budget, given, job.inputs);
}

} // namespace independent
