#include "random_job.hpp"

#include <algorithm>
#include <numeric>

namespace {

// Cells 0 to 5 hold 0 to 5 from main's beginning on, as delays and operands; cell 6 traces the order of what happens. Cells from 7 on are
// free, except that from `counters` on each body that loops counts its rounds down in a cell of its own.
constexpr uint64_t constants = 6;
constexpr uint64_t trace = 6;
constexpr uint64_t free_cells = 7;
constexpr uint64_t counters = 24;

enum class Kind { main_before, thread, update, main_after };

class Maker {
public:
  explicit Maker(std::mt19937_64 &random) : random_(random) {}
  Job job();

private:
  uint64_t below(uint64_t n) { return random_() % n; }
  bool chance(uint64_t percent) { return below(100) < percent; }
  uint64_t between(uint64_t least, uint64_t most) { return least + below(most - least + 1); }
  uint64_t free_cell() { return between(trace, free_cells + 5); }
  uint64_t any_cell() { return below(free_cells + 6); }
  uint64_t delay_cell() { return chance(95) ? below(constants) : any_cell(); }

  uint64_t size(uint64_t often, uint64_t most);
  Body main();
  Body body(Kind kind, uint64_t number, uint64_t most);
  void loop(Body &body, uint64_t number);
  void add(Body &body, Kind kind, uint64_t number);
  void add_kernel(Body &body, Kind kind);
  void add_meeting(Body &body, Kind kind);
  void add_plain(Body &body);
  void add_trace(Body &body, uint64_t number);

  std::mt19937_64 &random_;
  Design design_;
  uint64_t threads_ = 0;
  uint64_t updates_ = 0;
};

// Mostly small, sometimes up to the most, sometimes 0.
uint64_t Maker::size(uint64_t often, uint64_t most) {
  if (chance(6)) return 0;
  return chance(10) ? between(1, most) : between(1, often);
}

// A value that changes with the order of what happens: three times itself and a number of the body's.
void Maker::add_trace(Body &body, uint64_t number) {
  body.push_back(frame(0x12, trace, trace, 3));
  body.push_back(frame(0x10, trace, trace, number % constants));
}

void Maker::add_plain(Body &body) {
  static constexpr uint64_t safe[] = {0x02, 0x10, 0x11, 0x12, 0x20, 0x21, 0x22, 0x28, 0x29, 0x2a, 0x2b, 0x2c, 0x2d, 0x2e};
  static constexpr uint64_t able_to_stop[] = {0x13, 0x14, 0x18, 0x19, 0x1a, 0x1b, 0x1c};
  const uint64_t what = below(100);
  if (what < 70) {
    const uint64_t op = safe[below(std::size(safe))];
    const bool one = op == 0x02 || op == 0x22 || op == 0x2e;
    body.push_back(frame(op, free_cell(), any_cell(), one ? 0 : any_cell()));
  } else if (what < 76) {
    body.push_back(frame(able_to_stop[below(std::size(able_to_stop))], free_cell(), any_cell(), between(1, constants)));
  } else if (what < 82) {
    body.push_back(frame(0x01, free_cell(), 0, 0, chance(50) ? below(8) : random_() & 0xffffffff));
  } else if (what < 86) {
    body.push_back(frame(0x03, free_cell()));
  } else if (what < 96) {
    body.push_back(frame(chance(50) ? 0x30 : 0x31, free_cell(), below(constants), between(4, 6), free_cells));
  } else {
    body.push_back(frame(chance(50) ? 0x50 : 0x51, 0, chance(70) ? between(1, constants - 1) : any_cell()));
  }
}

// Ops 60 and 61 in threads only, 62 and 64 to 66 not in updates.
void Maker::add_kernel(Body &body, Kind kind) {
  const uint64_t what = kind == Kind::update ? 40 : kind == Kind::thread ? below(100) : between(34, 99);
  const bool has_events = design_.events > 0;
  if (what < 18 && has_events) return body.push_back(frame(0x60, below(design_.events)));
  if (what < 34) return body.push_back(frame(0x61, 0, delay_cell()));
  if (what < 56 && has_events) return body.push_back(frame(0x63, below(design_.events), delay_cell()));
  if (kind == Kind::update) return add_plain(body);
  if (what < 70 && has_events) return body.push_back(frame(0x62, below(design_.events)));
  if (what < 80 && updates_ > 0) return body.push_back(frame(0x64, below(updates_)));
  if (threads_ > 0) body.push_back(frame(what < 87 ? 0x65 : 0x66, below(threads_)));
}

// What meets in one update and delta phase: several requests, or a suspend or resume beside them.
void Maker::add_meeting(Body &body, Kind kind) {
  if (threads_ > 0 && chance(50)) body.push_back(frame(chance(40) ? 0x65 : 0x66, below(threads_)));
  for (uint64_t n = between(1, 3); n > 0 && updates_ > 0; --n) body.push_back(frame(0x64, below(updates_)));
  add_kernel(body, kind);
}

void Maker::add(Body &body, Kind kind, uint64_t number) {
  const uint64_t what = below(100);
  if (what < (kind == Kind::thread ? 50 : 36)) return add_kernel(body, kind);
  if (what < 62 && kind != Kind::update) return add_meeting(body, kind);
  if (what < 85) return add_trace(body, number);
  add_plain(body);
}

// Some bodies go round a few times, some until the budget is used up; most wait once a round, so that others come to run.
void Maker::loop(Body &body, uint64_t number) {
  const uint64_t what = below(100);
  if (what >= 80) return;
  if (chance(75)) body.push_back(frame(0x61, 0, delay_cell()));
  if (what < 45) {
    body.push_back(frame(0x11, counters + number, counters + number, 1));
    body.push_back(frame(0x41, 0, counters + number, 0, 0));
  } else {
    body.push_back(frame(0x40));
  }
}

Body Maker::body(Kind kind, uint64_t number, uint64_t most) {
  Body body;
  for (uint64_t n = below(most + 1); body.size() < n;) add(body, kind, number);
  if (kind == Kind::thread && !body.empty()) {
    if (chance(15)) body.insert(body.begin() + static_cast<long>(below(body.size())), frame(0x41, 0, any_cell(), 0, between(0, body.size())));
    loop(body, number);
  }
  return body;
}

Body Maker::main() {
  Body main;
  for (uint64_t c = 1; c < constants; ++c) main.push_back(frame(0x01, c, 0, 0, c));
  for (uint64_t k = 0; k < threads_; ++k) main.push_back(frame(0x01, counters + k, 0, 0, between(1, 6)));
  if (chance(50))
    for (const uint64_t f : body(Kind::main_before, 0, 6)) main.push_back(f);
  if (chance(97)) main.push_back(chance(45) ? frame(0x67, 0, 0, 0, below(12)) : frame(0x68));
  if (chance(30))
    for (uint64_t n = below(4); n > 0; --n) add_plain(main);
  if (chance(5)) add_kernel(main, Kind::main_after);
  if (chance(3)) main.push_back(frame(0x68));
  return main;
}

Job Maker::job() {
  threads_ = size(6, 16);
  updates_ = size(4, 16);
  design_.events = size(4, 32);
  for (uint64_t k = 0; k < threads_; ++k) design_.threads.push_back(body(Kind::thread, k, 9));
  for (uint64_t u = 0; u < updates_; ++u) design_.updates.push_back(body(Kind::update, u + 1, 5));
  design_.main = main();
  design_.cells = counters + 16;
  Job job;
  job.design = design_;
  job.inputs.resize(below(8));
  for (uint32_t &input : job.inputs) input = static_cast<uint32_t>(chance(60) ? below(8) : random_());
  job.budget = static_cast<uint32_t>(chance(8) ? below(40) : between(100, 1500));
  job.order.resize(threads_);
  std::iota(job.order.begin(), job.order.end(), std::size_t{0});
  std::shuffle(job.order.begin(), job.order.end(), random_);
  return job;
}

} // namespace

Job random_job(std::mt19937_64 &random) { return Maker(random).job(); }
