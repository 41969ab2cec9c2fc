#include "on_kernel.hpp"

#include "plain_instruction.hpp"

#include <systemc>

#include <cstdio>
#include <deque>
#include <unistd.h>

namespace {

using sc_core::sc_time;

constexpr uint64_t last_time = 4294967295;

class Machine;

class Thread : public sc_core::sc_module {
public:
  SC_HAS_PROCESS(Thread);
  Thread(const sc_core::sc_module_name &name, Machine &machine, unsigned number) : sc_module(name), machine_(machine), number_(number) {
    SC_THREAD(run);
    handle = sc_core::sc_get_current_process_handle();
  }
  sc_core::sc_process_handle handle;

private:
  void run();
  Machine &machine_;
  unsigned number_;
};

class Update : public sc_core::sc_prim_channel {
public:
  Update(Machine &machine, unsigned number) : sc_prim_channel(sc_core::sc_gen_unique_name("update")), machine_(machine), number_(number) {}
  void request() { request_update(); }

private:
  void update() override;
  Machine &machine_;
  unsigned number_;
};

// Resumes what was to be resumed in the delta phase: this kernel runs methods before threads, so it is done before any thread runs.
class Resumer : public sc_core::sc_module {
public:
  SC_HAS_PROCESS(Resumer);
  Resumer(const sc_core::sc_module_name &name, Machine &machine) : sc_module(name), machine_(machine) {
    SC_METHOD(run);
    sensitive << due;
    dont_initialize();
  }
  sc_core::sc_event due;

private:
  void run();
  Machine &machine_;
};

class Machine {
public:
  Machine(const Job &job, Plant plant, Record &record);
  [[noreturn]] void run_main();
  void run_thread(unsigned number);
  void run_update(unsigned called);
  void resume_due();

private:
  enum class Stage { before, phase, quiet, limit };

  uint32_t obey(unsigned b, uint32_t place);
  void access(const Fields &f, unsigned b, uint32_t place);
  void take_input(const Fields &f, unsigned b, uint32_t place);
  void ask_kernel(const Fields &f, unsigned b, uint32_t place);
  void wait_event(unsigned b, unsigned event);
  void wait_time(unsigned b, uint32_t time);
  void notify_now(unsigned event);
  void notify_after(unsigned event, uint32_t delay);
  void request(unsigned update);
  void suspend(unsigned b, unsigned thread);
  void resume(unsigned thread);
  void start(const Fields &f, unsigned b, uint32_t place);
  bool runs_past(uint64_t limit);
  void look_at_time(uint32_t time, unsigned b, uint32_t place);
  void dispatched(unsigned thread) { record_.choices.at(record_.answer.choices++) = static_cast<uint8_t>(thread); }
  [[noreturn]] void stop(uint32_t number, unsigned body = 0xff, uint32_t place = 0);

  const Job &job_;
  const Plant plant_;
  Record &record_;
  std::vector<const Body *> bodies_;
  std::deque<sc_core::sc_event> events_;
  std::deque<Update> updates_;
  std::vector<Thread *> threads_;
  Resumer resumer_;
  std::vector<bool> requested_;
  std::vector<bool> to_resume_;
  std::vector<bool> remembered_;
  Stage stage_ = Stage::before;
};

void Thread::run() { machine_.run_thread(number_); }
void Update::update() { machine_.run_update(number_); }
void Resumer::run() { machine_.resume_due(); }

Machine::Machine(const Job &job, Plant plant, Record &record)
    : job_(job), plant_(plant), record_(record), bodies_(bodies_of(job.design)), events_(job.design.events),
      threads_(job.design.threads.size()), resumer_("resumer", *this), requested_(job.design.updates.size()), to_resume_(threads_.size()),
      remembered_(events_.size()) {
  for (unsigned u = 0; u < job.design.updates.size(); ++u) updates_.emplace_back(*this, u);
  for (const std::size_t k : job.order) threads_[k] = new Thread(("thread" + std::to_string(k)).c_str(), *this, static_cast<unsigned>(k));
}

void Machine::run_main() {
  for (uint32_t place = 0; place < bodies_[0]->size();) place = obey(0, place);
  if (stage_ == Stage::before) stop(11);
  stop(stage_ == Stage::quiet ? 0 : 10);
}

void Machine::run_thread(unsigned number) {
  dispatched(number);
  for (uint32_t place = 0; place < bodies_[number + 1]->size();) place = obey(number + 1, place);
}

// The kernel calls each requested channel once, the last requested first. Document 01 runs them by rising number: each call runs the first
// that is left.
void Machine::run_update(unsigned called) {
  unsigned u = called;
  if (plant_ != Plant::updates) {
    u = 0;
    while (!requested_.at(u)) ++u;
  }
  const unsigned b = static_cast<unsigned>(threads_.size()) + 1 + u;
  for (uint32_t place = 0; place < bodies_[b]->size();) place = obey(b, place);
  requested_[u] = false;
}

// The standard resumes at once, document 01 in the next delta phase, and a suspend in between drops it.
void Machine::resume_due() {
  for (std::size_t k = 0; k < threads_.size(); ++k) {
    if (to_resume_[k]) threads_[k]->handle.resume();
    to_resume_[k] = false;
  }
}

// The instruction of body b at a place; the place it goes on at.
uint32_t Machine::obey(unsigned b, uint32_t place) {
  const Fields f = fields_of((*bodies_[b])[place]);
  if (record_.answer.instructions == job_.budget) stop(22, b, place);
  const uint32_t x = record_.cells[f.a];
  if (const auto made = made_of(f, x, record_.cells[f.b])) {
    if (made->stop != 0) stop(made->stop, b, place);
    record_.cells[f.d] = made->value;
  } else if (f.op == 0x03) {
    take_input(f, b, place);
  } else if (f.op == 0x30 || f.op == 0x31) {
    access(f, b, place);
  } else if (f.op == 0x50 || f.op == 0x51) {
    if (x == 0) stop(f.op == 0x50 ? 12 : 13, b, place);
  } else if (f.op >= 0x60) {
    ask_kernel(f, b, place);
    return place + 1;
  }
  ++record_.answer.instructions;
  if (f.op == 0x40 || (f.op == 0x41 && x != 0)) return f.imm;
  return place + 1;
}

void Machine::take_input(const Fields &f, unsigned b, uint32_t place) {
  if (record_.answer.inputs == job_.inputs.size()) stop(19, b, place);
  record_.cells[f.d] = job_.inputs[record_.answer.inputs++];
}

void Machine::access(const Fields &f, unsigned b, uint32_t place) {
  const uint32_t at = record_.cells[f.a];
  if (at >= f.b) stop(16, b, place);
  if (f.op == 0x30)
    record_.cells[f.d] = record_.cells[f.imm + at];
  else
    record_.cells[f.imm + at] = record_.cells[f.d];
}

// An instruction that asks something of the kernel; it is counted before the kernel may take control away.
void Machine::ask_kernel(const Fields &f, unsigned b, uint32_t place) {
  if (b == 0 && f.op <= 0x66 && stage_ > Stage::phase) stop(18, b, place);
  const uint32_t time = record_.cells[f.a];
  if (f.op == 0x61 || f.op == 0x63) look_at_time(time, b, place);
  if (f.op >= 0x67) return start(f, b, place);
  ++record_.answer.instructions;
  switch (f.op) {
  case 0x60: return wait_event(b, f.d);
  case 0x61: return wait_time(b, time);
  case 0x62: return notify_now(f.d);
  case 0x63: return notify_after(f.d, time);
  case 0x64: return request(f.d);
  case 0x65: return suspend(b, f.d);
  default: return resume(f.d);
  }
}

// Times of document 01 end at 2^32 - 1; the kernel's go further. 48 due times can't stand while another is added: 32 events and 16 threads.
void Machine::look_at_time(uint32_t time, unsigned b, uint32_t place) {
  if (time != 0 && sc_core::sc_time_stamp().value() + time > last_time) stop(17, b, place);
}

void Machine::wait_event(unsigned b, unsigned event) {
  if (plant_ == Plant::remembered && remembered_[event]) {
    remembered_[event] = false;
    return;
  }
  sc_core::wait(events_[event]);
  dispatched(b - 1);
}

void Machine::wait_time(unsigned b, uint32_t time) {
  sc_core::wait(sc_time::from_value(time));
  dispatched(b - 1);
}

// Before the start the standard forbids it; document 01 lets it drop what pends.
void Machine::notify_now(unsigned event) {
  remembered_[event] = true;
  if (plant_ == Plant::notify_keeps) return events_[event].notify(sc_core::SC_ZERO_TIME);
  if (stage_ == Stage::before && plant_ != Plant::notify_before) return events_[event].cancel();
  events_[event].notify();
}

void Machine::notify_after(unsigned event, uint32_t delay) {
  if (plant_ == Plant::later_wins) events_[event].cancel();
  events_[event].notify(sc_time::from_value(delay));
}

void Machine::request(unsigned update) {
  requested_[update] = true;
  updates_[update].request();
}

// A thread that suspends itself comes back from here when it is dispatched again.
void Machine::suspend(unsigned b, unsigned thread) {
  to_resume_[thread] = false;
  if (plant_ == Plant::missed_while_suspended)
    threads_[thread]->handle.disable();
  else
    threads_[thread]->handle.suspend();
  if (b == thread + 1 && plant_ != Plant::missed_while_suspended) dispatched(thread);
}

void Machine::resume(unsigned thread) {
  if (plant_ == Plant::resume) return threads_[thread]->handle.resume();
  if (plant_ == Plant::missed_while_suspended) return threads_[thread]->handle.enable();
  to_resume_[thread] = true;
  resumer_.due.notify(sc_core::SC_ZERO_TIME);
}

void Machine::start(const Fields &f, unsigned b, uint32_t place) {
  if (stage_ != Stage::before) stop(18, b, place);
  ++record_.answer.instructions;
  stage_ = Stage::phase;
  bool past = false;
  if (f.op == 0x68)
    sc_core::sc_start();
  else
    past = runs_past(f.imm);
  stage_ = past ? Stage::limit : Stage::quiet;
}

// The phase under a limit, and whether something was due above it. sc_start with the limit as its time would put off the evaluation at the
// limit itself, run one delta cycle for the limit 0, and move time to the limit.
bool Machine::runs_past(uint64_t limit) {
  sc_core::sc_simcontext *kernel = sc_core::sc_get_curr_simcontext();
  if (plant_ == Plant::limit) {
    sc_core::sc_start(sc_time::from_value(limit), sc_core::SC_EXIT_ON_STARVATION);
    return sc_core::sc_pending_activity(kernel);
  }
  for (;;) {
    do
      sc_core::sc_start(sc_core::SC_ZERO_TIME);
    while (sc_core::sc_pending_activity_at_current_time(kernel));
    if (!sc_core::sc_pending_activity_at_future_time(kernel)) return false;
    const sc_time ahead = sc_core::sc_time_to_pending_activity(kernel);
    if (sc_core::sc_time_stamp().value() + ahead.value() > limit) return true;
    sc_core::sc_start(ahead);
  }
}

void Machine::stop(uint32_t number, unsigned body, uint32_t place) {
  record_.answer.number = number;
  record_.answer.body = body;
  record_.answer.place = place;
  record_.answer.time = static_cast<uint32_t>(sc_core::sc_time_stamp().value());
  for (std::size_t k = 0; k < threads_.size(); ++k)
    if (!threads_[k]->handle.terminated()) record_.answer.threads |= uint32_t{1} << k;
  record_.whole = true;
  _exit(0);
}

} // namespace

void run_on_kernel(const Job &job, Plant plant, Record &record) {
  sc_core::sc_report_handler::set_actions(sc_core::SC_WARNING, sc_core::SC_DO_NOTHING);
  sc_core::sc_report_handler::set_actions(sc_core::SC_ERROR, sc_core::SC_THROW);
  try {
    Machine machine(job, plant, record);
    machine.run_main();
  } catch (const sc_core::sc_report &report) {
    std::fprintf(stderr, "the reference kernel refuses: %s\n", report.what());
    _exit(1);
  }
}
