// Events, threads, updates and time. The rules named in the comments are those of document 01's section on the kernel, in its order.
#pragma once

#include <cstddef>
#include <cstdint>
#include <optional>
#include <variant>
#include <vector>

namespace independent {

struct Nothing {};
struct DeltaPhase {};
struct DueTime {
  uint32_t time;
};
struct AnEvent {
  uint32_t number;
};

// What is to become of an event.
using Pending = std::variant<Nothing, DeltaPhase, DueTime>;

// What a thread waits for. A wait for time 0 is one for the delta phase.
using Waiting = std::variant<Nothing, AnEvent, DeltaPhase, DueTime>;

struct Event {
  Pending pending;
};

struct Thread {
  Waiting waiting;
  bool suspended = false;
  bool resume_pending = false;
  bool ended = false;
  uint32_t place = 0;
};

class Kernel {
public:
  Kernel(uint32_t thread_count, uint32_t event_count, uint32_t update_count)
      : threads(thread_count), events(event_count), requested(update_count) {}

  std::vector<Thread> threads;
  std::vector<Event> events;
  std::vector<bool> requested; // by update number
  uint32_t now = 0;

  bool is_runnable(uint32_t thread) const;
  uint32_t runnable_threads() const; // thread 0 as bit 0
  uint32_t living_threads() const;   // those not ended, likewise

  void wait_for_event(uint32_t thread, uint32_t event);
  void wait_for_time(uint32_t thread, uint32_t value); // may stop: 17, 23
  void notify_at_once(uint32_t event);
  void notify_after(uint32_t event, uint32_t delay); // may stop: 17, 23
  void suspend(uint32_t thread);
  void resume(uint32_t thread);

  void delta_phase();
  std::optional<uint32_t> least_due_time() const;
  void serve(uint32_t time); // moves the clock and does all that was to be done at that time

private:
  void trigger(uint32_t event);
  uint32_t due_time_after(uint32_t delay) const;
  void due_time_is_added() const;
  std::size_t due_times_standing() const;
};

} // namespace independent
