#include "kernel.hpp"

#include "arithmetic.hpp"
#include "limits.hpp"

#include <algorithm>

namespace independent {

namespace {

template <typename State, typename Variant> bool is(const Variant &v) { return std::holds_alternative<State>(v); }

// The due time of a pending event or a waiting thread, if it has one.
template <typename Variant> std::optional<uint32_t> due_time(const Variant &v) {
  const auto *const due = std::get_if<DueTime>(&v);
  return due == nullptr ? std::nullopt : std::optional<uint32_t>(due->time);
}

bool waits_for(const Thread &t, uint32_t event) {
  const auto *const awaited = std::get_if<AnEvent>(&t.waiting);
  return awaited != nullptr && awaited->number == event;
}

} // namespace

// The kernel's first rule: three things keep a thread from running, namely its end, a wait and a suspension.
bool Kernel::is_runnable(uint32_t thread) const {
  const Thread &t = threads[thread];
  return !t.ended && is<Nothing>(t.waiting) && !t.suspended;
}

uint32_t Kernel::runnable_threads() const {
  uint32_t mask = 0;
  for (uint32_t k = 0; k < threads.size(); ++k)
    if (is_runnable(k)) mask |= 1u << k;
  return mask;
}

uint32_t Kernel::living_threads() const {
  uint32_t mask = 0;
  for (uint32_t k = 0; k < threads.size(); ++k)
    if (!threads[k].ended) mask |= 1u << k;
  return mask;
}

void Kernel::wait_for_event(uint32_t thread, uint32_t event) { threads[thread].waiting = AnEvent{event}; }

// The rule on waits for a time: 0 lasts until the coming delta phase, anything else has a due time counted from now.
void Kernel::wait_for_time(uint32_t thread, uint32_t value) {
  if (value == 0) {
    threads[thread].waiting = DeltaPhase{};
    return;
  }
  const uint32_t due = due_time_after(value);
  due_time_is_added();
  threads[thread].waiting = DueTime{due};
}

// The rule on events, its immediate case: the pending notification is gone, and those who wait now are freed now.
void Kernel::notify_at_once(uint32_t event) {
  events[event].pending = Nothing{};
  trigger(event);
}

// The rule on events, its delayed case: of two notifications the sooner one counts, and none is sooner than the delta phase, which delay 0
// asks for.
void Kernel::notify_after(uint32_t event, uint32_t delay) {
  Pending &pending = events[event].pending;
  const std::optional<uint32_t> standing = due_time(pending);
  if (delay == 0) {
    pending = DeltaPhase{};
    return;
  }
  const uint32_t due = due_time_after(delay);
  if (is<DeltaPhase>(pending)) return;
  if (standing && *standing <= due) return;
  if (!standing) due_time_is_added(); // one that takes the place of another needs no room
  pending = DueTime{due};
}

// The rule on suspension: immediate, and it undoes a resume that hasn't acted yet. Threads past their end are left alone.
void Kernel::suspend(uint32_t thread) {
  Thread &t = threads[thread];
  if (t.ended) return;
  t.suspended = true;
  t.resume_pending = false;
}

// The rule on resumption: only a suspended thread can be resumed, and it stays suspended until the coming delta phase.
void Kernel::resume(uint32_t thread) {
  Thread &t = threads[thread];
  if (t.ended) return;
  if (!t.suspended) return;
  t.resume_pending = true;
}

// The delta phase has three kinds of work: events that pend for it, waits for 0, and resumes. None of them sees what another one does.
void Kernel::delta_phase() {
  for (uint32_t e = 0; e < events.size(); ++e) {
    if (!is<DeltaPhase>(events[e].pending)) continue;
    events[e].pending = Nothing{};
    trigger(e);
  }
  for (Thread &t : threads) {
    if (is<DeltaPhase>(t.waiting)) t.waiting = Nothing{};
    if (t.resume_pending) t.suspended = t.resume_pending = false;
  }
}

// The rule on time: which due time comes next, if there is any. Suspended threads have theirs too.
std::optional<uint32_t> Kernel::least_due_time() const {
  std::optional<uint32_t> least;
  const auto consider = [&least](std::optional<uint32_t> due) {
    if (due && (!least || *due < *least)) least = due;
  };
  for (const Event &e : events) consider(due_time(e.pending));
  for (const Thread &t : threads) consider(due_time(t.waiting));
  return least;
}

void Kernel::serve(uint32_t time) {
  now = time;
  for (uint32_t e = 0; e < events.size(); ++e) {
    if (due_time(events[e].pending) != time) continue;
    events[e].pending = Nothing{};
    trigger(e);
  }
  for (Thread &t : threads)
    if (due_time(t.waiting) == time) t.waiting = Nothing{};
}

// The rule on triggers: nobody waits for this event any more, and being suspended is no reason to miss it.
void Kernel::trigger(uint32_t event) {
  for (Thread &t : threads)
    if (waits_for(t, event)) t.waiting = Nothing{};
}

// Number 17: the clock has no such time.
uint32_t Kernel::due_time_after(uint32_t delay) const {
  const uint64_t due = uint64_t{now} + delay;
  if (due > last_time) throw Stop{17};
  return static_cast<uint32_t>(due);
}

// Number 23: as many due times stand as there may be.
void Kernel::due_time_is_added() const {
  if (due_times_standing() >= most_due_times) throw Stop{23};
}

std::size_t Kernel::due_times_standing() const {
  const auto pends = [](const Event &e) { return is<DueTime>(e.pending); };
  const auto waits = [](const Thread &t) { return is<DueTime>(t.waiting); };
  return static_cast<std::size_t>(std::count_if(events.begin(), events.end(), pends) +
                                  std::count_if(threads.begin(), threads.end(), waits));
}

} // namespace independent
