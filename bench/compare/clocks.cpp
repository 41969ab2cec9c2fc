// Stops 0, 10, 17 and 18 on purpose in runs in which time moves. The due times are drawn first, so that all answers are known.
#include "kinds.hpp"

#include <algorithm>

namespace compare {

namespace {

constexpr uint32_t no_body = 0xff;
constexpr uint32_t last_time = 0xffffffff;

// A thread that waits for some times, one after the other.
struct Waiter {
  std::vector<uint32_t> waits;
};

struct Dispatch {
  uint64_t time;
  uint64_t order; // among those of the same time, drawn
  uint8_t thread;
  bool last; // the one that ends the thread
};

Code waiting_code(const Waiter &w, uint32_t cell) {
  Code code;
  for (uint32_t wait : w.waits) code.insert(code.end(), {set(cell, wait), wait_time(cell)});
  return code;
}

std::vector<Dispatch> dispatches(Random &r, const std::vector<Waiter> &waiters) {
  std::vector<Dispatch> all;
  for (std::size_t k = 0; k < waiters.size(); ++k) {
    uint64_t time = 0;
    for (std::size_t i = 0; i <= waiters[k].waits.size(); ++i) {
      const bool last = i == waiters[k].waits.size();
      all.push_back({time, r.next(), static_cast<uint8_t>(k), last});
      if (!last) time += waiters[k].waits[i];
    }
  }
  std::sort(all.begin(), all.end(),
            [](const Dispatch &x, const Dispatch &y) { return x.time != y.time ? x.time < y.time : x.order < y.order; });
  return all;
}

uint32_t drawn_wait(Random &r) { return r.chance(50) ? r.between(1, 100000000) : r.between(1, 12); }

} // namespace

// Threads wait, and main has asked for events that free nobody. Every due time up to the limit is served; one above it is 10.
Made clock_scene(Random &r) {
  Plan plan(r.chance(100) ? 16 : r.between(0, 4), r.chance(100) ? 32 : r.below(4), 0, 64);
  std::vector<Waiter> waiters(plan.threads);
  std::vector<uint64_t> times = {0};
  Code &main = plan.bodies[0];
  for (uint32_t e = 0; e < plan.events; ++e) {
    if (r.chance(300)) continue;
    times.push_back(drawn_wait(r));
    const auto cell = 20 + e;
    main.insert(main.end(), {set(cell, static_cast<uint32_t>(times.back())), notify_after(e, cell)});
  }
  for (uint32_t k = 0; k < plan.threads; ++k) {
    for (uint32_t i = r.below(4); i > 0; --i) waiters[k].waits.push_back(drawn_wait(r));
    plan.bodies[1 + k] = waiting_code(waiters[k], k);
  }
  const std::vector<Dispatch> all = dispatches(r, waiters);
  for (const Dispatch &d : all) times.push_back(d.time);
  std::sort(times.begin(), times.end());
  // A limit at one of the times, just before it, or none at all.
  uint64_t limit = last_time;
  if (r.chance(600)) {
    limit = r.pick(times);
    if (limit > 0 && r.chance(500)) --limit;
    main.push_back(start_with(static_cast<uint32_t>(limit)));
  } else {
    main.push_back(r.chance(500) ? start() : start_with(last_time));
  }
  auto instructions = static_cast<uint32_t>(main.size());
  uint32_t threads = (1u << plan.threads) - 1, choices = 0;
  Case c = case_of(plan.table());
  for (const Dispatch &d : all) {
    c.job.choices.push_back(d.thread);
    if (d.time > limit) continue;
    ++choices;
    if (d.last) threads &= ~(1u << d.thread);
    else instructions += 2;
  }
  c.job.budget = instructions + r.below(2) * r.below(100);
  const auto time = static_cast<uint32_t>(*(std::upper_bound(times.begin(), times.end(), limit) - 1));
  return {c, {{}, {}, {}, Answer{times.back() > limit ? 10u : 0u, no_body, 0, time, instructions, choices, 0, threads}}};
}

// One thread waits for a time above 0 and then it, or an update, asks for one that is too late, or just not.
Made late_scene(Random &r) {
  const uint32_t now = r.chance(500) ? r.between(1, 50) : r.between(1, last_time);
  const bool late = r.chance(700);
  const uint32_t room = last_time - now; // what may be asked for just so
  if (!late && room == 0) return late_scene(r);
  const uint32_t asked = late ? (r.chance(500) ? room + 1 : r.between(room + 1, last_time)) : room;
  Plan plan(1, 2, r.between(1, 16), 8);
  Code &thread = plan.bodies[1];
  plan.bodies[0] = {set(0, now), set(1, asked), set(2, 1), start()};
  thread.push_back(wait_time(0));
  const uint32_t how = r.below(3);
  if (late && room > 0 && r.chance(500)) thread.push_back(notify_after(1, 2)); // an earlier one stays; 17 all the same
  uint32_t body = 1;
  if (how == 0) thread.push_back(wait_time(1));
  if (how == 1) thread.push_back(notify_after(1, 1));
  auto place = static_cast<uint32_t>(thread.size()) - 1;
  uint32_t instructions = 4 + place;
  if (how == 2) {
    const uint32_t update = r.below(plan.updates);
    thread.push_back(request(update));
    body = 2 + update;
    plan.bodies[body] = {make(0x02, 3, 1), notify_after(1, 1)};
    place = 1;
    instructions = 4 + static_cast<uint32_t>(thread.size()) + 1;
  }
  Case c = case_of(plan.table());
  c.job.choices = {0, 0, 0};
  c.job.budget = instructions + r.between(1, 3);
  const uint32_t threads = how == 2 ? 0 : 1; // the update comes after the thread's end
  if (late) return {c, {{}, {}, {}, Answer{17, body, place, now, instructions, 2, 0, threads}}};
  // The last time is served. A thread that waited for it is dispatched once more.
  return {c, {{}, {}, {}, Answer{0, no_body, 0, last_time, instructions + 1, how == 0 ? 3u : 2u, 0, 0}}};
}

// After a phase in which time has moved, main's kernel work is 18 and not 17, a second start is 18 too.
Made after_clock_scene(Random &r) {
  const uint32_t now = r.between(1, 1000);
  Plan plan(1, 1, 1, 8);
  static const std::vector<Frame> barred = {start(),    notify(0),  notify_after(0, 1), notify_after(0, 1), notify_after(0, 1),
                                            request(0), suspend(0), resume(0)};
  plan.bodies[0] = {set(0, now), set(1, r.chance(700) ? last_time : r.below(5)), start(), set(2, 7), r.pick(barred), set(3, 7)};
  plan.bodies[1] = {wait_time(0)};
  Case c = case_of(plan.table());
  c.job.choices = {0, 0};
  c.job.budget = r.between(5, 7);
  return {c, {{}, {}, {}, Answer{c.job.budget == 5 ? 22u : 18u, 0, 4, now, 5, 2, 0, 0}}};
}

// All 16 threads wait for a time and all 32 events pend for one: 48 due times. No more can be asked for, as every event and every
// thread has one; number 23 can't be reached. Replacing one adds none, and one that is too late is 17.
Made full_scene(Random &r) {
  Plan plan(16, 32, 1, 64);
  const bool late = r.chance(500);
  const uint32_t delay = r.between(2, 9);
  plan.bodies[0] = {set(0, 1), set(1, delay), set(2, late ? last_time : r.between(1, delay + 1)), start()};
  for (uint32_t k = 0; k < 16; ++k) plan.bodies[1 + k] = {wait_time(0), notify_after(2 * k, 1), notify_after(2 * k + 1, 1), wait_time(1)};
  plan.bodies[16].insert(plan.bodies[16].end() - 1, request(0));
  const uint32_t event = r.below(32);
  plan.bodies[17] = {set(3, 1), notify_after(event, 2)};
  Case c = case_of(plan.table());
  for (int round = 0; round < 3; ++round) {
    std::vector<uint8_t> order;
    for (uint8_t k = 0; k < 16; ++k) order.push_back(k);
    r.shuffle(order);
    c.job.choices.insert(c.job.choices.end(), order.begin(), order.end());
  }
  // 4 of main, 4 of each thread and the request, then the update's.
  c.job.budget = 100;
  if (late) return {c, {{}, {}, {}, Answer{17, 17, 1, 1, 4 + 64 + 1 + 1, 32, 0, 0xffff}}};
  return {c, {{}, {}, {}, Answer{0, no_body, 0, 1 + delay, 4 + 64 + 1 + 2, 48, 0, 0}}};
}

} // namespace compare
