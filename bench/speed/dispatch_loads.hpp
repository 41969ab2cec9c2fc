// Loads of dispatches, each with the choices that carry it to its end by number 20.
#pragma once

#include "design.hpp"
#include "plain_loads.hpp"

#include <numeric>
#include <string>

constexpr std::size_t most_choices = 4096;

struct DispatchLoad {
  std::string name;
  std::vector<uint64_t> table;
  std::vector<uint8_t> choices;
};

// Each thread once, which is the beginning of every load.
inline std::vector<uint8_t> each_once(std::size_t threads) {
  std::vector<uint8_t> choices(threads);
  std::iota(choices.begin(), choices.end(), uint8_t{0});
  return choices;
}

// Thread k waits for event k and then notifies its neighbour's for the delta phase; thread 0 notifies first. One thread runs a delta cycle.
inline DispatchLoad delta_ring(std::string name, uint8_t threads) {
  Design design;
  design.main = {frame(0x68)};
  design.events = threads;
  for (uint8_t k = 0; k < threads; ++k) {
    const uint64_t notify = frame(0x63, (k + 1) % threads);
    const uint64_t wait = frame(0x60, k);
    design.threads.push_back(k == 0 ? Body{notify, wait, frame(0x40)} : Body{wait, notify, frame(0x40)});
  }
  std::vector<uint8_t> choices = each_once(threads);
  for (std::size_t i = 1; choices.size() < most_choices; ++i) choices.push_back(static_cast<uint8_t>(i % threads));
  return {std::move(name), table_of(design), std::move(choices)};
}

// Thread k waits for its period, over and over.
inline uint32_t period_of(std::size_t k) { return static_cast<uint32_t>(5 + 2 * k); }

inline DispatchLoad timed_waits(uint8_t threads) {
  Design design;
  for (uint8_t k = 0; k < threads; ++k) {
    design.main.push_back(frame(0x01, k, 0, 0, period_of(k)));
    design.threads.push_back({frame(0x61, 0, k), frame(0x40)});
  }
  design.main.push_back(frame(0x68));
  std::vector<uint8_t> choices = each_once(threads);
  for (uint32_t time = 1; choices.size() < most_choices; ++time)
    for (uint8_t k = 0; k < threads && choices.size() < most_choices; ++k)
      if (time % period_of(k) == 0) choices.push_back(k);
  return {"16 timed waits", table_of(design), std::move(choices)};
}

// One thread that runs a hundred rounds of the arithmetic loop's ten instructions and waits for the next delta phase.
constexpr uint32_t rounds_a_wait = 100;

inline Body thousand_body() {
  Body body = arithmetic_loop(rounds_a_wait);
  body.push_back(frame(0x61, 0, 255));
  body.push_back(frame(0x40));
  return body;
}

inline DispatchLoad thousand_instructions(const std::string &how) {
  Design design;
  design.main = {frame(0x68)};
  design.threads = {thousand_body()};
  return {"1,000 instructions a wait" + how, table_of(design), std::vector<uint8_t>(100)};
}

// Thread 0 notifies an event at once, for which all the others wait, and waits for the next delta phase.
inline DispatchLoad one_to_many(uint8_t threads) {
  Design design;
  design.main = {frame(0x68)};
  design.events = 1;
  design.threads.push_back({frame(0x62), frame(0x61), frame(0x40)});
  while (design.threads.size() < threads) design.threads.push_back({frame(0x60), frame(0x40)});
  std::vector<uint8_t> choices;
  for (uint8_t k = 1; k < threads; ++k) choices.push_back(k);
  for (std::size_t i = 0; choices.size() < most_choices; ++i) choices.push_back(static_cast<uint8_t>(i % threads));
  return {"one notify, 15 waiters", table_of(design), std::move(choices)};
}

// One thread that waits for the next delta phase over and over, among others that wait for good, and among events that nobody notifies.
inline DispatchLoad one_among(uint8_t threads, uint8_t events) {
  Design design;
  design.main = {frame(0x68)};
  design.events = events;
  design.threads.push_back({frame(0x61), frame(0x40)});
  while (design.threads.size() < threads) design.threads.push_back({frame(0x60)});
  std::vector<uint8_t> choices = each_once(threads);
  choices.resize(most_choices, 0);
  return {std::to_string(threads) + " threads, " + std::to_string(events) + " events", table_of(design), std::move(choices)};
}
