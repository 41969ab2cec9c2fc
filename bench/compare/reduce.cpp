#include "reduce.hpp"

#include "plan.hpp"

#include <algorithm>

namespace compare {

namespace {

using Differs = std::function<bool(const Case &)>;

class Reducer {
public:
  Reducer(Case c, const Differs &differs, int most_tries) : best_(std::move(c)), differs_(differs), most_tries_(most_tries) {}

  Case reduce() {
    bool smaller = true;
    while (smaller && tries_ < most_tries_) {
      smaller = drop_from(best_.job.choices, &independent::Job::choices);
      smaller = drop_from(best_.job.inputs, &independent::Job::inputs) || smaller;
      smaller = lower_budget() || smaller;
      smaller = (well_formed() ? shrink_design() : shrink_image()) || smaller;
    }
    return best_;
  }

private:
  bool better(const Case &c) {
    if (++tries_ > most_tries_ || !differs_(c)) return false;
    best_ = c;
    return true;
  }

  bool well_formed() const { return independent::judge(best_.job.table).number == 0 && best_.text == lines_of(best_.job.table); }

  // Drops runs of items: first long ones, then single ones.
  template <typename List> bool drop_from(const List &items, List independent::Job::*list) {
    bool smaller = false;
    for (std::size_t run = std::max<std::size_t>(items.size() / 2, 1); run > 0; run /= 2)
      for (std::size_t at = items.size(); at > 0;) {
        at -= std::min(at, run);
        if (at + run > items.size()) continue;
        Case c = best_;
        List &kept = c.job.*list;
        const auto from = kept.begin() + static_cast<std::ptrdiff_t>(at);
        kept.erase(from, from + static_cast<std::ptrdiff_t>(run));
        smaller = better(c) || smaller;
        at = std::min(at, items.size());
      }
    return smaller;
  }

  bool lower_budget() {
    bool smaller = false;
    for (uint32_t step = best_.job.budget; step > 0; step /= 2) {
      Case c = best_;
      if (step > c.job.budget) continue;
      c.job.budget -= step;
      smaller = better(c) || smaller;
    }
    return smaller;
  }

  bool try_plan(const Plan &plan) {
    Case c = best_;
    c.job.table = plan.table();
    c.text = lines_of(c.job.table);
    c.byte_room = std::max(c.byte_room, c.text.size());
    return better(c) || better(with_fitting_choices(c)) || better(with_less_budget(c));
  }

  // An instruction less may need one less of the budget to stop at the same place.
  static Case with_less_budget(Case c) {
    if (c.job.budget > 0) --c.job.budget;
    return c;
  }

  // Drops the choices that name threads which aren't runnable when their turn comes.
  static Case with_fitting_choices(Case c) {
    independent::Design design;
    if (independent::judge(c.job.table, &design).number != 0) return c;
    std::vector<uint8_t> kept;
    std::size_t next = 0;
    const auto chooser = [&](uint32_t runnable) -> std::optional<uint8_t> {
      while (next < c.job.choices.size() && (c.job.choices[next] > 15 || (runnable >> c.job.choices[next] & 1) == 0)) ++next;
      if (next == c.job.choices.size()) return std::nullopt;
      kept.push_back(c.job.choices[next++]);
      return kept.back();
    };
    independent::run(design, c.job.budget, chooser, c.job.inputs);
    c.job.choices = kept;
    return c;
  }

  Plan plan() const {
    independent::Design design;
    independent::judge(best_.job.table, &design);
    return Plan(design);
  }

  bool shrink_design() {
    bool smaller = false;
    for (std::size_t body = plan().bodies.size(); body-- > 0;)
      for (std::size_t place = plan().bodies[body].size(); place-- > 0;) smaller = drop_instruction(body, place) || smaller;
    for (uint32_t k = plan().threads; k-- > 0;) smaller = drop_thread(k) || smaller;
    for (uint32_t u = plan().updates; u-- > 0;) smaller = drop_update(u) || smaller;
    while (plan().events > 0 && lower(&Plan::events)) smaller = true;
    while (plan().cells > 1 && lower(&Plan::cells)) smaller = true;
    return smaller;
  }

  bool lower(uint32_t Plan::*count) {
    Plan p = plan();
    --(p.*count);
    return independent::judge(p.table()).number == 0 && try_plan(p);
  }

  bool drop_instruction(std::size_t body, std::size_t place) {
    Plan p = plan();
    Code &code = p.bodies[body];
    code.erase(code.begin() + static_cast<std::ptrdiff_t>(place));
    for (Frame &f : code)
      if ((f.op == 0x40 || f.op == 0x41) && f.imm > place) --f.imm;
    return try_plan(p);
  }

  // Gives up thread k: those above it move down by one, instructions that name it go.
  bool drop_thread(uint32_t k) {
    Plan p = plan();
    --p.threads;
    p.bodies.erase(p.bodies.begin() + 1 + k);
    renumber(p, k, {0x65, 0x66});
    Case c = best_;
    c.job.choices.clear();
    for (uint8_t choice : best_.job.choices)
      if (choice != k) c.job.choices.push_back(choice > k ? static_cast<uint8_t>(choice - 1) : choice);
    c.job.table = p.table();
    c.text = lines_of(c.job.table);
    return independent::judge(c.job.table).number == 0 && (better(c) || better(with_fitting_choices(c)));
  }

  bool drop_update(uint32_t u) {
    Plan p = plan();
    --p.updates;
    p.bodies.erase(p.bodies.begin() + 1 + p.threads + u);
    renumber(p, u, {0x64});
    return independent::judge(p.table()).number == 0 && try_plan(p);
  }

  static void renumber(Plan &p, uint32_t gone, const std::vector<uint32_t> &ops) {
    for (Code &code : p.bodies)
      for (Frame &f : code)
        if (std::find(ops.begin(), ops.end(), f.op) != ops.end() && f.d > gone) --f.d;
  }

  bool shrink_image() {
    bool smaller = false;
    for (std::size_t at = best_.job.table.size(); at-- > 0;) {
      if (at >= best_.job.table.size()) continue;
      Case c = best_;
      shorten_body_of(c.job.table, at);
      c.job.table.erase(c.job.table.begin() + static_cast<std::ptrdiff_t>(at));
      if (best_.text == lines_of(best_.job.table)) c.text = lines_of(c.job.table);
      smaller = better(c) || smaller;
    }
    for (std::size_t run : {std::size_t{17}, std::size_t{1}})
      for (std::size_t at = best_.text.size(); at-- > 0;) {
        if (at + run > best_.text.size()) continue;
        Case c = best_;
        c.text.erase(at, run);
        smaller = better(c) || smaller;
      }
    return smaller;
  }

  // Where the frame is an instruction by the lengths of the bodies, takes 1 off the length of its own.
  static void shorten_body_of(std::vector<uint64_t> &table, std::size_t at) {
    const Frame header = independent::frame_of(table[0]);
    const std::size_t bodies = 1 + header.d + header.b;
    std::size_t end = 1 + bodies;
    for (std::size_t i = 1; i <= bodies && i < table.size() && end <= at; ++i) {
      const uint32_t length = independent::frame_of(table[i]).imm;
      end += length;
      if (at < end && length > 0) --table[i];
    }
  }

  Case best_;
  const Differs &differs_;
  const int most_tries_;
  int tries_ = 0;
};

} // namespace

Case reduced(Case c, const Differs &differs, int most_tries) { return Reducer(std::move(c), differs, most_tries).reduce(); }

} // namespace compare
