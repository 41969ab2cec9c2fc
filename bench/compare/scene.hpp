// A design whose run is known beforehand, moment by moment: bodies without branches, each thread dispatched once, in a drawn order.
// Cell 0 always holds 0, cells 1 to 7 are for the instructions that a stop needs, noise goes to the cells from 8 on.
#pragma once

#include "case.hpp"
#include "plan.hpp"
#include "random.hpp"

#include <cstdint>
#include <vector>

namespace compare {

// An instruction of the run, and how the run stands when it is due.
struct Moment {
  uint32_t body, place;
  uint32_t choices, inputs, threads;
};

// Where an instruction may be put.
enum class Where { main_before, main_after, thread, update };

class Scene {
public:
  explicit Scene(Random &r);

  // Puts the code at a drawn place of a body of that kind, among the noise, so that the run comes by there. False where the scene has no
  // such body. The last instruction of the code stops the run, and `stop_body`, `stop_place` name it.
  bool put(Random &r, Where where, const Code &code);

  // Drops main's start and all after it.
  void without_start();

  // The whole run in order, or up to the end of so many dispatches.
  std::vector<Moment> moments(std::size_t dispatches) const;
  std::vector<Moment> moments() const { return moments(order.size()); }

  // How the run stands when its instructions are all done.
  Moment after(std::size_t dispatches) const;

  // The inputs that the run takes up to a stop, and no more.
  Case to_case(Random &r, std::size_t inputs) const;

  Plan plan;
  std::vector<uint8_t> order; // of the dispatches
  uint32_t stop_body = 0, stop_place = 0;

private:
  Code noise(Random &r, BodyKind kind, bool after_the_phase) const;
  Frame noise_plain(Random &r) const;
  void settle();
  std::vector<Moment> walk(std::size_t dispatches, Moment &now) const;

  std::size_t start_place_ = 0; // in main
  bool started_ = true;
};

} // namespace compare
