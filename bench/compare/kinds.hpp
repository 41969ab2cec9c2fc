// The kinds of random jobs. Each maker draws one job; where it knows answers beforehand, it says them.
#pragma once

#include "case.hpp"
#include "plan.hpp"
#include "random.hpp"

#include <string>
#include <vector>

namespace compare {

struct Kind {
  std::string name;
  uint32_t weight; // how often it is drawn, beside the others
  Made (*make)(Random &);
};

const std::vector<Kind> &kinds();

// rich.cpp: kernel activity, with choices that follow the runnable threads.
Plan rich_plan(Random &r);
Made rich(Random &r);
Made at_the_limits(Random &r);
Made over_the_limits(Random &r);

// arithmetic.cpp
Made arithmetic(Random &r);

// scenes.cpp: straight bodies, so that every moment of the run is known.
Made quiet_scene(Random &r);      // 0
Made no_start_scene(Random &r);   // 11
Made assert_scene(Random &r);     // 12
Made assume_scene(Random &r);     // 13
Made divisor_scene(Random &r);    // 14
Made range_scene(Random &r);      // 15
Made place_scene(Random &r);      // 16
Made after_scene(Random &r);      // 18
Made inputs_scene(Random &r);     // 19
Made choices_scene(Random &r);    // 20
Made bad_choice_scene(Random &r); // 21
Made budget_scene(Random &r);     // 22

// clocks.cpp: runs in which time moves, with every due time known.
Made clock_scene(Random &r);       // 0 or 10
Made late_scene(Random &r);        // 17, or just not
Made after_clock_scene(Random &r); // 18, at a time above 0
Made full_scene(Random &r);        // 48 due times stand: no 23, but 17

// faults.cpp: a well-formed image with one fault, or room that is too short.
Made line_fault(Random &r);   // 1
Made header_fault(Random &r); // 2
Made body_fault(Random &r);   // 3
Made op_fault(Random &r);     // 4
Made field_fault(Random &r);  // 5
Made short_image(Random &r);  // 6
Made extra_frames(Random &r); // 7
Made short_room(Random &r);   // 8
Made long_job(Random &r);     // 9

// damage.cpp: damage whose answer isn't known beforehand.
Made damaged_text(Random &r);
Made damaged_table(Random &r);

// The choices that a run of the case takes when each names a runnable thread, up to so many; now and then a bad one, where that is wanted.
void follow(Random &r, Case &c, std::size_t most, bool bad_ones);

} // namespace compare
