#include "kinds.hpp"

namespace compare {

const std::vector<Kind> &kinds() {
  static const std::vector<Kind> all = {
      {"rich kernel activity", 900, rich},
      {"arithmetic at the ends of the range", 300, arithmetic},
      {"designs at the limits", 5, at_the_limits},
      {"designs over the limits", 20, over_the_limits},
      {"damaged text", 150, damaged_text},
      {"damaged tables", 150, damaged_table},
      {"0 on purpose: straight bodies", 20, quiet_scene},
      {"0 and 10 on purpose: known due times", 60, clock_scene},
      {"1 on purpose", 20, line_fault},
      {"2 on purpose", 20, header_fault},
      {"3 on purpose", 20, body_fault},
      {"4 on purpose", 20, op_fault},
      {"5 on purpose", 60, field_fault},
      {"6 on purpose", 20, short_image},
      {"7 on purpose", 20, extra_frames},
      {"8 on purpose", 20, short_room},
      {"9 on purpose", 4, long_job},
      {"11 on purpose", 20, no_start_scene},
      {"12 on purpose", 20, assert_scene},
      {"13 on purpose", 20, assume_scene},
      {"14 on purpose", 20, divisor_scene},
      {"15 on purpose", 20, range_scene},
      {"16 on purpose", 20, place_scene},
      {"17 on purpose, and the last time", 20, late_scene},
      {"18 on purpose", 20, after_scene},
      {"18 on purpose, after time has moved", 20, after_clock_scene},
      {"19 on purpose", 20, inputs_scene},
      {"20 on purpose", 20, choices_scene},
      {"21 on purpose", 20, bad_choice_scene},
      {"22 on purpose", 40, budget_scene},
      {"48 due times: 17 and no 23", 20, full_scene},
  };
  return all;
}

} // namespace compare
