#define SC_INCLUDE_DYNAMIC_PROCESSES
#include "native_loads.hpp"

#include "plain_interpreter.hpp"

using sc_core::wait;

NativeRing::NativeRing(const char *name, std::size_t threads) : NativeLoad(name), events_(threads) {
  for (std::size_t k = 0; k < threads; ++k) sc_core::sc_spawn([this, k] { turn(k); });
}

void NativeRing::turn(std::size_t k) {
  sc_core::sc_event &mine = events_[k];
  sc_core::sc_event &next = events_[(k + 1) % events_.size()];
  for (;;) {
    wait(mine);
    if (more()) next.notify(sc_core::SC_ZERO_TIME);
  }
}

NativeTimed::NativeTimed(const char *name, std::size_t threads) : NativeLoad(name) {
  for (std::size_t k = 0; k < threads; ++k) sc_core::sc_spawn([this, k] { wait_often(k); });
}

void NativeTimed::wait_often(std::size_t k) {
  const sc_core::sc_time period = sc_core::sc_time::from_value(period_of(k));
  for (;;) {
    wait(go_);
    while (more()) wait(period);
  }
}

NativeThousand::NativeThousand(const char *name, bool interpreted) : NativeLoad(name), body_(arithmetic_loop(rounds_a_wait)) {
  sc_core::sc_spawn([this, interpreted] { compute(interpreted); });
}

void NativeThousand::compute(bool interpreted) {
  for (;;) {
    wait(go_);
    do {
      if (interpreted)
        plain_interpret(body_.data(), static_cast<uint32_t>(body_.size()), 0xffffffff, cells_.data());
      else
        compiled();
      wait(sc_core::SC_ZERO_TIME);
    } while (more());
  }
}

// The arithmetic loop of plain_loads.hpp.
void NativeThousand::compiled() {
  Cells &c = cells_;
  c[2] = 1664525;
  c[3] = 1013904223;
  for (c[0] = rounds_a_wait; c[0] != 0; --c[0]) {
    c[4] = c[4] * c[2];
    c[4] = c[4] + c[3];
    c[5] = c[5] + c[4];
    c[6] = c[5] - c[0];
    c[7] = c[6] * c[5];
    c[8] = c[8] + c[7];
    c[9] = c[8] & c[3];
    c[10] = c[9] | c[6];
  }
}

NativeOneToMany::NativeOneToMany(const char *name, std::size_t threads) : NativeLoad(name) {
  for (std::size_t k = 1; k < threads; ++k) sc_core::sc_spawn([this] { wait_often(); });
  sc_core::sc_spawn([this] { notify_often(); });
}

void NativeOneToMany::notify_often() {
  for (;;) {
    wait(go_);
    while (more()) {
      one_.notify();
      wait(sc_core::SC_ZERO_TIME);
    }
  }
}

void NativeOneToMany::wait_often() {
  for (;;) {
    wait(one_);
    ++done_;
  }
}
