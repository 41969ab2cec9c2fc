// The same loads as threads written in C++ for the SystemC kernel.
#pragma once

#include "dispatch_loads.hpp"
#include "run_of.hpp"

#include <systemc>

// A load that rests until it is asked for dispatches. All loads stand in one simulation; those that rest cost the kernel nothing.
class NativeLoad : public sc_core::sc_module {
public:
  // Runs for about so many dispatches; how many there were.
  uint64_t run(uint64_t dispatches) {
    left_ = dispatches;
    done_ = 0;
    begin();
    sc_core::sc_start();
    return done_;
  }

protected:
  explicit NativeLoad(const char *name) : sc_module(sc_core::sc_module_name(name)) {}
  virtual void begin() = 0;

  // Counts a dispatch; whether more are wanted.
  bool more() { return ++done_ < left_; }

  uint64_t left_ = 0;
  uint64_t done_ = 0;
};

class NativeRing : public NativeLoad {
public:
  NativeRing(const char *name, std::size_t threads);

private:
  void begin() override { events_[0].notify(sc_core::SC_ZERO_TIME); }
  void turn(std::size_t k);
  std::vector<sc_core::sc_event> events_;
};

class NativeTimed : public NativeLoad {
public:
  NativeTimed(const char *name, std::size_t threads);

private:
  void begin() override { go_.notify(sc_core::SC_ZERO_TIME); }
  void wait_often(std::size_t k);
  sc_core::sc_event go_;
};

// The thousand instructions as compiled C++, or by the plain interpreter.
class NativeThousand : public NativeLoad {
public:
  NativeThousand(const char *name, bool interpreted);

private:
  void begin() override { go_.notify(sc_core::SC_ZERO_TIME); }
  void compute(bool interpreted);
  void compiled();
  sc_core::sc_event go_;
  Body body_;
  Cells cells_ = {};
};

class NativeOneToMany : public NativeLoad {
public:
  NativeOneToMany(const char *name, std::size_t threads);

private:
  void begin() override { go_.notify(sc_core::SC_ZERO_TIME); }
  void notify_often();
  void wait_often();
  sc_core::sc_event go_;
  sc_core::sc_event one_;
};
