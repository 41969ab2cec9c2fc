// A design as an image describes it, and the frames of an image taken one by one until a fault or the last due one.
#pragma once

#include "frame.hpp"
#include "ops.hpp"

#include <cstddef>
#include <cstdint>
#include <vector>

namespace independent {

struct Body {
  BodyKind kind;
  uint32_t length;
  std::vector<Frame> code;
};

struct Design {
  uint32_t threads = 0, events = 0, updates = 0, cells = 0;
  std::vector<Body> bodies; // main, then the threads, then the updates
};

// The reader and the judge both hand over frames in order; each frame is judged by what the ones before it have laid down.
class Inspector {
public:
  // Whether another frame is due.
  bool due() const;

  // Judges the next due frame: 0, or 2 to 5.
  uint32_t take(uint64_t number);

  const Design &design() const { return design_; }

private:
  uint32_t take_header(const Frame &f);
  uint32_t take_body(const Frame &f);
  uint32_t take_instruction(const Frame &f);
  bool fields_fit(const Op &op, const Frame &f, const Body &body) const;
  bool fits(Use use, uint32_t field, const Frame &f, const Body &body) const;
  BodyKind kind_of(std::size_t body) const;
  void skip_full_bodies();

  bool header_taken_ = false;
  std::size_t bodies_due_ = 0;
  uint64_t lengths_ = 0;    // of the bodies so far, together
  std::size_t filling_ = 0; // the body that the next instruction belongs to
  Design design_;
};

} // namespace independent
