#include "job.hpp"

#include "hex.hpp"
#include "image.hpp"
#include "limits.hpp"
#include "run.hpp"

namespace independent {

namespace {

// Takes the job lines off the input, one by one.
class Lines {
public:
  explicit Lines(const std::string &input) : input_(input) {}

  // The next line without its 0a, or nothing where no 0a follows.
  std::optional<std::string> next() {
    const std::size_t end = input_.find('\n', at_);
    if (end == std::string::npos) return std::nullopt;
    const std::string line = input_.substr(at_, end - at_);
    at_ = end + 1;
    return line;
  }

  std::string rest() const { return input_.substr(at_); }

private:
  const std::string &input_;
  std::size_t at_ = 0;
};

// A line of numbers with so many digits each, at most `most` of them; nothing where it is missing, malformed or too long.
template <typename Number> std::optional<std::vector<Number>> numbers(Lines &lines, std::size_t digits, std::size_t most) {
  const std::optional<std::string> line = lines.next();
  if (!line || line->size() % digits != 0 || line->size() / digits > most) return std::nullopt;
  std::vector<Number> values;
  for (std::size_t at = 0; at < line->size(); at += digits) {
    const std::optional<uint64_t> value = hex_number(*line, at, digits);
    if (!value) return std::nullopt;
    values.push_back(static_cast<Number>(*value));
  }
  return values;
}

// The answer's eight numbers on one line and, where the run wasn't refused, a line for each cell.
std::string printed(const Outcome &outcome) {
  const Answer &a = outcome.answer;
  std::string text = hex_digits(a.number, 2) + ' ' + hex_digits(a.body, 2) + ' ' + hex_digits(a.place, 4) + ' ' + hex_digits(a.time, 8) +
                     ' ' + hex_digits(a.instructions, 8) + ' ' + hex_digits(a.choices, 4) + ' ' + hex_digits(a.inputs, 4) + ' ' +
                     hex_digits(a.threads, 4) + '\n';
  for (uint32_t cell : outcome.cells) text += hex_digits(cell, 8) + '\n';
  return text;
}

std::string refused(uint32_t number, uint32_t line) { return printed({{number, 0xff, line, 0, 0, 0, 0, 0}, {}}); }

} // namespace

// The section on the program: three job lines, then an image. The first job line that is missing or wrong decides, whatever the image
// holds.
std::string answer_job(const std::string &input) {
  Lines lines(input);
  const auto budget = numbers<uint32_t>(lines, 8, 1);
  if (!budget || budget->empty()) return refused(9, 0);
  const auto choices = numbers<uint8_t>(lines, 2, most_choices);
  if (!choices) return refused(9, 1);
  const auto inputs = numbers<uint32_t>(lines, 8, most_inputs);
  if (!inputs) return refused(9, 2);
  const Read image = read(lines.rest(), most_lines);
  if (image.verdict.number != 0) return refused(image.verdict.number, image.verdict.line);
  return printed(run({budget->front(), *choices, *inputs, image.words}, most_cells));
}

} // namespace independent
