#include "job_files.hpp"

#include "drawn.hpp"
#include "plan.hpp"

namespace compare {

namespace {

const std::string looms_lines = "00000064\n0001\n\n";
const std::string looms_image = "a002020000000001\na100000000000001\na100000000000002\na100000000000002\n6800000000000000\n"
                                "6001000000000000\n6200000000000000\n6000000000000000\n6201000000000000\n";
const std::string looms_printed = "00 ff 0000 00000000 00000003 0002 0000 0003\n00000000\n";

std::string refused(uint32_t number, uint32_t line) {
  return hex_of(number, 2) + " ff " + hex_of(line, 4) + " 00000000 00000000 0000 0000 0000\n";
}

std::string digits(Random &r, std::size_t count) {
  std::string text;
  while (text.size() < count) text += "0123456789abcdef"[r.below(16)];
  return text;
}

// A line with a number of digits that doesn't fit, a byte that is no digit, or, for choices and inputs, too many of them.
std::string bad_line(Random &r, uint32_t line) {
  static const std::string odd("ABCDEFgx /:`@\r\t\0-+,\xff", 20);
  const std::size_t each = line == 1 ? 2 : 8;
  const std::size_t fits = line == 0 ? 8 : each * r.below(8);
  const uint32_t how = r.below(line == 0 ? 3 : 4);
  if (how == 0) return digits(r, fits + r.between(1, static_cast<uint32_t>(each) - 1));
  if (how == 1) return line == 0 ? digits(r, r.chance(500) ? 0 : 16) : digits(r, fits + 1);
  if (how == 2) {
    std::string text = digits(r, fits == 0 ? each : fits);
    text[r.below(text.size())] = odd[r.below(odd.size())];
    return text;
  }
  return digits(r, each * ((line == 1 ? 4096 : 1024) + (r.chance(700) ? 1 : r.between(1, 100))));
}

// Every count at its limit. Main takes all but one of the inputs and starts; each thread ends at its first dispatch, so that most choices are
// left, and the longest answer follows.
std::string greatest_job() {
  Plan plan(16, 32, 16, 256);
  plan.bodies[0].assign(1023, input(255));
  plan.bodies[0].push_back(start());
  Case c = case_of(plan.table());
  c.job.budget = 1024;
  c.job.inputs.assign(1024, 0x89abcdef);
  for (uint8_t k = 0; k < 16; ++k) c.job.choices.push_back(k);
  c.job.choices.resize(4096);
  return job_file(c);
}

std::string greatest_printed() {
  std::string text = "00 ff 0000 00000000 00000400 0010 03ff 0000\n";
  for (int cell = 0; cell < 255; ++cell) text += "00000000\n";
  return text + "89abcdef\n";
}

std::string good_line(Random &r, uint32_t line) {
  if (line == 0) return digits(r, 8);
  const uint32_t most = line == 1 ? 4096 : 1024;
  return digits(r, (line == 1 ? 2 : 8) * (r.chance(100) ? most : r.below(20)));
}

} // namespace

std::vector<JobFile> drawn_files(uint64_t seed, std::size_t count) {
  std::vector<JobFile> files;
  for (std::size_t i = 0; i < count; ++i) {
    const Case c = drawn_job(seed, i).made.job;
    files.push_back({job_file(c), std::nullopt, c});
  }
  return files;
}

// Good lines up to a bad or missing one; what follows it changes nothing.
std::vector<JobFile> bad_line_files(Random &r, std::size_t count) {
  std::vector<JobFile> files;
  while (files.size() < count) {
    const uint32_t line = r.below(3);
    std::string bytes;
    for (uint32_t i = 0; i < line; ++i) bytes += good_line(r, i) + '\n';
    const uint32_t how = r.below(4);
    if (how == 0) {
      bytes += r.chance(300) ? "" : good_line(r, line); // and no 0a follows
    } else {
      bytes += bad_line(r, line) + '\n';
      for (uint32_t i = line + 1; i < 3; ++i) bytes += (r.chance(500) ? good_line(r, i) : bad_line(r, i)) + '\n';
      if (r.chance(700)) bytes += looms_image;
    }
    files.push_back({bytes, refused(9, line), std::nullopt});
  }
  return files;
}

std::vector<JobFile> cut_files() {
  const std::string whole = looms_lines + looms_image;
  std::vector<JobFile> files = {{whole, looms_printed, std::nullopt}};
  for (std::size_t kept = 0; kept < whole.size(); ++kept) {
    std::string printed;
    if (kept < looms_lines.size()) {
      printed = refused(9, kept < 9 ? 0 : kept < 14 ? 1 : 2);
    } else {
      const std::size_t in_image = kept - looms_lines.size();
      printed = refused(in_image % 17 == 0 ? 6 : 1, static_cast<uint32_t>(in_image / 17));
    }
    files.push_back({whole.substr(0, kept), printed, std::nullopt});
  }
  return files;
}

std::vector<JobFile> damaged_files(Random &r, std::size_t count) {
  std::vector<JobFile> files;
  while (files.size() < count) {
    std::string bytes = r.chance(500) ? looms_lines + looms_image : job_file(drawn_job(r.next(), 0).made.job);
    for (uint32_t times = r.between(1, 2); times > 0; --times) {
      const std::size_t at = r.below(std::min<std::size_t>(bytes.size(), r.chance(700) ? 40 : bytes.size()));
      const uint32_t how = r.below(3);
      if (how == 0) bytes[at] = r.chance(500) ? '\n' : static_cast<char>(r.below(256));
      if (how == 1) bytes.insert(at, 1, r.chance(500) ? '\n' : "0123456789abcdefA\r \0"[r.below(20)]);
      if (how == 2) bytes.erase(at, 1);
    }
    files.push_back({bytes, std::nullopt, std::nullopt});
  }
  return files;
}

// The program needn't read further than can matter, and the greatest job, of 34,381 bytes, says how far that is. With room for fewer bytes it
// would take this job for a cut one (1 or 6), which the job itself shows. With room for just as many it wouldn't see that something follows and
// would run the job where 7 is due, which the job and one byte more show.
std::vector<JobFile> long_files() {
  const std::string much(3000000, '0');
  const std::string greatest = greatest_job();
  const std::vector<JobFile> once = {{greatest, greatest_printed(), std::nullopt},
                                     {greatest + '0', refused(7, 1058), std::nullopt},
                                     {greatest + much, refused(7, 1058), std::nullopt},
                                     {looms_lines + looms_image + much, refused(7, 9), std::nullopt},
                                     {much, refused(9, 0), std::nullopt},
                                     {"00000064\n" + much, refused(9, 1), std::nullopt},
                                     {"00000064\n" + much + "\n\n" + looms_image, refused(9, 1), std::nullopt},
                                     {"00000064\n0001\n" + much + '\n' + looms_image, refused(9, 2), std::nullopt},
                                     {looms_lines + std::string(100000, '\n'), refused(1, 0), std::nullopt}};
  std::vector<JobFile> files;
  for (const JobFile &file : once) files.insert(files.end(), 2, file); // the one with the odd number comes through a pipe
  return files;
}

} // namespace compare
