// The run program beside the independent simulator: compare_program [PROGRAM [JOBS [SEED]]]. What it prints is compared byte by byte;
// nothing may stand on standard error, and it may not be ended by a signal. Then the wrong rules that show in job files only are planted,
// one at a time.
#include "job_files.hpp"
#include "program_runs.hpp"
#include "reduce.hpp"

#include "../checks.hpp"
#include "../independent/job.hpp"
#include "planted.hpp"

#include <filesystem>
#include <fstream>
#include <functional>
#include <iostream>
#include <stdexcept>

namespace {

using namespace compare;

struct Group {
  const char *name;
  const char *path; // of a difference, beside the folder of the runs
  std::vector<JobFile> files;
  std::vector<Printed> printed;
};

Checks checks;

bool differs(const JobFile &file, const Printed &printed) {
  if (printed.output != independent::answer_job(file.bytes)) return true;
  if (file.printed && printed.output != *file.printed) return true;
  return !printed.errors.empty() || printed.status < 0 || printed.status > 127;
}

// The job file made small, where it was made of a case.
std::string reduced_file(const JobFile &file, const std::string &program, const std::string &folder) {
  if (!file.from) return file.bytes;
  const auto still = [&](const Case &c) {
    const JobFile smaller{job_file(c), std::nullopt, std::nullopt};
    return differs(smaller, run_program(program, {smaller.bytes}, folder)[0]);
  };
  return job_file(reduced(*file.from, still, 500));
}

void show(const JobFile &file, const std::string &program, const std::string &path) {
  const std::string folder = path + ".reducing";
  const std::string small = reduced_file(file, program, folder);
  const Printed printed = run_program(program, {small}, folder)[0];
  std::filesystem::remove_all(folder);
  std::ofstream(path, std::ios::binary) << small;
  std::cout << "DIFFERENCE: job file " << path << ":\n"
            << small << "end of job file\nthe program prints:\n"
            << printed.output << "the simulator prints:\n"
            << independent::answer_job(small) << "the program's standard error: '" << printed.errors << "', status " << printed.status
            << '\n';
}

void compare_group(Group &group, const std::string &program, const std::string &folder) {
  std::vector<std::string> inputs;
  for (const JobFile &file : group.files) inputs.push_back(file.bytes);
  group.printed = run_program(program, inputs, folder);
  std::size_t differences = 0;
  for (std::size_t i = 0; i < group.files.size(); ++i)
    if (differs(group.files[i], group.printed[i]) && ++differences == 1) show(group.files[i], program, folder + group.path);
  checks.tell(differences == 0, std::string(group.name) + ": " + std::to_string(group.files.size()) + " job files, " +
                                    std::to_string(differences) + " differences");
}

bool noticed(const std::vector<Group> &groups) {
  for (const Group &group : groups)
    for (std::size_t i = 0; i < group.files.size(); ++i)
      if (differs(group.files[i], group.printed[i])) return true;
  return false;
}

} // namespace

int main(int argc, char **argv) try {
  const std::filesystem::path here = std::filesystem::absolute(argv[0]).lexically_normal().parent_path();
  const std::string program =
      std::filesystem::absolute(argc > 1 ? std::filesystem::path(argv[1]) : here / "../bin/ivlrun").lexically_normal().string();
  const std::size_t jobs = argc > 2 ? std::stoull(argv[2]) : 1000;
  const uint64_t seed = argc > 3 ? std::stoull(argv[3]) : 1;
  const std::string folder = (here / "program_jobs").string();
  std::cout << program << ", seed " << seed << '\n';
  if (!std::filesystem::exists(program)) throw std::runtime_error("there is no " + program);
  Random r(seed);
  std::vector<Group> groups = {{"document 01's job cut at every position", "-cut.job", cut_files(), {}},
                               {"bad job lines on purpose", "-lines.job", bad_line_files(r, jobs / 3), {}},
                               {"damaged job files", "-damaged.job", damaged_files(r, jobs / 3), {}},
                               {"the greatest job, and more input than is needed", "-long.job", long_files(), {}},
                               {"random jobs", "-random.job", drawn_files(seed, jobs), {}}};
  for (Group &group : groups) compare_group(group, program, folder);
  const bool alike = checks.failed() == 0; // else a planted rule would not be what is noticed
  for (std::size_t rule = independent::first_job_rule; alike && rule < independent::wrong_rule_count; ++rule) {
    independent::planted_rule = rule;
    checks.tell(noticed(groups), std::string("a wrong rule is noticed: ") + independent::wrong_rules[rule]);
  }
  return checks.close();
} catch (const std::exception &failure) {
  checks.expect(false, failure.what());
  return checks.close();
}
