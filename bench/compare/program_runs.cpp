#include "program_runs.hpp"

#include <cstdlib>
#include <filesystem>
#include <fstream>
#include <iterator>
#include <stdexcept>

namespace compare {

namespace {

std::string contents(const std::string &path) {
  std::ifstream file(path, std::ios::binary);
  return {std::istreambuf_iterator<char>(file), std::istreambuf_iterator<char>()};
}

} // namespace

std::vector<Printed> run_program(const std::string &program, const std::vector<std::string> &inputs, const std::string &folder) {
  std::filesystem::remove_all(folder);
  std::filesystem::create_directories(folder);
  for (std::size_t i = 0; i < inputs.size(); ++i) std::ofstream(folder + '/' + std::to_string(i) + ".job", std::ios::binary) << inputs[i];
  // Every other job comes through a pipe, in pieces.
  std::ofstream(folder + "/all.sh") << "for job in *.job; do\n"
                                    << "  case $job in\n"
                                    << "  *[13579].job) cat $job | '" << program << "' >${job%.job}.out 2>${job%.job}.err ;;\n"
                                    << "  *) '" << program << "' <$job >${job%.job}.out 2>${job%.job}.err ;;\n"
                                    << "  esac\n"
                                    << "  echo $? >${job%.job}.status\n"
                                    << "done\n";
  const std::string command = "cd '" + folder + "' && timeout 300 sh all.sh 2>shell.err";
  if (std::system(command.c_str()) != 0)
    throw std::runtime_error("the runs of " + program + " in " + folder + " did not come to their end");
  std::vector<Printed> printed;
  for (std::size_t i = 0; i < inputs.size(); ++i) {
    const std::string path = folder + '/' + std::to_string(i);
    const std::string status = contents(path + ".status");
    printed.push_back({contents(path + ".out"), contents(path + ".err"), status.empty() ? -1 : std::stoi(status)});
  }
  return printed;
}

} // namespace compare
