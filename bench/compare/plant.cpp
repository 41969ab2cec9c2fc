// Plants wrong rules in the independent simulator: plant EDITS SOURCES TARGET. Copies the sources with every edit of the list built in as
// a switch, so that one build has all the wrong rules and a program turns on one of them at a time. A statement, which ends with a
// semicolon, becomes if (wrong(n)) { new } else { old }, an expression wrong(n) ? (new) : (old).
#include <algorithm>
#include <filesystem>
#include <fstream>
#include <iostream>
#include <iterator>
#include <map>
#include <stdexcept>
#include <string>
#include <vector>

namespace {

struct Edit {
  std::size_t rule;
  std::string file, old_text, new_text;
  std::size_t nth = 0; // which of the places where the old text stands; 0: there is one only
  std::size_t begin = 0, end = 0;
};

struct Rules {
  std::vector<std::string> words;
  std::size_t first_of_jobs = 0; // from this one on they show in job files only
  std::vector<Edit> edits;
};

std::string contents(const std::filesystem::path &path) {
  std::ifstream file(path, std::ios::binary);
  if (!file) throw std::runtime_error("can't read " + path.string());
  return {std::istreambuf_iterator<char>(file), std::istreambuf_iterator<char>()};
}

// '# words', then for each place 'file: ', maybe 'nth: ', 'old: ', 'new: '; '## ' begins the rules that show in job files only.
Rules read_rules(const std::string &path) {
  Rules rules;
  std::ifstream file(path);
  Edit edit;
  for (std::string line; std::getline(file, line);) {
    const auto rest = [&line](std::size_t from) { return line.size() > from ? line.substr(from) : ""; };
    if (line.rfind("## ", 0) == 0) rules.first_of_jobs = rules.words.size();
    else if (line.rfind("# ", 0) == 0) rules.words.push_back(rest(2));
    else if (line.rfind("file: ", 0) == 0) edit = {rules.words.size() - 1, rest(6), "", ""};
    else if (line.rfind("nth: ", 0) == 0) edit.nth = std::stoul(rest(5));
    else if (line.rfind("old: ", 0) == 0) edit.old_text = rest(5);
    else if (line.rfind("new:", 0) == 0) {
      edit.new_text = rest(5);
      rules.edits.push_back(edit);
    } else if (!line.empty()) throw std::runtime_error("not an edit: " + line);
  }
  return rules;
}

// The old text stands where it is said to, and nowhere else unless a number says which place is meant.
void find_place(Edit &edit, const std::string &source) {
  std::size_t found = 0;
  for (std::size_t at = source.find(edit.old_text); at != std::string::npos; at = source.find(edit.old_text, at + 1))
    if (++found == std::max<std::size_t>(edit.nth, 1)) edit.begin = at;
  edit.end = edit.begin + edit.old_text.size();
  if (edit.nth == 0 ? found != 1 : found < edit.nth)
    throw std::runtime_error(edit.file + " has " + std::to_string(found) + " times: " + edit.old_text);
}

std::string with_switch(const Edit &edit, const std::string &old_text) {
  const std::string test = "wrong(" + std::to_string(edit.rule) + ")";
  if (edit.old_text.back() == ';') return "{ if (" + test + ") { " + edit.new_text + " } else { " + old_text + " } }";
  return "(" + test + " ? (" + edit.new_text + ") : (" + old_text + "))";
}

// The source from begin to end with the edits inside: the widest first, those inside it within its old text.
std::string planted(const std::string &source, std::size_t begin, std::size_t end, std::vector<Edit> edits) {
  std::string text;
  while (!edits.empty()) {
    Edit widest = edits.front();
    for (const Edit &e : edits)
      if (e.begin < widest.begin || (e.begin == widest.begin && e.end > widest.end)) widest = e;
    std::vector<Edit> same, inside, after;
    for (const Edit &e : edits) {
      if (e.begin == widest.begin && e.end == widest.end) same.push_back(e);
      else if (e.begin >= widest.end) after.push_back(e);
      else if (e.end <= widest.end) inside.push_back(e);
      else throw std::runtime_error("edits overlap: " + e.old_text);
    }
    text += source.substr(begin, widest.begin - begin);
    std::string old_text = planted(source, widest.begin, widest.end, inside);
    for (const Edit &e : same) old_text = with_switch(e, old_text);
    text += old_text;
    begin = widest.end;
    edits = after;
  }
  return text + source.substr(begin, end - begin);
}

void write_list(const Rules &rules, const std::filesystem::path &path) {
  std::ofstream file(path);
  file << "#pragma once\n\n#include <cstddef>\n\nnamespace independent {\n\ninline constexpr const char *wrong_rules[] = {\n";
  for (const std::string &words : rules.words) file << "    \"" << words << "\",\n";
  file << "};\ninline constexpr std::size_t first_job_rule = " << rules.first_of_jobs << ", wrong_rule_count = " << rules.words.size()
       << ";\n\n"
       << "// The rule that is turned on; none at first.\ninline std::size_t planted_rule = wrong_rule_count;\n"
       << "inline bool wrong(std::size_t rule) { return rule == planted_rule; }\n\n} // namespace independent\n";
}

} // namespace

int main(int argc, char **argv) try {
  if (argc != 4) throw std::runtime_error("plant EDITS SOURCES TARGET");
  Rules rules = read_rules(argv[1]);
  const std::filesystem::path sources = argv[2], target = argv[3];
  std::filesystem::create_directories(target);
  std::map<std::string, std::vector<Edit>> by_file;
  for (Edit &edit : rules.edits) {
    find_place(edit, contents(sources / edit.file));
    by_file[edit.file].push_back(edit);
  }
  for (const auto &entry : std::filesystem::directory_iterator(sources)) {
    const std::string source = contents(entry.path());
    const auto edits = by_file.find(entry.path().filename().string());
    std::ofstream file(target / entry.path().filename(), std::ios::binary);
    if (edits == by_file.end()) file << source;
    else file << "#include \"planted.hpp\"\n" << planted(source, 0, source.size(), edits->second);
  }
  write_list(rules, target / "planted.hpp");
} catch (const std::exception &failure) {
  std::cerr << failure.what() << '\n';
  return 1;
}
