// Random designs on the reference kernel (Accellera SystemC) and by fishdavit_run under the dispatches that the kernel took: every number of
// the answer and every cell must be the same. Wrong rules planted in the adapter must be found.
#include "../checks.hpp"
#include "on_kernel.hpp"
#include "random_job.hpp"

#include <systemc>

#include <algorithm>
#include <cstdio>
#include <cstdlib>
#include <cstring>
#include <map>
#include <sys/mman.h>
#include <sys/wait.h>
#include <unistd.h>

namespace {

constexpr int designs = 3000;
constexpr int orders = 2;
constexpr int planted_designs = 1000;
constexpr uint64_t default_seed = 20261115;

struct Planted {
  Plant plant;
  const char *rule;
};

const Planted plants[] = {
    {Plant::updates, "updates run in the reference kernel's order"},
    {Plant::resume, "resume acts at once"},
    {Plant::limit, "start with a limit is sc_start with a time"},
    {Plant::notify_before, "notify at once in main before the start goes to the kernel"},
    {Plant::later_wins, "a later notification takes the place of an earlier one"},
    {Plant::missed_while_suspended, "a suspended thread misses its event"},
    {Plant::notify_keeps, "notify at once waits for the delta phase"},
    {Plant::remembered, "a notify is remembered for a thread that waits afterwards"},
};

// The kernel can run one design a process, so each has one of its own.
Record &record_of(const Job &job, Plant plant) {
  static Record &record = *static_cast<Record *>(mmap(nullptr, sizeof(Record), PROT_READ | PROT_WRITE, MAP_SHARED | MAP_ANONYMOUS, -1, 0));
  std::memset(&record, 0, sizeof record);
  const pid_t child = fork();
  if (child == 0) {
    alarm(20);
    if (plant != Plant::none) std::freopen("/dev/null", "w", stderr);
    run_on_kernel(job, plant, record);
  }
  int status = 0;
  if (child < 0 || waitpid(child, &status, 0) != child || status != 0) record.whole = false;
  return record;
}

bool same(const fishdavit_answer &x, const fishdavit_answer &y) {
  return x.number == y.number && x.body == y.body && x.place == y.place && x.time == y.time && x.instructions == y.instructions &&
         x.choices == y.choices && x.inputs == y.inputs && x.threads == y.threads;
}

void print(const char *who, const fishdavit_answer &a) {
  std::printf("%-10s %02x %02x %04x %08x %08x %04x %04x %04x\n", who, a.number, a.body, a.place, a.time, a.instructions, a.choices, a.inputs,
              a.threads);
}

// What the sample held, so that a reader sees that it is not all of one kind.
struct Tally {
  std::map<uint32_t, int> numbers;
  uint64_t dispatches = 0;
  uint64_t instructions = 0;

  void add(const fishdavit_answer &a) {
    ++numbers[a.number];
    dispatches += a.choices;
    instructions += a.instructions;
  }
};

bool agrees(const Job &job, Plant plant, Tally &tally, bool tell) {
  const Record &record = record_of(job, plant);
  const std::vector<uint64_t> table = table_of(job.design);
  std::array<uint32_t, 256> cells = {};
  static const uint32_t no_input = 0;
  const fishdavit_answer answer =
      fishdavit_run(table.data(), table.size(), record.choices.data(), record.answer.choices, job.inputs.empty() ? &no_input : job.inputs.data(),
                    job.inputs.size(), job.budget, cells.data(), cells.size());
  tally.add(answer);
  if (record.whole && same(answer, record.answer) && cells == record.cells) return true;
  if (!tell) return false;
  std::printf("The two differ on this job:\n%s", job_text(job, record).c_str());
  print("kernel", record.answer);
  print("fishdavit", answer);
  if (!record.whole) std::printf("the kernel's run broke off\n");
  for (std::size_t c = 0; c < cells.size(); ++c)
    if (cells[c] != record.cells[c]) std::printf("cell %zu: kernel %08x, fishdavit %08x\n", c, record.cells[c], cells[c]);
  return false;
}

Checks checks;

void check_designs(uint64_t seed, int count) {
  Tally tally;
  std::mt19937_64 random(seed);
  for (int i = 0; i < count * orders && checks.failed() < 5; ++i) {
    static Job job;
    if (i % orders == 0)
      job = random_job(random);
    else
      std::shuffle(job.order.begin(), job.order.end(), random);
    checks.expect(agrees(job, Plant::none, tally, true),
                  "design " + std::to_string(i / orders) + ", order " + std::to_string(i % orders) + " of seed " + std::to_string(seed));
  }
  std::printf("%d designs in %d orders, %llu dispatches, %llu instructions; numbers", count, orders,
              static_cast<unsigned long long>(tally.dispatches), static_cast<unsigned long long>(tally.instructions));
  for (const auto &[number, times] : tally.numbers) std::printf(" %u: %d", number, times);
  std::printf("\n");
}

void check_plant(uint64_t seed, const Planted &planted) {
  Tally tally;
  std::mt19937_64 random(seed);
  int tried = 0;
  bool found = false;
  while (!found && tried < planted_designs) {
    found = !agrees(random_job(random), planted.plant, tally, false);
    ++tried;
  }
  checks.tell(found, std::string("planted: ") + planted.rule + (found ? ": found after " : ": not found in ") + std::to_string(tried) + " designs");
}

} // namespace

int sc_main(int argc, char **argv) {
  const uint64_t seed = argc > 1 ? std::strtoull(argv[1], nullptr, 10) : default_seed;
  const int count = argc > 2 ? std::atoi(argv[2]) : designs;
  std::printf("seed %llu\n", static_cast<unsigned long long>(seed));
  std::fflush(stdout);
  check_designs(seed, count);
  for (const Planted &planted : plants) check_plant(seed, planted);
  return checks.close();
}

int main(int argc, char **argv) {
  setenv("SYSTEMC_DISABLE_COPYRIGHT_MESSAGE", "1", 1);
  std::setvbuf(stdout, nullptr, _IOLBF, 0);
  return sc_core::sc_elab_and_sim(argc, argv);
}
