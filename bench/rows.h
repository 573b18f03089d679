// One row of a table, of one set: marked for the counter, or timed.
#ifndef BENCH_ROWS_H
#define BENCH_ROWS_H
#include <algorithm>
#include <cstdint>
#include <cstdio>
#include <cstdlib>
#include <ctime>
#include <map>
#include <string>
#include <vector>

#include "mark.h"

class Rows {
 public:
  explicit Rows(bool timed) : timing(timed) {}

  // `act` works on a copy of `before`, which is handed back as it is then. Writes, with tabs between,
  //   REGION SET OPERATIONS ROW                or, if timed, the median of several:
  //   region REGION TIMES NANOSECONDS
  template <class Set, class Act> Set row(const std::string &name, size_t operations, const Set &before, Act act) {
    Set set = before;
    mark_region(region);
    mark_begin();
    act(set);
    mark_end();
    if (timing) printf("region\t%u\t%u\t%llu\n", region, TIMES, (unsigned long long)median(before, act));
    else printf("%u\t%s\t%zu\t%s\n", region, Set::name, operations, name.c_str());
    region++;
    return set;
  }

  // Stops with an error where a set answers otherwise than the first one did.
  void agree(const std::string &question, const char *set, uint64_t answer) {
    if (answers.emplace(question, answer).first->second == answer) return;
    fprintf(stderr, "speed: %s answers otherwise: %s\n", set, question.c_str());
    exit(1);
  }

 private:
  static constexpr unsigned TIMES = 5;
  const bool timing;
  unsigned region = 0;
  std::map<std::string, uint64_t> answers;

  static uint64_t nanoseconds() {
    timespec t;
    clock_gettime(CLOCK_MONOTONIC, &t);
    return uint64_t(t.tv_sec) * 1000000000 + uint64_t(t.tv_nsec);
  }

  template <class Set, class Act> static uint64_t median(const Set &before, Act act) {
    std::vector<uint64_t> spent;
    while (spent.size() < TIMES) {
      Set set = before;
      const uint64_t begun = nanoseconds();
      act(set);
      spent.push_back(nanoseconds() - begun);
    }
    std::sort(spent.begin(), spent.end());
    return spent[TIMES / 2];
  }
};
#endif
