// The same list with even spacing, to compare moves with: document 01's array, limits and windows, but a swept window is always
// shared out evenly, and there is no forecast.
#ifndef BENCH_EVEN_H
#define BENCH_EVEN_H
#include "patterns.h"

struct Outcome {
  uint64_t moves;
  bool swept;
};

class Even {
 public:
  Outcome work(const Request &q) { return q.insert ? insert(q.key) : erase(q.key); }
  std::vector<uint64_t> slots() const;

 private:
  std::vector<uint64_t> segment[SEGMENTS]; // the keys of each

  Outcome insert(uint64_t key); // an absent key
  Outcome erase(uint64_t key);  // a live key
  size_t home(uint64_t key) const;
  std::vector<uint64_t> window(int level, size_t at) const;
  int smallest(size_t at) const;
  Outcome sweep(int level, size_t at);
  void share(int level, size_t start, const uint64_t *keys, size_t count);
};
#endif
