// The patterns of requests that are measured: each from an empty list, with a fixed seed, no request refused.
#ifndef BENCH_PATTERNS_H
#define BENCH_PATTERNS_H
#include <cstddef>
#include <cstdint>
#include <string>
#include <vector>

constexpr int HEIGHT = 6;
constexpr size_t SEGMENT = 64, SEGMENTS = 1 << HEIGHT, SLOTS = SEGMENT * SEGMENTS;
constexpr size_t MOST = SEGMENTS * 32, MOST_SECOND = SEGMENTS * 44; // keys, by the two profiles

struct Request {
  bool insert; // else delete
  uint64_t key;
  uint32_t card = 0; // of an insert
};
struct Pattern {
  std::string name;
  std::vector<Request> requests;
};

// A splitmix64 generator: the same numbers on every machine.
class Random {
 public:
  explicit Random(uint64_t seed) : state(seed) {}
  uint64_t key(); // an odd number
  size_t below(size_t n) { return key() / 2 % n; }

 private:
  uint64_t state;
};

uint32_t card_of(uint64_t key);                    // the card that comes with a key in every pattern; 0 for 0
std::vector<Pattern> patterns(size_t keys = MOST); // of so many keys, a multiple of 32

// As a run takes them: inserts by records of kind 4, or, with no cards, of kind 1.
enum class Form { CARDS, NO_CARDS };
std::vector<uint8_t> records(const std::vector<Request> &, Form = Form::CARDS);
#endif
