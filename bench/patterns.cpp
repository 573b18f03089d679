// See patterns.h.
#include "patterns.h"

#include <utility>

using Requests = std::vector<Request>;

uint64_t Random::key() {
  uint64_t z = state += 0x9e3779b97f4a7c15;
  z = (z ^ (z >> 30)) * 0xbf58476d1ce4e5b9;
  z = (z ^ (z >> 27)) * 0x94d049bb133111eb;
  return (z ^ (z >> 31)) | 1;
}

uint32_t card_of(uint64_t key) { return uint32_t(key * 0x9e3779b97f4a7c15 >> 32); }

static Requests up(size_t n) {
  Requests r;
  for (uint64_t k = 1; k <= n; k++) r.push_back({true, k});
  return r;
}

static Requests down(size_t n) {
  Requests r;
  for (uint64_t k = n; k >= 1; k--) r.push_back({true, k});
  return r;
}

// Puts n keys behind `moment`, each just behind it, so before the one put there last.
static void behind(Requests &r, uint64_t moment, size_t n) {
  for (size_t i = n; i >= 1; i--) r.push_back({true, moment + i});
}

static Requests hammer(size_t n) {
  Requests r{{true, 1 << 20}};
  behind(r, 1 << 20, n - 1);
  return r;
}

static Requests anywhere(size_t n) {
  Requests r;
  Random random(1);
  while (r.size() < n) r.push_back({true, random.key()});
  return r;
}

// Stretches of 32 keys that follow each other, rising.
static Requests bulk(size_t n) {
  Requests r;
  Random random(2);
  while (r.size() < n) {
    const uint64_t first = random.key();
    for (uint64_t i = 0; i < 32; i++) r.push_back({true, first + i});
  }
  return r;
}

// Three inserts to a delete for the first half, then three deletes to an insert.
static Requests mixed(size_t n) {
  Requests r;
  std::vector<uint64_t> live;
  Random random(3);
  while (r.size() < 2 * n) {
    const bool often = random.below(4) != 0, growing = r.size() < n;
    if (often == growing || live.empty()) {
      live.push_back(random.key());
      r.push_back({true, live.back()});
    } else {
      std::swap(live[random.below(live.size())], live.back());
      r.push_back({false, live.back()});
      live.pop_back();
    }
  }
  return r;
}

// A lesson of moments, one to 32 keys; then thirty keys behind one of them, thirty behind another, until each has had its thirty.
static Requests thirty(size_t n) {
  Requests r;
  Random random(4);
  std::vector<uint64_t> left;
  for (uint64_t i = 1; i <= n / 32; i++) left.push_back(i << 20);
  for (uint64_t moment : left) r.push_back({true, moment});
  while (!left.empty()) {
    std::swap(left[random.below(left.size())], left.back());
    behind(r, left.back(), 30);
    left.pop_back();
  }
  return r;
}

std::vector<Pattern> patterns(size_t n) {
  std::vector<Pattern> all = {{"sequential up", up(n)}, {"sequential down", down(n)}, {"hammer on one key", hammer(n)},
                              {"random", anywhere(n)},  {"bulk", bulk(n)},            {"mixed", mixed(n)},
                              {"thirty behind one moment", thirty(n)}};
  for (Pattern &p : all)
    for (Request &q : p.requests)
      if (q.insert) q.card = card_of(q.key);
  return all;
}

std::vector<uint8_t> records(const Requests &requests, Form form) {
  std::vector<uint8_t> bytes;
  for (const Request &q : requests) {
    const bool carded = q.insert && form == Form::CARDS;
    bytes.insert(bytes.end(), {0xA5, 0x5A, uint8_t(carded ? 4 : q.insert ? 1 : 2)});
    for (int shift = 56; shift >= 0; shift -= 8) bytes.push_back(uint8_t(q.key >> shift));
    for (int shift = 24; shift >= 0 && carded; shift -= 8) bytes.push_back(uint8_t(q.card >> shift));
  }
  return bytes;
}
