// What is compared on the same work, each with a card beside every key: the archive's list, by runs and by single calls, std::map, abseil's
// btree_map and two sorted std::vectors, of keys and of cards.
// Each: work(requests) puts a pattern in and gives the number accepted; find(key) and scan(from, output, output_cards, room) as the
// archive's list (archive.h); CARDED, whether the keys got their cards.
#ifndef BENCH_SETS_H
#define BENCH_SETS_H
#include <absl/container/btree_map.h>

#include <algorithm>
#include <map>

#include "archive.h"

// The requests of a pattern, as records too, with cards and without.
struct Work {
  const std::vector<Request> requests;
  const std::vector<uint8_t> bytes, no_cards;
  explicit Work(std::vector<Request> r) : requests(r), bytes(records(r)), no_cards(records(r, Form::NO_CARDS)) {}
};

struct Runs : List {
  static constexpr const char *name = "archive, one run";
  static constexpr bool CARDED = true;
  size_t work(const Work &w) {
    run(w.bytes);
    return totals[0] - totals[1];
  }
};

// The same keys with no cards, by records of kind 1.
struct PlainRuns : List {
  static constexpr const char *name = "one run, kind 1";
  static constexpr bool CARDED = false;
  size_t work(const Work &w) {
    run(w.no_cards);
    return totals[0] - totals[1];
  }
};

// What takes requests one by one.
template <class Set> struct Singly : Set {
  static constexpr bool CARDED = true;
  size_t work(const Work &w) {
    size_t accepted = 0;
    for (const Request &q : w.requests) accepted += q.insert ? Set::insert(q.key, q.card) : Set::erase(q.key);
    return accepted;
  }
};

struct Calls : List {
  static constexpr const char *name = "archive, single calls";
  uint64_t moves = 0;
  bool insert(uint64_t key, uint32_t card) { return List::work({true, key, card}, moves); }
  bool erase(uint64_t key) { return List::work({false, key}, moves); }
};

template <class Map> struct Tree {
  Map cards;
  bool insert(uint64_t key, uint32_t card) { return cards.emplace(key, card).second; }
  bool erase(uint64_t key) { return cards.erase(key) == 1; }
  uint64_t find(uint64_t key) const {
    const auto i = cards.find(key);
    return i == cards.end() ? 0 : PRESENT + i->second;
  }
  size_t scan(uint64_t from, uint64_t *output, uint32_t *output_cards, size_t room) const {
    size_t n = 0;
    for (auto i = cards.upper_bound(from); n < room && i != cards.end(); ++i, ++n) output[n] = i->first, output_cards[n] = i->second;
    return n;
  }
};

struct Binary : Tree<std::map<uint64_t, uint32_t>> {
  static constexpr const char *name = "std::map";
};

struct Broad : Tree<absl::btree_map<uint64_t, uint32_t>> {
  static constexpr const char *name = "absl::btree_map";
};

struct Sorted {
  static constexpr const char *name = "sorted vectors";
  std::vector<uint64_t> keys;
  std::vector<uint32_t> cards;
  bool insert(uint64_t key, uint32_t card) {
    const auto i = std::lower_bound(keys.begin(), keys.end(), key);
    if (i != keys.end() && *i == key) return false;
    cards.insert(cards.begin() + (i - keys.begin()), card);
    keys.insert(i, key);
    return true;
  }
  bool erase(uint64_t key) {
    const auto i = std::lower_bound(keys.begin(), keys.end(), key);
    if (i == keys.end() || *i != key) return false;
    cards.erase(cards.begin() + (i - keys.begin()));
    keys.erase(i);
    return true;
  }
  uint64_t find(uint64_t key) const {
    const auto i = std::lower_bound(keys.begin(), keys.end(), key);
    return i == keys.end() || *i != key ? 0 : PRESENT + cards[size_t(i - keys.begin())];
  }
  size_t scan(uint64_t from, uint64_t *output, uint32_t *output_cards, size_t room) const {
    const auto i = std::upper_bound(keys.begin(), keys.end(), from);
    const size_t n = std::min(room, size_t(keys.end() - i));
    std::copy_n(i, n, output);
    std::copy_n(cards.begin() + (i - keys.begin()), n, output_cards);
    return n;
  }
};
#endif
