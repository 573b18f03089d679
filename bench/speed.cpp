// The same work on each set: the requests of each pattern, then lookups and scans on 2,048 random keys. Then a lookup's own part.
// `speed count` marks the regions for the counter and names them; `speed time` times them (rows.h). Stops where two sets differ.
#include <cstring>

#include "rows.h"
#include "sets.h"

using Keys = std::vector<uint64_t>;
using Cards = std::vector<uint32_t>;

template <class Words> uint64_t hash(const Words &words) {
  uint64_t h = 1;
  for (uint64_t w : words) h = (h ^ w) * 0x9e3779b97f4a7c15, h ^= h >> 32;
  return h;
}

template <class Set> void requests(Rows &rows, const Pattern &p) {
  const Work work(p.requests);
  size_t accepted = 0;
  const Set after = rows.row(p.name, p.requests.size(), Set(), [&](Set &set) { accepted = set.work(work); });
  rows.agree(p.name + ": accepted", Set::name, accepted);
  Keys keys(MOST);
  Cards cards(MOST);
  keys.resize(after.scan(0, keys.data(), cards.data(), MOST));
  rows.agree(p.name + ": keys", Set::name, hash(keys));
  cards.resize(keys.size());
  rows.agree(p.name + (Set::CARDED ? ": cards" : ": no cards"), Set::name, hash(cards));
}

// A row of lookups: which of the keys were found, with their cards.
template <class Set> Keys found(Rows &rows, const char *name, const Set &set, const Keys &keys) {
  Keys is(keys.size());
  rows.row(name, keys.size(), set, [&](Set &s) {
    for (size_t i = 0; i < keys.size(); i++) is[i] = s.find(keys[i]);
  });
  return is;
}

template <class Set> void lookups(Rows &rows, const char *name, const Set &set, const Keys &keys) {
  rows.agree(name, Set::name, hash(found(rows, name, set, keys)));
}

// Scans of `room` keys above each of these, and of their cards. An operation is a key written.
template <class Set> void scans(Rows &rows, const char *name, const Set &set, const Keys &from, size_t room) {
  Keys output(from.size() * room);
  Cards cards(output.size());
  size_t written = 0;
  const auto act = [&](Set &s) {
    written = 0;
    for (size_t i = 0; i < from.size(); i++) written += s.scan(from[i], output.data() + i * room, cards.data() + i * room, room);
  };
  Set s = set;
  act(s);
  rows.row(name, written, set, act);
  rows.agree(name, Set::name, hash(output) ^ hash(cards));
}

template <class Set> Set filled(const Pattern &p) {
  Set set;
  set.work(Work(p.requests));
  return set;
}

template <class Set> void reading(Rows &rows, const Pattern &random) {
  const Set set = filled<Set>(random);
  Keys present, absent;
  Random other(5);
  for (const Request &q : random.requests) present.push_back(q.key), absent.push_back(other.key());
  lookups(rows, "lookup of a live key", set, present);
  lookups(rows, "lookup of an absent key", set, absent);
  scans(rows, "scan of all, a key", set, {0}, MOST);
  scans(rows, "scan of 100, a key", set, Keys(present.begin(), present.begin() + 256), 100);
}

// What a single call spends before its own work.
template <class Set> void check(Rows &rows, const Pattern &random) {
  constexpr size_t CHECKS = 256;
  size_t sound = 0;
  rows.row("check alone", CHECKS, filled<Set>(random), [&](Set &list) {
    for (size_t i = 0; i < CHECKS; i++) sound += list.sound();
  });
  rows.agree("check alone", Set::name, sound != 0 && sound % CHECKS == 0);
  rows.agree("check alone", "a sound list", true);
}

// A lookup's own part is what it takes beyond a lookup of 0, which is refused after the whole check.
struct Lookup : List {
  static constexpr const char *name = "lookup";
};
struct Refused : List {
  static constexpr const char *name = "lookup of 0: its check";
};

static void own_part(Rows &rows, const char *name, const List &list, const Keys &live) {
  const Keys none(live.size(), 0);
  Keys wanted;
  for (uint64_t key : live) wanted.push_back(PRESENT + card_of(key));
  const bool right = found(rows, name, Lookup{list}, live) == wanted && found(rows, name, Refused{list}, none) == none;
  rows.agree(name, "the archive", list.sound() && right);
  rows.agree(name, "a sound list with these keys", true);
}

// A list with 16 keys in each of these segments and none in the others, and the keys of the first.
static List only_in(const std::vector<size_t> &segments, Keys &first) {
  Keys slots(SLOTS, 0);
  for (size_t s : segments)
    for (size_t i = 0; i < 16; i++) slots[s * SEGMENT + i] = s * SEGMENT + i + 1;
  first.assign(slots.begin() + long(segments[0] * SEGMENT), slots.begin() + long(segments[0] * SEGMENT + 16));
  List list;
  list.hold(slots);
  return list;
}

// Lists with many empty segments. In the last, the way down to the first segment leaves six halves to its right, and each has keys in
// its last segment alone.
static const struct {
  const char *name;
  std::vector<size_t> segments;
} FEW[] = {{"only the first has keys", {0}}, {"only the last has keys", {63}}, {"the last of each right half", {0, 1, 3, 7, 15, 31, 63}}};

static void own_parts(Rows &rows, const Pattern &random) {
  List all;
  all.run(records(random.requests));
  rows.agree("filled segments", "random", SEGMENTS - size_t(std::count(all.table.begin(), all.table.begin() + SEGMENTS, 0)));
  rows.agree("filled segments", "the height", SEGMENTS);
  Keys keys;
  for (const Request &q : random.requests) keys.push_back(q.key);
  own_part(rows, "all segments have keys", all, keys);
  for (const auto &few : FEW) {
    const List list = only_in(few.segments, keys);
    own_part(rows, few.name, list, keys);
  }
}

int main(int, char **argv) {
  Rows rows(strcmp(argv[1], "time") == 0);
  setvbuf(stdout, nullptr, _IOFBF, 1 << 16);
  const std::vector<Pattern> all = patterns();
  for (const Pattern &p : all) {
    requests<Runs>(rows, p);
    requests<PlainRuns>(rows, p);
    requests<Singly<Calls>>(rows, p);
    requests<Singly<Binary>>(rows, p);
    requests<Singly<Broad>>(rows, p);
    requests<Singly<Sorted>>(rows, p);
  }
  const Pattern &random = all[3];
  check<Singly<Calls>>(rows, random);
  reading<Singly<Calls>>(rows, random);
  reading<Singly<Binary>>(rows, random);
  reading<Singly<Broad>>(rows, random);
  reading<Singly<Sorted>>(rows, random);
  own_parts(rows, random);
}
