// Moves by the rules (the archive's own replies) in both profiles, and with even spacing, by pattern. Stops with an error where two must
// agree and do not. Writes, with tabs between:
//   pattern NAME REQUESTS KEYS MOVES SWEEPS EVEN-MOVES EVEN-SWEEPS
//   curve NAME REQUEST MOVES-SO-FAR EVEN-MOVES-SO-FAR SECOND-PROFILE'S
//   list NUMBER PROFILE SLOTS KEYS               the lists that the profiles are compared on
//   profiles NAME REQUESTS MOVES SWEEPS ..       by pattern, for each of these lists
#include <cstdio>
#include <cstdlib>

#include "archive.h"
#include "even.h"

static void must(bool holds, const char *what, const Pattern &p, size_t request) {
  if (holds) return;
  fprintf(stderr, "moves: %s, request %zu: %s\n", p.name.c_str(), request, what);
  exit(1);
}

static std::vector<uint64_t> live(const std::vector<uint64_t> &slots) {
  std::vector<uint64_t> keys;
  for (uint64_t key : slots)
    if (key != 0) keys.push_back(key);
  return keys;
}

// The archive's list after one request on these slots with an empty forecast.
static List by_archive(const std::vector<uint64_t> &slots, const Request &q) {
  List list;
  list.hold(slots);
  list.run(records({q}));
  return list;
}

struct Sum {
  uint64_t moves = 0, sweeps = 0;
  void add(const Outcome &o) { moves += o.moves, sweeps += o.swept; }
};

// With an empty forecast the rules and even spacing choose the same window and make the same moves on any one request. They leave
// the same slots too, unless an insert sweeps: then the key before it has a weight.
static Outcome even_step(Even &even, const Pattern &p, size_t i) {
  const Request &q = p.requests[i];
  const List list = by_archive(even.slots(), q);
  const Outcome own = even.work(q);
  must(own.moves == list.totals[2] && own.swept == (list.totals[3] == 1), "even spacing moves otherwise", p, i);
  const bool weighed = q.insert && own.swept;
  must(weighed ? live(even.slots()) == live(list.slots) : even.slots() == list.slots, "even spacing leaves other slots", p, i);
  must(list.dealt(), "a card is not with its key", p, i);
  return own;
}

static void compare(const Pattern &p) {
  List single, whole, second(2);
  Even even;
  uint64_t rules = 0, tighter = 0;
  Sum spaced;
  for (size_t i = 0; i < p.requests.size(); i++) {
    must(single.work(p.requests[i], rules), "refused", p, i);
    spaced.add(even_step(even, p, i));
    must(live(single.slots) == live(even.slots()), "the two hold other keys", p, i);
    if (i % 16 != 15) continue;
    tighter += second.run(records({p.requests.begin() + long(i - 15), p.requests.begin() + long(i + 1)}));
    printf("curve\t%s\t%zu\t%llu\t%llu\t%llu\n", p.name.c_str(), i + 1, (unsigned long long)rules,
           (unsigned long long)spaced.moves, (unsigned long long)tighter);
  }
  must(live(second.slots) == live(single.slots), "the profiles hold other keys", p, p.requests.size());
  const uint64_t moves = whole.run(records(p.requests));
  must(moves == rules && whole.slots == single.slots && whole.cards == single.cards && whole.table == single.table &&
           whole.forecast == single.forecast,
       "a run and single calls differ", p, p.requests.size());
  must(whole.dealt() && second.dealt(), "a card is not with its key", p, p.requests.size());
  printf("pattern\t%s\t%zu\t%zu\t%llu\t%u\t%llu\t%llu\n", p.name.c_str(), p.requests.size(), live(single.slots).size(),
         (unsigned long long)moves, whole.totals[3], (unsigned long long)spaced.moves, (unsigned long long)spaced.sweeps);
}

// Lists to compare the profiles on: the same keys in the same memory; as many as the second profile has room for in half of it; as many
// as it has room for.
static const struct {
  uint64_t profile;
  size_t slots, keys;
} LISTS[] = {{1, SLOTS, MOST},          {2, SLOTS, MOST},           {1, SLOTS, MOST_SECOND / 2}, {2, SLOTS / 2, MOST_SECOND / 2},
             {2, SLOTS, MOST_SECOND}};
constexpr size_t PATTERNS = 7;

// One pattern, in one run on each of the lists.
static void profiles(size_t which) {
  printf("profiles\t%s", patterns()[which].name.c_str());
  for (const auto &l : LISTS) {
    const Pattern p = patterns(l.keys)[which];
    List list(l.profile, l.slots);
    const uint64_t moves = list.run(records(p.requests));
    must(list.totals[0] == p.requests.size() && list.totals[1] == 0 && list.sound(), "refused by a profile", p, p.requests.size());
    printf("\t%zu\t%llu\t%u", p.requests.size(), (unsigned long long)moves, list.totals[3]);
  }
  printf("\n");
}

int main() {
  for (const Pattern &p : patterns()) compare(p);
  size_t n = 0;
  for (const auto &l : LISTS) printf("list\t%zu\t%llu\t%zu\t%zu\n", ++n, (unsigned long long)l.profile, l.slots, l.keys);
  for (size_t which = 0; which < PATTERNS; which++) profiles(which);
}
