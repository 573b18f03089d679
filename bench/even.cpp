// See even.h.
#include "even.h"

#include <algorithm>

// The limits on the keys of a window of level l.
static size_t most(int l) { return (size_t(32 * (2 * HEIGHT - l)) / HEIGHT) << l; }
static size_t least(int l) { return (size_t(32 * (HEIGHT + l) + 5 * HEIGHT - 1) / (5 * HEIGHT)) << l; }

static size_t start_of(int level, size_t at) { return at >> level << level; }

// The segment of the last key that is not above this one; 0 if there is none.
size_t Even::home(uint64_t key) const {
  size_t at = 0;
  for (size_t s = 0; s < SEGMENTS; s++)
    if (!segment[s].empty() && segment[s].front() <= key) at = s;
  return at;
}

// The keys of the window of this level round segment `at`.
std::vector<uint64_t> Even::window(int level, size_t at) const {
  std::vector<uint64_t> keys;
  const size_t start = start_of(level, at);
  for (size_t s = start; s < start + (1u << level); s++) keys.insert(keys.end(), segment[s].begin(), segment[s].end());
  return keys;
}

// The level of the smallest window round `at`, 1 upward, that is within limits; 0 if there is none.
int Even::smallest(size_t at) const {
  for (int l = 1; l <= HEIGHT; l++) {
    const size_t count = window(l, at).size();
    if (least(l) <= count && count <= most(l)) return l;
  }
  return 0;
}

void Even::share(int level, size_t start, const uint64_t *keys, size_t count) {
  if (level == 0) {
    segment[start].assign(keys, keys + count);
    return;
  }
  const size_t left = (count + 1) / 2;
  share(level - 1, start, keys, left);
  share(level - 1, start + (1u << (level - 1)), keys + left, count - left);
}

Outcome Even::sweep(int level, size_t at) {
  const std::vector<uint64_t> keys = window(level, at);
  share(level, start_of(level, at), keys.data(), keys.size());
  return {keys.size(), true};
}

// A full segment holds one key too many for a moment, so that the windows count the new key.
Outcome Even::insert(uint64_t key) {
  const size_t at = home(key);
  std::vector<uint64_t> &keys = segment[at];
  const auto place = std::lower_bound(keys.begin(), keys.end(), key);
  const uint64_t moves = uint64_t(keys.end() - place) + 1;
  keys.insert(place, key);
  return keys.size() <= SEGMENT ? Outcome{moves, false} : sweep(smallest(at), at);
}

Outcome Even::erase(uint64_t key) {
  const size_t at = home(key);
  std::vector<uint64_t> &keys = segment[at];
  const auto place = std::lower_bound(keys.begin(), keys.end(), key);
  const uint64_t moves = uint64_t(keys.end() - place) - 1;
  keys.erase(place);
  const int level = keys.size() < 7 ? smallest(at) : 0;
  return level == 0 ? Outcome{moves, false} : sweep(level, at);
}

std::vector<uint64_t> Even::slots() const {
  std::vector<uint64_t> slots(SLOTS, 0);
  for (size_t s = 0; s < SEGMENTS; s++) std::copy(segment[s].begin(), segment[s].end(), slots.begin() + long(s * SEGMENT));
  return slots;
}
