// A list of the archive with its cards, table, forecast and totals, lent to the C calls by one profile: the first, but for what
// compares the two.
#ifndef BENCH_ARCHIVE_H
#define BENCH_ARCHIVE_H
#include <algorithm>

#include "../include/ffalwenog.h"
#include "patterns.h"

// A lookup's answer as one number: 0 for an absent key, else 2^32 and the card.
constexpr uint64_t PRESENT = uint64_t(1) << 32;

struct List {
  uint64_t profile;
  std::vector<uint64_t> slots, forecast = std::vector<uint64_t>(FF_FORECAST, 0);
  std::vector<uint32_t> cards; // beside each slot
  std::vector<size_t> table;   // the keys in each segment, in each window of two, .. and in the whole list
  uint32_t totals[FF_TOTALS] = {0, 0, 0, 0}; // records worked, records refused, keys moved, sweeps

  explicit List(uint64_t profile = 1, size_t size = SLOTS)
      : profile(profile), slots(size, 0), cards(size, 0), table(2 * (size / SEGMENT) - 1, 0) {}

  // Holds these slots from here on, as many as before, with the cards of their keys and their table.
  void hold(const std::vector<uint64_t> &others) {
    slots = others;
    std::transform(slots.begin(), slots.end(), cards.begin(), card_of);
    const size_t n = slots.size() / SEGMENT;
    for (size_t s = 0; s < n; s++)
      table[s] = SEGMENT - size_t(std::count(slots.begin() + long(s * SEGMENT), slots.begin() + long((s + 1) * SEGMENT), 0));
    for (size_t e = 0; e < n - 1; e++) table[n + e] = table[2 * e] + table[2 * e + 1];
  }

  // Whether each key of a pattern has its card.
  bool dealt() const {
    return std::equal(slots.begin(), slots.end(), cards.begin(), [](uint64_t key, uint32_t card) { return card == card_of(key); });
  }

  // A whole run of records, with no end to the allowance: the moves.
  uint64_t run(const std::vector<uint8_t> &requests) {
    uint64_t reply[4] = {0, 0, 0, 0};
    ff_run(profile, slots.data(), slots.size(), cards.data(), cards.size(), table.data(), table.size(), forecast.data(), FF_FORECAST,
           requests.data(), requests.size(), UINT64_MAX, totals, FF_TOTALS, reply, 4);
    return reply[2];
  }

  // One request by a single call: whether it was accepted; its moves are added.
  bool work(const Request &q, uint64_t &moves) {
    uint64_t reply[2] = {0, 0};
    const uint64_t number =
        q.insert ? ff_insert(profile, slots.data(), slots.size(), cards.data(), cards.size(), table.data(), table.size(),
                             forecast.data(), FF_FORECAST, q.key, q.card, reply, 2)
                 : ff_delete(profile, slots.data(), slots.size(), cards.data(), cards.size(), table.data(), table.size(),
                             forecast.data(), FF_FORECAST, q.key, reply, 2);
    moves += reply[0];
    return number == 0;
  }

  bool sound() const {
    return ff_check(profile, slots.data(), slots.size(), cards.data(), cards.size(), table.data(), table.size(), forecast.data(),
                    FF_FORECAST) == 0;
  }

  uint64_t find(uint64_t key) const {
    uint64_t reply[3] = {0, 0, 0}; // present, segment, card
    ff_lookup(profile, slots.data(), slots.size(), cards.data(), cards.size(), table.data(), table.size(), key, reply, 3);
    return reply[0] * PRESENT + reply[2];
  }

  // Writes at most `room` keys above `from`, and their cards: how many.
  size_t scan(uint64_t from, uint64_t *output, uint32_t *output_cards, size_t room) const {
    uint64_t reply[2] = {0, 0};
    ff_scan(profile, slots.data(), slots.size(), cards.data(), cards.size(), table.data(), table.size(), from, output, room,
            output_cards, room, reply, 2);
    return reply[0];
  }
};
#endif
