/* Ffalwenog: the events of a classroom as 64-bit keys, each with a 32-bit card, in one sorted array with gaps that the caller lends.

   What a call is lent
     profile   1 or 2: how crowded a list may be, by keys to a segment of 64 slots.
                                                             1     2
                 the whole list holds at most               32    44    (so 32 * 2^h or 44 * 2^h keys in all)
                 it is sparse under                         13    20
                 a segment overflows past                   64    58    (the insert then sweeps: shares out a window of segments)
                 a segment has too few under                 7     6    (the delete then sweeps, if a window round it allows)
               Profile 1 leaves half of the memory free; profile 2 needs less memory and sweeps more often. A list belongs to neither:
               each call names the profile it works by, and what it is lent is tested by that one.
     list      64 * 2^h words, h from 1 to 6: a slot each, 0 for a gap.
     cards     as many words of 32 bits as the list has slots: beside each key its card, which may be any number, 0 too; beside each gap
               0. A card goes with its key wherever that goes. The caller lends it with the list, and ff_make fills it with zeros.
     table     2^(h+1) - 1 counts, FF_TABLE(h): the keys in each window of 1, 2, 4, .. 2^h segments; the segments first, then the windows
               of two, .. and last the whole list, each kind from left to right. By it a call finds a key's segment and the window to
               sweep. The caller lends it with the list, ff_make fills it, each call keeps it right, and nobody else writes it.
     forecast  37 words: the number of cells used, then marker, segment and count of each of 12 cells.
     totals    4 words of 32 bits that a run adds to: records worked, records refused, keys moved, sweeps; each modulo 2^32.
     requests  bytes: records of 11 bytes, 0xA5 0x5A, the kind (1 insert, 2 delete), the key, high byte first; or of 15 bytes, which
               begin so with kind 4, insert with a card, and end with the card, high byte first. Kind 1 means card 0.
     reply     words that the call writes, in the order given with it. Words beyond those stay as they are.
   Lengths count elements. Pointers are aligned and not NULL, for a length of 0 too, and nothing that a call writes to overlaps
   anything else that it is lent. Beyond this a call asks nothing: any contents are checked, and answered.

   What a call returns
       0  done
      15  the profile is neither 1 nor 2
       1  the length of the list is not 64 * 2^h, h from 1 to 6
      12  the length of the cards is not that of the list
       2  keys are not strictly rising, or a key stands after a gap in its segment of 64 slots
      13  a card stands beside a gap: it is not 0
       3  the list holds more than 32 * 2^h keys (profile 2: 44 * 2^h)
       4  the forecast uses more than 6 + h cells; or a used cell's count is not from 1 to 6 + h, its marker is another's or neither
          0 nor a live key, or its segment is wrong; or an unused cell is not all zeros
      14  the length of the table is not 2^(h+1) - 1, or an entry is not the count of its window
       5  the key of an insert, delete or lookup is 0
       6  insert: the key is present
       7  delete: the key is absent
       8  insert: the list already holds 32 * 2^h keys (profile 2: 44 * 2^h)
       9  run: stopped before a short record (under 11 bytes; of kind 4, under 15), a wrong mark or a wrong kind
      10  run: stopped before a record whose moves would pass the allowance
     100  the forecast is not 37 words, the totals are not 4, or the reply is shorter than listed: tested before all else
   The numbers are tested in this order, but 100 first. 100 touches nothing. 15, 1 to 8 and 12 to 14 leave list, cards, table, forecast
   (but for ff_make), outputs and totals, and make the listed words of the reply 0. 9 and 10 keep the work of the records before the one
   that stopped the run, and the reply tells of it. */
#ifndef FFALWENOG_H
#define FFALWENOG_H

#include <stddef.h>
#include <stdint.h>

#define FF_FORECAST 37                        /* words of a forecast */
#define FF_TOTALS 4                           /* words of the totals */
#define FF_TABLE(h) (((size_t)2 << (h)) - 1) /* entries of the table of a list of height h */

#ifdef __cplusplus
extern "C" {
#endif

/* Writes 0 in every slot, every card and every entry of the table, and an empty forecast: all zeros. Refuses only by 15, by 1, by 12 and
   by 14, for the table's length (and 100). Refused by these four it leaves slots, cards and table; the forecast is empty then too. */
uint64_t ff_make(uint64_t profile, uint64_t *list, size_t list_length, uint32_t *cards, size_t cards_length, size_t *table,
                 size_t table_length, uint64_t *forecast, size_t forecast_length);

/* Tests 15, 1, 12, 2, 13, 3, 4 and 14 and changes nothing.
   A list, cards, table and forecast that a call has left after 0 pass, by the same profile. */
uint64_t ff_check(uint64_t profile, const uint64_t *list, size_t list_length, const uint32_t *cards, size_t cards_length,
                  const size_t *table, size_t table_length, const uint64_t *forecast, size_t forecast_length);

/* reply, three words: 1 if the key is live, else 0; its segment, or 0; its card, or 0.
   Gives 0, 15, 1, 12, 2, 13, 3, 14 or 5. */
uint64_t ff_lookup(uint64_t profile, const uint64_t *list, size_t list_length, const uint32_t *cards, size_t cards_length,
                   const size_t *table, size_t table_length, uint64_t key, uint64_t *reply, size_t reply_length);

/* Puts a new key in, with its card. reply: the moves.
   Gives 0, 15, 1 to 4, 12 to 14, 5, 6, or 8; after 0 the list holds the keys it held, each with its card, and the new one with this card.
   A key that is present (6) keeps the card it has. */
uint64_t ff_insert(uint64_t profile, uint64_t *list, size_t list_length, uint32_t *cards, size_t cards_length, size_t *table,
                   size_t table_length, uint64_t *forecast, size_t forecast_length, uint64_t key, uint32_t card, uint64_t *reply,
                   size_t reply_length);

/* Takes a live key out, and its card. reply: the moves; 1 if the list is now sparse (fewer than 13 * 2^h keys; profile 2: 20 * 2^h), else
   0. Gives 0, 15, 1 to 4, 12 to 14, 5, or 7; after 0 the list holds the keys it held but this one, each with its card. */
uint64_t ff_delete(uint64_t profile, uint64_t *list, size_t list_length, uint32_t *cards, size_t cards_length, size_t *table,
                   size_t table_length, uint64_t *forecast, size_t forecast_length, uint64_t key, uint64_t *reply,
                   size_t reply_length);

/* Writes the live keys above `from`, rising, into the output, and the card of each into the same place of the output of cards, until
   either is full or they end: the shorter sets how many fit. The rest of both stays.
   reply: the number written; 1 if a live key remains above the last one written (above `from`, if none was), else 0.
   Gives 0, 15, 1, 12, 2, 13, 3, or 14. */
uint64_t ff_scan(uint64_t profile, const uint64_t *list, size_t list_length, const uint32_t *cards, size_t cards_length,
                 const size_t *table, size_t table_length, uint64_t from, uint64_t *output, size_t output_length,
                 uint32_t *output_cards, size_t output_cards_length, uint64_t *reply, size_t reply_length);

/* Checks once, then works the records in order, and stops before one by 9 or 10; records refused by 5 to 8 count, and the run goes on.
   reply: records worked, records refused, moves, and the byte place: where the record that stopped it begins, or the end. */
uint64_t ff_run(uint64_t profile, uint64_t *list, size_t list_length, uint32_t *cards, size_t cards_length, size_t *table,
                size_t table_length, uint64_t *forecast, size_t forecast_length, const uint8_t *requests, size_t requests_length,
                uint64_t allowance, uint32_t *totals, size_t totals_length, uint64_t *reply, size_t reply_length);

#ifdef __cplusplus
}
#endif

#endif
