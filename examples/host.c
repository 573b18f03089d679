/* A small classroom in C: loads an exercise, each event with the number of its instructor's card, works request records, looks up, scans,
   meets refusals, draws the list, and fills it by each profile.
   examples/run builds it, runs it, and holds what it prints to examples/host.out. */
#include <inttypes.h>
#include <stdio.h>
#include <stdlib.h>
#include <string.h>

#include "ffalwenog.h"

enum { ROOMY = 1, TIGHT = 2 };                                    /* the two profiles; the classroom uses the first */
enum { HEIGHT = 2, SEGMENT = 64, SEGMENTS = 1 << HEIGHT, SLOTS = SEGMENT * SEGMENTS }; /* 256 slots, so at most 128 keys */
enum { ENTRIES = FF_TABLE(HEIGHT) };                              /* 7: four segments, two windows of two, and the whole list */
enum { FLOODING = 1, CARGO_SHIFT = 2, PUMP_FAILURE = 3 };         /* kinds of events */
enum { INSERT = 1, DELETE = 2, INSERT_CARD = 4 };                 /* kinds of requests; the last has a card too */
enum { ALLOWANCE = 300 }; /* moves of one run; a single record never needs more than 128, the keys of a full list */

/* All that a classroom keeps, and lends to the calls. */
struct room {
    uint64_t list[SLOTS];
    uint32_t cards[SLOTS];
    size_t table[ENTRIES];
    uint64_t forecast[FF_FORECAST];
    uint32_t totals[FF_TOTALS];
};

/* Request records, one behind the other. */
struct requests {
    uint8_t bytes[40 * 15];
    size_t length;
};

/* Ends the program where a number is not what it must be. */
static void must(const char *what, uint64_t is, uint64_t must_be)
{
    if (is == must_be)
        return;
    fprintf(stderr, "%s: %" PRIu64 ", but it must be %" PRIu64 "\n", what, is, must_be);
    exit(1);
}

/* The key of an event: the minute of the day, the kind, and which compartment, hold or pump; so keys rise with time.
   Kind 0 and number 0 give a key just below all events of that minute: a place to scan from. */
static uint64_t event(unsigned hour, unsigned minute, unsigned kind, unsigned which)
{
    return (uint64_t)(60 * hour + minute) << 16 | kind << 8 | which;
}

static void print_event(uint64_t key, uint32_t card)
{
    static const char *const words[] = {"nothing", "flooding of compartment", "cargo shift in hold", "failure of pump"};
    unsigned minute = (unsigned)(key >> 16);

    printf("  %02u:%02u  %s %u", minute / 60, minute % 60, words[key >> 8 & 3], (unsigned)(key & 255));
    if (card != 0)
        printf(", card %" PRIu32, card);
    putchar('\n');
}

/* The count of the forecast's cell with this marker (0: the front of the list), or 0 where no cell has it. */
static uint64_t forecast_count(const struct room *room, uint64_t marker)
{
    for (size_t i = 0; i < room->forecast[0]; i++) {
        const uint64_t *cell = room->forecast + 1 + 3 * i; /* marker, segment, count */
        if (cell[0] == marker)
            return cell[2];
    }
    return 0;
}

/* Draws a line a segment: '.' a gap, '#' a key, and a digit for a key behind which the forecast awaits more: its cell's count. Behind it,
   the count that the table has for the segment. */
static void draw(const struct room *room)
{
    for (int segment = 0; segment < SEGMENTS; segment++) {
        printf("  segment %d  ", segment);
        for (int i = 0; i < SEGMENT; i++) {
            uint64_t key = room->list[SEGMENT * segment + i];
            uint64_t count = key == 0 ? 0 : forecast_count(room, key);
            putchar(key == 0 ? '.' : count == 0 ? '#' : (int)('0' + count)); /* at height 2 no count is above 8 */
        }
        printf(" %3zu keys", room->table[segment]);
        if (segment == 0 && forecast_count(room, 0) != 0)
            printf(", and the front's cell counts %" PRIu64, forecast_count(room, 0));
        putchar('\n');
    }
}

/* The classroom's insert of a key with its card, by any profile. */
static uint64_t insert(struct room *room, uint64_t profile, uint64_t key, uint32_t card, uint64_t *moves)
{
    return ff_insert(profile, room->list, SLOTS, room->cards, SLOTS, room->table, ENTRIES, room->forecast, FF_FORECAST, key, card,
                     moves, 1);
}

/* Loads the plan of the exercise: from 09:00 an event every other minute, the kinds in turn, the cards from 101 on. */
static void load(struct room *room)
{
    uint64_t moves;

    must("make", ff_make(ROOMY, room->list, SLOTS, room->cards, SLOTS, room->table, ENTRIES, room->forecast, FF_FORECAST), 0);
    for (unsigned i = 0; i < 80; i++)
        must("insert", insert(room, ROOMY, event(9, 2 * i, FLOODING + i % 3, 1 + i % 5), 101 + i, &moves), 0);
    printf("The plan: 80 events from 09:00, every other minute. ('#' a key, '.' a gap, a digit the count of a marker's cell.)\n");
    draw(room);
}

/* Adds a record: the mark, the kind, the key with its high byte first; where the kind has a card, that too. */
static void ask(struct requests *requests, uint8_t kind, uint64_t key, uint32_t card)
{
    uint8_t *to = requests->bytes + requests->length;
    const size_t size = kind == INSERT_CARD ? 15 : 11;

    must("room for a record", requests->length + size <= sizeof requests->bytes, 1);
    to[0] = 0xA5;
    to[1] = 0x5A;
    to[2] = kind;
    for (int i = 0; i < 8; i++)
        to[3 + i] = (uint8_t)(key >> (56 - 8 * i));
    for (int i = 0; i < 4 && size == 15; i++)
        to[11 + i] = (uint8_t)(card >> (24 - 8 * i));
    requests->length += size;
}

/* Works the records in runs of at most ALLOWANCE moves. Each run begins at the record that stopped the one before. */
static void work(struct room *room, const struct requests *requests)
{
    size_t place = 0;
    uint64_t number, reply[4]; /* records worked, records refused, moves, byte place */

    do {
        number = ff_run(ROOMY, room->list, SLOTS, room->cards, SLOTS, room->table, ENTRIES, room->forecast, FF_FORECAST,
                        requests->bytes + place, requests->length - place, ALLOWANCE, room->totals, FF_TOTALS, reply, 4);
        if (number != 10)
            must("run", number, 0);
        printf("  a run: %" PRIu64 " worked, %" PRIu64 " refused, %" PRIu64 " moves, %s\n", reply[0], reply[1], reply[2],
               number == 10 ? "stopped by the allowance" : "at the end");
        place += reply[3];
    } while (number == 10);
    must("place", place, requests->length);
}

/* Changes the plan by request records. */
static void change(struct room *room)
{
    struct requests requests = {.length = 0};

    for (unsigned i = 30; i > 0; i--) /* the last first: each falls just behind the event of 10:00 */
        ask(&requests, INSERT_CARD, event(10, 1, FLOODING, i), 200 + i);
    for (unsigned i = 4; i > 0; i--) /* before all others: just behind the front; with no card, which is card 0 */
        ask(&requests, INSERT, event(8, 50, PUMP_FAILURE, i), 0);
    ask(&requests, DELETE, event(9, 0, FLOODING, 1), 0);
    ask(&requests, DELETE, event(9, 2, CARGO_SHIFT, 2), 0);
    ask(&requests, DELETE, event(9, 0, FLOODING, 1), 0); /* gone already: refused, and the run goes on */
    printf("\nThe change: 30 floodings at 10:01, with cards, 4 pump failures at 08:50, with none, and 3 deletes, the last of a key that is "
           "gone.\n");
    work(room, &requests);
    draw(room);
    must("records worked", room->totals[0], 37);
    must("records refused", room->totals[1], 1);
    printf("  totals: records worked %" PRIu32 ", refused %" PRIu32 ", keys moved %" PRIu32 ", sweeps %" PRIu32 "\n", room->totals[0],
           room->totals[1], room->totals[2], room->totals[3]);
}

/* Reads the n events from a moment on, with their cards. */
static void read_from(const struct room *room, uint64_t moment, size_t n)
{
    uint64_t keys[8], reply[2];
    uint32_t cards[8];

    must("scan", ff_scan(ROOMY, room->list, SLOTS, room->cards, SLOTS, room->table, ENTRIES, moment, keys, n, cards, n, reply, 2), 0);
    must("keys written", reply[0], n);
    for (size_t i = 0; i < n; i++)
        print_event(keys[i], cards[i]);
    must("a key remains", reply[1], 1);
    printf("  and more after these\n");
}

/* Looks one event up, and reads the five from 08:50 on, then the six from 10:00 on. */
static void look(const struct room *room)
{
    uint64_t found[3]; /* live, segment, card */

    must("lookup",
         ff_lookup(ROOMY, room->list, SLOTS, room->cards, SLOTS, room->table, ENTRIES, event(10, 1, FLOODING, 7), found, 3), 0);
    must("the key is live", found[0], 1);
    printf("\nThe flooding of compartment 7 at 10:01 is in segment %" PRIu64 " and has card %" PRIu64 ".\n", found[1], found[2]);
    printf("Five events from 08:50 on, and six from 10:00 on:\n");
    read_from(room, event(8, 50, 0, 0), 5);
    read_from(room, event(10, 0, 0, 0), 6);
}

/* An insert that is refused by this number, with nothing changed, for this reason. */
static void refused(struct room *room, uint64_t profile, uint64_t key, uint64_t number, const char *why)
{
    struct room before = *room;
    uint64_t moves = 9;

    must(why, insert(room, profile, key, 999, &moves), number);
    must("moves", moves, 0);
    must("a change", memcmp(room, &before, sizeof before) != 0, 0);
    printf("  %" PRIu64 "  %s\n", number, why);
}

/* Refused calls leave everything as it was, even where the classroom's own memory is damaged. */
static void refusals(struct room *room)
{
    const uint64_t present = event(10, 1, FLOODING, 7), new_one = event(12, 0, FLOODING, 1), sound = room->list[5];

    printf("\nRefused, with nothing changed:\n");
    refused(room, ROOMY, present, 6, "the same key twice, with another card");
    refused(room, 3, new_one, 15, "a profile that is neither 1 nor 2");

    room->list[5] = room->list[4]; /* keys no longer rise strictly */
    refused(room, ROOMY, new_one, 2, "an insert while slot 5 is damaged");
    room->list[5] = sound;
    room->cards[SLOTS - 1] = 7; /* no key is there */
    refused(room, ROOMY, new_one, 13, "an insert while a card stands beside a gap");
    room->cards[SLOTS - 1] = 0;
    room->table[ENTRIES - 1]++; /* one key too many in the whole list */
    refused(room, ROOMY, new_one, 14, "an insert while the table's last count is damaged");
    room->table[ENTRIES - 1]--;

    must("check", ff_check(ROOMY, room->list, SLOTS, room->cards, SLOTS, room->table, ENTRIES, room->forecast, FF_FORECAST), 0);
    printf("Slot, card and count mended, the check gives 0.\n");
}

/* Rising keys into an empty list of the same memory until the profile allows no more: how many, and their moves. */
static void fill(uint64_t profile)
{
    static struct room room;
    uint64_t keys = 0, moves, all = 0, number;

    must("make", ff_make(profile, room.list, SLOTS, room.cards, SLOTS, room.table, ENTRIES, room.forecast, FF_FORECAST), 0);
    while ((number = insert(&room, profile, keys + 1, 0, &moves)) == 0) {
        keys++;
        all += moves;
    }
    must("full", number, 8);
    printf("  profile %" PRIu64 ": %" PRIu64 " keys, %" PRIu64 " moves\n", profile, keys, all);
}

int main(void)
{
    struct room room = {.totals = {0}};

    load(&room);
    change(&room);
    look(&room);
    refusals(&room);
    printf("\nFilled by rising keys, %d slots hold:\n", SLOTS);
    fill(ROOMY);
    fill(TIGHT);
    return 0;
}
