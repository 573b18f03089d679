/* The run over a lent record of totals: forecast, totals and reply as crate `told` has them. Not among the calls of the header, which take
   words; asked for as they are, and answered in the same words. */
#include "ffalwenog.h"

enum { CELLS = 12 };

struct forecast {
    uint64_t markers[CELLS];
    uint8_t segments[CELLS], counts[CELLS];
    size_t used;
};

struct totals {
    uint32_t worked, refused, moved, sweeps;
};

struct reply {
    struct forecast forecast;
    size_t worked, refused;
    uint64_t moves;
    size_t sweeps, place;
    uint64_t stop;
};

struct reply ff_run_over(uint64_t profile, uint64_t *list, size_t list_length, uint32_t *cards, size_t cards_length, size_t *table,
                         size_t table_length, struct forecast forecast, const uint8_t *requests, size_t requests_length,
                         uint64_t allowance, struct totals *totals);

/* Whether the words of a forecast are such as the struct has room for. */
static int has_room(const uint64_t *words)
{
    for (int i = 0; i < CELLS; i++)
        if (words[3 * i + 2] > UINT8_MAX || words[3 * i + 3] > UINT8_MAX)
            return 0;
    return 1;
}

static struct forecast from_words(const uint64_t *words)
{
    struct forecast forecast;

    forecast.used = words[0];
    for (int i = 0; i < CELLS; i++) {
        forecast.markers[i] = words[3 * i + 1];
        forecast.segments[i] = (uint8_t)words[3 * i + 2];
        forecast.counts[i] = (uint8_t)words[3 * i + 3];
    }
    return forecast;
}

static void to_words(struct forecast forecast, uint64_t *words)
{
    words[0] = forecast.used;
    for (int i = 0; i < CELLS; i++) {
        words[3 * i + 1] = forecast.markers[i];
        words[3 * i + 2] = forecast.segments[i];
        words[3 * i + 3] = forecast.counts[i];
    }
}

/* As ff_run; the sizes are right. */
static uint64_t run_over(uint64_t profile, uint64_t *list, size_t list_length, uint32_t *cards, size_t cards_length, size_t *table,
                         size_t table_length, uint64_t *forecast, const uint8_t *requests, size_t requests_length,
                         uint64_t allowance, struct totals *totals, uint64_t *reply)
{
    struct reply done = ff_run_over(profile, list, list_length, cards, cards_length, table, table_length, from_words(forecast),
                                    requests, requests_length, allowance, totals);

    to_words(done.forecast, forecast);
    reply[0] = done.worked;
    reply[1] = done.refused;
    reply[2] = done.moves;
    reply[3] = done.place;
    return done.stop;
}
