/* Makes the calls that standard input asks for, and writes back what each returned and all the memory it was lent, with guards.

   Asked, in words of 64 bits, low byte first: the call (1 to 7, in the order of the header; 8, the run over lent totals as a struct),
   the profile, the call's number (key, from or allowance), the card of an insert,
   the lengths of the nine slices below in elements; then their contents. A slice that the call does not take is left alone.
   Answered: the word returned; then each slice with GUARD bytes before it and after it, as they now are. */
#include "ffalwenog.h"
#include "over.h"

#include <stdio.h>
#include <stdlib.h>

enum { LIST, CARDS, TABLE, FORECAST, REQUESTS, TOTALS, OUTPUT, OUTPUT_CARDS, REPLY, SLICES };
enum { MAKE = 1, CHECK, LOOKUP, INSERT, DELETE, SCAN, RUN, OVER };
enum { GUARD = 32, MOST = 1 << 20, HEAD = 4 + SLICES };

static const size_t width[SLICES] = {8, 4, sizeof(size_t), 8, 1, 4, 8, 4, 8};

/* Guards and content stand in one piece of memory; the content is aligned as its elements ask, and no better. */
struct slice {
    unsigned char *memory, *guarded;
    void *content;
    size_t length, size;
};

static void must(int holds, const char *what)
{
    if (!holds) {
        fprintf(stderr, "driver: %s\n", what);
        exit(3);
    }
}

static void lend(struct slice *s, size_t element, size_t length)
{
    must(length <= MOST, "a slice too long");
    s->length = length;
    s->size = length * element;
    s->memory = malloc(s->size + 2 * GUARD + element);
    must(s->memory != NULL, "no memory");
    s->guarded = s->memory + element;
    s->content = s->guarded + GUARD;
    for (size_t i = 0; i < GUARD; i++)
        s->guarded[i] = s->guarded[GUARD + s->size + i] = (unsigned char)(0xC0 + i);
    must(fread(s->content, 1, s->size, stdin) == s->size, "a call cut short");
}

static uint64_t call(uint64_t ask, uint64_t profile, uint64_t number, uint32_t card, struct slice *s)
{
    uint64_t *list = s[LIST].content, *forecast = s[FORECAST].content, *reply = s[REPLY].content;
    uint32_t *cards = s[CARDS].content;
    size_t *table = s[TABLE].content;
    size_t n = s[LIST].length, c = s[CARDS].length, t = s[TABLE].length, f = s[FORECAST].length, r = s[REPLY].length;

    switch (ask) {
    case MAKE: return ff_make(profile, list, n, cards, c, table, t, forecast, f);
    case CHECK: return ff_check(profile, list, n, cards, c, table, t, forecast, f);
    case LOOKUP: return ff_lookup(profile, list, n, cards, c, table, t, number, reply, r);
    case INSERT: return ff_insert(profile, list, n, cards, c, table, t, forecast, f, number, card, reply, r);
    case DELETE: return ff_delete(profile, list, n, cards, c, table, t, forecast, f, number, reply, r);
    case SCAN:
        return ff_scan(profile, list, n, cards, c, table, t, number, s[OUTPUT].content, s[OUTPUT].length,
                       s[OUTPUT_CARDS].content, s[OUTPUT_CARDS].length, reply, r);
    case RUN:
        return ff_run(profile, list, n, cards, c, table, t, forecast, f, s[REQUESTS].content, s[REQUESTS].length, number,
                      s[TOTALS].content, s[TOTALS].length, reply, r);
    case OVER:
        must(f == FF_FORECAST && s[TOTALS].length == FF_TOTALS && r >= 4 && has_room(forecast), "no room");
        return run_over(profile, list, n, cards, c, table, t, forecast, s[REQUESTS].content, s[REQUESTS].length, number,
                        s[TOTALS].content, reply);
    }
    must(0, "no such call");
    return 0;
}

int main(void)
{
    uint64_t head[HEAD];
    struct slice lent[SLICES];

    while (fread(head, sizeof head, 1, stdin) == 1) {
        for (int i = 0; i < SLICES; i++)
            lend(&lent[i], width[i], head[4 + i]);
        uint64_t returned = call(head[0], head[1], head[2], (uint32_t)head[3], lent);
        fwrite(&returned, sizeof returned, 1, stdout);
        for (int i = 0; i < SLICES; i++) {
            fwrite(lent[i].guarded, 1, lent[i].size + 2 * GUARD, stdout);
            free(lent[i].memory);
        }
        must(fflush(stdout) == 0, "no one reads");
    }
    return 0;
}
