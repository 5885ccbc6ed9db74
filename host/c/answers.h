/* What comes back from a request for levels: two periods, and the cells that were lent. */
#ifndef ANSWERS_H
#define ANSWERS_H

#include "check.h"
#include "railnoise.h"

#include <math.h>
#include <stdlib.h>
#include <string.h>

#define SILENT RAILNOISE_SILENT_CELL

static const railnoise_period silent_period = { true, 0, 0, false };

static inline bool same_period(railnoise_period a, railnoise_period b)
{
    return a.silent == b.silent && a.level == b.level && a.close == b.close && a.met == b.met;
}

static inline void expect_period(railnoise_period p, int32_t level, uint32_t close, bool met, const char *about)
{
    if (!CHECK(same_period(p, (railnoise_period){ false, level, close, met }), about))
        printf("  got silent %d level %d close %u met %d\n", p.silent, p.level, p.close, p.met);
}

/* Whether a total is one that document 01 allows for these levels, silent ones among them and at least one that is
 * not. Between 0.001 and 0.002 dB from a tie the mark is free; marked, the louder tenth is taken. */
static inline bool total_allowed(const int32_t *levels, size_t count, int32_t total, bool marked)
{
    long double energy = 0;
    for (size_t i = 0; i < count; i++)
        if (levels[i] != SILENT)
            energy += powl(10, levels[i] / 100.0L);
    long double tenths = 100 * log10l(energy);
    long double lower = floorl(tenths), past_tie = tenths - lower - 0.5L;
    bool must = fabsl(past_tie) <= 0.01L, may = fabsl(past_tie) < 0.02L;
    return total == (int32_t)lower + (marked || past_tie >= 0) && (marked ? may : !must);
}

/* Lent cells held one of these before: what an answer writes must not depend on it, and no level is either. */
#define UNTOUCHED 77777
#define UNTOUCHED_TOO (-88888)

static inline void fill(int32_t *cells, size_t count, int32_t value)
{
    for (size_t i = 0; i < count; i++)
        cells[i] = value;
}

static inline bool all(const int32_t *cells, size_t count, int32_t value)
{
    for (size_t i = 0; i < count; i++)
        if (cells[i] != value)
            return false;
    return true;
}

/* So many cells on the heap, all UNTOUCHED, between sentinels. */
#define SENTINELS 8
#define SENTINEL 0x5a5a5a5a
static inline int32_t *lend_cells(size_t count)
{
    int32_t *room = malloc((count + 2 * SENTINELS) * sizeof *room);
    if (room == NULL)
        exit(2);
    fill(room, count + 2 * SENTINELS, SENTINEL);
    fill(room + SENTINELS, count, UNTOUCHED);
    return room + SENTINELS;
}

/* Keeps what they hold, and frees them. */
static inline void take_cells_back(int32_t *cells, size_t count, int32_t *kept)
{
    CHECK(all(cells - SENTINELS, SENTINELS, SENTINEL), "sentinels before the cells");
    CHECK(all(cells + count, SENTINELS, SENTINEL), "sentinels after the cells");
    memcpy(kept, cells, count * sizeof *cells);
    free(cells - SENTINELS);
}

/* Whether two requests left the same, over cells that held UNTOUCHED and over such that held UNTOUCHED_TOO. */
static inline bool same_cells(const int32_t *cells, const int32_t *too, size_t count)
{
    for (size_t i = 0; i < count; i++)
        if (too[i] != (cells[i] == UNTOUCHED ? UNTOUCHED_TOO : cells[i]))
            return false;
    return true;
}

#endif
