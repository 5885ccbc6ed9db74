/* Drawings that the tests of requests hand over: study texts with their lengths. */
#ifndef DRAWINGS_H
#define DRAWINGS_H

#include "check.h"
#include "texts.h"

typedef struct {
    const char *text;
    size_t length;
} drawing;

static inline drawing typed(const char *text)
{
    return (drawing){ text, strlen(text) };
}

/* Room for a drawing's text that lasts until 64 more are made. */
static inline char *room_for_text(void)
{
    static char texts[64][RAILNOISE_TEXT_LIMIT];
    static unsigned made;
    return texts[made++ % COUNT(texts)];
}

/* Three segments with 0 to 2 entries each, as the digits of `counts` to base 3, from a place on. A segment at place p
 * has a Table 1 reading of 0.7 p dB, and its second entry 2 vehicles, 3.0 dB. Puts the entries' levels by day. */
static inline drawing three_segments(int counts, int first_place, int32_t *levels, size_t *entries)
{
    const int of[3] = { counts / 9, counts / 3 % 3, counts % 3 };
    char *text = room_for_text(), *at = text + sprintf(text, "3 %d %d %d\n", of[0], of[1], of[2]);
    for (int i = 0; i < 3; i++) {
        int reading = 7 * (first_place + i);
        at += sprintf(at, "2500 0 600 0 180 180 0 0 0 0 %d 0 0 0 0\n", reading);
        for (int k = 0; k < of[i]; k++) {
            at += sprintf(at, "1 100 %d 1 1\n", k + 1);
            levels[(*entries)++] = PLAIN_DAY + reading + 30 * k;
        }
    }
    return (drawing){ text, (size_t)(at - text) };
}

/* Segments and trains of many kinds, by their places in these lists. */
static const char *const segment_lines[] = {
    SEGMENT, MARKED_SEGMENT, HOUSE_SEGMENT, CUT_SEGMENT,
    "10000 330 235 10 29 29 0 0 0 0 0 0 1 0 0\n",
    "10000 330 235 0 115 173 2 500 130 38 0 0 1 0 0\n",
    "1000 -450 0 7 5 180 0 0 0 0 150 -30 0 5 0\n",
    "30000 5000 5000 10 180 180 2 29900 -2000 100 150 0 1 180 100\n",
    "25000 0 515 1 90 90 0 0 0 0 0 0 0 0 0\n",
    "6200 800 300 4 90 120 1 900 60 0 20 0 0 10 14\n",
};
static const char *const train_lines[] = {
    TRAIN, "1 150 10 179 13\n", "34 300 60 2000 2000\n", "8 20 1 1 0\n", "20 50 30 0 8\n", "4 7 3 10 2\n",
    "15 60 20 0 0\n", "25 299 59 1999 1\n", "13 140 8 90 20\n",
};

typedef struct {
    const char *line, *trains[6];
    int entries;
} drawn_segment;

static inline drawing compose(const drawn_segment *of, int segments)
{
    char *text = room_for_text(), *at = text + sprintf(text, "%d", segments);
    for (int i = 0; i < segments; i++)
        at += sprintf(at, " %d", of[i].entries);
    at += sprintf(at, "\n");
    for (int i = 0; i < segments; i++) {
        at += sprintf(at, "%s", of[i].line);
        for (int k = 0; k < of[i].entries; k++)
            at += sprintf(at, "%s", of[i].trains[k]);
    }
    return (drawing){ text, (size_t)(at - text) };
}

/* The next of a fixed row of numbers, below a limit. */
static inline int next_below(uint32_t *state, size_t limit)
{
    *state = *state * 1664525 + 1013904223;
    return (int)((*state >> 8) % limit);
}

/* That many mixed segments with up to 6 entries each, most with none; gives the entries in all. */
static inline int mix_segments(uint32_t *state, drawn_segment *of, int segments)
{
    int entries = 0;
    for (int i = 0; i < segments; i++) {
        of[i].line = segment_lines[next_below(state, COUNT(segment_lines))];
        of[i].entries = next_below(state, 2) == 0 ? 0 : next_below(state, 7);
        if (entries + of[i].entries > 96)
            of[i].entries = 0;
        entries += of[i].entries;
        for (int k = 0; k < of[i].entries; k++)
            of[i].trains[k] = train_lines[next_below(state, COUNT(train_lines))];
    }
    return entries;
}

#endif
