/* A good study text with another speed typed in one train entry's line, as the planner would find out by hand how fast
 * the train may pass. */
#ifndef RETYPE_H
#define RETYPE_H

#include "railnoise.h"

#include <stdio.h>
#include <stdlib.h>
#include <string.h>

/* The speeds that a planner may be told, km/h. */
enum { SLOWEST = 20, FASTEST = 300 };

/* Most bytes of a good text: none has more than 24 lines of 106 bytes and 96 of 36, after the contents. */
#define RETYPED_LIMIT 8192

/* The number of a good text's segments, and of each segment's entries; gives that of all entries. */
static inline uint32_t read_contents(const char *text, long *segments, long counts[RAILNOISE_SEGMENT_LIMIT])
{
    char *at;
    uint32_t entries = 0;
    *segments = strtol(text, &at, 10);
    for (long i = 0; i < *segments; i++) {
        counts[i] = strtol(at, &at, 10);
        entries += (uint32_t)counts[i];
    }
    return entries;
}

/* The number of a good text's train entries. */
static inline uint32_t entries_of(const char *text)
{
    long segments, counts[RAILNOISE_SEGMENT_LIMIT];
    return read_contents(text, &segments, counts);
}

/* Puts a good text with that speed in the line of an entry, counted from 1 and no more than there are; gives the
 * length, at most 4 bytes more than before. */
static inline size_t retype(char *to, const char *text, size_t length, uint32_t entry, int speed)
{
    long segments, counts[RAILNOISE_SEGMENT_LIMIT], lines = 1;
    read_contents(text, &segments, counts);
    for (long i = 0, left = entry; left > 0; left -= counts[i++])
        lines += 1 + (left > counts[i] ? counts[i] : left - 1);
    const char *at = text;
    for (; lines > 0; lines--)
        at = (const char *)memchr(at, '\n', length - (size_t)(at - text)) + 1;
    size_t before = (size_t)(strchr(at, ' ') + 1 - text);
    const char *after = strchr(text + before, ' ');
    memcpy(to, text, before);
    size_t typed = before + (size_t)sprintf(to + before, "%d", speed);
    memcpy(to + typed, after, length - (size_t)(after - text));
    return typed + length - (size_t)(after - text);
}

#endif
