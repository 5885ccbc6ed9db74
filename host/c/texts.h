/* Texts that more than one of the programs here hands over. */
#ifndef TEXTS_H
#define TEXTS_H

#include "railnoise.h"

#include <stdio.h>
#include <string.h>

/* Document 01's sample, which is the memorandum's Example 8. */
static const char sample[] =
    "3 1 1 1\n"
    "10000 330 235 10 29 29 0 0 0 0 0 0 1 0 0\n"
    "1 150 10 179 13\n"
    "10000 330 235 0 115 173 2 500 130 38 0 0 1 0 0\n"
    "1 150 10 179 13\n"
    "10000 330 235 10 36 36 0 0 0 0 0 0 1 0 0\n"
    "1 150 10 179 13\n";

/* A house that is entitled by night alone, README's and docs/studies': a terminal's track that had trains by day gets eight
 * by night, and a line beside it stays as it is. */
static const char terminal_before[] = "1 2\n2000 330 235 5 180 180 0 0 0 0 0 0 1 0 0\n20 50 30 24 0\n26 50 1 24 0\n";
static const char terminal_after[] = "1 2\n2000 330 235 5 180 180 0 0 0 0 0 0 1 0 0\n20 50 30 24 8\n26 50 1 24 8\n";
static const char line_beside[] = "1 1\n5000 330 235 5 180 180 0 0 0 0 0 0 1 0 0\n10 120 8 80 20\n";

/* A main line at that house, which another team has drawn: in the open to one side, behind a screen to the other. The
 * terminal's track after the works is the yard's drawing beside it. */
static const char main_line[] =
    "2 1 2\n"
    "5000 330 235 5 140 140 0 0 0 0 0 0 1 0 0\n"
    "10 120 8 80 24\n"
    "5000 330 235 0 40 40 1 800 200 0 0 0 1 0 0\n"
    "10 120 8 80 24\n"
    "20 90 25 12 6\n";

/* A segment that adds nothing, and a train; the tenths of its level by day and by night. */
#define SEGMENT "2500 0 600 0 180 180 0 0 0 0 0 0 0 0 0\n"
#define TRAIN "1 100 1 1 1\n"
enum { PLAIN_DAY = 148 + 712 - 481, PLAIN_NIGHT = 148 + 712 - 433 };

/* A segment whose ground step is marked: -0.75 at 250 m, taken as -0.7, with -10.0 and -1.8. */
#define MARKED_SEGMENT "25000 0 350 5 180 180 0 0 0 0 0 0 0 0 0\n"
#define MARKED_GROUND "1 1\n" MARKED_SEGMENT TRAIN

/* Two entries by day alone, with these Table 1 readings and trains. */
#define TWO(reading, trains, second, its_trains)                                               \
    "2 1 1\n2500 0 600 0 180 180 0 0 0 0 " reading " 0 0 0 0\n1 100 1 " trains " 0\n2500 0 600 0 180 180 0 0 0 0 " \
    second " 0 0 0 0\n1 100 1 " its_trains " 0\n"
#define MARKED_TOTAL TWO("91", "100", "4", "100") /* 67.0 and 58.3, which is 67.6 and marked */
#define ROUNDED_DOWN TWO("21", "100", "77", "10") /* 60.0 and 55.6, which is 61.345 */
#define FAINT "1 1\n30000 0 600 0 5 5 0 0 0 0 0 -30 0 0 0\n8 20 1 1 1\n" /* -39.4 by day, -34.6 by night */

/* A segment beside a house, and one in a retained cut with a screen and a far wall. */
#define HOUSE_SEGMENT "2600 180 420 3 160 170 0 0 0 0 0 0 1 0 0\n"
#define CUT_SEGMENT "6200 150 300 4 90 120 1 900 260 0 0 0 1 10 15\n"

/* Both: trains that are heard at 64.3 by day alone, at 44.5 and 42.8, and one that crawls at 17.7 and 15.5. */
#define HOUSE_AND_CUT "2 1 2\n" HOUSE_SEGMENT "4 110 9 60 0\n" CUT_SEGMENT "13 140 8 90 20\n4 7 3 10 2\n"

/* Texts that are refused, by each number. */
static const struct {
    const char *text;
    uint32_t number, line;
} refused_texts[] = {
    { "1 1\n999 0 600 0 180 180 0 0 0 0 0 0 0 0 0\n" TRAIN, 1, 2 },
    { "1 1\n2500 5001 600 0 180 180 0 0 0 0 0 0 0 0 0\n" TRAIN, 2, 2 },
    { "1 1\n2500 0 600 11 180 180 0 0 0 0 0 0 0 0 0\n" TRAIN, 3, 2 },
    { "2 1 1\n" SEGMENT TRAIN "2500 0 600 0 4 180 0 0 0 0 0 0 0 0 0\n" TRAIN, 4, 4 },
    { "1 1\n2500 0 600 0 180 180 0 0 0 0 0 0 0 0 1\n" TRAIN, 5, 2 },
    { "1 1\n2500 0 600 0 180 180 1 1000 5000 0 0 0 0 0 0\n" TRAIN, 6, 2 },
    { "1 1\n2500 0 600 0 180 180 0 0 0 0 151 0 0 0 0\n" TRAIN, 7, 2 },
    { "1 2\n" SEGMENT TRAIN "35 100 1 1 1\n", 8, 4 },
    { "1 1\n" SEGMENT "1 301 1 1 1\n", 9, 3 },
    { "1 1\n" SEGMENT "1 100 61 1 1\n", 10, 3 },
    { "1 1\n" SEGMENT "1 100 1 1 2001\n", 11, 3 },
    { "1 1\n" SEGMENT "1 100 1 1 1", 12, 3 },
    { "1 1\n" SEGMENT TRAIN TRAIN, 13, 4 },
    { "1 0\n" SEGMENT, 13, 1 },
    { "", 13, 1 },
};

/* The sample and then spaces, one byte more than a text may have: refused at line 0, without that byte at line 8. */
static inline const char *long_text(void)
{
    static char text[RAILNOISE_TEXT_LIMIT + 1];
    memset(text, ' ', sizeof text);
    memcpy(text, sample, sizeof sample - 1);
    return text;
}

/* Ten times the number of trains are 10.0 dB, the rest is the Table 1 reading. */
static inline char *put_level(char *place, int32_t plain, int32_t level, bool night)
{
    bool silent = level == RAILNOISE_SILENT_CELL;
    int trains = silent ? 0 : 1, reading = silent ? 0 : level - plain;
    for (; reading >= 100; reading -= 100)
        trains *= 10;
    return place + sprintf(place, "2500 0 600 0 180 180 0 0 0 0 %d 0 0 0 0\n1 100 1 %d %d\n", reading,
                           night ? 0 : trains, night ? trains : 0);
}

/* A study with these levels, from 37.9 by day and from 42.7 by night, each of an entry of its own, which has no
 * trains in the other period. A level may be that of a silent cell. Takes up to 120 bytes; gives the length. */
static inline size_t put_levels(char *text, int32_t day, int32_t night)
{
    char *end = text + sprintf(text, "2 1 1\n");
    end = put_level(end, PLAIN_DAY, day, false);
    end = put_level(end, PLAIN_NIGHT, night, true);
    return (size_t)(end - text);
}

/* Puts the contents line of so many segments with so many train entries each, and gives the place after it. */
static inline char *put_contents(char *text, int segments, int entries)
{
    char *at = text + sprintf(text, "%d", segments);
    for (int i = 0; i < segments; i++)
        at += sprintf(at, " %d", entries);
    *at++ = '\n';
    return at;
}

/* 24 segments and 96 trains, each figure as wide as it can be; gives the length. All entries have the same
 * level: 14.8 + 80.7 + 17.8 + 33.0 - 48.1 by day, - 10.9 - 2.2 at 304.14 m, 0.0 for the screen (over 0.4 m off
 * the line of sight, and no more behind a far wall) and for the angle, + 10.0 + 15.0 + 2.5 + 1.5. 96 like levels
 * add 19.8. */
enum { FULL_ENTRY_DAY = 1141, FULL_ENTRY_NIGHT = 1189, FULL_DAY = 1141 + 198, FULL_NIGHT = 1189 + 198 };
static inline size_t full_study(char *text)
{
    char *at = put_contents(text, 24, 4);
    for (int i = 0; i < 24; i++) {
        at += sprintf(at, "30000 5000 5000 10 180 180 2 29900 -2000 100 150 0 1 180 100\n");
        for (int k = 0; k < 4; k++)
            at += sprintf(at, "34 300 60 2000 2000\n");
    }
    return (size_t)(at - text);
}

/* A study by its size: so many segments, every second one screened, with so many trains each; the last train's
 * speed as given. After so many different segments the first ones come again. The first screened one has a far wall
 * of 2 m, the others none. */
typedef struct {
    int segments, entries, last_speed, different;
} made_study;

/* Its segments from place `first` up to `end`, counted from 0, as a text of their own; gives the length. */
static inline size_t write_part(char *text, made_study of, int first, int end)
{
    char *at = put_contents(text, end - first, of.entries);
    for (int place = first; place < end; place++) {
        int i = place % of.different;
        int d = 4000 + 1013 * i, view = 20 + 6 * i;
        if (i % 2 == 0)
            at += sprintf(at, "%d %d %d %d %d %d 0 0 0 0 10 -15 1 %d 0\n", d, 330 - 20 * i, 150 + 17 * i, i % 11, view,
                          view + 5, view / 3);
        else
            at += sprintf(at, "%d %d 235 0 %d %d 2 500 %d 38 10 0 1 %d %d\n", d, 330 - 20 * i, view, view + 5,
                          100 + 2 * i, view / 3, i == 1 ? 20 : 0);
        for (int k = 0; k < of.entries; k++) {
            bool last = place == of.segments - 1 && k == of.entries - 1;
            at += sprintf(at, "%d %d %d %d %d\n", 1 + (4 * i + k) % 34, last ? of.last_speed : 40 + 2 * i + 40 * k,
                          1 + (7 * i + k) % 60, 3 + 20 * i + 5 * k, 1 + 3 * i);
        }
    }
    return (size_t)(at - text);
}

#endif
