/* Host tests of railnoise_levels. Expected figures are worked out from the requirements: the steps'
 * printed readings, the memorandum's Examples 1, 2 and 8, and sums of them by hand. */
#define _DEFAULT_SOURCE
#include "answers.h"
#include "check.h"
#include "guarded.h"
#include "railnoise.h"
#include "texts.h"
#include "threads.h"

#include <string.h>

/* A request and everything that came back. */
typedef struct {
    railnoise_answer answer;
    int32_t cells[RAILNOISE_MOST_CELLS + 16];
} outcome;

static bool same_answer(railnoise_answer a, railnoise_answer b)
{
    return a.refusal == b.refusal && a.line == b.line && same_period(a.day, b.day) && same_period(a.night, b.night);
}

/* In memory of exactly the right size, cells between sentinels: for the sanitizers and valgrind. */
static outcome ask_on_heap(const char *text, size_t length, size_t cell_count)
{
    outcome o;
    uint8_t *copy = heap_copy(text, length);
    int32_t *cells = lend_cells(cell_count);
    o.answer = railnoise_levels(copy, length, cells, cell_count);
    CHECK(length == 0 || memcmp(copy, text, length) == 0, "text unchanged");
    take_cells_back(cells, cell_count, o.cells);
    free(copy);
    return o;
}

/* Text and cells each end at a closed page; the cells held something else. */
static outcome ask_at_page_end(const char *text, size_t length, size_t cell_count)
{
    static guarded text_room, cell_room;
    if (text_room.start == NULL) {
        text_room = guarded_make(4 * RAILNOISE_TEXT_LIMIT);
        cell_room = guarded_make(sizeof(outcome));
    }
    outcome o;
    uint8_t *copy = guarded_copy(text_room, text, length);
    int32_t *cells = guarded_end(cell_room, cell_count * sizeof *cells);
    fill(cells, cell_count, UNTOUCHED_TOO);
    o.answer = railnoise_levels(copy, length, cells, cell_count);
    memcpy(o.cells, cells, cell_count * sizeof *cells);
    return o;
}

/* Asks twice, over different cells; both answers and all written cells must be the same. */
static outcome ask_bytes(const char *text, size_t length, size_t cell_count)
{
    outcome o = ask_on_heap(text, length, cell_count);
    outcome again = ask_at_page_end(text, length, cell_count);
    CHECK(same_answer(o.answer, again.answer), "asked twice");
    CHECK(same_cells(o.cells, again.cells, cell_count), "cells asked twice");
    return o;
}

static outcome ask(const char *text, size_t cell_count)
{
    return ask_bytes(text, strlen(text), cell_count);
}

/* Number, line, silent periods and untouched cells. */
static void expect_refusal_bytes(const char *text, size_t length, size_t cell_count, uint32_t number, uint32_t line)
{
    char about[240];
    snprintf(about, sizeof about, "refusal %u line %u of: %.160s", number, line, text);
    outcome o = ask_bytes(text, length, cell_count);
    if (!CHECK(o.answer.refusal == number && o.answer.line == line, about))
        printf("  got %u line %u\n", o.answer.refusal, o.answer.line);
    CHECK(same_period(o.answer.day, silent_period) && same_period(o.answer.night, silent_period), about);
    CHECK(all(o.cells, cell_count, UNTOUCHED), about);
}

static void expect_refusal(const char *text, uint32_t number, uint32_t line)
{
    expect_refusal_bytes(text, strlen(text), RAILNOISE_MOST_CELLS, number, line);
}

/* A segment with no step but those the changed fields bring, and a train of level 37.9 by day. */
enum { FIGURES = 15 };
static const int32_t plain_segment[FIGURES] = { 2500, 0, 600, 0, 180, 180, 0, 0, 0, 0, 0, 0, 0, 0, 0 };
static const int32_t screened_segment[FIGURES] = { 2500, 0, 600, 0, 180, 180, 2, 1000, 0, 0, 0, 0, 0, 0, 0 };
static const int32_t plain_train[5] = { 1, 100, 1, 1, 1 };

static char *put_numbers(char *at, const int32_t *numbers, int count)
{
    for (int i = 0; i < count; i++)
        at += sprintf(at, "%d%c", numbers[i], i + 1 < count ? ' ' : '\n');
    return at;
}

/* The text of one segment with one train. */
static const char *one(const int32_t segment[FIGURES], const int32_t train[5])
{
    static char text[400];
    char *at = text + sprintf(text, "1 1\n");
    at = put_numbers(at, segment, FIGURES);
    put_numbers(at, train, 5);
    return text;
}

/* The same with up to three fields of the segment changed; a pair ends at field -1. */
static const char *one_with(const int32_t base[FIGURES], const int32_t (*changes)[2])
{
    int32_t segment[FIGURES];
    memcpy(segment, base, sizeof segment);
    for (int i = 0; i < 3 && changes[i][0] >= 0; i++)
        segment[changes[i][0]] = changes[i][1];
    return one(segment, plain_train);
}

/* The memorandum's Example 8: its printed levels by segment, and its totals. */
static void test_sample(void)
{
    static const int32_t expected[6] = { 526, 615, 553, 460, 549, 487 };
    outcome o = ask(sample, 6);
    CHECK(o.answer.refusal == 0 && o.answer.line == 0, "sample");
    expect_period(o.answer.day, 629, 0, false, "sample by day");
    expect_period(o.answer.night, 563, 0, false, "sample by night");
    CHECK(memcmp(o.cells, expected, sizeof expected) == 0, "sample's cells");
}

static void test_examples(void)
{
    outcome o = ask("1 1\n10000 330 235 10 180 180 0 0 0 0 0 0 1 0 0\n1 150 10 179 13\n", 2);
    expect_period(o.answer.day, 685, 0, true, "Example 2 by day");
    expect_period(o.answer.night, 619, 0, false, "Example 2 by night");
    CHECK(o.cells[0] == 685 && o.cells[1] == 619, "Example 2's cells");
    /* Example 1's 63.1 and 67.1: Chart 9 gives 68.6, not the printed 68.5. */
    o = ask("2 1 1\n2500 0 600 0 180 180 0 0 0 0 92 0 1 0 0\n1 150 10 1 0\n"
            "2500 0 600 0 180 180 0 0 0 0 132 0 1 0 0\n1 150 10 1 0\n", 4);
    CHECK(o.cells[0] == 631 && o.cells[1] == 671, "Example 1's levels");
    expect_period(o.answer.day, 686, 0, true, "Example 1 by Chart 9");
    CHECK(same_period(o.answer.night, silent_period), "Example 1 silent by night");
    /* 60.0 with 60.0. */
    o = ask("1 2\n2500 0 600 0 180 180 0 0 0 0 121 0 0 0 0\n1 100 10 1 0\n1 100 10 1 0\n", 4);
    CHECK(o.cells[0] == 600 && o.cells[1] == 600 && o.cells[2] == SILENT && o.cells[3] == SILENT, "60.0 twice");
    expect_period(o.answer.day, 630, 0, false, "60.0 with 60.0");
}

/* One change to the plain segment: tenths added to its level, and the close count. */
typedef struct {
    const char *about;
    int32_t changes[3][2];
    int32_t tenths;
    uint32_t close;
} step_case;

static const step_case segment_steps[] = {
    { "d 1000: 4.0 and 0.1", { { 0, 1000 }, { -1, 0 } }, 41, 0 },
    { "d 2500", { { 0, 2500 }, { -1, 0 } }, 0, 0 },
    { "d 30000: -10.8 and -2.2", { { 0, 30000 }, { -1, 0 } }, -130, 0 },
    { "air at 18.75 m is a tie: 1.2 and 0.1", { { 0, 1875 }, { -1, 0 } }, 13, 0 },
    { "air at 18.76 m: 1.2 and 0.0", { { 0, 1876 }, { -1, 0 } }, 12, 0 },
    { "the same tie on a slope of 3 to 4", { { 0, 1500 }, { 1, -1125 }, { -1, 0 } }, 13, 0 },
    { "d 10000, I 10, H 235: -6.0, -0.6, -1.3", { { 0, 10000 }, { 3, 10 }, { 2, 235 } }, -79, 0 },
    { "H 100: -1.8", { { 0, 10000 }, { 3, 10 }, { 2, 100 } }, -84, 0 },
    { "H 0 counts as 100", { { 0, 10000 }, { 3, 10 }, { 2, 0 } }, -84, 0 },
    { "H 600: 0.0", { { 0, 10000 }, { 3, 10 }, { 2, 600 } }, -66, 0 },
    { "H 5000 counts as 600", { { 0, 10000 }, { 3, 10 }, { 2, 5000 } }, -66, 0 },
    { "no ground at d 2500", { { 3, 10 }, { 2, 100 }, { -1, 0 } }, 0, 0 },
    { "d 25000, I 5, H 350: -10.0, -1.8, -0.7 marked", { { 0, 25000 }, { 3, 5 }, { 2, 350 } }, -125, 1 },
    { "I 1, H 515: 0.001 below a tie, marked to 0.0", { { 0, 25000 }, { 3, 1 }, { 2, 515 } }, -118, 1 },
    { "I 1, H 185: 0.001 above a tie, marked, -0.2", { { 0, 25000 }, { 3, 1 }, { 2, 185 } }, -120, 1 },
    { "I 1, H 520: 0.002 above a tie, unmarked, 0.0", { { 0, 25000 }, { 3, 1 }, { 2, 520 } }, -118, 0 },
    { "I 1, H 180: 0.002 below a tie, unmarked, -0.3", { { 0, 25000 }, { 3, 1 }, { 2, 180 } }, -121, 0 },
    { "angle 29, 29", { { 4, 29 }, { 5, 29 }, { -1, 0 } }, -159, 0 },
    { "angle 115, 173", { { 4, 115 }, { 5, 173 }, { -1, 0 } }, -4, 0 },
    { "angle 12, 12", { { 4, 12 }, { 5, 12 }, { -1, 0 } }, -272, 0 },
    { "angle 5, 5", { { 4, 5 }, { 5, 5 }, { -1, 0 } }, -385, 0 },
    { "opposite 1 of 30: -15.4 and 0.1", { { 4, 30 }, { 5, 30 }, { 13, 1 } }, -153, 0 },
    { "opposite 1 of 31: -15.0 and 0.0", { { 4, 31 }, { 5, 31 }, { 13, 1 } }, -150, 0 },
    { "opposite 180 of 180", { { 13, 180 }, { -1, 0 } }, 15, 0 },
    { "facade", { { 12, 1 }, { -1, 0 } }, 25, 0 },
    { "track and ballast readings", { { 10, 150 }, { 11, -30 }, { -1, 0 } }, 120, 0 },
};

static const step_case screen_steps[] = {
    { "on the line of sight is in shadow: -5.5", { { -1, 0 } }, -55, 0 },
    { "line of sight below the railhead", { { 1, -500 }, { 8, -200 }, { -1, 0 } }, -56, 0 },
    { "Chart 6(c) reading is added once", { { 9, 38 }, { -1, 0 } }, -17, 0 },
    { "no ground behind a screen, no mark", { { 0, 25000 }, { 3, 5 }, { 2, 350 } }, -173, 0 },
    { "path difference exactly 2.5 m: -21.0, 4.0, 0.1", { { 0, 1000 }, { 7, 500 }, { 8, 375 } }, -169, 0 },
    { "in the light, exactly 0.4 m: 0.0, 3.0, 0.1", { { 0, 1260 }, { 7, 630 }, { 8, -160 } }, 31, 0 },
    { "in the light, 0.4 m and more: 0.0", { { 0, 1260 }, { 7, 630 }, { 8, -2000 } }, 31, 0 },
    { "in the light, 5 mm: 0.88 + 2.14 log 0.006 is -3.9", { { 8, -25 }, { 7, 1250 }, { -1, 0 } }, -39, 0 },
};

static void test_steps(void)
{
    for (size_t i = 0; i < sizeof segment_steps / sizeof *segment_steps; i++) {
        const step_case *c = &segment_steps[i];
        outcome o = ask(one_with(plain_segment, c->changes), 2);
        expect_period(o.answer.day, PLAIN_DAY + c->tenths, c->close, false, c->about);
        expect_period(o.answer.night, PLAIN_NIGHT + c->tenths, c->close, false, c->about);
        CHECK(o.cells[0] == PLAIN_DAY + c->tenths && o.cells[1] == PLAIN_NIGHT + c->tenths, c->about);
    }
    for (size_t i = 0; i < sizeof screen_steps / sizeof *screen_steps; i++) {
        const step_case *c = &screen_steps[i];
        outcome o = ask(one_with(screened_segment, c->changes), 2);
        expect_period(o.answer.day, PLAIN_DAY + c->tenths, c->close, false, c->about);
    }
}

static void test_trains(void)
{
    static const struct { int field; int32_t value, day; const char *about; } cases[] = {
        { 1, 1, 148 + 572 - 481, "speed 1" },     { 1, 19, 148 + 572 - 481, "speed 19" },
        { 1, 20, 148 + 572 - 481, "speed 20" },   { 1, 100, 148 + 712 - 481, "speed 100" },
        { 1, 150, 148 + 747 - 481, "speed 150" }, { 1, 300, 148 + 807 - 481, "speed 300" },
        { 2, 1, PLAIN_DAY, "N 1" },               { 2, 2, PLAIN_DAY + 30, "N 2" },
        { 2, 10, PLAIN_DAY + 100, "N 10" },       { 2, 60, PLAIN_DAY + 178, "N 60" },
        { 3, 13, PLAIN_DAY + 111, "Q 13" },       { 3, 179, PLAIN_DAY + 225, "Q 179" },
        { 3, 2000, PLAIN_DAY + 330, "Q 2000" },   { 0, 3, PLAIN_DAY + 19, "row 3" },
        { 0, 7, PLAIN_DAY - 77, "row 7" },        { 0, 25, PLAIN_DAY + 32, "row 25" },
        { 0, 34, PLAIN_DAY, "row 34" },           { 3, 1, PLAIN_DAY, "Q 1" },
    };
    for (size_t i = 0; i < sizeof cases / sizeof *cases; i++) {
        int32_t train[5];
        memcpy(train, plain_train, sizeof train);
        train[cases[i].field] = cases[i].value;
        outcome o = ask(one(plain_segment, train), 2);
        expect_period(o.answer.day, cases[i].day, 0, cases[i].day >= 675, cases[i].about);
    }
}

/* 02's L4: from 1 to 19 km/h a train is heard as at 20, alone and beside a faster one. */
static void test_slow_trains(void)
{
    static const int32_t segment[FIGURES] = { 2600, 180, 420, 3, 160, 170, 0, 0, 0, 0, 0, 0, 1, 0, 0 };
    char text[300];
    for (int32_t speed = 1; speed <= 21; speed++) {
        int32_t louder = speed > 20 ? 4 : 0;
        outcome o = ask(one(segment, (const int32_t[5]){ 4, speed, 9, 60, 8 }), 2);
        expect_period(o.answer.day, 495 + louder, 0, false, "a slow train by day");
        expect_period(o.answer.night, 455 + louder, 0, false, "a slow train by night");
        CHECK(o.cells[0] == 495 + louder && o.cells[1] == 455 + louder, "a slow train's cells");
        /* 14.8 + 57.2 - 48.1, or 57.6 at 21, beside 14.8 + 59.2 - 48.1 */
        snprintf(text, sizeof text, "1 2\n" SEGMENT "1 %d 1 1 0\n1 25 1 1 0\n", speed);
        o = ask(text, 4);
        CHECK(o.cells[0] == 239 + louder && o.cells[1] == 259, "a slow train beside another");
        expect_period(o.answer.day, speed > 20 ? 282 : 280, 0, false, "a slow train in the total");
    }
    static const int32_t refused[] = { 0, -1, -5, -20, 301 };
    for (size_t i = 0; i < sizeof refused / sizeof *refused; i++)
        expect_refusal(one(segment, (const int32_t[5]){ 4, refused[i], 9, 60, 8 }), 9, 3);
}

/* 67.5 is met by day and 67.4 is not; 62.5 by night and 62.4 not. Levels below zero have their sign. */
static void test_verdicts(void)
{
    static const int32_t train[5] = { 1, 150, 10, 1, 1 };
    static const struct { int32_t track, level; bool day, met; } cases[] = {
        { 136, 675, true, true }, { 135, 674, true, false }, { 38, 625, false, true }, { 37, 624, false, false },
    };
    for (size_t i = 0; i < sizeof cases / sizeof *cases; i++) {
        int32_t segment[FIGURES];
        memcpy(segment, plain_segment, sizeof segment);
        segment[10] = cases[i].track;
        segment[12] = 1;
        outcome o = ask(one(segment, train), 2);
        expect_period(cases[i].day ? o.answer.day : o.answer.night, cases[i].level, 0, cases[i].met, "verdict");
    }
    static const int32_t quiet[5] = { 8, 20, 1, 1, 1 };
    int32_t far[FIGURES];
    memcpy(far, plain_segment, sizeof far);
    far[0] = 30000;
    far[4] = far[5] = 5;
    far[11] = -30;
    outcome o = ask(one(far, quiet), 2);
    /* 6.0 + 57.2 - 48.1 - 10.8 - 2.2 - 38.5 - 3.0 */
    expect_period(o.answer.day, -394, 0, false, "below zero");
}

/* Silent entries and periods; marks count for segments that have trains in the period. */
static void test_silence(void)
{
    outcome o = ask(one(plain_segment, (const int32_t[5]){ 1, 100, 1, 0, 1 }), 2);
    CHECK(same_period(o.answer.day, silent_period) && o.cells[0] == SILENT, "silent by day");
    expect_period(o.answer.night, PLAIN_NIGHT, 0, false, "night beside a silent day");
    o = ask(one(plain_segment, (const int32_t[5]){ 1, 100, 1, 0, 0 }), 2);
    CHECK(o.answer.refusal == 0, "no trains at all is answered");
    CHECK(same_period(o.answer.day, silent_period) && same_period(o.answer.night, silent_period), "no trains at all");
    CHECK(o.cells[0] == SILENT && o.cells[1] == SILENT, "no trains at all");
    /* Two marked segments, one heard by day only, one without entries, and a second train by night. */
    o = ask("4 2 0 1 1\n25000 0 350 5 180 180 0 0 0 0 0 0 0 0 0\n1 100 1 1 0\n1 100 1 1 0\n"
            "25000 0 350 5 180 180 0 0 0 0 0 0 0 0 0\n"
            "25000 0 350 5 180 180 0 0 0 0 0 0 0 0 0\n1 100 1 0 0\n"
            "2500 0 600 0 180 180 0 0 0 0 0 0 0 0 0\n1 100 1 0 1\n", 8);
    expect_period(o.answer.day, PLAIN_DAY - 125 + 30, 1, false, "one marked segment by day");
    expect_period(o.answer.night, PLAIN_NIGHT, 0, false, "no marked segment by night");
    static const int32_t cells[8] = { 254, 254, SILENT, SILENT, SILENT, SILENT, SILENT, PLAIN_NIGHT };
    CHECK(memcmp(o.cells, cells, sizeof cells) == 0, "cells in entry order, day before night");
}

/* A field at both ends of its range and one past them. */
typedef struct {
    int field;
    int32_t low, high;
    uint32_t refusal;
    bool told; /* the refusal's words name the two ends */
} range_case;

static void try_range(const int32_t *segment, const int32_t *train, bool of_train, const range_case *c)
{
    static const char *const places[4] = { "low", "high", "below", "above" };
    char range[40];
    snprintf(range, sizeof range, "%d to %d", c->low, c->high);
    CHECK(!c->told || strstr(railnoise_refusal_words(c->refusal), range) != NULL, range);
    const int32_t values[4] = { c->low, c->high, c->low - 1, c->high + 1 };
    for (int i = 0; i < 4; i++) {
        int32_t s[FIGURES], t[5];
        memcpy(s, segment, sizeof s);
        memcpy(t, train, sizeof t);
        (of_train ? t : s)[c->field] = values[i];
        if (i < 2) {
            outcome o = ask(one(s, t), 2);
            CHECK(o.answer.refusal == 0, places[i]);
        } else {
            expect_refusal(one(s, t), c->refusal, of_train ? 3 : 2);
        }
    }
}

static void test_ranges(void)
{
    static const range_case open_fields[] = {
        { 0, 1000, 30000, 1, true }, { 1, -5000, 5000, 2, true }, { 2, 0, 5000, 2, true }, { 3, 0, 10, 3, true },
        { 7, 0, 0, 5, false },       { 8, 0, 0, 5, false },       { 9, 0, 0, 5, false },   { 10, 0, 150, 7, true },
        { 11, -30, 0, 7, true },     { 12, 0, 1, 7, false },      { 13, 0, 180, 7, false }, { 14, 0, 0, 5, false },
    };
    static const range_case screen_fields[] = {
        { 2, 0, 5000, 2, true },  { 3, 0, 10, 3, true }, { 7, 100, 2400, 5, false }, { 9, 0, 100, 5, true },
        { 10, 0, 150, 7, true },  { 11, 0, 0, 5, false }, { 12, 0, 1, 7, false },   { 14, 0, 100, 5, true },
    };
    static const range_case train_fields[] = {
        { 0, 1, 34, 8, true },     { 1, 1, 300, 9, true },   { 2, 1, 60, 10, true },
        { 3, 0, 2000, 11, true }, { 4, 0, 2000, 11, true },
    };
    for (size_t i = 0; i < sizeof open_fields / sizeof *open_fields; i++)
        try_range(plain_segment, plain_train, false, &open_fields[i]);
    for (size_t i = 0; i < sizeof screen_fields / sizeof *screen_fields; i++)
        try_range(screened_segment, plain_train, false, &screen_fields[i]);
    for (size_t i = 0; i < sizeof train_fields / sizeof *train_fields; i++)
        try_range(plain_segment, plain_train, true, &train_fields[i]);
}

/* Fields that lean on others, and the order of the numbers. */
static void test_segment_refusals(void)
{
    static const struct { bool screened; int32_t changes[3][2]; uint32_t refusal; } cases[] = {
        { false, { { 4, 4 }, { -1, 0 } }, 4 },
        { false, { { 4, 181 }, { 5, 181 }, { -1, 0 } }, 4 },
        { false, { { 5, 179 }, { -1, 0 } }, 4 },
        { false, { { 4, 90 }, { 5, 89 }, { -1, 0 } }, 4 },
        { false, { { 4, 90 }, { 13, 91 }, { -1, 0 } }, 7 },
        { false, { { 6, -1 }, { -1, 0 } }, 5 },
        { false, { { 6, 3 }, { -1, 0 } }, 5 },
        { false, { { 6, 1 }, { -1, 0 } }, 5 },
        { true, { { 6, 0 }, { -1, 0 } }, 5 },
        { true, { { 8, -2001 }, { -1, 0 } }, 5 },
        { true, { { 8, 5001 }, { -1, 0 } }, 5 },
        { true, { { 8, 5000 }, { -1, 0 } }, 6 },
        { true, { { 8, -2000 }, { -1, 0 } }, 0 },
        { true, { { 6, 1 }, { 9, 1 }, { -1, 0 } }, 5 },
        { true, { { 11, -31 }, { -1, 0 } }, 5 },
        { true, { { 0, 1000 }, { 7, 500 }, { 8, 376 } }, 6 },
        { true, { { 8, 3000 }, { 10, 151 }, { -1, 0 } }, 6 },
        { true, { { 8, 3000 }, { 11, -1 }, { -1, 0 } }, 5 },
        { true, { { 8, 3000 }, { 3, 11 }, { -1, 0 } }, 3 },
        { false, { { 0, 999 }, { 1, 5001 }, { 3, 11 } }, 1 },
        { false, { { 2, -1 }, { 3, -1 }, { 4, 0 } }, 2 },
        { false, { { 3, 11 }, { 4, 0 }, { 13, -1 } }, 3 },
        { false, { { 5, 181 }, { 9, 1 }, { 10, -1 } }, 4 },
        { false, { { 9, 1 }, { 10, -1 }, { -1, 0 } }, 5 },
        { false, { { 0, -99999 }, { 7, 99999 }, { -1, 0 } }, 1 },
        { false, { { 0, 99999 }, { -1, 0 } }, 1 },
    };
    for (size_t i = 0; i < sizeof cases / sizeof *cases; i++) {
        const char *text = one_with(cases[i].screened ? screened_segment : plain_segment, cases[i].changes);
        if (cases[i].refusal)
            expect_refusal(text, cases[i].refusal, 2);
        else
            CHECK(ask(text, 2).answer.refusal == 0, text);
    }
    expect_refusal(one(plain_segment, (const int32_t[5]){ 0, 0, 0, -1, -1 }), 8, 3);
    expect_refusal(one(plain_segment, (const int32_t[5]){ 34, 0, 61, 2001, 0 }), 9, 3);
    expect_refusal(one(plain_segment, (const int32_t[5]){ 34, 301, 61, 2001, 0 }), 9, 3);
    expect_refusal(one(plain_segment, (const int32_t[5]){ 34, 1, 61, 2001, 0 }), 10, 3);
    expect_refusal(one(plain_segment, (const int32_t[5]){ 34, 19, 60, 2001, 0 }), 11, 3);
    expect_refusal(one(plain_segment, (const int32_t[5]){ 34, 300, 61, 2001, 0 }), 10, 3);
}

/* A segment in a retained cut and a train: by day 57.0 and by night 2.7 less, before the screen step. The
 * steps with no far wall are -14.7 in shadow (window 150, top 260); in the light -2.7 (800, 60), where
 * distance takes 0.1 more, and 0.017 above zero (312, -202), likewise. */
static const int32_t cut_segment[FIGURES] = { 6200, 150, 300, 4, 90, 120, 1, 900, 260, 0, 0, 0, 1, 10, 0 };
static const int32_t cut_train[5] = { 4, 95, 12, 40, 7 };

/* 02's L1: half a decibel off the screen step for each whole metre of the far wall; then zero at most. */
static void test_far_wall(void)
{
    static const struct { int32_t window, top, chart, wall, day; const char *about; } levels[] = {
        { 150, 260, 0, 0, 570 - 147, "no far wall" },
        { 150, 260, 0, 14, 570 - 147, "14 dm do nothing" },
        { 150, 260, 0, 15, 570 - 137, "15 dm are 2 m" },
        { 150, 260, 0, 24, 570 - 137, "24 dm are 2 m" },
        { 150, 260, 0, 25, 570 - 132, "25 dm are 3 m" },
        { 150, 260, 0, 34, 570 - 132, "34 dm are 3 m" },
        { 150, 260, 0, 35, 570 - 127, "35 dm are 4 m" },
        { 150, 260, 0, 100, 570 - 97, "10 m" },
        { 150, 260, 97, 100, 570 - 97 + 97, "10 m and a reading" },
        { 800, 60, 0, 0, 569 - 27, "in the light" },
        { 800, 60, 0, 15, 569 - 17, "in the light, 2 m" },
        { 800, 60, 0, 100, 569, "in the light, 10 m: 0.0, not 2.3" },
        { 800, 60, 27, 100, 569 + 27, "zero at most before the reading, not after it" },
        { 312, -202, 0, 0, 569, "in the light, just above zero" },
        { 312, -202, 0, 20, 569, "just above zero, 2 m" },
        { 312, -2000, 0, 100, 569, "over 0.4 m off the line of sight, 10 m" },
    };
    for (size_t i = 0; i < sizeof levels / sizeof *levels; i++) {
        int32_t segment[FIGURES];
        memcpy(segment, cut_segment, sizeof segment);
        segment[1] = levels[i].window;
        segment[6] = levels[i].chart == 0 ? 1 : 2;
        segment[8] = levels[i].top;
        segment[9] = levels[i].chart;
        segment[14] = levels[i].wall;
        outcome o = ask(one(segment, cut_train), 2);
        expect_period(o.answer.day, levels[i].day, 0, false, levels[i].about);
        expect_period(o.answer.night, levels[i].day - 27, 0, false, levels[i].about);
    }
    /* After 4; before 6, a screen beyond the chart, and before 7, a wrong Table 1 reading. */
    static const struct { const int32_t *base; int32_t changes[3][2]; uint32_t refusal; } refusals[] = {
        { cut_segment, { { 14, 101 }, { -1, 0 } }, 5 },
        { cut_segment, { { 14, -1 }, { -1, 0 } }, 5 },
        { screened_segment, { { 14, 101 }, { 5, 181 }, { -1, 0 } }, 4 },
        { screened_segment, { { 14, 100 }, { 8, 3000 }, { -1, 0 } }, 6 },
        { screened_segment, { { 14, 101 }, { 8, 3000 }, { -1, 0 } }, 5 },
        { screened_segment, { { 14, -1 }, { 8, 3000 }, { 10, 151 } }, 5 },
        { screened_segment, { { 14, 100 }, { 10, 151 }, { -1, 0 } }, 7 },
        { screened_segment, { { 14, 101 }, { 10, 151 }, { -1, 0 } }, 5 },
        { plain_segment, { { 14, 20 }, { -1, 0 } }, 5 },
        { plain_segment, { { 14, 14 }, { 10, 151 }, { -1, 0 } }, 5 },
    };
    for (size_t i = 0; i < sizeof refusals / sizeof *refusals; i++)
        expect_refusal(one_with(refusals[i].base, refusals[i].changes), refusals[i].refusal, 2);
}

static void test_text_form(void)
{
    static const char *const words[] = { "", "-", "-0", "00", "01", "+1", "100000", "-100000", "1.0", "x", "1\t",
                                         "1\r", " 1", "1 ", "--1", "0x1" };
    char text[300];
    for (size_t i = 0; i < sizeof words / sizeof *words; i++) {
        snprintf(text, sizeof text, "1 1\n" SEGMENT "1 100 1 1 %s\n", words[i]);
        expect_refusal(text, 12, 3);
        /* Within a line 12 comes before the figures' numbers. */
        snprintf(text, sizeof text, "1 1\n" SEGMENT "99 0 %s 1 1\n", words[i]);
        expect_refusal(text, 12, 3);
        snprintf(text, sizeof text, "1 %s\n" SEGMENT TRAIN, words[i]);
        expect_refusal(text, 12, 1);
    }
    static const struct { const char *text; uint32_t number, line; } cases[] = {
        { "1 1\n" SEGMENT "1 100 1 1 -99999\n", 11, 3 },
        { "1 1\n2500 0 600 0 180 180 0 0 0 0 0 0 0 0\n" TRAIN, 12, 2 },
        { "1 1\n2500 0 600 0 180 180 0 0 0 0 0 0 0 0 0 0\n" TRAIN, 12, 2 },
        { "1 1\n" SEGMENT "1 100 1 1\n", 12, 3 },
        { "1 1\n" SEGMENT "1 100 1 1 1 1\n", 12, 3 },
        { "1 1\n" SEGMENT "99 100 1 1\n", 12, 3 },
        { "1 1\n" SEGMENT "1  100 1 1 1\n", 12, 3 },
        { "1 1\n" SEGMENT "1 100 1 1 1", 12, 3 },
        { "1 1\n" SEGMENT "99 100 1 1 1", 12, 3 },
        { "1 1\n2500 0", 12, 2 },
        { "1 1\r\n" SEGMENT TRAIN, 12, 1 },
        { "1 1", 12, 1 },
        { "\n", 12, 1 },
        { "1 1\n\n" TRAIN, 12, 2 },
        /* A refused line ends the reading: what follows does not matter. */
        { "1 1\n999 0 600 0 180 180 0 0 0 0 0 0 0 0 0\nx\n", 1, 2 },
        { "1 1\n" SEGMENT "1 0 1 1 1\nx", 9, 3 },
    };
    for (size_t i = 0; i < sizeof cases / sizeof *cases; i++)
        expect_refusal(cases[i].text, cases[i].number, cases[i].line);
    expect_refusal_bytes("1 1\0\n" SEGMENT TRAIN, sizeof "1 1\0\n" SEGMENT TRAIN - 1, 2, 12, 1);
}

/* The text that ends in a line of so many words, each a figure in no field's range; the word at a place, from 0
 * and perhaps past them, is another. */
static const char *text_with(const char *before, size_t words, size_t place, const char *word)
{
    static char text[300];
    char *at = stpcpy(text, before);
    for (size_t i = 0; i < words; i++) {
        at = stpcpy(at, i == 0 ? "" : " ");
        at = stpcpy(at, i == place ? word : "99999");
    }
    stpcpy(at, "\n");
    return text;
}

/* 01's 12 before all else within a line, as 02's L3 keeps it: for a word out of form anywhere, and for the count. */
static void test_form_first(void)
{
    static const struct { const char *before; size_t figures; uint32_t own, line; } lines[] = {
        { "1 1\n", FIGURES, 1, 2 },
        { "1 1\n" SEGMENT, 5, 8, 3 },
    };
    for (size_t i = 0; i < sizeof lines / sizeof *lines; i++) {
        for (size_t words = 1; words <= lines[i].figures + 2; words++)
            expect_refusal(text_with(lines[i].before, words, words, ""), words == lines[i].figures ? lines[i].own : 12,
                           lines[i].line);
        for (size_t place = 0; place < lines[i].figures; place++)
            expect_refusal(text_with(lines[i].before, lines[i].figures, place, "x"), 12, lines[i].line);
    }
    static const struct { const char *last; uint32_t number; } lasts[] = {
        { " x", 12 }, { "", 12 }, { " 0 0", 12 }, { " 0", 1 },
    };
    for (size_t i = 0; i < sizeof lasts / sizeof *lasts; i++) {
        char text[300];
        snprintf(text, sizeof text, "1 1\n999 0 600 0 180 180 0 0 0 0 0 0 0 0%s\n" TRAIN, lasts[i].last);
        expect_refusal(text, lasts[i].number, 2);
    }
}

static void test_contents(void)
{
    static const struct { const char *text; uint32_t number, line; } cases[] = {
        { "", 13, 1 },
        { "0\n", 13, 1 },
        { "-1\n", 12, 1 },
        { "1\n", 12, 1 },
        { "1 0\n", 13, 1 },
        { "1 -1\n", 13, 1 },
        { "1 97\n", 13, 1 },
        { "1 97 x\n", 12, 1 },
        { "1 97 0\n", 12, 1 },
        { "2 48 49\n", 13, 1 },
        { "2 97 -1\n", 13, 1 },
        { "25 1 1 1 1 1 1 1 1 1 1 1 1 1 1 1 1 1 1 1 1 1 1 1 1 1\n", 13, 1 },
        { "25 1 1 1 1 1 1 1 1 1 1 1 1 1 1 1 1 1 1 1 1 1 1 1 1\n", 12, 1 },
        { "25 1 1 1 1 1 1 1 1 1 1 1 1 1 1 1 1 1 1 1 1 1 1 1 1 1 1\n", 12, 1 },
        { "24 0 0 0 0 0 0 0 0 0 0 0 0 0 0 0 0 0 0 0 0 0 0 0 0\n", 13, 1 },
        { "99999 1\n", 12, 1 },
        { "1 1\n", 13, 2 },
        { "1 1\n" SEGMENT, 13, 3 },
        { "2 1 0\n" SEGMENT TRAIN, 13, 4 },
        { "1 1\n" SEGMENT TRAIN "\n", 13, 4 },
        { "1 1\n" SEGMENT TRAIN "x", 13, 4 },
        { "1 1\n" SEGMENT TRAIN TRAIN, 13, 4 },
        { "1 1\n" SEGMENT TRAIN "1 100 1 1 1", 13, 4 },
        { "1 1\n" SEGMENT TRAIN "\n\n\n", 13, 4 },
    };
    for (size_t i = 0; i < sizeof cases / sizeof *cases; i++)
        expect_refusal(cases[i].text, cases[i].number, cases[i].line);
}

/* What would be 20, 21, 22 or 23 in a study built step by step is 12 or 13 in a text. */
static void test_no_state_refusals(void)
{
    expect_refusal("1 1\n" TRAIN SEGMENT, 12, 2);
    expect_refusal("25 4 4 4 4 4 4 4 4 4 4 4 4 4 4 4 4 4 4 4 4 4 4 4 4 0\n", 13, 1);
    expect_refusal("1 97\n" SEGMENT, 13, 1);
    expect_refusal("24 4 4 4 4 4 4 4 4 4 4 4 4 4 4 4 4 4 4 4 4 4 4 4 5\n", 13, 1);
    expect_refusal("2 0 0\n" SEGMENT SEGMENT, 13, 1);
    expect_refusal_bytes("2 0 0\n" SEGMENT SEGMENT, sizeof "2 0 0\n" SEGMENT SEGMENT - 1, 0, 13, 1);
}

static void test_cells(void)
{
    expect_refusal_bytes(sample, sizeof sample - 1, 5, 24, 0);
    expect_refusal_bytes(sample, sizeof sample - 1, 0, 24, 0);
    CHECK(ask(sample, 6).answer.refusal == 0, "2t cells");
    outcome o = ask(sample, 20);
    CHECK(o.answer.refusal == 0 && all(o.cells + 6, 14, UNTOUCHED), "cells past 2t");
    /* A text's refusal comes before 24. */
    expect_refusal_bytes("1 1\n" SEGMENT "1 0 1 1 1\n", sizeof "1 1\n" SEGMENT "1 0 1 1 1\n" - 1, 0, 9, 3);
    /* Silent entries need cells as well. */
    expect_refusal_bytes("1 1\n" SEGMENT "1 100 1 0 0\n", sizeof "1 1\n" SEGMENT "1 100 1 0 0\n" - 1, 1, 24, 0);
    static char text[RAILNOISE_TEXT_LIMIT];
    size_t length = full_study(text);
    expect_refusal_bytes(text, length, RAILNOISE_MOST_CELLS - 1, 24, 0);
    o = ask_bytes(text, length, RAILNOISE_MOST_CELLS);
    CHECK(o.answer.refusal == 0 && all(o.cells, 96, FULL_ENTRY_DAY) && all(o.cells + 96, 96, FULL_ENTRY_NIGHT),
          "full study's cells");
    expect_period(o.answer.day, FULL_DAY, 0, true, "full study by day");
    expect_period(o.answer.night, FULL_NIGHT, 0, true, "full study by night");
    o = ask_bytes(text, length, RAILNOISE_MOST_CELLS + 9);
    CHECK(all(o.cells + RAILNOISE_MOST_CELLS, 9, UNTOUCHED), "cells past 192");
}

static void test_null(void)
{
    int32_t cell = UNTOUCHED;
    railnoise_answer answer = railnoise_levels(NULL, 0, NULL, 0);
    CHECK(answer.refusal == 13 && answer.line == 1, "null text, null cells");
    CHECK(same_period(answer.day, silent_period) && same_period(answer.night, silent_period), "null text");
    answer = railnoise_levels(NULL, 0, &cell, 1);
    CHECK(answer.refusal == 13 && answer.line == 1 && cell == UNTOUCHED, "null text, one cell");
    answer = railnoise_levels((const uint8_t *)sample, sizeof sample - 1, NULL, 0);
    CHECK(answer.refusal == 24 && answer.line == 0, "null cells");
    answer = railnoise_levels((const uint8_t *)"1 19\n", 0, &cell, 1);
    CHECK(answer.refusal == 13 && answer.line == 1, "length 0 with a pointer");
    expect_refusal("", 13, 1);
}

/* 16,384 bytes are read, one more is 12 at line 0. */
static void test_length(void)
{
    enum { LIMIT = RAILNOISE_TEXT_LIMIT };
    static char text[LIMIT + 2];
    memset(text, ' ', sizeof text);
    memcpy(text, sample, sizeof sample - 1);
    expect_refusal_bytes(text, LIMIT, 6, 13, 8);
    expect_refusal_bytes(text, LIMIT + 1, 6, 12, 0);
    expect_refusal_bytes(text, LIMIT + 1, 0, 12, 0);
    text[LIMIT - 1] = '\n';
    expect_refusal_bytes(text, LIMIT, 6, 13, 8);
    /* A contents line that all but fills the limit: 8189 counts after their number, then a line feed. */
    char *at = text + sprintf(text, "%d", 8189);
    for (int i = 0; i < 8189; i++)
        at += sprintf(at, " 0");
    *at++ = '\n';
    CHECK(at - text == 4 + 2 * 8189 + 1, "contents line's length");
    expect_refusal_bytes(text, (size_t)(at - text), 6, 13, 1);
    expect_refusal_bytes(text, (size_t)(at - text) - 3, 6, 12, 1);
    memset(text, '1', sizeof text);
    expect_refusal_bytes(text, LIMIT, 6, 12, 1);
    expect_refusal_bytes(text, LIMIT + 1, 6, 12, 0);
    memset(text, '\n', sizeof text);
    expect_refusal_bytes(text, LIMIT, 6, 12, 1);
}

static void ask_often(asker *self)
{
    static const int32_t expected[6] = { 526, 615, 553, 460, 549, 487 };
    for (int i = 0; i < 200; i++) {
        int32_t cells[6];
        railnoise_answer a = railnoise_levels((const uint8_t *)sample, sizeof sample - 1, cells, 6);
        if (a.refusal != 0 || a.day.level != 629 || memcmp(cells, expected, sizeof cells) != 0)
            self->failures++;
    }
}

static void test_threads(void)
{
    CHECK(failures_of_two(ask_often) == 0, "two threads at once");
}

/* Every refusal of documents 01 and 02 has words of its own, those that no text leads to as well. Limits that
 * no range above names stand in them too. */
static void test_words(void)
{
    static const struct { uint32_t refusal; const char *rule; } rules[] = {
        { 4, "5 to 180 degrees" }, { 5, "0, 1 or 2" },      { 5, "-2000 to 5000 cm" }, { 5, "100 cm less than the distance" },
        { 6, "2.5 m" },            { 7, "0 or 1" },         { 12, "1 to 5 digits" },   { 12, "decimal point" },
        { 12, "tab" },             { 12, "second space" },  { 12, "carriage return" }, { 12, "the last too" },
        { 12, "15 numbers" },      { 12, "16384 bytes" },   { 13, "1 to 24 segments" }, { 13, "1 to 96 in all" },
        { 21, "24" },              { 22, "96" },            { 24, "2 for each" },      { 5, "height 0 to 100 dm" },
        { 25, "1 to the number" }, { 26, "20 to 300 km/h" },
    };
    for (size_t i = 0; i < sizeof rules / sizeof *rules; i++)
        CHECK(strstr(railnoise_refusal_words(rules[i].refusal), rules[i].rule) != NULL, rules[i].rule);
    for (uint32_t i = 0; i <= 28; i++) {
        bool known = i <= 13 || (20 <= i && i <= 26);
        CHECK((strcmp(railnoise_refusal_words(i), "unknown refusal") != 0) == known, "words of a refusal");
        size_t length = strlen(railnoise_refusal_words(i));
        CHECK(0 < length && length <= 300, "length of a refusal's words");
        for (const char *at = railnoise_refusal_words(i); *at != '\0'; at++)
            CHECK(' ' <= *at && *at <= '~', "a refusal's words are plain ASCII");
        for (uint32_t k = 0; k < i && known; k++)
            CHECK(strcmp(railnoise_refusal_words(i), railnoise_refusal_words(k)) != 0, "words of two refusals");
    }
    CHECK(sizeof(railnoise_period) == 16 && sizeof(railnoise_answer) == 40, "layout of the answer");
}

int main(void)
{
    test_sample();
    test_examples();
    test_steps();
    test_trains();
    test_slow_trains();
    test_verdicts();
    test_silence();
    test_ranges();
    test_segment_refusals();
    test_far_wall();
    test_text_form();
    test_form_first();
    test_contents();
    test_no_state_refusals();
    test_cells();
    test_null();
    test_length();
    test_threads();
    test_words();
    return check_report("host tests");
}
