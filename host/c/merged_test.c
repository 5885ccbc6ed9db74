/* Host tests of railnoise_merged_levels, linked beside railnoise_levels. Expected figures are worked out from the
 * requirements: document 02's request L5, and document 01's steps for the study that both drawings make. */
#define _DEFAULT_SOURCE
#include "answers.h"
#include "check.h"
#include "drawings.h"
#include "guarded.h"
#include "railnoise_requests.h"
#include "threads.h"

#include <string.h>

typedef railnoise_merged_answer answer;

/* A request and everything that came back. */
typedef struct {
    answer answer;
    size_t cell_count;
    int32_t cells[RAILNOISE_MOST_CELLS + 16];
} outcome;

static bool same_answer(answer a, answer b)
{
    return a.refusal == b.refusal && a.text == b.text && a.line == b.line && same_period(a.day, b.day) &&
           same_period(a.night, b.night);
}

/* In memory of exactly the right size, cells between sentinels: for the sanitizers and valgrind. */
static outcome ask_on_heap(drawing first, drawing second, size_t cell_count)
{
    outcome o = { .cell_count = cell_count };
    uint8_t *one = heap_copy(first.text, first.length), *two = heap_copy(second.text, second.length);
    int32_t *cells = lend_cells(cell_count);
    o.answer = railnoise_merged_levels(one, first.length, two, second.length, cells, cell_count);
    CHECK(first.length == 0 || memcmp(one, first.text, first.length) == 0, "first text unchanged");
    CHECK(second.length == 0 || memcmp(two, second.text, second.length) == 0, "second text unchanged");
    take_cells_back(cells, cell_count, o.cells);
    free(one);
    free(two);
    return o;
}

/* Each text, if it is not null, and the cells end at a closed page; the cells held something else. */
static outcome ask_at_page_end(drawing first, drawing second, size_t cell_count)
{
    static guarded rooms[2], cell_room;
    if (cell_room.start == NULL) {
        rooms[0] = guarded_make(2 * RAILNOISE_TEXT_LIMIT);
        rooms[1] = guarded_make(2 * RAILNOISE_TEXT_LIMIT);
        cell_room = guarded_make(sizeof(outcome));
    }
    outcome o = { .cell_count = cell_count };
    uint8_t *one = first.text == NULL ? NULL : guarded_copy(rooms[0], first.text, first.length);
    uint8_t *two = second.text == NULL ? NULL : guarded_copy(rooms[1], second.text, second.length);
    int32_t *cells = guarded_end(cell_room, cell_count * sizeof *cells);
    fill(cells, cell_count, UNTOUCHED_TOO);
    o.answer = railnoise_merged_levels(one, first.length, two, second.length, cells, cell_count);
    memcpy(o.cells, cells, cell_count * sizeof *cells);
    return o;
}

/* Asks twice, over different cells; both answers and all written cells must be the same. */
static outcome ask_with(drawing first, drawing second, size_t cell_count)
{
    outcome o = ask_on_heap(first, second, cell_count);
    outcome again = ask_at_page_end(first, second, cell_count);
    CHECK(same_answer(o.answer, again.answer), "asked twice");
    CHECK(same_cells(o.cells, again.cells, cell_count), "cells asked twice");
    return o;
}

/* More cells than any two drawings need. */
static outcome ask(drawing first, drawing second)
{
    return ask_with(first, second, RAILNOISE_MOST_CELLS + 16);
}

/* Number, text, line, silent periods and untouched cells. */
static void expect_refusal(outcome o, uint32_t number, uint32_t text, uint32_t line, const char *about)
{
    answer expected = { number, text, line, silent_period, silent_period };
    if (!CHECK(same_answer(o.answer, expected), about))
        printf("  got %u text %u line %u, not %u text %u line %u, or a period is not silent\n", o.answer.refusal,
               o.answer.text, o.answer.line, number, text, line);
    CHECK(all(o.cells, o.cell_count, UNTOUCHED), about);
}

/* The entries' levels by day, then those by night, and no cell more. */
static void expect_cells(const outcome *o, const int32_t *cells, size_t count, const char *about)
{
    CHECK(o->answer.refusal == 0 && o->answer.text == 0 && o->answer.line == 0, about);
    size_t same = 0;
    while (same < count && o->cells[same] == cells[same])
        same++;
    if (!CHECK(same == count, about))
        printf("  cell %zu is %d, not %d\n", same, o->cells[same], cells[same]);
    CHECK(all(o->cells + count, o->cell_count - count, UNTOUCHED), about);
}

/* A period's result from its cells, of which one is not silent: their total by Chart 9, and no marked ground step. */
static void expect_total(railnoise_period p, const int32_t *cells, size_t count, int32_t limit, const char *about)
{
    CHECK(!p.silent && p.close <= 1 && total_allowed(cells, count, p.level, p.close == 1), about);
    CHECK(p.met == (p.level >= 10 * limit - 5), about);
}

/* One entry by day and one by night with these levels, each heard in its own period alone. */
static drawing with_levels(int32_t day, int32_t night)
{
    char *text = room_for_text();
    return (drawing){ text, put_levels(text, day, night) };
}

/* So many segments that add nothing and so many trains in all, spread over the segments; the last train's line may
 * be another. */
static drawing sized_with(int segments, int entries, const char *last)
{
    char *text = room_for_text(), *at = text + sprintf(text, "%d", segments);
    for (int i = 0; i < segments; i++)
        at += sprintf(at, " %d", entries * (i + 1) / segments - entries * i / segments);
    at += sprintf(at, "\n");
    for (int i = 0; i < segments; i++) {
        at += sprintf(at, SEGMENT);
        for (int k = entries * i / segments; k < entries * (i + 1) / segments; k++)
            at += sprintf(at, "%s", k == entries - 1 ? last : TRAIN);
    }
    return (drawing){ text, (size_t)(at - text) };
}

static drawing sized(int segments, int entries)
{
    return sized_with(segments, entries, TRAIN);
}

/* All segments of `sized` add nothing, so all levels are the plain ones. */
static void expect_plain(outcome o, size_t entries, const char *about)
{
    int32_t cells[RAILNOISE_MOST_CELLS];
    fill(cells, entries, PLAIN_DAY);
    fill(cells + entries, entries, PLAIN_NIGHT);
    expect_cells(&o, cells, 2 * entries, about);
    expect_total(o.answer.day, cells, entries, 68, about);
    expect_total(o.answer.night, cells + entries, entries, 63, about);
}

/* A second drawing of the house at a cut, HOUSE_AND_CUT: trains at 60.6 and 65.4. Together that is 65.87 and 65.42. */
#define CUT_AND_HOUSE "2 0 1\n" CUT_SEGMENT HOUSE_SEGMENT "15 60 20 12 12\n"

static void test_house(void)
{
    static const int32_t cells[8] = { 643, 445, 177, 606, SILENT, 428, 155, 654 };
    static const int32_t turned[8] = { 606, 643, 445, 177, 654, SILENT, 428, 155 };
    outcome o = ask(typed(HOUSE_AND_CUT), typed(CUT_AND_HOUSE));
    expect_cells(&o, cells, 8, "a house at a cut");
    expect_period(o.answer.day, 659, 0, false, "a house at a cut by day");
    expect_period(o.answer.night, 654, 0, true, "a house at a cut by night");
    o = ask(typed(CUT_AND_HOUSE), typed(HOUSE_AND_CUT));
    expect_cells(&o, turned, 8, "the other way round");
    expect_period(o.answer.day, 659, 0, false, "the other way round by day");
    expect_period(o.answer.night, 654, 0, true, "the other way round by night");
}

/* The terminal's yard and the main line: by night 57.6 and 62.3 lie below the limit, and together above it. */
static void test_yard(void)
{
    static const int32_t cells[10] = { 566, 509, 627, 392, 297, 566, 509, 623, 388, 315 };
    outcome o = ask(typed(terminal_after), typed(main_line));
    expect_cells(&o, cells, 10, "yard and main line");
    expect_period(o.answer.day, 639, 0, false, "yard and main line by day");
    expect_period(o.answer.night, 636, 0, true, "yard and main line by night");
}

/* Each entry stays with its own segment, whichever segments have no entries: the first's last ones and the second's
 * first ones among them. */
static void test_places(void)
{
    for (int one = 1; one < 27; one++)
        for (int two = 1; two < 27; two++) {
            char about[60];
            int32_t cells[24];
            size_t t = 0;
            snprintf(about, sizeof about, "entry counts %d%d%d and %d%d%d", one / 9, one / 3 % 3, one % 3, two / 9,
                     two / 3 % 3, two % 3);
            drawing first = three_segments(one, 0, cells, &t), second = three_segments(two, 3, cells, &t);
            for (size_t i = 0; i < t; i++)
                cells[t + i] = cells[i] + PLAIN_NIGHT - PLAIN_DAY;
            outcome o = ask(first, second);
            expect_cells(&o, cells, 2 * t, about);
            expect_total(o.answer.day, cells, t, 68, about);
            expect_total(o.answer.night, cells + t, t, 63, about);
        }
}

/* 24 segments and 96 entries together, and one more of each. */
static void test_limits(void)
{
    static const struct { int segments[2], entries[2]; uint32_t refusal; } cases[] = {
        { { 12, 12 }, { 48, 48 }, 0 },  { { 12, 13 }, { 48, 1 }, 21 },  { { 12, 12 }, { 48, 49 }, 22 },
        { { 12, 13 }, { 48, 49 }, 21 }, { { 24, 1 }, { 1, 1 }, 21 },    { { 1, 24 }, { 1, 1 }, 21 },
        { { 23, 1 }, { 95, 1 }, 0 },    { { 1, 23 }, { 1, 95 }, 0 },    { { 23, 1 }, { 96, 1 }, 22 },
        { { 1, 23 }, { 1, 96 }, 22 },   { { 24, 24 }, { 96, 96 }, 21 }, { { 12, 12 }, { 96, 96 }, 22 },
        { { 13, 12 }, { 96, 96 }, 21 }, { { 1, 1 }, { 96, 96 }, 22 },   { { 24, 24 }, { 1, 1 }, 21 },
    };
    for (size_t i = 0; i < COUNT(cases); i++) {
        const int *segments = cases[i].segments, *entries = cases[i].entries;
        char about[80];
        snprintf(about, sizeof about, "%d and %d segments, %d and %d entries", segments[0], segments[1], entries[0],
                 entries[1]);
        outcome o = ask(sized(segments[0], entries[0]), sized(segments[1], entries[1]));
        if (cases[i].refusal == 0)
            expect_plain(o, (size_t)(entries[0] + entries[1]), about);
        else
            expect_refusal(o, cases[i].refusal, 0, 0, about);
    }
    for (int one = 1; one <= 24; one++)
        for (int two = 1; two <= 24; two++) {
            outcome o = ask(sized(one, one), sized(two, two));
            if (one + two <= 24)
                expect_plain(o, (size_t)(one + two), "segments within 24");
            else
                expect_refusal(o, 21, 0, 0, "segments past 24");
        }
    for (int one = 1; one <= 96; one++) {
        if (one < 96)
            expect_plain(ask(sized(1, one), sized(1, 96 - one)), 96, "96 entries");
        expect_refusal(ask(sized(1, one), sized(1, 97 - one)), 22, 0, 0, "97 entries");
    }
}

/* Each text's refusals in either place and in both, beside a drawing that is good; with no cells they come first. */
static void refuse_in_both(drawing refused, uint32_t number, uint32_t line)
{
    static const size_t cell_counts[] = { RAILNOISE_MOST_CELLS, 0 };
    drawing good = typed(HOUSE_AND_CUT), other = typed("1 1\n" SEGMENT "1 100 61 1 1\n");
    char about[60];
    snprintf(about, sizeof about, "refusal %u line %u", number, line);
    for (size_t i = 0; i < COUNT(cell_counts); i++) {
        expect_refusal(ask_with(refused, good, cell_counts[i]), number, 1, line, about);
        expect_refusal(ask_with(good, refused, cell_counts[i]), number, 2, line, about);
        expect_refusal(ask_with(refused, refused, cell_counts[i]), number, 1, line, about);
        expect_refusal(ask_with(refused, other, cell_counts[i]), number, 1, line, about);
        expect_refusal(ask_with(other, refused, cell_counts[i]), 10, 1, 3, about);
    }
}

static void test_refusals(void)
{
    for (size_t i = 0; i < COUNT(refused_texts); i++)
        refuse_in_both(typed(refused_texts[i].text), refused_texts[i].number, refused_texts[i].line);
    refuse_in_both((drawing){ NULL, 0 }, 13, 1);
    refuse_in_both((drawing){ long_text(), RAILNOISE_TEXT_LIMIT }, 13, 8);
    refuse_in_both((drawing){ long_text(), RAILNOISE_TEXT_LIMIT + 1 }, 12, 0);
}

/* Whichever of the five apply, the first in their order counts: a line of the first text, one of the second, too many
 * segments, too many entries, too few cells. A text's last line is the refused one, so it is read to its end. */
static void test_order(void)
{
    enum { FIRST = 1, SECOND = 2, SEGMENTS = 4, ENTRIES = 8, CELLS = 16, ANY = 32 };
    for (int apply = 0; apply < ANY; apply++)
        for (int turned = 0; turned < 2; turned++) {
            char about[60];
            snprintf(about, sizeof about, "refusals that apply: %x, the larger drawing %s", (unsigned)apply,
                     turned ? "first" : "last");
            const char *first = apply & FIRST ? "35 100 1 1 1\n" : TRAIN;
            const char *second = apply & SECOND ? "1 301 1 1 1\n" : TRAIN;
            int segments[2] = { 12, 12 }, entries[2] = { 48, 48 };
            segments[!turned] += apply & SEGMENTS ? 1 : 0;
            entries[!turned] += apply & ENTRIES ? 1 : 0;
            size_t t = (size_t)(entries[0] + entries[1]), enough = 2 * t, few = apply & CELLS ? 1 : 0;
            outcome o = ask_with(sized_with(segments[0], entries[0], first),
                                 sized_with(segments[1], entries[1], second), enough - few);
            if (apply & FIRST)
                expect_refusal(o, 8, 1, (uint32_t)(1 + segments[0] + entries[0]), about);
            else if (apply & SECOND)
                expect_refusal(o, 9, 2, (uint32_t)(1 + segments[1] + entries[1]), about);
            else if (apply & (SEGMENTS | ENTRIES | CELLS))
                expect_refusal(o, apply & SEGMENTS ? 21 : apply & ENTRIES ? 22 : 24, 0, 0, about);
            else
                expect_plain(o, t, about);
        }
}

/* Exactly two cells for each entry of both drawings, one fewer, none, and some more. */
static void test_cells(void)
{
    static const int32_t cells[8] = { 643, 445, 177, 606, SILENT, 428, 155, 654 };
    drawing first = typed(HOUSE_AND_CUT), second = typed(CUT_AND_HOUSE), full = sized(12, 48);
    for (size_t count = 0; count <= 24; count++) {
        outcome o = ask_with(first, second, count), turned = ask_with(second, first, count);
        if (count < 8) {
            expect_refusal(o, 24, 0, 0, "fewer than 8 cells");
            expect_refusal(turned, 24, 0, 0, "fewer than 8 cells, the other way round");
        } else {
            expect_cells(&o, cells, 8, "8 cells and more");
            CHECK(same_period(o.answer.day, turned.answer.day), "8 cells and more, the other way round");
        }
    }
    expect_refusal(ask_with(full, full, RAILNOISE_MOST_CELLS - 1), 24, 0, 0, "191 cells");
    expect_plain(ask_with(full, full, RAILNOISE_MOST_CELLS), 96, "192 cells");
    /* Silent entries need cells as well. */
    drawing still = typed("1 1\n" SEGMENT "1 100 1 0 0\n");
    expect_refusal(ask_with(still, still, 3), 24, 0, 0, "3 cells for two silent entries");
    CHECK(ask_with(still, still, 4).answer.refusal == 0, "4 cells for two silent entries");
}

static void test_null(void)
{
    static const char text[] = "1 1\n" SEGMENT TRAIN;
    const uint8_t *good = (const uint8_t *)text;
    size_t length = sizeof text - 1;
    int32_t cell = UNTOUCHED;
    answer nothing = { 13, 1, 1, silent_period, silent_period };
    CHECK(same_answer(railnoise_merged_levels(NULL, 0, NULL, 0, NULL, 0), nothing), "nothing but null");
    CHECK(same_answer(railnoise_merged_levels(NULL, 0, good, length, &cell, 1), nothing), "null first text");
    nothing.text = 2;
    CHECK(same_answer(railnoise_merged_levels(good, length, NULL, 0, &cell, 1), nothing), "null second text");
    CHECK(same_answer(railnoise_merged_levels(good, length, good, 0, &cell, 1), nothing), "length 0 with a pointer");
    answer no_cells = { 24, 0, 0, silent_period, silent_period };
    CHECK(same_answer(railnoise_merged_levels(good, length, good, length, NULL, 0), no_cells), "null cells");
    CHECK(cell == UNTOUCHED, "the cell beside null texts");
}

/* Ground steps that are marked: each segment once, where it has trains in the period, in whichever drawing. */
static void test_ground_marks(void)
{
    enum { DAY = PLAIN_DAY - 125, NIGHT = PLAIN_NIGHT - 125 };
    drawing marked = typed(MARKED_GROUND), plain = typed("1 1\n" SEGMENT TRAIN);
    drawing before_none = typed("2 1 0\n" SEGMENT TRAIN MARKED_SEGMENT);
    drawing after_none = typed("2 0 1\n" MARKED_SEGMENT SEGMENT TRAIN);
    drawing by_day = typed("1 1\n" MARKED_SEGMENT "1 100 1 1 0\n");
    drawing by_night = typed("1 1\n" MARKED_SEGMENT "1 100 1 0 1\n");
    drawing two = typed("1 2\n" MARKED_SEGMENT TRAIN TRAIN);
    /* 12.5 dB apart add 0.24, and 9.5 apart 0.46. */
    const struct { drawing first, second; int32_t day, night; uint32_t close[2]; const char *about; } cases[] = {
        { marked, plain, PLAIN_DAY + 2, PLAIN_NIGHT + 2, { 1, 1 }, "marked in the first" },
        { plain, marked, PLAIN_DAY + 2, PLAIN_NIGHT + 2, { 1, 1 }, "marked in the second" },
        { marked, marked, DAY + 30, NIGHT + 30, { 2, 2 }, "marked in both" },
        { by_day, marked, DAY + 30, NIGHT, { 2, 1 }, "the first's by day alone" },
        { marked, by_night, DAY, NIGHT + 30, { 1, 2 }, "the second's by night alone" },
        { before_none, plain, PLAIN_DAY + 30, PLAIN_NIGHT + 30, { 0, 0 }, "the first's last segment without entries" },
        { plain, after_none, PLAIN_DAY + 30, PLAIN_NIGHT + 30, { 0, 0 }, "the second's first segment without entries" },
        { before_none, marked, PLAIN_DAY + 2, PLAIN_NIGHT + 2, { 1, 1 }, "the second's alone has an entry" },
        { two, plain, PLAIN_DAY + 5, PLAIN_NIGHT + 5, { 1, 1 }, "two entries of the first's" },
        { plain, two, PLAIN_DAY + 5, PLAIN_NIGHT + 5, { 1, 1 }, "two entries of the second's" },
    };
    for (size_t i = 0; i < COUNT(cases); i++) {
        answer a = ask(cases[i].first, cases[i].second).answer;
        expect_period(a.day, cases[i].day, cases[i].close[0], false, cases[i].about);
        expect_period(a.night, cases[i].night, cases[i].close[1], false, cases[i].about);
    }
    static const int32_t cells[4] = { DAY, PLAIN_DAY, NIGHT, PLAIN_NIGHT };
    outcome o = ask(marked, plain);
    expect_cells(&o, cells, 4, "a marked step's level");
}

/* The mark of the total is that of the whole study's, and no drawing's own. */
static void test_total_marks(void)
{
    static const struct { int32_t quiet, sum; bool close; const char *about; } cases[] = {
        { 583, 676, true, "8.7 apart: marked, 0.6 more" },
        { 477, 671, true, "19.3 apart: marked, 0.1 more" },
        { 584, 676, false, "8.6 apart" },
        { 582, 675, false, "8.8 apart" },
        { 591, 677, false, "7.9 apart, 0.0027 above a tie" },
    };
    for (size_t i = 0; i < COUNT(cases); i++)
        for (int turned = 0; turned < 2; turned++) {
            drawing loud = with_levels(670, 670), quiet = with_levels(cases[i].quiet, cases[i].quiet);
            answer a = turned ? ask(quiet, loud).answer : ask(loud, quiet).answer;
            expect_period(a.day, cases[i].sum, cases[i].close, cases[i].sum >= 675, cases[i].about);
            expect_period(a.night, cases[i].sum, cases[i].close, true, cases[i].about);
        }
    /* 66.9 and 58.2 lie 8.7 apart: the tie, taken upward, reaches the limit. */
    expect_period(ask(with_levels(669, SILENT), with_levels(582, SILENT)).answer.day, 675, 1, true, "67.5 by a tie");
    /* 67.0 with 58.3 is marked, and with 60.0 more it is 68.253 and not. */
    drawing total = typed(MARKED_TOTAL);
    expect_period(ask(total, with_levels(600, SILENT)).answer.day, 683, 0, true, "a mark of the first's own");
    expect_period(ask(with_levels(600, SILENT), total).answer.day, 683, 0, true, "a mark of the second's own");
    /* The same beside a silent one stays as it is. */
    expect_period(ask(total, with_levels(SILENT, 600)).answer.day, 676, 1, true, "the first's mark beside silence");
    expect_period(ask(with_levels(SILENT, 600), total).answer.day, 676, 1, true, "the second's mark beside silence");
    /* Both segments have marked ground steps, and 100 trains lie 8.7 above 10 trains with a reading of 1.3. */
    drawing loud = typed("1 1\n" MARKED_SEGMENT "1 100 1 100 0\n");
    drawing quiet = typed("1 1\n25000 0 350 5 180 180 0 0 0 0 13 0 0 0 0\n1 100 1 10 0\n");
    expect_period(ask(loud, quiet).answer.day, PLAIN_DAY - 125 + 200 + 6, 3, false, "three marks");
    expect_period(ask(quiet, loud).answer.day, PLAIN_DAY - 125 + 200 + 6, 3, false, "three marks, the other way round");
}

/* The whole study is rounded once: 60.0 and 55.6 are 61.345, and twice 64.355, where 61.3 with 61.3 is 64.31. */
static void test_no_sum_of_totals(void)
{
    static const int32_t cells[8] = { 600, 556, 600, 556, SILENT, SILENT, SILENT, SILENT };
    drawing down = typed(ROUNDED_DOWN);
    outcome o = ask(down, down);
    expect_cells(&o, cells, 8, "61.345 twice");
    expect_period(o.answer.day, 644, 0, false, "61.345 twice is 64.4, not 64.3");
    CHECK(same_period(o.answer.night, silent_period), "61.345 twice, silent by night");
}

/* Silent for want of trains, in one drawing, in the other, in both. */
static void test_silence(void)
{
    enum { S = SILENT };
    static const struct { int32_t first[2], second[2], day, night; const char *about; } cases[] = {
        { { 600, S }, { 600, 640 }, 630, 640, "the first silent by night" },
        { { S, 640 }, { 600, 640 }, 600, 670, "the first silent by day" },
        { { 600, 640 }, { S, 640 }, 600, 670, "the second silent by day" },
        { { 600, 640 }, { 600, S }, 630, 640, "the second silent by night" },
        { { S, S }, { 600, 640 }, 600, 640, "the first silent" },
        { { 600, 640 }, { S, S }, 600, 640, "the second silent" },
        { { 600, S }, { S, 640 }, 600, 640, "each silent in one period" },
        { { S, 640 }, { 600, S }, 600, 640, "each silent in the other" },
        { { 600, S }, { 600, S }, 630, S, "both silent by night" },
        { { S, 640 }, { S, 640 }, S, 670, "both silent by day" },
        { { S, S }, { S, S }, S, S, "both silent" },
    };
    for (size_t i = 0; i < COUNT(cases); i++) {
        const int32_t *first = cases[i].first, *second = cases[i].second;
        const int32_t cells[8] = { first[0], S, second[0], S, S, first[1], S, second[1] };
        outcome o = ask(with_levels(first[0], first[1]), with_levels(second[0], second[1]));
        expect_cells(&o, cells, 8, cases[i].about);
        if (cases[i].day == S)
            CHECK(same_period(o.answer.day, silent_period), cases[i].about);
        else
            expect_period(o.answer.day, cases[i].day, 0, false, cases[i].about);
        if (cases[i].night == S)
            CHECK(same_period(o.answer.night, silent_period), cases[i].about);
        else
            expect_period(o.answer.night, cases[i].night, 0, true, cases[i].about);
    }
    /* Silent is no 0.0 dB: a level below zero stays as it is. */
    outcome o = ask(typed(FAINT), with_levels(SILENT, SILENT));
    expect_period(o.answer.day, -394, 0, false, "-39.4 beside silence");
    o = ask(typed(FAINT), typed(FAINT));
    expect_period(o.answer.day, -364, 0, false, "-39.4 twice");
    expect_period(o.answer.night, -316, 0, false, "-34.6 twice");
}

/* 67.5 by day and 62.5 by night are met by two drawings that each lie below the limit; 67.4 and 62.4 are not. */
static void test_verdicts(void)
{
    outcome o = ask(with_levels(645, 595), with_levels(645, 595));
    expect_period(o.answer.day, 675, 0, true, "67.5 together");
    expect_period(o.answer.night, 625, 0, true, "62.5 together");
    o = ask(with_levels(644, 594), with_levels(644, 594));
    expect_period(o.answer.day, 674, 0, false, "67.4 together");
    expect_period(o.answer.night, 624, 0, false, "62.4 together");
    o = ask(with_levels(645, 594), with_levels(645, 594));
    expect_period(o.answer.day, 675, 0, true, "67.5 by day alone");
    expect_period(o.answer.night, 624, 0, false, "62.4 by night beside it");
    o = ask(with_levels(680, 480), with_levels(450, 630));
    expect_period(o.answer.day, 680, 0, true, "the first's by day");
    expect_period(o.answer.night, 631, 0, true, "the second's by night");
}

/* One text in both places, by one pointer; and two in one piece of memory, the second right behind the first. */
static void test_shared_memory(void)
{
    static const int32_t twice[12] = { 643, 445, 177, 643, 445, 177, SILENT, 428, 155, SILENT, 428, 155 };
    static const char text[] = HOUSE_AND_CUT, both[] = HOUSE_AND_CUT CUT_AND_HOUSE;
    size_t length = sizeof text - 1, rest = sizeof both - 1 - length;
    uint8_t *one = guarded_copy(guarded_make(length), text, length);
    int32_t cells[12];
    answer a = railnoise_merged_levels(one, length, one, length, cells, 12);
    CHECK(a.refusal == 0 && memcmp(cells, twice, sizeof twice) == 0, "one text twice");
    expect_period(a.day, 674, 0, false, "one text twice: 64.345 and 3.0 more");
    a = railnoise_merged_levels(one, length, one, length - 1, cells, 12);
    CHECK(same_answer(a, (answer){ 12, 2, 6, silent_period, silent_period }), "once without its last line feed");
    CHECK(memcmp(one, text, length) == 0, "text given twice unchanged");
    drawing many = sized(13, 13), entries = sized(12, 49);
    const uint8_t *these = (const uint8_t *)many.text, *those = (const uint8_t *)entries.text;
    a = railnoise_merged_levels(these, many.length, these, many.length, cells, 0);
    CHECK(same_answer(a, (answer){ 21, 0, 0, silent_period, silent_period }), "13 segments twice");
    a = railnoise_merged_levels(those, entries.length, those, entries.length, cells, 0);
    CHECK(same_answer(a, (answer){ 22, 0, 0, silent_period, silent_period }), "49 entries twice");

    uint8_t *first = guarded_copy(guarded_make(sizeof both - 1), both, sizeof both - 1), *second = first + length;
    a = railnoise_merged_levels(first, length, second, rest, cells, 8);
    CHECK(a.refusal == 0 && a.day.level == 659 && a.night.level == 654, "one behind the other");
    a = railnoise_merged_levels(second, rest, first, length, cells, 8);
    CHECK(a.refusal == 0 && a.day.level == 659 && a.night.level == 654, "one before the other");
    a = railnoise_merged_levels(first, length - 1, second, rest, cells, 8);
    CHECK(same_answer(a, (answer){ 12, 1, 6, silent_period, silent_period }), "the first cut short");
    a = railnoise_merged_levels(first, length + 1, second, rest, cells, 8);
    CHECK(same_answer(a, (answer){ 13, 1, 7, silent_period, silent_period }), "the first with a byte of the second");
}

/* Figures as wide as they can be, and both drawings as long as good ones get. */
static void test_full_studies(void)
{
    char *text = room_for_text();
    drawing full = { text, full_study(text) };
    drawing one = typed("1 1\n30000 5000 5000 10 180 180 2 29900 -2000 100 150 0 1 180 100\n34 300 60 2000 2000\n");
    static const int32_t two[4] = { FULL_ENTRY_DAY, FULL_ENTRY_DAY, FULL_ENTRY_NIGHT, FULL_ENTRY_NIGHT };
    outcome o = ask(one, one);
    expect_cells(&o, two, 4, "widest figures");
    expect_period(o.answer.day, FULL_ENTRY_DAY + 30, 0, true, "widest figures by day");
    expect_period(o.answer.night, FULL_ENTRY_NIGHT + 30, 0, true, "widest figures by night");
    expect_refusal(ask(full, full), 21, 0, 0, "two full studies");
    expect_refusal(ask(full, one), 21, 0, 0, "a full study and one more");
    expect_refusal(ask(one, full), 21, 0, 0, "one and a full study");
}

/* What railnoise_levels gives for the one text with all lines, cells and all; and the other way round the same
 * periods, over the same levels. */
static void check_by_whole(drawing first, drawing second, drawing whole, size_t first_entries, size_t entries,
                           const char *about)
{
    int32_t cells[RAILNOISE_MOST_CELLS], turned[RAILNOISE_MOST_CELLS];
    railnoise_answer of = railnoise_levels((const uint8_t *)whole.text, whole.length, cells, RAILNOISE_MOST_CELLS);
    CHECK(of.refusal == 0, about);
    outcome o = ask(first, second);
    expect_cells(&o, cells, 2 * entries, about);
    CHECK(same_period(o.answer.day, of.day) && same_period(o.answer.night, of.night), about);
    for (size_t i = 0; i < entries; i++) {
        size_t place = (i + first_entries) % entries;
        turned[i] = cells[place];
        turned[entries + i] = cells[entries + place];
    }
    o = ask(second, first);
    expect_cells(&o, turned, 2 * entries, about);
    CHECK(same_period(o.answer.day, of.day) && same_period(o.answer.night, of.night), about);
}

/* The benchmark's full study, cut at each place. */
static void test_every_cut(void)
{
    static const made_study full = { 24, 4, 150, 24 };
    char *whole = room_for_text();
    size_t length = write_part(whole, full, 0, 24);
    for (int cut = 1; cut < 24; cut++) {
        char about[40], *first = room_for_text(), *second = room_for_text();
        snprintf(about, sizeof about, "the full study, cut after %d", cut);
        size_t first_length = write_part(first, full, 0, cut), second_length = write_part(second, full, cut, 24);
        check_by_whole((drawing){ first, first_length }, (drawing){ second, second_length }, (drawing){ whole, length },
                       4 * (size_t)cut, 96, about);
    }
}

/* Mixed studies of 2 to 24 segments with up to 6 entries each, most with none, cut at each place that leaves both
 * parts an entry. */
static void test_mixed_cuts(void)
{
    uint32_t state = 1995;
    for (int made = 0; made < 92; made++) {
        drawn_segment of[24];
        int segments = 2 + made % 23, entries = mix_segments(&state, of, segments), before = 0;
        for (int cut = 1; cut < segments; cut++) {
            char about[60];
            snprintf(about, sizeof about, "mixed study %d, cut after %d of %d", made, cut, segments);
            before += of[cut - 1].entries;
            if (before > 0 && before < entries)
                check_by_whole(compose(of, cut), compose(of + cut, segments - cut), compose(of, segments),
                               (size_t)before, (size_t)entries, about);
        }
    }
}

/* One thread asks for the first with the second, the other for the second with the first. */
static void ask_both_ways(asker *self)
{
    static const char house[] = HOUSE_AND_CUT, cut[] = CUT_AND_HOUSE;
    static const int32_t expected[2][8] = { { 643, 445, 177, 606, SILENT, 428, 155, 654 },
                                            { 606, 643, 445, 177, 654, SILENT, 428, 155 } };
    bool turned = self->number == 1;
    const char *first = turned ? cut : house, *second = turned ? house : cut;
    for (int i = 0; i < 20000; i++) {
        int32_t cells[8];
        answer a = railnoise_merged_levels((const uint8_t *)first, strlen(first), (const uint8_t *)second,
                                           strlen(second), cells, 8);
        if (a.refusal != 0 || a.day.level != 659 || a.night.level != 654 ||
            memcmp(cells, expected[turned], sizeof cells) != 0)
            self->failures++;
    }
}

static void test_threads(void)
{
    CHECK(failures_of_two(ask_both_ways) == 0, "two threads at once");
}

static void test_layout(void)
{
    CHECK(sizeof(answer) == 44 && offsetof(answer, day) == 12 && offsetof(answer, night) == 28, "layout of the answer");
}

int main(void)
{
    test_house();
    test_yard();
    test_places();
    test_limits();
    test_refusals();
    test_order();
    test_cells();
    test_null();
    test_ground_marks();
    test_total_marks();
    test_no_sum_of_totals();
    test_silence();
    test_verdicts();
    test_shared_memory();
    test_full_studies();
    test_every_cut();
    test_mixed_cuts();
    test_threads();
    test_layout();
    return check_report("merged tests");
}
