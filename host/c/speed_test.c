/* Host tests of railnoise_highest_speed, linked beside railnoise_levels. Expected figures are worked out from the
 * requirements: document 02's request L6, and document 01's steps for the total at each speed. */
#define _DEFAULT_SOURCE
#include "answers.h"
#include "check.h"
#include "drawings.h"
#include "guarded.h"
#include "railnoise_requests.h"
#include "retype.h"
#include "threads.h"

#include <string.h>

typedef railnoise_speed_answer answer;

/* What is asked of a study beside its text. */
typedef struct {
    uint32_t entry;
    bool night;
    int32_t limit;
} question;

static answer at_most(uint32_t speed)
{
    return (answer){ 0, 0, speed };
}

static answer refused(uint32_t number, uint32_t line)
{
    return (answer){ number, line, 0 };
}

static bool same_answer(answer a, answer b)
{
    return a.refusal == b.refusal && a.line == b.line && a.speed == b.speed;
}

/* In memory of exactly the right size, none for the empty text: for the sanitizers and valgrind. */
static answer ask_on_heap(drawing d, question q)
{
    uint8_t *text = d.length > 0 ? heap_copy(d.text, d.length) : NULL;
    answer a = railnoise_highest_speed(text, d.length, q.entry, q.night, q.limit);
    CHECK(d.length == 0 || memcmp(text, d.text, d.length) == 0, "text unchanged");
    free(text);
    return a;
}

/* The text, if it is not null, ends at a closed page. */
static answer ask_at_page_end(drawing d, question q)
{
    static guarded room;
    if (room.start == NULL)
        room = guarded_make(2 * RAILNOISE_TEXT_LIMIT);
    const uint8_t *text = d.text == NULL ? NULL : guarded_copy(room, d.text, d.length);
    return railnoise_highest_speed(text, d.length, q.entry, q.night, q.limit);
}

/* Asks twice; both answers must be the same. */
static answer ask(drawing d, question q)
{
    answer a = ask_on_heap(d, q);
    CHECK(same_answer(a, ask_at_page_end(d, q)), "asked twice");
    return a;
}

static void print_question(question q, answer a)
{
    printf("  entry %u by %s, limit %d: got refusal %u line %u speed %u\n", q.entry, q.night ? "night" : "day", q.limit,
           a.refusal, a.line, a.speed);
}

static void expect(drawing d, question q, answer expected, const char *about)
{
    answer a = ask(d, q);
    if (!CHECK(same_answer(a, expected), about)) {
        print_question(q, a);
        printf("  not refusal %u line %u speed %u\n", expected.refusal, expected.line, expected.speed);
    }
}

/* To the nearest whole decibel with halves up, of tenths: -0.5 dB is 0, -0.6 dB is -1. */
static int32_t whole(int32_t tenths)
{
    int32_t up = tenths + 5;
    return up / 10 - (up % 10 < 0 ? 1 : 0);
}

static bool stays_below(railnoise_period p, int32_t limit)
{
    return p.silent || whole(p.level) < limit;
}

/* The levels of the text with that speed typed in the entry's line. */
static railnoise_answer levels_at(drawing d, uint32_t entry, int speed)
{
    char text[RETYPED_LIMIT];
    int32_t cells[RAILNOISE_MOST_CELLS];
    size_t length = retype(text, d.text, d.length, entry, speed);
    railnoise_answer a = railnoise_levels((const uint8_t *)text, length, cells, RAILNOISE_MOST_CELLS);
    CHECK(a.refusal == 0, "the study with another speed");
    return a;
}

static railnoise_period total_at(drawing d, question q, int speed)
{
    railnoise_answer a = levels_at(d, q.entry, speed);
    return q.night ? a.night : a.day;
}

/* The answer by railnoise_levels at three speeds: the one answered, the next one, and 20 km/h. */
static void expect_explained(drawing d, question q, const char *about)
{
    answer a = ask(d, q);
    bool right = same_answer(a, refused(26, 0)) && !stays_below(total_at(d, q, SLOWEST), q.limit);
    if (a.refusal == 0 && a.line == 0 && SLOWEST <= a.speed && a.speed <= FASTEST) {
        int speed = (int)a.speed;
        right = stays_below(total_at(d, q, speed), q.limit) &&
                (speed == FASTEST || !stays_below(total_at(d, q, speed + 1), q.limit));
    }
    if (!CHECK(right, about))
        print_question(q, a);
}

/* The results of both periods at every speed. */
typedef struct {
    railnoise_period of[2][FASTEST + 1];
} tried;

static void try_speeds(drawing d, uint32_t entry, tried *results)
{
    for (int speed = SLOWEST; speed <= FASTEST; speed++) {
        railnoise_answer a = levels_at(d, entry, speed);
        results->of[false][speed] = a.day;
        results->of[true][speed] = a.night;
        CHECK(a.day.met == !stays_below(a.day, 68), "the verdict by day");
        CHECK(a.night.met == !stays_below(a.night, 63), "the verdict by night");
    }
}

/* The highest speed that was tried and stays below the limit; every lower one does too. */
static void expect_by_trying(drawing d, question q, const railnoise_period *at, const char *about)
{
    int speed = FASTEST, lower = SLOWEST;
    while (speed >= SLOWEST && !stays_below(at[speed], q.limit))
        speed--;
    while (lower <= speed && stays_below(at[lower], q.limit))
        lower++;
    CHECK(lower > speed, about);
    expect(d, q, speed < SLOWEST ? refused(26, 0) : at_most((uint32_t)speed), about);
}

/* Limits far from a total in whole decibels: those that come to the total or nearly so where a figure of 8, 16 or
 * 32 bits holds them or ten times them, and both ends. Gives their number. */
static size_t far_limits(int32_t total, int32_t *limits)
{
    static const int64_t offsets[] = { 0, 100, 256, 6553, 6554, 13107, 65536, 214748364, 214748365, 429496729,
                                       429496730, 858993459, 1288490189, 1717986918, 2147483647, 2147483648 };
    size_t count = 0;
    for (size_t i = 0; i < COUNT(offsets); i++)
        for (int sign = -1; sign <= 1; sign += 2)
            for (int from_total = 0; from_total < 2; from_total++) {
                int64_t limit = sign * offsets[i] + (from_total ? total + 1 : 0);
                if (INT32_MIN <= limit && limit <= INT32_MAX)
                    limits[count++] = (int32_t)limit;
            }
    return count;
}

/* One entry in both periods, at every limit from below the lowest total to above the highest, and at far ones. */
static void try_limits(drawing d, uint32_t entry, const char *name)
{
    static tried results;
    try_speeds(d, entry, &results);
    for (int night = 0; night < 2; night++) {
        const railnoise_period *at = results.of[night];
        char about[100];
        int32_t limits[64];
        snprintf(about, sizeof about, "%s, every speed of entry %u by %s", name, entry, night ? "night" : "day");
        for (int32_t limit = whole(at[SLOWEST].level) - 3; limit <= whole(at[FASTEST].level) + 4; limit++)
            expect_by_trying(d, (question){ entry, night, limit }, at, about);
        size_t count = far_limits(whole(at[FASTEST].level), limits);
        for (size_t i = 0; i < count; i++)
            expect_by_trying(d, (question){ entry, night, limits[i] }, at, about);
    }
}

static void try_entries(drawing d, const char *name)
{
    for (uint32_t entry = 1; entry <= entries_of(d.text); entry++)
        try_limits(d, entry, name);
}

/* The speed's step in tenths, 31.2 + 20 log V. No speed lies near a tie. */
static int32_t speed_step(int speed)
{
    return (int32_t)floorl(10 * (31.2L + 20 * log10l(speed)) + 0.5L);
}

/* Entries' levels in one period, each at 100 km/h, by document 01's formulas. */
typedef struct {
    const int32_t *levels;
    size_t count;
} heard;

static long double energy_at(heard h, uint32_t entry, int speed)
{
    long double energy = 0;
    for (size_t i = 0; i < h.count; i++)
        if (h.levels[i] != SILENT)
            energy += powl(10, (h.levels[i] + (i + 1 == entry ? speed_step(speed) - speed_step(100) : 0)) / 100.0L);
    return energy;
}

/* Whether an answer is one that document 01 allows for these levels. A total reaches a limit from 0.55 dB below it on,
 * and from 0.551 dB on, where it is taken as a tie; below 0.552 dB it does not, and between them the mark is free. */
static bool answer_allowed(heard h, question q, answer a)
{
    long double must = powl(10, (q.limit - 0.551L) / 10), may = powl(10, (q.limit - 0.552L) / 10);
    if (a.refusal != 0)
        return same_answer(a, refused(26, 0)) && energy_at(h, q.entry, SLOWEST) > may;
    int speed = (int)a.speed;
    return a.line == 0 && SLOWEST <= a.speed && a.speed <= FASTEST && energy_at(h, q.entry, speed) < must &&
           (speed == FASTEST || energy_at(h, q.entry, speed + 1) > may);
}

static answer expect_allowed(drawing d, heard h, question q, const char *about)
{
    answer a = ask(d, q);
    if (!CHECK(answer_allowed(h, q, a), about))
        print_question(q, a);
    return a;
}

/* The header's study and its answers. */
static void test_worked(void)
{
    static const struct { question of; uint32_t speed; } cases[] = {
        { { 1, false, 60 }, 62 },        { { 1, false, 64 }, 98 },        { { 1, false, 66 }, 125 },
        { { 1, false, 67 }, 140 },       { { 1, false, 68 }, 157 },       { { 1, false, 70 }, 198 },
        { { 1, false, 75 }, 300 },       { { 1, false, 50 }, 0 },         { { 2, false, 64 }, 0 },
        { { 2, false, 66 }, 300 },       { { 1, true, 50 }, 300 },        { { 1, true, INT32_MIN }, 0 },
        { { 1, true, 44 }, 300 },        { { 1, true, 43 }, 0 },          { { 3, true, 43 }, 0 },
    };
    drawing house = typed(HOUSE_AND_CUT);
    for (size_t i = 0; i < COUNT(cases); i++)
        expect(house, cases[i].of, cases[i].speed == 0 ? refused(26, 0) : at_most(cases[i].speed), "a house at a cut");
    expect(house, (question){ 0, false, 68 }, refused(25, 0), "entry 0");
    expect(house, (question){ 4, false, 68 }, refused(25, 0), "entry 4 of 3");
    CHECK(levels_at(house, 1, 157).day.level == 674 && levels_at(house, 1, 158).day.level == 675, "157 and 158 km/h");
}

/* A segment that adds nothing but a Table 1 reading, with one train: 23.9 by day and 28.7 by night at 20 km/h, 47.4 and
 * 52.2 at 300 km/h; with a reading of 0.5 dB 24.4 at 20 km/h, and 24.8 at 21. */
#define ALONE(reading, speed) "1 1\n2500 0 600 0 180 180 0 0 0 0 " reading " 0 0 0 0\n1 " speed " 1 1 1\n"

static void test_alone(void)
{
    static const struct { const char *text; question of; uint32_t speed; } cases[] = {
        { ALONE("0", "100"), { 1, false, 24 }, 0 },    { ALONE("0", "100"), { 1, false, 25 }, 21 },
        { ALONE("5", "100"), { 1, false, 25 }, 20 },   { ALONE("6", "100"), { 1, false, 25 }, 0 },
        { ALONE("0", "100"), { 1, false, 38 }, 94 },   { ALONE("0", "100"), { 1, false, 47 }, 267 },
        { ALONE("0", "100"), { 1, false, 48 }, 300 },  { ALONE("1", "100"), { 1, false, 48 }, 296 },
        { ALONE("0", "100"), { 1, true, 29 }, 0 },     { ALONE("0", "100"), { 1, true, 30 }, 21 },
        { ALONE("0", "100"), { 1, true, 52 }, 273 },   { ALONE("0", "100"), { 1, true, 53 }, 300 },
    };
    for (size_t i = 0; i < COUNT(cases); i++)
        expect(typed(cases[i].text), cases[i].of, cases[i].speed == 0 ? refused(26, 0) : at_most(cases[i].speed),
               "a single entry");
}

/* Every limit for several studies, each entry of them. */
static void test_every_limit(void)
{
    try_entries(typed(HOUSE_AND_CUT), "a house at a cut");
    try_entries(typed(sample), "the sample");
    try_entries(typed(terminal_before), "the terminal before");
    try_entries(typed(terminal_after), "the terminal after");
    try_entries(typed(main_line), "the main line");
    try_entries(typed(MARKED_TOTAL), "a marked total");
    try_entries(typed(MARKED_GROUND), "a marked ground step");
    try_entries(typed(ROUNDED_DOWN), "61.345 dB");
    try_entries(typed(FAINT), "-39.4 dB");
    try_entries(typed("1 2\n" SEGMENT "1 100 1 0 0\n1 7 1 0 0\n"), "no trains");
    try_entries(typed("2 1 1\n" SEGMENT "1 100 1 1 0\n" SEGMENT "1 100 1 0 1\n"), "each in its own period");
}

/* Mixed studies, one entry of each; and the largest ones. */
static void test_mixed(void)
{
    uint32_t state = 2006;
    for (int made = 0; made < 24; made += 2) {
        drawn_segment of[24];
        int entries = mix_segments(&state, of, 1 + made);
        char name[40];
        snprintf(name, sizeof name, "mixed study %d", made);
        if (entries > 0)
            try_limits(compose(of, 1 + made), 1 + (uint32_t)next_below(&state, (size_t)entries), name);
    }
    static const made_study full = { 24, 4, 150, 24 };
    char *text = room_for_text();
    try_limits((drawing){ text, write_part(text, full, 0, 24) }, 50, "the benchmark's full study");
    try_limits((drawing){ text, full_study(text) }, 96, "widest figures");
}

/* The entry's number: 1 to the number of entries, whatever is asked beside it; and before an impossible limit. */
static void test_entry_numbers(void)
{
    static const uint32_t far[] = { 0, 97, 98, 128, 192, 255, 256, 257, 65535, 65536, 65537, 0x7fffffff, 0x80000000,
                                    0x80000001, UINT32_MAX - 1, UINT32_MAX };
    static const int32_t limits[] = { INT32_MIN, -1, 0, 50, 68, INT32_MAX };
    char *text = room_for_text();
    drawing full = { text, full_study(text) };
    drawing studies[] = { typed(ALONE("0", "100")), typed(HOUSE_AND_CUT), full, typed("1 1\n" SEGMENT "1 7 1 0 0\n") };
    for (size_t i = 0; i < COUNT(studies); i++)
        for (size_t k = 0; k < 2 * COUNT(limits); k++) {
            uint32_t entries = entries_of(studies[i].text);
            question q = { 0, k % 2 == 1, limits[k / 2] };
            for (q.entry = 1; q.entry <= entries + 2; q.entry += q.entry + 4 < entries ? 3 : 1)
                if (q.entry <= entries)
                    CHECK(ask(studies[i], q).refusal != 25, "an entry of the study");
                else
                    expect(studies[i], q, refused(25, 0), "past the last entry");
            for (size_t of = 0; of < COUNT(far); of++) {
                q.entry = far[of];
                expect(studies[i], q, refused(25, 0), "no entry of the study");
            }
        }
}

/* A text's own refusal comes before all, whatever entry and limit are asked. */
static void refuse(drawing d, uint32_t number, uint32_t line)
{
    static const uint32_t entries[] = { 0, 1, 2, 97, UINT32_MAX };
    static const int32_t limits[] = { INT32_MIN, 68, INT32_MAX };
    char about[60];
    snprintf(about, sizeof about, "refusal %u line %u", number, line);
    for (size_t i = 0; i < COUNT(entries); i++)
        for (size_t k = 0; k < 2 * COUNT(limits); k++)
            expect(d, (question){ entries[i], k % 2 == 1, limits[k / 2] }, refused(number, line), about);
}

static void test_refusals(void)
{
    for (size_t i = 0; i < COUNT(refused_texts); i++)
        refuse(typed(refused_texts[i].text), refused_texts[i].number, refused_texts[i].line);
    refuse(typed("1 1\n" SEGMENT "1 0 1 1 1\n"), 9, 3);
    refuse((drawing){ NULL, 0 }, 13, 1);
    refuse((drawing){ sample, 0 }, 13, 1);
    refuse((drawing){ long_text(), RAILNOISE_TEXT_LIMIT }, 13, 8);
    refuse((drawing){ long_text(), RAILNOISE_TEXT_LIMIT + 1 }, 12, 0);
    refuse((drawing){ sample, sizeof sample - 2 }, 12, 7);
    static const made_study last_refused = { 24, 4, 301, 24 };
    char *text = room_for_text();
    refuse((drawing){ text, write_part(text, last_refused, 0, 24) }, 9, 121);
}

/* Silent in the period: the entry, so that its speed makes no difference; all others; all of them. */
static void test_silence(void)
{
    enum { S = SILENT };
    static const int32_t limits[] = { INT32_MIN, INT32_MIN + 1, -1000, -1, 0, 1, 50, 68, 1000, INT32_MAX };
    static const char still[] = "2 2 1\n" SEGMENT "1 100 1 0 5\n1 7 1 0 0\n" MARKED_SEGMENT "1 300 60 0 2000\n";
    char text[200];
    for (uint32_t entry = 1; entry <= 3; entry++)
        for (size_t i = 0; i < COUNT(limits); i++)
            expect(typed(still), (question){ entry, false, limits[i] }, at_most(300), "all silent by day");
    /* 60.0 by day and 64.0 by night, of an entry each. */
    drawing d = { text, put_levels(text, 600, 640) };
    static const int32_t day[2] = { 600, S }, night[2] = { S, 640 };
    for (int32_t limit = 20; limit < 90; limit++) {
        expect(d, (question){ 2, false, limit }, limit > 60 ? at_most(300) : refused(26, 0), "silent by day");
        expect(d, (question){ 1, true, limit }, limit > 64 ? at_most(300) : refused(26, 0), "silent by night");
        expect_allowed(d, (heard){ day, 2 }, (question){ 1, false, limit }, "the other silent by day");
        expect_allowed(d, (heard){ night, 2 }, (question){ 2, true, limit }, "the other silent by night");
    }
    /* Silent is no 0.0 dB: with -39.4 by day beside it the total lies below -39. */
    drawing faint = typed("2 1 1\n30000 0 600 0 5 5 0 0 0 0 0 -30 0 0 0\n8 20 1 1 0\n" SEGMENT "1 100 1 0 1\n");
    expect(faint, (question){ 2, false, -38 }, at_most(300), "-39.4 beside silence, below -38");
    expect(faint, (question){ 2, false, -39 }, refused(26, 0), "-39.4 beside silence, not below -39");
}

/* The speed that is typed makes no difference, and no answer lies below 20 km/h: a single entry, and one of a house, that
 * crawl or run as fast as they may. */
static void test_typed_speeds(void)
{
    static const int speeds[] = { 1, 2, 7, 9, 10, 19, 20, 21, 99, 100, 150, 299, 300 };
    char retyped[2][RETYPED_LIMIT];
    drawing single = typed(ALONE("5", "100")), house = typed(HOUSE_AND_CUT);
    for (size_t i = 0; i < COUNT(speeds); i++) {
        drawing alone = { retyped[0], retype(retyped[0], single.text, single.length, 1, speeds[i]) };
        drawing beside = { retyped[1], retype(retyped[1], house.text, house.length, 1, speeds[i]) };
        expect(alone, (question){ 1, false, 25 }, at_most(20), "20 km/h, another speed typed");
        expect(alone, (question){ 1, false, 24 }, refused(26, 0), "not even 20 km/h, another speed typed");
        expect(beside, (question){ 1, false, 68 }, at_most(157), "157 km/h, another speed typed");
        for (int32_t limit = 20; limit <= 76; limit += 2) {
            question q = { 1, false, limit };
            expect(alone, q, ask(single, q), "a single entry, another speed typed");
            expect(beside, q, ask(house, q), "entry 1 of a house, another speed typed");
        }
    }
    /* Another entry that crawls counts as one at 20 km/h. */
    drawing slow = typed("1 2\n" SEGMENT TRAIN "1 3 1 100 1\n"), at_20 = typed("1 2\n" SEGMENT TRAIN "1 20 1 100 1\n");
    for (int32_t limit = 30; limit <= 60; limit++)
        expect(slow, (question){ 1, false, limit }, ask(at_20, (question){ 1, false, limit }), "beside a crawling train");
}

/* Entries in every place of three segments, each of them asked, against document 01's formulas. */
static void test_places(void)
{
    for (int counts = 1; counts < 27; counts++) {
        int32_t levels[2][6];
        size_t t = 0;
        drawing d = three_segments(counts, 0, levels[0], &t);
        for (size_t i = 0; i < t; i++)
            levels[1][i] = levels[0][i] + PLAIN_NIGHT - PLAIN_DAY;
        for (uint32_t entry = 1; entry <= t; entry++)
            for (int night = 0; night < 2; night++)
                for (int32_t limit = 36; limit <= 60; limit += 3) {
                    char about[60];
                    snprintf(about, sizeof about, "entry counts %d%d%d", counts / 9, counts / 3 % 3, counts % 3);
                    expect_allowed(d, (heard){ levels[night], t }, (question){ entry, night, limit }, about);
                }
    }
}

/* 96 entries of which no two have the same level but for a few, from 38.8 to 49.0 by day at 100 km/h: the total is
 * 64.416, and each of them has room for a higher speed below 64.45. */
static void test_every_entry(void)
{
    static const struct { int row, more; } rows[4] = { { 1, 0 }, { 16, 1 }, { 18, 2 }, { 15, 10 } };
    int32_t levels[2][96];
    char *text = room_for_text(), *at = put_contents(text, 24, 4);
    for (int i = 0; i < 96; i++) {
        int reading = 9 + 4 * (i / 4);
        if (i % 4 == 0)
            at += sprintf(at, "2500 0 600 0 180 180 0 0 0 0 %d 0 0 0 0\n", reading);
        at += sprintf(at, "%d 100 1 1 1\n", rows[i % 4].row);
        levels[0][i] = PLAIN_DAY + reading + rows[i % 4].more;
        levels[1][i] = levels[0][i] + PLAIN_NIGHT - PLAIN_DAY;
    }
    drawing d = { text, (size_t)(at - text) };
    for (uint32_t entry = 1; entry <= 96; entry++) {
        answer a = expect_allowed(d, (heard){ levels[0], 96 }, (question){ entry, false, 65 }, "each of 96 by day");
        CHECK(100 < a.speed && a.speed < 300, "each of 96 has room");
        for (int32_t limit = 69; limit <= 70; limit++)
            expect_allowed(d, (heard){ levels[1], 96 }, (question){ entry, true, limit }, "each of 96 by night");
        expect_explained(d, (question){ entry, false, 65 }, "each of 96 by day, by its levels");
        expect_explained(d, (question){ entry, true, 70 }, "each of 96 by night, by its levels");
    }
}

/* Two entries with these levels at 100 km/h, both in one period alone. */
static drawing two_entries(int32_t first, int32_t second, bool night)
{
    char *text = room_for_text(), *at = text + sprintf(text, "2 1 1\n");
    int32_t plain = night ? PLAIN_NIGHT : PLAIN_DAY;
    at = put_level(put_level(at, plain, first, night), plain, second, night);
    return (drawing){ text, (size_t)(at - text) };
}

/* Totals close to a tie are taken as one, upward: 66.9 and 58.2 are 67.4496, and so 67.5 and 68. At 99 km/h an entry is
 * 0.1 dB below its level at 100. */
static void test_marks(void)
{
    for (int night = 0; night < 2; night++) {
        drawing d = two_entries(669, 582, night);
        railnoise_answer a = levels_at(d, 2, 100);
        expect_period(night ? a.night : a.day, 675, 1, true, "67.4496 is marked");
        expect(d, (question){ 2, night, 68 }, at_most(99), "the quiet one at a marked total");
        expect(d, (question){ 1, night, 68 }, at_most(99), "the loud one at a marked total");
        d = two_entries(582, 669, night);
        expect(d, (question){ 1, night, 68 }, at_most(99), "the quiet one first");
        expect(d, (question){ 2, night, 68 }, at_most(99), "the loud one last");
        /* 0.1 dB less of either leaves room: 58.1 dB up to 58.2 less 0.1, and beside 66.8 dB up to 58.8. */
        expect(two_entries(669, 581, night), (question){ 2, night, 68 }, at_most(100), "0.1 dB quieter");
        expect(two_entries(668, 582, night), (question){ 2, night, 68 }, at_most(107), "0.1 dB quieter beside it");
    }
    /* A marked ground step, -0.75 dB taken as -0.7: 25.4 by day at 100 km/h, and 25.5 at 101. */
    expect(typed(MARKED_GROUND), (question){ 1, false, 26 }, at_most(100), "a marked ground step");
}

/* Every difference of two levels, at 60.0 and beside it, against document 01's formulas. */
static void test_two_levels(void)
{
    for (int32_t asked = 430; asked <= 760; asked++)
        for (int night = 0; night < 2; night++) {
            const int32_t levels[2] = { 600, asked }, turned[2] = { asked, 600 };
            for (int32_t limit = 61; limit <= 64; limit += 3) {
                expect_allowed(two_entries(600, asked, night), (heard){ levels, 2 }, (question){ 2, night, limit },
                               "beside 60.0 dB");
                expect_allowed(two_entries(asked, 600, night), (heard){ turned, 2 }, (question){ 1, night, limit },
                               "before 60.0 dB");
            }
        }
}

/* A segment far off at 5 degrees, with ten trains of ten vehicles and a Table 1 reading: at 100 km/h -5.4 dB by day
 * without the reading. So -0.6 and -0.5 dB with these. */
#define FAR_OFF(reading) "1 1\n30000 0 600 0 5 5 0 0 0 0 " reading " -30 0 0 0\n8 100 10 10 10\n"

/* Whole decibels below zero, with halves up: -0.5 dB is 0 and -0.6 dB is -1, -1.5 dB is -1 and -1.6 dB is -2. */
static void test_below_zero(void)
{
    static const struct { const char *text; int32_t limit; uint32_t speed; } cases[] = {
        { FAR_OFF("48"), 0, 100 },   { FAR_OFF("49"), 0, 99 },   { FAR_OFF("38"), -1, 100 }, { FAR_OFF("39"), -1, 99 },
        { FAR_OFF("58"), 1, 100 },   { FAR_OFF("59"), 1, 99 },   { FAR_OFF("28"), -2, 100 }, { FAR_OFF("29"), -2, 99 },
        { FAR_OFF("0"), -5, 98 },    { FAR_OFF("0"), -6, 87 },   { FAR_OFF("0"), -18, 22 },  { FAR_OFF("0"), -19, 0 },
        { FAR_OFF("0"), 4, 277 },    { FAR_OFF("0"), 5, 300 },   { FAINT, -38, 22 },         { FAINT, -39, 0 },
        { FAINT, -15, 300 },         { FAINT, -16, 277 },
    };
    for (size_t i = 0; i < COUNT(cases); i++)
        expect(typed(cases[i].text), (question){ 1, false, cases[i].limit },
               cases[i].speed == 0 ? refused(26, 0) : at_most(cases[i].speed), "whole decibels below zero");
    try_limits(typed(FAR_OFF("48")), 1, "around 0 dB");
    for (int32_t reading = 0; reading <= 100; reading++)
        for (int32_t limit = -6; limit <= 6; limit++) {
            char *text = room_for_text();
            const int32_t levels[] = { reading - 54, reading - 54 + 30 };
            int length = sprintf(text, "1 2\n30000 0 600 0 5 5 0 0 0 0 %d -30 0 0 0\n8 100 10 10 10\n8 100 20 10 10\n",
                                 reading);
            expect_allowed((drawing){ text, (size_t)length }, (heard){ levels, 2 }, (question){ 2, false, limit },
                           "two entries around 0 dB");
        }
}

/* The ends of what may be asked, of a study whose total is a figure. */
static void test_ends(void)
{
    static const char *const texts[] = { HOUSE_AND_CUT, FAINT, MARKED_TOTAL, sample };
    for (size_t i = 0; i < COUNT(texts); i++) {
        drawing d = typed(texts[i]);
        expect(d, (question){ 1, false, INT32_MIN }, refused(26, 0), "the lowest limit");
        expect(d, (question){ 1, false, INT32_MAX }, at_most(300), "the highest limit");
        expect(d, (question){ entries_of(d.text), false, INT32_MIN }, refused(26, 0), "the last entry's lowest limit");
        expect(d, (question){ entries_of(d.text), false, INT32_MAX }, at_most(300), "the last entry's highest limit");
        expect(d, (question){ entries_of(d.text) + 1, false, INT32_MIN }, refused(25, 0), "25 before 26");
        expect(d, (question){ 0, false, INT32_MIN }, refused(25, 0), "25 before 26");
    }
}

/* One thread asks by day, the other by night, of another entry. */
static void ask_by_period(asker *self)
{
    static const char house[] = HOUSE_AND_CUT;
    bool night = self->number == 1;
    for (int i = 0; i < 20000; i++) {
        int32_t limit = i % 2 == 0 ? (night ? 44 : 68) : 43;
        answer a = railnoise_highest_speed((const uint8_t *)house, sizeof house - 1, night ? 3 : 1, night, limit);
        if (!same_answer(a, i % 2 != 0 ? refused(26, 0) : at_most(night ? 185 : 157)))
            self->failures++;
    }
}

static void test_threads(void)
{
    CHECK(failures_of_two(ask_by_period) == 0, "two threads at once");
}

static void test_layout(void)
{
    CHECK(sizeof(answer) == 12 && offsetof(answer, refusal) == 0 && offsetof(answer, line) == 4 &&
              offsetof(answer, speed) == 8,
          "layout of the answer");
}

int main(void)
{
    test_worked();
    test_alone();
    test_every_limit();
    test_mixed();
    test_entry_numbers();
    test_refusals();
    test_silence();
    test_typed_speeds();
    test_places();
    test_every_entry();
    test_marks();
    test_two_levels();
    test_below_zero();
    test_ends();
    test_threads();
    test_layout();
    return check_report("speed tests");
}
