/* Host tests of railnoise_entitlement, linked beside railnoise_levels. Expected figures are worked out from the
 * requirements: document 02's request L2, the memorandum's paragraphs 7 and 8 and its Example 1. Two levels that
 * lie x dB apart add 10 log(1 + 10^(-x/10)) to the louder one. */
#define _DEFAULT_SOURCE
#include "answers.h"
#include "check.h"
#include "guarded.h"
#include "railnoise_requests.h"
#include "texts.h"
#include "threads.h"

#include <string.h>

typedef railnoise_entitlement_answer answer;
typedef railnoise_entitlement_period period;

/* The four sets of lines, in the order of the parameters. A refusal names its set by one more. */
enum { ALTERED_BEFORE, ALTERED_AFTER, OTHER_BEFORE, OTHER_AFTER, SETS };

typedef struct {
    const char *text;
    size_t length;
    bool empty;
} lines;

typedef struct {
    lines of[SETS];
} request;

static const lines none = { NULL, 0, true };

static lines typed(const char *text)
{
    return (lines){ text, strlen(text), false };
}

/* The fields one by one: padding may hold anything. */
typedef struct {
    const char *name;
    size_t start, size;
} field;

#define FIELD(name) { #name, offsetof(answer, name), sizeof((answer *)0)->name }
#define LEVEL(name) FIELD(name.silent), FIELD(name.level), FIELD(name.close)
#define PERIOD(name)                                                                       \
    LEVEL(name.prevailing), LEVEL(name.relevant), FIELD(name.reaches), FIELD(name.rises), \
        FIELD(name.contributes), FIELD(name.entitled)
static const field fields[] = { FIELD(refusal), FIELD(text),   FIELD(line),
                                PERIOD(day),    PERIOD(night), FIELD(entitled) };

static int32_t value(const answer *a, const field *f)
{
    int32_t whole = 0;
    memcpy(&whole, (const char *)a + f->start, f->size);
    return whole;
}

/* All fields, byte for byte. */
static void expect_same(answer got, answer expected, const char *about)
{
    const field *f = fields, *end = fields + COUNT(fields);
    while (f < end && value(&got, f) == value(&expected, f))
        f++;
    if (!CHECK(f == end, about))
        printf("  %s is %d, not %d\n", f->name, value(&got, f), value(&expected, f));
}

static answer call(const request *r, uint8_t *const texts[SETS])
{
    const lines *of = r->of;
    return railnoise_entitlement(texts[0], of[0].length, of[0].empty, texts[1], of[1].length, of[1].empty,
                                 texts[2], of[2].length, of[2].empty, texts[3], of[3].length, of[3].empty);
}

/* Asks twice: with texts that end at a closed page, or null, and with texts on the heap. */
static answer ask_request(request r)
{
    static guarded rooms[SETS];
    uint8_t *at_page_end[SETS], *on_heap[SETS];
    for (int i = 0; i < SETS; i++) {
        if (rooms[i].start == NULL)
            rooms[i] = guarded_make(2 * RAILNOISE_TEXT_LIMIT);
        at_page_end[i] = r.of[i].text == NULL ? NULL : guarded_copy(rooms[i], r.of[i].text, r.of[i].length);
        on_heap[i] = heap_copy(r.of[i].text, r.of[i].length);
    }
    answer first = call(&r, at_page_end);
    expect_same(call(&r, on_heap), first, "asked twice");
    for (int i = 0; i < SETS; i++) {
        size_t length = r.of[i].length;
        CHECK(length == 0 || memcmp(at_page_end[i], r.of[i].text, length) == 0, "text at a page's end unchanged");
        CHECK(length == 0 || memcmp(on_heap[i], r.of[i].text, length) == 0, "text on the heap unchanged");
        free(on_heap[i]);
    }
    return first;
}

static answer ask(lines altered_before, lines altered_after, lines other_before, lines other_after)
{
    return ask_request((request){ { altered_before, altered_after, other_before, other_after } });
}

/* A level without a mark; SILENT for none. */
static railnoise_combined at(int32_t level)
{
    return level == SILENT ? (railnoise_combined){ true, 0, false } : (railnoise_combined){ false, level, false };
}

static railnoise_combined marked(int32_t level)
{
    return (railnoise_combined){ false, level, true };
}

/* What is expected of a period: prevailing and relevant level, and the conditions as three letters, as "yny". */
static period combined(railnoise_combined before, railnoise_combined after, const char *conditions)
{
    bool reaches = conditions[0] == 'y', rises = conditions[1] == 'y', contributes = conditions[2] == 'y';
    return (period){ before, after, reaches, rises, contributes, reaches && rises && contributes };
}

static period levels(int32_t before, int32_t after, const char *conditions)
{
    return combined(at(before), at(after), conditions);
}

static void expect(answer got, period day, period night, const char *about)
{
    expect_same(got, (answer){ 0, 0, 0, day, night, day.entitled || night.entitled }, about);
}

static void expect_refusal(answer got, uint32_t number, int set, uint32_t line, const char *about)
{
    period nothing = levels(SILENT, SILENT, "nnn");
    expect_same(got, (answer){ number, (uint32_t)set + 1, line, nothing, nothing, false }, about);
}

/* A study with these levels, as put_levels takes them. Its text lasts until 64 more are made. */
static lines study(int32_t day, int32_t night)
{
    static char texts[64][120];
    static unsigned made;
    char *text = texts[made++ % COUNT(texts)];
    return (lines){ text, put_levels(text, day, night), false };
}

/* The same level by day and by night. */
static lines both(int32_t level)
{
    return study(level, level);
}

static lines full(void)
{
    static char text[RAILNOISE_TEXT_LIMIT];
    size_t length = full_study(text);
    return (lines){ text, length, false };
}

static railnoise_answer levels_of(lines set)
{
    int32_t cells[RAILNOISE_MOST_CELLS];
    return railnoise_levels((const uint8_t *)set.text, set.length, cells, RAILNOISE_MOST_CELLS);
}

static void expect_levels(lines set, int32_t day, int32_t night, const char *about)
{
    railnoise_answer a = levels_of(set);
    CHECK(a.refusal == 0 && a.day.silent == (day == SILENT) && a.night.silent == (night == SILENT), about);
    CHECK((a.day.silent || a.day.level == day) && (a.night.silent || a.night.level == night), about);
}

/* A house beside a line that stays as it is and one whose trains become longer, faster and more. */
#define HOUSE "1 1\n" HOUSE_SEGMENT
#define HOUSE_ALTERED_BEFORE HOUSE "4 110 9 60 0\n"
#define HOUSE_ALTERED_AFTER HOUSE "4 120 12 70 6\n"
#define HOUSE_OTHER HOUSE "13 140 8 90 20\n"

static request house(void)
{
    lines other = typed(HOUSE_OTHER);
    return (request){ { typed(HOUSE_ALTERED_BEFORE), typed(HOUSE_ALTERED_AFTER), other, other } };
}

static void test_house(void)
{
    lines before = typed(HOUSE_ALTERED_BEFORE), after = typed(HOUSE_ALTERED_AFTER), other = typed(HOUSE_OTHER);
    expect_levels(before, 643, SILENT, "the house's altered line before");
    expect_levels(after, 671, 612, "the house's altered line after");
    expect_levels(other, 638, 621, "the house's other line");
    expect(ask_request(house()), levels(671, 688, "yyy"), levels(621, 647, "yyy"), "the house is entitled");
    expect(ask(before, after, other, none), levels(671, 671, "nny"), levels(621, 612, "nny"), "no other line after");
    expect(ask(before, none, other, other), levels(671, 638, "nnn"), levels(621, 621, "nnn"), "no altered line after");
    expect(ask(both(660), both(670), none, none), levels(660, 670, "nyy"), levels(660, 670, "yyy"),
           "66.0 to 67.0 without other lines");
    expect(ask(study(600, SILENT), none, none, study(675, SILENT)), levels(600, 675, "yyn"),
           levels(SILENT, SILENT, "nnn"), "60.0 before, and after the works another line alone, 67.5");
}

/* The memorandum's Example 1 in studies of one train each: 132, 126, 240 and 120 trains are 21.2, 21.0, 23.8 and
 * 20.8 by day, 10 are 10.0 by night. */
#define EXAMPLE(reading, trains) "1 1\n2500 0 600 0 180 180 0 0 0 0 " reading " 0 1 0 0\n1 100 1 " trains " 10\n"

static void test_example_1(void)
{
    lines line = typed(EXAMPLE("36", "132")), track = typed(EXAMPLE("17", "126")), later = typed(EXAMPLE("29", "240"));
    expect_levels(line, 652, 588, "Example 1's line before");
    expect_levels(track, 631, 569, "Example 1's new track");
    expect_levels(later, 671, 581, "Example 1's line after");
    answer a = ask(none, track, line, later);
    /* Printed are 68.5 and 59.6; Chart 9 gives 68.6 and 60.6, so the night rises too. Its mark is free: levels
     * 1.2 dB apart give 60.5516, 0.0016 from a tie. */
    railnoise_combined night = { false, 606, a.night.relevant.close };
    expect(a, levels(652, 686, "yyy"), combined(at(588), night, "nyy"), "Example 1 is entitled by day");
    /* The plan has other levels than the words; its 63.0 and 67.0 do give 68.5. */
    track = typed(EXAMPLE("18", "120"));
    later = typed(EXAMPLE("28", "240"));
    expect_levels(track, 630, 570, "the plan's new track");
    expect_levels(later, 670, 580, "the plan's line after");
    expect(ask(none, track, line, later), levels(652, 685, "yyy"), levels(588, 605, "nyy"), "Example 1's plan");
}

/* 1.0 dB above the prevailing level, on reported tenths. */
static void test_rise(void)
{
    static const struct { int32_t before, prevailing; const char *conditions, *about; } cases[] = {
        { 663, 687, "yyy", "1.1 above the prevailing level" },
        { 664, 688, "yyy", "1.0 above the prevailing level" },
        { 665, 688, "yyy", "1.0 above the prevailing level, 0.94 before the tenths" },
        { 666, 689, "yny", "0.9 above the prevailing level" },
    };
    for (size_t i = 0; i < COUNT(cases); i++) {
        period p = levels(cases[i].prevailing, 698, cases[i].conditions);
        expect(ask(both(cases[i].before), both(680), both(650), both(650)), p, p, cases[i].about);
    }
    for (int32_t rise = 9; rise <= 11; rise++) {
        period p = levels(700 - rise, 700, rise < 10 ? "yny" : "yyy");
        expect(ask(both(700 - rise), both(700), none, none), p, p, "altered lines alone, 0.9 to 1.1 above");
        p = levels(700 - rise, 700, rise < 10 ? "ynn" : "yyn");
        expect(ask(none, none, both(700 - rise), both(700)), p, p, "other lines alone, 0.9 to 1.1 above");
    }
    period below = levels(700, 690, "yny");
    expect(ask(both(700), both(690), none, none), below, below, "1.0 below the prevailing level");
}

/* 1.0 dB above the other lines after the works; what these were before makes no difference. */
static void test_contribution(void)
{
    static const struct { int32_t altered, relevant; const char *conditions, *about; } cases[] = {
        { 638, 709, "yyn", "0.9 above the other lines" },
        { 639, 710, "yyy", "1.0 above the other lines, 0.953 before the tenths" },
        { 642, 710, "yyy", "1.0 above the other lines" },
        { 644, 711, "yyy", "1.1 above the other lines" },
    };
    for (size_t i = 0; i < COUNT(cases); i++)
        for (int32_t before = 600; before <= 680; before += 80) {
            period p = levels(before, cases[i].relevant, cases[i].conditions);
            expect(ask(none, both(cases[i].altered), both(before), both(700)), p, p, cases[i].about);
        }
}

/* 68 by day and 63 by night, on whole decibels of the relevant level, halves up. */
static void test_limits(void)
{
    static const struct { int32_t day, night; const char *by_day, *by_night, *about; } alone[] = {
        { 674, 624, "nyy", "nyy", "67.4 and 62.4" },
        { 675, 624, "yyy", "nyy", "67.5 and 62.4" },
        { 674, 625, "nyy", "yyy", "67.4 and 62.5" },
        { 630, 630, "nyy", "yyy", "63.0 is the night's limit" },
        { 674, 674, "nyy", "yyy", "67.4 in both periods" },
    };
    for (size_t i = 0; i < COUNT(alone); i++) {
        int32_t day = alone[i].day, night = alone[i].night;
        expect(ask(none, study(day, night), none, none), levels(SILENT, day, alone[i].by_day),
               levels(SILENT, night, alone[i].by_night), alone[i].about);
    }
    expect(ask(none, study(644, 594), none, study(644, 594)), levels(SILENT, 674, "nyy"), levels(SILENT, 624, "nyy"),
           "67.4 and 62.4 of two like levels");
    expect(ask(none, study(645, 595), none, study(645, 595)), levels(SILENT, 675, "yyy"), levels(SILENT, 625, "yyy"),
           "67.5 and 62.5 of two like levels, each below the limit");
    expect(ask(study(680, 500), study(680, 600), none, none), levels(680, 680, "yny"), levels(500, 600, "nyy"),
           "the day reaches its limit, the night rises: not entitled");
}

/* A train that crawls (02's L4) and the same at 20 km/h: 49.5 and 45.5 dB. */
#define SLOW(speed) HOUSE "4 " speed " 9 60 8\n"

/* Beside silent lines a level stays as it is and has no mark, in whatever place it stands. */
static void test_alone(void)
{
    const lines silent[] = { none, study(SILENT, SILENT) };
    const struct { lines set; int32_t day, night; bool reaches; } cases[] = {
        { typed(FAINT), -394, -346, false }, { both(600), 600, 600, false },       { both(680), 680, 680, true },
        { typed(sample), 629, 563, false },  { full(), FULL_DAY, FULL_NIGHT, true },
        { typed(SLOW("7")), 495, 455, false }, { typed(SLOW("20")), 495, 455, false },
    };
    for (size_t i = 0; i < COUNT(cases); i++)
        for (size_t k = 0; k < COUNT(silent); k++) {
            lines set = cases[i].set, s = silent[k];
            int32_t day = cases[i].day, night = cases[i].night;
            const char *altered = cases[i].reaches ? "yyy" : "nyy", *other = cases[i].reaches ? "yyn" : "nyn";
            period by_day = levels(day, SILENT, "nnn"), by_night = levels(night, SILENT, "nnn");
            expect(ask(set, s, s, s), by_day, by_night, "altered lines before alone");
            expect(ask(s, s, set, s), by_day, by_night, "other lines before alone");
            by_day = levels(SILENT, day, altered), by_night = levels(SILENT, night, altered);
            expect(ask(s, set, s, s), by_day, by_night, "altered lines after alone");
            by_day = levels(SILENT, day, other), by_night = levels(SILENT, night, other);
            expect(ask(s, s, s, set), by_day, by_night, "other lines after alone");
        }
}

/* The mark is the combination's, each level and period having its own. */
static void test_marks(void)
{
    static const struct { int32_t quiet, sum; bool close; const char *about; } cases[] = {
        { 583, 676, true, "8.7 apart: marked, 0.6 more" },
        { 477, 671, true, "19.3 apart: marked, 0.1 more" },
        { 476, 671, true, "19.4 apart: marked, 0.1 more" },
        { 584, 676, false, "8.6 apart" },
        { 582, 675, false, "8.8 apart" },
        { 591, 677, false, "7.9 apart, 0.0027 above a tie" },
        { 479, 671, false, "19.1 apart, 0.0031 above a tie" },
        { 474, 670, false, "19.6 apart, 0.0026 below a tie" },
    };
    for (size_t i = 0; i < COUNT(cases); i++) {
        int32_t quiet = cases[i].quiet;
        railnoise_combined sum = cases[i].close ? marked(cases[i].sum) : at(cases[i].sum);
        const char *about = cases[i].about;
        period before = combined(sum, at(SILENT), "nnn"), unmarked = levels(630, SILENT, "nnn");
        expect(ask(study(670, 600), none, study(quiet, 600), none), before, unmarked, about);
        expect(ask(study(600, quiet), none, study(600, 670), none), unmarked, before, about);
        period silent_after = levels(670, SILENT, "nnn");
        period after = combined(at(670), sum, sum.level >= 675 ? "ynn" : "nnn");
        expect(ask(both(670), study(quiet, SILENT), none, study(670, SILENT)), after, silent_after, about);
        after = combined(at(670), sum, "yny");
        expect(ask(both(670), study(SILENT, 670), none, study(SILENT, quiet)), silent_after, after, about);
    }
    /* 66.9 and 58.2 lie 8.7 apart: the tie, taken upward, reaches the limit. */
    period reached = combined(at(SILENT), marked(675), "yyy");
    expect(ask(none, both(669), none, both(582)), reached, reached, "67.5 by a tie");
}

/* A mark within a study is not shown, and levels are combined from their reported tenths. */
static void test_own_marks(void)
{
    lines total = typed(MARKED_TOTAL), ground = typed(MARKED_GROUND), down = typed(ROUNDED_DOWN);
    railnoise_answer of_total = levels_of(total), of_ground = levels_of(ground);
    int32_t day = PLAIN_DAY - 125, night = PLAIN_NIGHT - 125;
    period silent = levels(SILENT, SILENT, "nnn");
    CHECK(of_total.day.level == 676 && of_total.day.close == 1, "a marked total");
    CHECK(of_ground.day.level == day && of_ground.day.close == 1, "a marked ground step");
    expect(ask(none, total, none, none), levels(SILENT, 676, "yyy"), silent, "a marked total alone");
    expect(ask(total, none, both(600), total), levels(683, 676, "ynn"), levels(600, SILENT, "nnn"),
           "a marked total with 60.0");
    expect(ask(ground, ground, none, ground), levels(day, day + 30, "nyy"), levels(night, night + 30, "nyy"),
           "marked ground steps");
    expect_levels(down, 613, SILENT, "61.345 is 61.3");
    expect(ask(down, none, down, down), levels(643, 613, "nnn"), silent,
           "61.3 with 61.3 is 64.31; 61.345 twice would be 64.36");
}

/* Silent for want of trains, with no mark. */
static void test_silence(void)
{
    lines day = study(600, SILENT), night = study(SILENT, 640), loud = both(640), faint = typed(FAINT);
    lines two = both(600), still = study(SILENT, SILENT);
    period silent = levels(SILENT, SILENT, "nnn"), kept = levels(630, 630, "nny"), rising = levels(630, 655, "nyy");
    expect(ask(day, day, day, day), kept, silent, "all silent by night");
    expect(ask(still, still, still, still), silent, silent, "no trains at all");
    expect(ask(two, day, two, day), kept, levels(630, SILENT, "nnn"), "relevant level silent");
    expect(ask(day, two, day, two), kept, levels(SILENT, 630, "yyy"), "prevailing level silent");
    expect(ask(two, loud, two, day), rising, levels(630, 640, "yyy"), "other lines after silent");
    expect(ask(two, day, two, loud), rising, levels(630, 640, "yyn"), "altered lines after silent");
    expect(ask(day, night, night, day), levels(600, 600, "nnn"), levels(640, 640, "yny"), "each set in one period");
    /* Silent is no 0.0 dB: a level below zero lies above it, and it lies above none. */
    expect(ask(still, faint, still, still), levels(SILENT, -394, "nyy"), levels(SILENT, -346, "nyy"),
           "-39.4 is above silent");
    expect(ask(faint, still, still, still), levels(-394, SILENT, "nnn"), levels(-346, SILENT, "nnn"),
           "silent is not above -39.4");
    expect(ask(faint, faint, still, faint), levels(-394, -364, "nyy"), levels(-346, -316, "nyy"), "-39.4 twice");
}

/* Each set marked or not: bit 0 of the row is that of the altered lines before, bit 3 of the other lines after. */
static void test_sixteen_marks(void)
{
    typedef struct { int32_t before, after; const char *conditions; } row;
    static const row days[16] = {
        { 658, 702, "yyy" }, { 640, 702, "yyy" },    { 658, 668, "nyn" },    { 640, 668, "nyn" },
        { 610, 702, "yyy" }, { SILENT, 702, "yyy" }, { 610, 668, "nyn" },    { SILENT, 668, "nyn" },
        { 658, 675, "yyy" }, { 640, 675, "yyy" },    { 658, SILENT, "nnn" }, { 640, SILENT, "nnn" },
        { 610, 675, "yyy" }, { SILENT, 675, "yyy" }, { 610, SILENT, "nnn" }, { SILENT, SILENT, "nnn" },
    };
    static const row nights[16] = {
        { 626, 655, "yyy" }, { 615, 655, "yyy" },    { 626, 625, "ynn" },    { 615, 625, "yyn" },
        { 560, 655, "yyy" }, { SILENT, 655, "yyy" }, { 560, 625, "yyn" },    { SILENT, 625, "yyn" },
        { 626, 624, "nny" }, { 615, 624, "nny" },    { 626, SILENT, "nnn" }, { 615, SILENT, "nnn" },
        { 560, 624, "nyy" }, { SILENT, 624, "nyy" }, { 560, SILENT, "nnn" }, { SILENT, SILENT, "nnn" },
    };
    request r = { { study(610, 560), study(675, 624), study(640, 615), study(668, 625) } };
    for (unsigned marks = 0; marks < 16; marks++) {
        char about[40];
        snprintf(about, sizeof about, "sets marked as empty: %x", marks);
        for (int i = 0; i < SETS; i++)
            r.of[i].empty = marks >> i & 1;
        row day = days[marks], night = nights[marks];
        expect(ask_request(r), levels(day.before, day.after, day.conditions),
               levels(night.before, night.after, night.conditions), about);
    }
}

/* A text marked as empty may be anything. */
static void test_marked_texts(void)
{
    static char sevens[RAILNOISE_TEXT_LIMIT + 1];
    memset(sevens, '7', sizeof sevens);
    lines texts[] = {
        none, typed(""), { "\0\xff\n\n-1 2", 8, true }, { sevens, sizeof sevens, true }, both(720),
        typed("1 1\n" SEGMENT "1 0 1 1 1\n"), typed("1 1\n" SEGMENT "1 100 1 1 1"),
    };
    const struct { period day, night; const char *about; } expected[SETS] = {
        { levels(638, 688, "yyy"), levels(621, 647, "yyy"), "altered lines before not looked at" },
        { levels(671, 638, "nnn"), levels(621, 621, "nnn"), "altered lines after not looked at" },
        { levels(643, 688, "yyy"), levels(SILENT, 647, "yyy"), "other lines before not looked at" },
        { levels(671, 671, "nny"), levels(621, 612, "nny"), "other lines after not looked at" },
    };
    period silent = levels(SILENT, SILENT, "nnn");
    for (size_t i = 0; i < COUNT(texts); i++) {
        texts[i].empty = true;
        for (int set = 0; set < SETS; set++) {
            request r = house();
            r.of[set] = texts[i];
            expect(ask_request(r), expected[set].day, expected[set].night, expected[set].about);
        }
        expect(ask(texts[i], texts[i], texts[i], texts[i]), silent, silent, "none of four texts looked at");
    }
    /* Not one byte of it is read: it may lie in a closed page. */
    uint8_t *closed = guarded_make(1).start - 8;
    for (int set = 0; set < SETS; set++) {
        request r = house();
        uint8_t *places[SETS];
        for (int i = 0; i < SETS; i++)
            places[i] = (uint8_t *)r.of[i].text;
        places[set] = closed;
        r.of[set] = (lines){ NULL, 8, true };
        expect(call(&r, places), expected[set].day, expected[set].night, expected[set].about);
    }
}

/* A refusal at each place, among lines that would entitle the house. */
static void refuse_everywhere(lines refused, uint32_t number, uint32_t line)
{
    for (int set = 0; set < SETS; set++) {
        char about[60];
        snprintf(about, sizeof about, "refusal %u line %u of text %d", number, line, set + 1);
        request r = house();
        r.of[set] = refused;
        expect_refusal(ask_request(r), number, set, line, about);
    }
}

static void test_refusals(void)
{
    for (size_t i = 0; i < COUNT(refused_texts); i++)
        refuse_everywhere(typed(refused_texts[i].text), refused_texts[i].number, refused_texts[i].line);
    refuse_everywhere((lines){ NULL, 0, false }, 13, 1);
    refuse_everywhere((lines){ long_text(), RAILNOISE_TEXT_LIMIT, false }, 13, 8);
    refuse_everywhere((lines){ long_text(), RAILNOISE_TEXT_LIMIT + 1, false }, 12, 0);
}

/* Whichever of the texts are refused, and whichever are marked: the first refused one without a mark counts. */
static void test_several_refused(void)
{
    static const char *const trains[SETS] = { "35 100 1 1 1\n", "1 301 1 1 1\n", "1 100 61 1 1\n", "1 100 1 2001 1\n" };
    for (unsigned refused = 1; refused < 16; refused++)
        for (unsigned marks = 0; marks < 16; marks++) {
            char about[60], texts[SETS][100];
            snprintf(about, sizeof about, "refused texts %x, marked %x", refused, marks);
            request r = house(), unrefused = house();
            int first = SETS;
            for (int i = SETS - 1; i >= 0; i--) {
                snprintf(texts[i], sizeof texts[i], "1 1\n" SEGMENT "%s", trains[i]);
                if (refused >> i & 1)
                    r.of[i] = typed(texts[i]);
                r.of[i].empty = unrefused.of[i].empty = marks >> i & 1;
                if ((refused & ~marks) >> i & 1)
                    first = i;
            }
            if (first < SETS)
                expect_refusal(ask_request(r), 8 + (uint32_t)first, first, 3, about);
            else
                expect_same(ask_request(r), ask_request(unrefused), about);
        }
}

/* One text in two places and in all: texts are only read. */
static void test_one_text_twice(void)
{
    static const char other[] = HOUSE_OTHER;
    size_t length = sizeof other - 1;
    uint8_t *text = guarded_copy(guarded_make(length), other, length);
    request r = house();
    uint8_t *texts[SETS] = { (uint8_t *)r.of[0].text, (uint8_t *)r.of[1].text, text, text };
    expect(call(&r, texts), levels(671, 688, "yyy"), levels(621, 647, "yyy"), "other lines that stay as they are");
    for (int i = 0; i < SETS; i++) {
        texts[i] = text;
        r.of[i].length = length;
    }
    expect(call(&r, texts), levels(668, 668, "nny"), levels(651, 651, "yny"), "one text in all places");
    r.of[ALTERED_AFTER].length--;
    expect_refusal(call(&r, texts), 12, ALTERED_AFTER, 3, "one text in all places, once without its last line feed");
    CHECK(memcmp(text, other, length) == 0, "text given twice unchanged");
}

/* 24 segments and 96 entries at each place and at all of them. */
static void test_full_studies(void)
{
    const struct { period day, night; const char *about; } expected[SETS] = {
        { levels(FULL_DAY, 688, "yny"), levels(FULL_NIGHT, 647, "yny"), "altered lines before are full" },
        { levels(671, FULL_DAY, "yyy"), levels(621, FULL_NIGHT, "yyy"), "altered lines after are full" },
        { levels(FULL_DAY, 688, "yny"), levels(FULL_NIGHT, 647, "yny"), "other lines before are full" },
        { levels(671, FULL_DAY, "yyn"), levels(621, FULL_NIGHT, "yyn"), "other lines after are full" },
    };
    for (int set = 0; set < SETS; set++) {
        request r = house();
        r.of[set] = full();
        expect(ask_request(r), expected[set].day, expected[set].night, expected[set].about);
    }
    expect(ask(full(), full(), full(), full()), levels(FULL_DAY + 30, FULL_DAY + 30, "yny"),
           levels(FULL_NIGHT + 30, FULL_NIGHT + 30, "yny"), "four full studies");
}

/* Whether a combination is one that document 01's rule for a total allows. */
static bool allowed(railnoise_period a, railnoise_period b, railnoise_combined c)
{
    if (a.silent || b.silent) {
        railnoise_combined alone = at(a.silent && b.silent ? SILENT : a.silent ? b.level : a.level);
        return c.silent == alone.silent && c.level == alone.level && !c.close;
    }
    const int32_t both[2] = { a.level, b.level };
    return !c.silent && total_allowed(both, COUNT(both), c.level, c.close);
}

static bool above(railnoise_combined high, bool low_silent, int32_t low)
{
    return !high.silent && (low_silent || high.level - low >= 10);
}

static void check_period(period p, const railnoise_period of[SETS], int32_t limit, const char *about)
{
    CHECK(allowed(of[ALTERED_BEFORE], of[OTHER_BEFORE], p.prevailing), about);
    CHECK(allowed(of[ALTERED_AFTER], of[OTHER_AFTER], p.relevant), about);
    CHECK(p.reaches == (!p.relevant.silent && p.relevant.level >= 10 * limit - 5), about);
    CHECK(p.rises == above(p.relevant, p.prevailing.silent, p.prevailing.level), about);
    CHECK(p.contributes == above(p.relevant, of[OTHER_AFTER].silent, of[OTHER_AFTER].level), about);
    CHECK(p.entitled == (p.reaches && p.rises && p.contributes), about);
}

/* What is shown is what the levels of railnoise_levels combine to. */
static void check_by_levels(request r, const char *about)
{
    railnoise_period day[SETS], night[SETS];
    for (int i = 0; i < SETS; i++) {
        railnoise_answer of = levels_of(r.of[i]);
        CHECK(of.refusal == 0, about);
        day[i] = of.day;
        night[i] = of.night;
    }
    answer a = ask_request(r);
    CHECK(a.refusal == 0 && a.text == 0 && a.line == 0, about);
    check_period(a.day, day, 68, about);
    check_period(a.night, night, 63, about);
    CHECK(a.entitled == (a.day.entitled || a.night.entitled), about);
}

static void test_by_levels(void)
{
    const lines sets[] = {
        typed(sample), typed(HOUSE_ALTERED_BEFORE), typed(HOUSE_ALTERED_AFTER), typed(HOUSE_OTHER),
        typed(FAINT),  typed(MARKED_TOTAL),         typed(MARKED_GROUND),       full(),
    };
    for (size_t i = 0; i < COUNT(sets); i++)
        for (size_t k = 0; k < COUNT(sets); k++)
            check_by_levels((request){ { sets[i], sets[k], sets[k], sets[(i + 1) % COUNT(sets)] } }, "both functions");
    /* Every difference up to 25.0 dB and so every near tie, either part being the louder one. */
    for (int32_t apart = 0; apart <= 250; apart++) {
        lines altered_before = study(670, 690 - apart), altered_after = study(680 - apart, 700);
        lines other_before = study(670 - apart, 690), other_after = study(680, 700 - apart);
        request r = { { altered_before, altered_after, other_before, other_after } };
        check_by_levels(r, "levels up to 25.0 dB apart");
    }
}

/* The first thread asks with the altered line after the works, the second without it. */
static void ask_in_turn(asker *self)
{
    bool altered = self->number == 0;
    request r = house();
    r.of[ALTERED_AFTER].empty = !altered;
    uint8_t *texts[SETS];
    for (int i = 0; i < SETS; i++)
        texts[i] = (uint8_t *)r.of[i].text;
    for (int i = 0; i < 20000; i++) {
        answer a = call(&r, texts);
        if (a.day.relevant.level != (altered ? 688 : 638) || a.night.prevailing.level != 621 || a.entitled != altered)
            self->failures++;
    }
}

static void test_threads(void)
{
    CHECK(failures_of_two(ask_in_turn) == 0, "two threads at once");
}

int main(void)
{
    test_house();
    test_example_1();
    test_rise();
    test_contribution();
    test_limits();
    test_alone();
    test_marks();
    test_own_marks();
    test_silence();
    test_sixteen_marks();
    test_marked_texts();
    test_refusals();
    test_several_refused();
    test_one_text_twice();
    test_full_studies();
    test_by_levels();
    test_threads();
    return check_report("request tests");
}
