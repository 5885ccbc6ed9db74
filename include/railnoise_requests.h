/* Requests beyond the levels of a study: whether a house is entitled to insulation, from four studies of its
 * window; the levels of two drawings as one study; and how fast a train may pass, from one study.
 *
 * This header includes railnoise.h, which describes a study's text, its figures, periods and refusals, with
 * railnoise_refusal_words for these. The archive librailnoise_requests_c.a has the functions below and needs
 * nothing of librailnoise_c.a, which has railnoise_levels; a program that calls both links both, in any order.
 * What railnoise.h says of threads, memory and the C library holds here too; a call of railnoise_entitlement
 * takes less than 8 kB of stack, one of railnoise_merged_levels or of railnoise_highest_speed less than 9 kB.
 */
#ifndef RAILNOISE_REQUESTS_H
#define RAILNOISE_REQUESTS_H

#include "railnoise.h"

#ifdef __cplusplus
extern "C" {
#endif

/* Two levels combined by Chart 9, from their reported tenths. A silent level adds nothing: beside one, the
 * other stands as it is and is not close. */
typedef struct {
    bool silent;   /* both levels are silent, or the request is refused; then level is 0 and close is false */
    int32_t level; /* tenths of a decibel; it may be below zero */
    bool close;    /* this combination lay less than 0.002 dB from a tie and was taken as one, to the louder
                      tenth. It says nothing of the roundings within the studies: railnoise_levels does */
} railnoise_combined;

/* The three conditions of paragraph 7, for one period. Levels are compared as they are shown, in tenths. */
typedef struct {
    railnoise_combined prevailing; /* before the works: the altered lines and the other lines */
    railnoise_combined relevant;   /* after them, likewise */
    bool reaches;     /* (i) the relevant level, to the nearest whole decibel with halves up, reaches 68 by
                         day or 63 by night */
    bool rises;       /* (ii) the relevant level is at least 1.0 dB above the prevailing level */
    bool contributes; /* (iii) the relevant level is at least 1.0 dB above the level of the other lines
                         after the works: what the altered lines contribute */
    bool entitled;    /* all three hold */
} railnoise_entitlement_period;

/* The answer to one request. On a refusal all levels are silent and every bool after the line is false but
 * for `silent`. */
typedef struct {
    uint32_t refusal; /* 0 when answered, else the number by which a text was refused, 1 to 13 */
    uint32_t text;    /* which text was refused: 1 altered before, 2 altered after, 3 other before, 4 other
                         after; 0 when answered */
    uint32_t line;    /* its refused line, counted from 1; 0 when answered, and for a text that is too long */
    railnoise_entitlement_period day;
    railnoise_entitlement_period night;
    bool entitled; /* the house: by day or by night */
} railnoise_entitlement_answer;

/* Whether a house is entitled to insulation: altered lines and all other lines at its window, each before
 * and after the works.
 *
 * Each of the four sets of lines is a study's text with its length, as railnoise_levels takes it, all of the
 * same window: nobody can check that here. A set that has no lines is marked as empty: the lines to be
 * built, before the works; a house without other lines. It is then silent. Give null and 0 with the mark; a
 * text that stands there all the same makes no difference, but its pointer must be good for its length.
 * After the works means the loudest traffic expected within 15 years (the memorandum's Example 1), of the
 * other lines too.
 *
 * A set that is not marked needs a study of at least one train entry, so an empty text by itself is no empty
 * study: it is refusal 13 at line 1. Refusal 23, of a study without an entry, never comes from this function.
 *
 * In a period without trains a set's level is silent. Where the relevant level is silent, no condition holds.
 * Where it is a figure, however low, it rises over a silent prevailing level and contributes beside silent
 * other lines after.
 *
 * The texts are looked at in the order of the parameters; the first that is refused ends the request. No
 * cells are lent. Texts are only read, and one text may be given twice: other lines that stay as they are.
 * A null pointer goes only with length 0.
 *
 * A house that is entitled by night alone: a terminal's track that had trains by day alone gets eight by
 * night, and a line beside it stays as it is.
 *     altered before       "1 2\n2000 330 235 5 180 180 0 0 0 0 0 0 1 0 0\n20 50 30 24 0\n26 50 1 24 0\n"
 *     altered after        "1 2\n2000 330 235 5 180 180 0 0 0 0 0 0 1 0 0\n20 50 30 24 8\n26 50 1 24 8\n"
 *     other before, after  "1 1\n5000 330 235 5 180 180 0 0 0 0 0 0 1 0 0\n10 120 8 80 20\n"
 * Their levels by day and night: the track's 57.6 and silent, then 57.6 and 57.6; the line's 63.0 and 61.8. So
 *     day: prevailing 64.1 dB, relevant 64.1 dB, reaches no, rises no, contributes yes: not entitled
 *     night: prevailing 61.8 dB, relevant 63.2 dB, reaches yes, rises yes, contributes yes: entitled
 *     the house is entitled
 */
railnoise_entitlement_answer railnoise_entitlement(
    const uint8_t *altered_before, size_t altered_before_length, bool altered_before_empty,
    const uint8_t *altered_after, size_t altered_after_length, bool altered_after_empty,
    const uint8_t *other_before, size_t other_before_length, bool other_before_empty,
    const uint8_t *other_after, size_t other_after_length, bool other_after_empty);

/* The answer to a request for the levels of two drawings. */
typedef struct {
    uint32_t refusal; /* 0 when answered, else 1 to 13, 21, 22 or 24 */
    uint32_t text;    /* which text was refused, with 1 to 13: 1 the first, 2 the second; else 0 */
    uint32_t line;    /* its refused line, counted from 1; 0 for a text that is too long, and where text is 0 */
    railnoise_period day;
    railnoise_period night; /* on a refusal both periods are silent, level 0, close 0, not met */
} railnoise_merged_answer;

/* The levels of two drawings of one window as one study: of a terminal, say, the yard and the main line, which
 * two teams draw. The study holds what the first text has and after it what the second has, every train entry
 * still at its own segment. Its levels, close counts and verdicts are those of one text with all the lines, so
 * at most 0.46 dB from the formulas without rounding, as every study's. They are not the levels that the two
 * drawings report by themselves, added: those are rounded once more.
 *
 * first, second: two study texts with their lengths, as railnoise_levels takes one. Each needs at least one
 *     train entry: a text without one is refused with 13 at line 1, and nothing would be heard of it, so ask
 *     railnoise_levels for the other alone. Both are only read, and one text may be given twice. Nobody can
 *     check here that both are of the same window.
 * cells, cell_count: working cells. With t train entries in both texts together, an answer leaves the t day
 *     levels, those of the first text's entries before the second's, then the t night levels likewise, in the
 *     first 2t cells, tenths of a decibel, a silent one as -9999. Further cells are untouched. What the cells
 *     held before makes no difference; RAILNOISE_MOST_CELLS are always enough. No cells, given as count 0 with
 *     any pointer, null too, lead to refusal 24 when all else is good.
 *
 * Refused, in this order: the first text, by its own number at its line; the second text, likewise; more than
 * 24 segments together, 21; more than 96 train entries together, 22; fewer than 2t cells, 24. On a refusal
 * every cell holds what it held before.
 *
 * A null pointer goes only with length 0, and the cells must not overlap a text.
 *
 * A yard of 1 segment with 2 entries, and a main line of 2 segments with 1 and 2:
 *     first   "1 2\n2000 330 235 5 180 180 0 0 0 0 0 0 1 0 0\n20 50 30 24 8\n26 50 1 24 8\n"
 *     second  "2 1 2\n5000 330 235 5 140 140 0 0 0 0 0 0 1 0 0\n10 120 8 80 24\n"
 *             "5000 330 235 0 40 40 1 800 200 0 0 0 1 0 0\n10 120 8 80 24\n20 90 25 12 6\n"
 * Their levels by day and night: the yard's 57.6 and 57.6, the main line's 62.7 and 62.3. Together
 *     day: 63.9 dB, close 0
 *     night: 63.6 dB, close 0, met
 */
railnoise_merged_answer railnoise_merged_levels(const uint8_t *first, size_t first_length,
                                                const uint8_t *second, size_t second_length,
                                                int32_t *cells, size_t cell_count);

/* The answer to a request for the highest speed. */
typedef struct {
    uint32_t refusal; /* 0 when answered, else 1 to 13, 25 or 26 */
    uint32_t line;    /* with 1 to 13 the text's refused line, counted from 1; 0 for a text that is too long, and
                         in every other case */
    uint32_t speed;   /* km/h, 20 to 300; 0 on a refusal */
} railnoise_speed_answer;

/* How fast the trains of one entry may pass the window: the highest speed from 20 to 300 km/h at which the total of
 * the period, to the nearest whole decibel with halves up, stays below the limit, everything else in the study being
 * kept. The total is the one that railnoise_levels reports for the text with that speed typed in the entry's line.
 * It never falls where a speed rises: the limit is kept at every lower speed too, and at no higher one up to 300.
 *
 * text, text_length: the study's text, as railnoise_levels takes it. It is only read, and a null pointer goes only
 *     with length 0. No cells are lent.
 * entry: which train entry, counted from 1 in the text's order over all segments.
 * night: false for the day, true for the night.
 * limit: whole decibels, any number. The total stays below it where it is lower than the limit on whole decibels:
 *     with limit 68 up to 67.4 dB. To keep `met` of railnoise_levels false, give 68 by day and 63 by night. A silent
 *     total stays below every limit.
 *
 * The speed that is typed in the entry's own line makes no difference, though it must be in its range as all figures
 * are. Where the entry has no trains in the period, its speed does not change the total: the answer is 300, or 26.
 *
 * Refused, in this order: the text, by its own number at its line; an entry number that is 0 or larger than the number
 * of the text's train entries, 25; and 26 exactly where no speed from 20 to 300 km/h keeps the total below the limit,
 * which is where 20 km/h does not.
 *
 * A segment with one entry, and another with two:
 *     "2 1 2\n2600 180 420 3 160 170 0 0 0 0 0 0 1 0 0\n4 110 9 60 0\n"
 *     "6200 150 300 4 90 120 1 900 260 0 0 0 1 10 15\n13 140 8 90 20\n4 7 3 10 2\n"
 * Entry 1 by day, limit 68: 157 km/h, where the total is 67.4 dB; at 158 km/h it is 67.5 dB, and so 68. Limit 50: 26,
 * for at 20 km/h the total is 50.7 dB already. By night entry 1 has no trains: limit 50 gives 300 km/h.
 */
railnoise_speed_answer railnoise_highest_speed(const uint8_t *text, size_t text_length, uint32_t entry, bool night,
                                               int32_t limit);

#ifdef __cplusplus
}
#endif

#endif
