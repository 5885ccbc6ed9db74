/* Day and night railway noise at a window, after Calculation of Railway Noise 1995.
 *
 * One function. It reads a study's text, works out the level of each train entry and the total of each
 * period, and answers with two period results; the entries' levels are left in cells that the caller
 * lends.
 *
 * The header is C99 and C++11; the archive is built for x86-64 Linux and needs only memcpy and memset of the
 * C library.
 *
 * The function keeps no state: any number of threads may call it at the same time, each with its own
 * cells; the text may be shared. It allocates nothing, so there is nothing to free. A call takes less
 * than 8 kB of stack.
 *
 * THE TEXT OF A STUDY has at most 16,384 bytes. It holds whole decimal numbers, one space between two of
 * them and a line feed after each line. A number has one to five digits, a minus if below zero, no spare
 * leading zero and no minus zero.
 *
 * The first line is the contents: the number of segments, 1 to 24, then for each segment the number of
 * its train entries, 0 to 96 each and 1 to 96 in all. Each segment's line of 15 numbers follows, and
 * after it the lines of its train entries, 5 numbers each. There is no other line. A text from before
 * version 0.2, whose segments have 14 numbers, is refused with 12; a last 0 on each segment's line mends it.
 *
 * A segment, in this order:
 *    1  d, horizontal distance to the source line    centimetres  1000 to 30000
 *    2  h, window height above the railhead          centimetres  -5000 to 5000; below zero where the
 *                                                                 window lies below the railhead
 *    3  H, mean height of propagation                centimetres  0 to 5000
 *    4  I, share of soft ground                      tenths       0 to 10
 *    5  angle of view                                degrees      5 to 180
 *    6  a, twice the angle alpha of Figure 9         degrees      the angle of view to 180
 *    7  screen                                                    0 none, 1 absorbent, 2 reflective
 *    8  D, source to screen                          centimetres  100 to d - 100; 0 without a screen
 *    9  screen top above the railhead                centimetres  -2000 to 5000; 0 without a screen
 *   10  reading of Chart 6(c)                        0.1 dB       0 to 100; 0 unless the screen
 *                                                                 is reflective
 *   11  reading of Table 1, track and support        0.1 dB       0 to 150
 *   12  reading of paragraph 22, ballast             0.1 dB       -30 to 0; 0 with a screen
 *   13  facade correction                                         0 or 1; 1 adds 2.5 dB
 *   14  angle of opposite reflecting facades         degrees      0 to the angle of view
 *   15  far wall's height above the railhead         decimetres   0 to 100; 0 without a screen
 *
 * The far wall is a reflecting wall beyond the track, the other side of a retained cut or a second barrier
 * (paragraphs 28 and 29). Enter 0 where there is none, where it absorbs, and where it leans more than 15
 * degrees. From 15 decimetres on the screen's correction is 0.5 dB weaker, and so the level louder, for each
 * metre of it, the height to the nearest metre, halves up; a correction that would then be above 0 is 0,
 * and number 10 is added after that.
 *
 * A train entry, in this order:
 *    1  vehicle row of Table A1.1, see below                      1 to 34
 *    2  speed                                        km/h         1 to 300; below 20 it counts as 20
 *    3  vehicles of the train                                     1 to 60
 *    4  trains by day                                             0 to 2000
 *    5  trains by night                                           0 to 2000
 *
 * VEHICLE ROWS, in the order of Table A1.1, each with its figure in dB. The number to enter is the row, not
 * the category number of the table: a Freightliner is row 20 and stands in category 6; row 6 is a louder
 * vehicle.
 *      category 1: tread braked passenger coaches, 4 axles
 *    1  British Rail Mark I                             14.8
 *    2  British Rail Mark II                            14.8
 *    3  Gatwick Express                                 16.7
 *    4  Class 421 electric multiple unit                10.8
 *    5  Class 422 electric multiple unit                10.8
 *    6  London Underground A stock                      12.9
 *    7  London Underground tube stock                    7.1
 *      category 2: disc braked passenger coaches, 4 axles
 *    8  British Rail Mark III                            6.0
 *    9  British Rail Mark IV                             6.0
 *   10  Class 319 electric multiple unit                11.3
 *   11  Class 465 electric multiple unit                 8.4
 *   12  Class 466 electric multiple unit                 8.4
 *   13  Class 165 diesel multiple unit                   7.0
 *   14  Class 166 diesel multiple unit                   7.0
 *      category 2a: disc braked light rail coach, 6 axles
 *   15  Manchester Metrolink, articulated               15.8
 *      category 2b: disc braked light rail coach, 8 axles
 *   16  South Yorkshire Supertram, double articulated   14.9
 *      category 3: tread braked freight vehicles, 2 axles
 *   17  2 axle tank wagon                               12.0
 *      category 4: tread braked freight vehicles, 4 axles
 *   18  4 axle tank wagon                               15.0
 *      category 5: disc braked freight vehicles, 2 axles
 *   19  Merry Go Round coal hopper HA                    8.0
 *      category 6: disc braked freight vehicles, 4 axles
 *   20  Freightliner                                     7.5
 *      category 7: diesel locomotives, not on full power
 *   21  Class 20                                        14.8
 *   22  Class 31                                        16.6
 *   23  Class 33                                        14.8
 *   24  Class 37                                        16.6
 *   25  Class 43                                        18.0
 *   26  Class 47                                        16.6
 *   27  Class 56                                        16.6
 *   28  Class 59                                        16.6
 *   29  Class 60                                        16.6
 *      category 7: electric locomotives
 *   30  Class 73                                        14.8
 *   31  Class 86                                        14.8
 *   32  Class 87                                        14.8
 *   33  Class 90                                        14.8
 *   34  Class 91                                        14.8
 *
 * One segment with one train entry, the memorandum's Example 2:
 *     "1 1\n10000 330 235 10 180 180 0 0 0 0 0 0 1 0 0\n1 150 10 179 13\n"
 */
#ifndef RAILNOISE_H
#define RAILNOISE_H

/* The version, in this one place: railnoise.sh --version and the pkg-config file take it from here. */
#define RAILNOISE_VERSION "0.6.0"

#include <stdbool.h>
#include <stddef.h>
#include <stdint.h>

#ifdef __cplusplus
extern "C" {
#endif

/* Most bytes, segments and train entries that a text may have. */
#define RAILNOISE_TEXT_LIMIT 16384
#define RAILNOISE_SEGMENT_LIMIT 24
#define RAILNOISE_ENTRY_LIMIT 96

/* Cells that are enough for every study: two for each of 96 train entries. */
#define RAILNOISE_MOST_CELLS 192

/* The cell of a train entry that has no trains in the period. */
#define RAILNOISE_SILENT_CELL (-9999)

/* The result for one period: day is 0600 to midnight, night is midnight to 0600. */
typedef struct {
    bool silent;    /* no entry has trains in the period; then level and close are 0 and met is false */
    int32_t level;  /* the period's total, tenths of a decibel; it may be below zero */
    uint32_t close; /* roundings that were taken as ties: marked ground steps of segments that have
                       trains in the period, plus one if the total itself is marked */
    bool met;       /* the level, to the nearest whole decibel with halves up, reaches the limit, 68 by
                       day or 63 by night: the house comes into question for insulation. Whether it is
                       entitled, railnoise_entitlement says (railnoise_requests.h) */
} railnoise_period;

/* The answer to one request. */
typedef struct {
    uint32_t refusal; /* 0 when answered, else one of the numbers below */
    uint32_t line;    /* the refused line, counted from 1; 0 where there is none */
    railnoise_period day;
    railnoise_period night; /* on a refusal both periods are silent, level 0, close 0, not met */
} railnoise_answer;

/* Refusals. The first line of the text at fault decides. Within a line 12 comes before all else,
 * then the lowest number that applies. A text's refusal comes before 24, 25 and 26.
 *
 * railnoise_levels answers with 1 to 13 and 24. Of the functions in railnoise_requests.h, railnoise_entitlement
 * answers with 1 to 13, railnoise_merged_levels with 1 to 13, 21, 22 and 24, and railnoise_highest_speed with 1
 * to 13, 25 and 26. A single text that would lead to 20 to 23 is refused as 12 or 13; 20 and 23 come from no
 * function of C, and have names and words here so that every refusal of the product has both. */
enum {
    RAILNOISE_ANSWERED = 0,
    RAILNOISE_DISTANCE = 1,        /* d is not 1000 to 30000 cm */
    RAILNOISE_HEIGHT = 2,          /* h is not -5000 to 5000 cm, or H not 0 to 5000 cm */
    RAILNOISE_SOFT_GROUND = 3,     /* I is not 0 to 10 tenths */
    RAILNOISE_ANGLE = 4,           /* the angle of view is not 5 to 180 degrees, or a not from it to 180 */
    RAILNOISE_SCREEN = 5,          /* screen not 0, 1 or 2; D not 100 to d - 100 cm; top not -2000 to
                                      5000 cm; Chart 6(c) reading not 0 to 100 tenths, or not 0 unless
                                      reflective; far wall's height not 0 to 100 dm; any of D, top,
                                      reading and far wall not 0 without a screen; ballast not 0 with
                                      one */
    RAILNOISE_PATH_DIFFERENCE = 6, /* in shadow, the path over the screen is more than 2.5 m longer */
    RAILNOISE_READING = 7,         /* Table 1 reading not 0 to 150 tenths, ballast not -30 to 0 tenths,
                                      facade not 0 or 1, or the opposite angle not 0 to the angle of view */
    RAILNOISE_ROW = 8,             /* vehicle row is not 1 to 34 */
    RAILNOISE_SPEED = 9,           /* speed is not 1 to 300 km/h */
    RAILNOISE_VEHICLES = 10,       /* vehicles are not 1 to 60 */
    RAILNOISE_TRAINS = 11,         /* day or night trains are not 0 to 2000 */
    RAILNOISE_FORM = 12,           /* a number, a space or a line feed is out of form, a line has another
                                      number count, or the text is longer than 16,384 bytes (line 0) */
    RAILNOISE_CONTENTS = 13,       /* the contents line is out of range, or a line is missing or extra */
    RAILNOISE_NO_SEGMENT = 20,     /* a train entry before any segment; never from a text */
    RAILNOISE_EXTRA_SEGMENT = 21,  /* a 25th segment: two texts have more than 24 together */
    RAILNOISE_EXTRA_ENTRY = 22,    /* a 97th train entry: two texts have more than 96 together */
    RAILNOISE_NO_ENTRY = 23,       /* levels asked without a train entry; never from a text */
    RAILNOISE_CELLS = 24,          /* fewer than two cells for each train entry (line 0) */
    RAILNOISE_ENTRY_NUMBER = 25,   /* no train entry has the number that is asked for (line 0) */
    RAILNOISE_NO_SPEED = 26        /* no speed from 20 to 300 km/h keeps the total below the limit (line 0) */
};

/* The levels of a study.
 *
 * text, text_length: the study's text, as described at the top. It is only read. The empty text, given
 *     as length 0 with any pointer, null too, is refusal 13 at line 1.
 * cells, cell_count: working cells. With t train entries in the study, an answer leaves the t day
 *     levels, then the t night levels, in the text's order, in the first 2t cells, tenths of a
 *     decibel, a silent one as -9999. Further cells are untouched. What the cells held before makes
 *     no difference. No cells, given as count 0 with any pointer, null too, leads to refusal 24
 *     when the text is good.
 *
 * On a refusal every cell holds what it held before. A null pointer goes only with length 0, and text
 * and cells must not overlap. */
railnoise_answer railnoise_levels(const uint8_t *text, size_t text_length, int32_t *cells, size_t cell_count);

/* A refusal in plain words, with the range or rule that was broken, for a message beside its number and
 * line: at most 300 bytes of ASCII. The program writes the same words to standard error. "unknown
 * refusal" for a number that is none of the above. */
static inline const char *railnoise_refusal_words(uint32_t refusal)
{
    switch (refusal) {
    case RAILNOISE_ANSWERED: return "answered";
    case RAILNOISE_DISTANCE: return "distance to the source line must be 1000 to 30000 cm";
    case RAILNOISE_HEIGHT:
        return "window height must be -5000 to 5000 cm above the railhead, and mean height of "
               "propagation 0 to 5000 cm";
    case RAILNOISE_SOFT_GROUND: return "share of soft ground must be 0 to 10 tenths";
    case RAILNOISE_ANGLE:
        return "angle of view must be 5 to 180 degrees, and twice the angle alpha of Figure 9 from "
               "the angle of view to 180 degrees";
    case RAILNOISE_SCREEN:
        return "screen must be 0, 1 or 2; source to screen 100 cm to 100 cm less than the distance; "
               "screen top -2000 to 5000 cm; Chart 6(c) reading 0 to 100 tenths, and 0 unless the "
               "screen is reflective (2); far wall's height 0 to 100 dm; the last four must be 0 without "
               "a screen, and ballast 0 with one";
    case RAILNOISE_PATH_DIFFERENCE:
        return "window is in the screen's shadow and the path over the screen is more than 2.5 m "
               "longer than the straight one, beyond the chart";
    case RAILNOISE_READING:
        return "Table 1 reading must be 0 to 150 tenths, ballast reading -30 to 0 tenths, facade 0 "
               "or 1, and angle of opposite facades 0 degrees to the angle of view";
    case RAILNOISE_ROW:
        return "vehicle row must be 1 to 34: the row of Table A1.1, not its category number";
    case RAILNOISE_SPEED: return "speed must be 1 to 300 km/h";
    case RAILNOISE_VEHICLES: return "vehicles of a train must be 1 to 60";
    case RAILNOISE_TRAINS: return "day trains and night trains must each be 0 to 2000";
    case RAILNOISE_FORM:
        return "out of form: a number has 1 to 5 digits, no decimal point and no spare zero, as 0, "
               "75 or -30; one space between two numbers, no tab, second space or carriage return; "
               "a line feed ends every line, the last too; a segment has 15 numbers, a train 5, line "
               "1 one more than segments; at most 16384 bytes";
    case RAILNOISE_CONTENTS:
        return "line 1 must give 1 to 24 segments, then each segment's number of train lines, 0 to "
               "96 and 1 to 96 in all; every line that it promises must be there, and no other";
    case RAILNOISE_NO_SEGMENT: return "a train entry needs a segment before it";
    case RAILNOISE_EXTRA_SEGMENT: return "a study has at most 24 segments";
    case RAILNOISE_EXTRA_ENTRY: return "a study has at most 96 train entries";
    case RAILNOISE_NO_ENTRY: return "levels need at least 1 train entry";
    case RAILNOISE_CELLS: return "working cells must be at least 2 for each train entry";
    case RAILNOISE_ENTRY_NUMBER: return "train entry must be 1 to the number of train entries in the study";
    case RAILNOISE_NO_SPEED: return "no speed from 20 to 300 km/h keeps the total below the limit";
    default: return "unknown refusal";
    }
}

#ifdef __cplusplus
}
#endif

#endif
