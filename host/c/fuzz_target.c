/* One fuzzed text: railnoise_levels is held against the second implementation, its cells lie between
 * sentinels and a closed page. A text with a NUL byte is also taken as two drawings, before it and after it, for
 * railnoise_merged_levels. railnoise_highest_speed is asked of each text too, for an entry, a period and a limit that
 * follow from its bytes, and held against railnoise_levels of the text with other speeds typed in. The plain
 * program runs on the same texts only for its coverage: it is instrumented, while the product's archives as a rule are
 * not. */
#define _DEFAULT_SOURCE
#include "guarded.h"
#include "plain.h"
#include "railnoise_requests.h"
#include "retype.h"

#include <string.h>

#define SENTINELS 16
#define SENTINEL 0x5a5a5a5a
#define DIVIDER 0

/* From host/second: 1 when the answer is allowed, else 0 with the reason on standard error. */
int second_allows(const uint8_t *text, size_t text_length, const int32_t *before, const int32_t *after,
                  size_t cell_count, const railnoise_answer *answer);
int second_allows_merged(const uint8_t *first, size_t first_length, const uint8_t *second, size_t second_length,
                         const int32_t *before, const int32_t *after, size_t cell_count,
                         const railnoise_merged_answer *answer);

static void require(bool condition, const char *words)
{
    if (!condition) {
        fprintf(stderr, "fuzz: %s\n", words);
        abort();
    }
}

/* Enough for every study most of the time, else any number up to that. */
static size_t cells_for(size_t size)
{
    return size % 4 != 0 ? RAILNOISE_MOST_CELLS : size / 4 % (RAILNOISE_MOST_CELLS + 1);
}

/* Cells that are lent, behind sentinels and before a closed page, and what they held. */
static struct {
    guarded room;
    size_t count;
    int32_t *lent;
    int32_t before[RAILNOISE_MOST_CELLS];
} cells;

static void lend_cells(size_t size)
{
    cells.count = cells_for(size);
    cells.lent = guarded_end(cells.room, cells.count * sizeof *cells.lent);
    for (int i = 1; i <= SENTINELS; i++)
        cells.lent[-i] = SENTINEL;
    for (size_t i = 0; i < cells.count; i++)
        cells.lent[i] = cells.before[i] = (int32_t)(size * 31 + i);
}

static void require_untouched(const uint8_t *text, const uint8_t *data, size_t size)
{
    for (int i = 1; i <= SENTINELS; i++)
        require(cells.lent[-i] == SENTINEL, "a sentinel before the cells was written");
    require(size == 0 || memcmp(text, data, size) == 0, "the text was written");
}

static void plain_coverage(const uint8_t *text, size_t size)
{
    int32_t other[RAILNOISE_MOST_CELLS];
    plain_levels(text, size, other, cells.count);
}

/* What is asked of a text beside its bytes. */
typedef struct {
    uint32_t entry;
    bool night;
    int32_t limit;
} question;

/* From all bytes of the text: an entry up to one past the last, and a limit on either side of the total. One in eight is
 * any entry; and one in eight a limit far off, ten times which comes near the total in 32 bits. */
static question question_of(const uint8_t *data, size_t size, const railnoise_answer *levels)
{
    uint32_t bits = 2166136261u;
    for (size_t i = 0; i < size; i++)
        bits = (bits ^ data[i]) * 16777619u;
    bool night = bits >> 31, any = levels->refusal != 0 || bits % 8 == 0;
    int32_t total = night ? levels->night.level : levels->day.level;
    uint32_t entry = any ? bits >> 3 : (bits >> 3) % (entries_of((const char *)data) + 2);
    int32_t limit = total / 10 - 20 + (int32_t)((bits >> 11) % 41);
    return (question){ entry, night, bits % 8 == 1 ? (int32_t)((uint32_t)limit + (bits >> 17) % 10 * 429496730u) : limit };
}

/* Whether the total at that speed is silent or, to the nearest whole decibel with halves up, below the limit. */
static bool stays_below(const uint8_t *text, size_t size, question q, int speed)
{
    char retyped[RETYPED_LIMIT];
    int32_t own[RAILNOISE_MOST_CELLS];
    size_t length = retype(retyped, (const char *)text, size, q.entry, speed);
    railnoise_answer a = railnoise_levels((const uint8_t *)retyped, length, own, RAILNOISE_MOST_CELLS);
    require(a.refusal == 0, "a good text is refused with another speed");
    railnoise_period p = q.night ? a.night : a.day;
    return p.silent || p.level + (int64_t)5 < 10 * (int64_t)q.limit;
}

static bool speed_explained(const uint8_t *text, size_t size, question q, railnoise_speed_answer a)
{
    if (q.entry == 0 || q.entry > entries_of((const char *)text))
        return a.refusal == 25 && a.line == 0 && a.speed == 0;
    if (a.refusal != 0)
        return a.refusal == 26 && a.line == 0 && a.speed == 0 && !stays_below(text, size, q, SLOWEST);
    return a.line == 0 && SLOWEST <= a.speed && a.speed <= FASTEST && stays_below(text, size, q, (int)a.speed) &&
           (a.speed == FASTEST || !stays_below(text, size, q, (int)a.speed + 1));
}

/* The text is at its closed page. */
static void one_speed(const uint8_t *text, const uint8_t *data, size_t size)
{
    int32_t own[RAILNOISE_MOST_CELLS];
    railnoise_answer levels = railnoise_levels(text, size, own, RAILNOISE_MOST_CELLS);
    question q = question_of(data, size, &levels);
    railnoise_speed_answer a = railnoise_highest_speed(text, size, q.entry, q.night, q.limit);
    require_untouched(text, data, size);
    if (levels.refusal != 0)
        require(a.refusal == levels.refusal && a.line == levels.line && a.speed == 0, "another refusal than the levels'");
    else
        require(speed_explained(text, size, q, a), "a speed that the levels do not explain");
    plain_highest_speed(data, size, q.entry, q.night, q.limit);
}

static void one_text(guarded room, const uint8_t *data, size_t size)
{
    const uint8_t *text = guarded_copy(room, data, size);
    lend_cells(size);
    railnoise_answer answer = railnoise_levels(text, size, cells.lent, cells.count);
    require_untouched(text, data, size);
    require(second_allows(text, size, cells.before, cells.lent, cells.count, &answer), "not an allowed answer");
    plain_coverage(data, size);
    one_speed(text, data, size);
}

/* Each drawing before a closed page of its own. */
static void two_drawings(guarded rooms[2], const uint8_t *data, size_t size, size_t first_size)
{
    const uint8_t *second_data = data + first_size + 1;
    size_t second_size = size - first_size - 1;
    const uint8_t *first = guarded_copy(rooms[0], data, first_size);
    const uint8_t *second = guarded_copy(rooms[1], second_data, second_size);
    lend_cells(size);
    railnoise_merged_answer answer =
        railnoise_merged_levels(first, first_size, second, second_size, cells.lent, cells.count);
    require_untouched(first, data, first_size);
    require_untouched(second, second_data, second_size);
    require(second_allows_merged(first, first_size, second, second_size, cells.before, cells.lent, cells.count,
                                 &answer),
            "not an allowed answer for two drawings");
    plain_coverage(data, first_size);
    plain_coverage(second_data, second_size);
}

int LLVMFuzzerTestOneInput(const uint8_t *data, size_t size)
{
    static guarded rooms[2];
    if (cells.room.start == NULL) {
        rooms[0] = guarded_make(1 << 17);
        rooms[1] = guarded_make(1 << 17);
        cells.room = guarded_make((RAILNOISE_MOST_CELLS + SENTINELS) * sizeof(int32_t));
    }
    if (size > rooms[0].size)
        return 0;
    one_text(rooms[0], data, size);
    const uint8_t *divider = size > 0 ? memchr(data, DIVIDER, size) : NULL;
    if (divider != NULL)
        two_drawings(rooms, data, size, (size_t)(divider - data));
    return 0;
}
