/* The two anchors for speed: what an engineer would write in an afternoon, with libm. Compiled as it
 * is, it is plain_levels, plain_entitlement, plain_merged_levels and plain_highest_speed and reads numbers
 * with strtol; with DIGIT_LOOP defined it is digits_levels and so on and reads them with a loop of its own.
 * They differ in read_number alone.
 * Doubles throughout and no care for ties, so both misread some studies; the differential program
 * counts how many. */
#include "plain.h"

#include <ctype.h>
#include <math.h>
#include <stdlib.h>
#include <string.h>

#ifdef DIGIT_LOOP
#define LEVELS digits_levels
#define ENTITLEMENT digits_entitlement
#define MERGED_LEVELS digits_merged_levels
#define HIGHEST_SPEED digits_highest_speed
#else
#define LEVELS plain_levels
#define ENTITLEMENT plain_entitlement
#define MERGED_LEVELS plain_merged_levels
#define HIGHEST_SPEED plain_highest_speed
#endif

#define MOST_SEGMENTS 24
#define MOST_ENTRIES 96
#define SLOWEST 20
#define FASTEST 300
#define PI 3.141592654

enum { D, WINDOW, MEAN, SOFT, VIEW, TWICE, SCREEN, PLACE, TOP, CHART, TRACK, BALLAST, FACADE, OPPOSITE, WALL, FIELDS };

typedef struct {
    long n[FIELDS];
    int tenths; /* of all steps that belong to the segment */
    bool close;
} segment;

typedef struct {
    int segment;
    long row, speed, vehicles, trains[2];
    int tenths; /* of all steps but the number of trains' */
} entry;

typedef struct {
    int segment_count, entry_count;
    segment segments[MOST_SEGMENTS];
    entry entries[MOST_ENTRIES];
} study;

static const int vehicle_table[34] = {
    148, 148, 167, 108, 108, 129, 71,  60,  60,  113, 84,  84,  70,  70,  158, 149, 120,
    150, 80,  75,  148, 166, 148, 166, 180, 166, 166, 166, 166, 148, 148, 148, 148, 148,
};

static bool within(long value, long low, long high)
{
    return low <= value && value <= high;
}

static int nearest_tenth(double decibels)
{
    return (int)floor(decibels * 10.0 + 0.5);
}

/* The louder neighbour when the value is close to a tie. */
static int close_tenth(double decibels, bool *close)
{
    double tenths = decibels * 10.0;
    *close = fabs(tenths - floor(tenths) - 0.5) < 0.015;
    return *close ? (int)ceil(tenths) : nearest_tenth(decibels);
}

/* Reads the number at the place; gives the place after it, or NULL when it is out of form. */
#ifdef DIGIT_LOOP
static const char *read_number(const char *at, long *number)
{
    const char *digits = at + (*at == '-'), *end = digits;
    long value = 0;
    /* A sixth digit is left standing, where a space or a line feed must be. */
    for (unsigned digit; end < digits + 5 && (digit = (unsigned)*end - '0') <= 9; end++)
        value = 10 * value + (long)digit;
    if (end == digits || (*digits == '0' && (digits > at || end > digits + 1)))
        return NULL;
    *number = digits > at ? -value : value;
    return end;
}
#else
static const char *read_number(const char *at, long *number)
{
    const char *digits = at + (*at == '-');
    if (!isdigit((unsigned char)digits[0]))
        return NULL;
    if (digits[0] == '0' && (digits > at || isdigit((unsigned char)digits[1])))
        return NULL;
    char *end;
    *number = strtol(at, &end, 10);
    return end - digits > 5 ? NULL : end;
}
#endif

/* Reads one line's numbers; the cursor moves past its line feed. Gives their count, or -1 when out
 * of form; numbers past the most are read and counted, not kept. */
static int read_line(const char **cursor, long *numbers, int most)
{
    const char *at = *cursor;
    int count = 0;
    for (;;) {
        long number;
        const char *end = read_number(at, &number);
        if (end == NULL)
            return -1;
        if (count < most)
            numbers[count] = number;
        count++;
        at = end + 1;
        if (*end == '\n')
            break;
        if (*end != ' ')
            return -1;
    }
    *cursor = at;
    return count;
}

static double path_difference(const long *n)
{
    double to_top = sqrt((double)(n[PLACE] * n[PLACE] + n[TOP] * n[TOP]));
    double across = (double)(n[D] - n[PLACE]), up = (double)(n[WINDOW] - n[TOP]);
    double direct = sqrt((double)(n[D] * n[D] + n[WINDOW] * n[WINDOW]));
    double difference = (to_top + sqrt(across * across + up * up) - direct) / 100.0;
    return difference > 0.0 ? difference : 0.0;
}

static bool in_shadow(const long *n)
{
    return n[TOP] * n[D] >= n[WINDOW] * n[PLACE];
}

static uint32_t segment_refusal(const long *n)
{
    if (!within(n[D], 1000, 30000))
        return 1;
    if (!within(n[WINDOW], -5000, 5000) || !within(n[MEAN], 0, 5000))
        return 2;
    if (!within(n[SOFT], 0, 10))
        return 3;
    if (!within(n[VIEW], 5, 180) || !within(n[TWICE], n[VIEW], 180))
        return 4;
    if (!within(n[SCREEN], 0, 2) || !within(n[CHART], 0, n[SCREEN] == 2 ? 100 : 0))
        return 5;
    if (n[SCREEN] == 0 && (n[PLACE] != 0 || n[TOP] != 0 || n[WALL] != 0))
        return 5;
    if (n[SCREEN] != 0 && (!within(n[PLACE], 100, n[D] - 100) || !within(n[TOP], -2000, 5000) ||
                           !within(n[WALL], 0, 100) || n[BALLAST] != 0))
        return 5;
    if (n[SCREEN] != 0 && in_shadow(n) && path_difference(n) > 2.5)
        return 6;
    if (!within(n[TRACK], 0, 150) || !within(n[BALLAST], -30, 0) || !within(n[FACADE], 0, 1) ||
        !within(n[OPPOSITE], 0, n[VIEW]))
        return 7;
    return 0;
}

static uint32_t entry_refusal(const long *n)
{
    if (!within(n[0], 1, 34))
        return 8;
    if (!within(n[1], 1, 300))
        return 9;
    if (!within(n[2], 1, 60))
        return 10;
    return within(n[3], 0, 2000) && within(n[4], 0, 2000) ? 0 : 11;
}

static double screen_step(const long *n)
{
    double difference = path_difference(n), step = 0.0;
    if (in_shadow(n))
        step = -7.75 * log10(5.2 + 203.0 * difference);
    else if (difference <= 0.4)
        step = 0.88 + 2.14 * log10(difference + 0.001);
    if (n[WALL] < 15)
        return step;
    /* Half a decibel less for each whole metre of the far wall; the step then ends at zero. */
    step += 0.5 * (double)((n[WALL] + 5) / 10);
    return step > 0.0 ? 0.0 : step;
}

static double ground_step(const long *n)
{
    if (n[D] <= 2500)
        return 0.0;
    double height = n[MEAN] < 100 ? 100.0 : n[MEAN] > 600 ? 600.0 : (double)n[MEAN];
    return -0.0006 * (double)n[SOFT] * (600.0 - height) * log10((double)n[D] / 2500.0);
}

static void work_out_segment(segment *s)
{
    const long *n = s->n;
    double slant = sqrt((double)(n[D] * n[D] + n[WINDOW] * n[WINDOW])) / 100.0;
    double view = (double)n[VIEW] * PI / 180.0, twice = (double)n[TWICE] * PI / 180.0;
    s->tenths = nearest_tenth(-10.0 * log10(slant / 25.0)) + nearest_tenth(0.2 - 0.008 * slant);
    s->tenths += nearest_tenth(10.0 * log10(view - sin(view) * cos(twice)) - 5.0);
    s->tenths += nearest_tenth(1.5 * (double)n[OPPOSITE] / (double)n[VIEW]);
    s->close = false;
    s->tenths += n[SCREEN] != 0 ? nearest_tenth(screen_step(n)) : close_tenth(ground_step(n), &s->close);
    s->tenths += (int)(n[CHART] + n[TRACK] + n[BALLAST]) + (n[FACADE] ? 25 : 0);
}

static int speed_tenths(long speed)
{
    long counted = speed < 20 ? 20 : speed;
    return nearest_tenth(31.2 + 20.0 * log10((double)counted));
}

/* An entry's tenths, once for both periods. */
static void work_out_entry(const study *s, entry *e)
{
    e->tenths = s->segments[e->segment].tenths + vehicle_table[e->row - 1];
    e->tenths += speed_tenths(e->speed);
    e->tenths += nearest_tenth(10.0 * log10((double)e->vehicles));
}

/* Of a text with a zero byte after it; 0 when the study is read, else the refusal with its line. */
static uint32_t read_study(const char *text, const char *end, study *s, uint32_t *line)
{
    long contents[MOST_SEGMENTS + 1], n[FIELDS], total = 0;
    *line = 1;
    if (text == end)
        return 13;
    int count = read_line(&text, contents, MOST_SEGMENTS + 1);
    if (count < 1 || count != contents[0] + 1)
        return 12;
    if (!within(contents[0], 1, MOST_SEGMENTS))
        return 13;
    for (int i = 1; i < count; i++) {
        if (!within(contents[i], 0, MOST_ENTRIES))
            return 13;
        total += contents[i];
    }
    if (!within(total, 1, MOST_ENTRIES))
        return 13;
    s->segment_count = (int)contents[0];
    s->entry_count = 0;
    for (int i = 0; i < s->segment_count; i++) {
        ++*line;
        if (text == end)
            return 13;
        if (read_line(&text, s->segments[i].n, FIELDS) != FIELDS)
            return 12;
        uint32_t refusal = segment_refusal(s->segments[i].n);
        if (refusal)
            return refusal;
        work_out_segment(&s->segments[i]);
        for (long k = 0; k < contents[i + 1]; k++) {
            ++*line;
            if (text == end)
                return 13;
            if (read_line(&text, n, 5) != 5)
                return 12;
            if ((refusal = entry_refusal(n)))
                return refusal;
            s->entries[s->entry_count] = (entry){ i, n[0], n[1], n[2], { n[3], n[4] }, 0 };
            work_out_entry(s, &s->entries[s->entry_count++]);
        }
    }
    ++*line;
    return text == end ? 0 : 13;
}

static double whole_decibels(int level)
{
    return floor(level / 10.0 + 0.5);
}

static bool reaches_limit(int level, int period)
{
    return whole_decibels(level) >= (period == 0 ? 68.0 : 63.0);
}

/* Of an entry that has trains in the period. */
static int entry_level(const entry *e, int period)
{
    return e->tenths + nearest_tenth(10.0 * log10((double)e->trains[period])) - (period == 0 ? 481 : 433);
}

static railnoise_period period_result(const study *s, int period, int32_t *cells)
{
    railnoise_period result = { true, 0, 0, false };
    bool heard[MOST_SEGMENTS] = { false }, close;
    double sum = 0.0;
    for (int i = 0; i < s->entry_count; i++) {
        const entry *e = &s->entries[i];
        if (e->trains[period] == 0) {
            cells[i] = RAILNOISE_SILENT_CELL;
            continue;
        }
        int level = entry_level(e, period);
        cells[i] = level;
        sum += pow(10.0, level / 100.0);
        result.silent = false;
        if (!heard[e->segment])
            result.close += s->segments[e->segment].close;
        heard[e->segment] = true;
    }
    if (result.silent)
        return result;
    result.level = close_tenth(10.0 * log10(sum), &close);
    result.close += close;
    result.met = reaches_limit(result.level, period);
    return result;
}

/* 0 when the study is read, else the refusal; the line is 0 where there is none. */
static uint32_t read_text(const uint8_t *text, size_t length, study *s, uint32_t *line)
{
    char copy[RAILNOISE_TEXT_LIMIT + 1];
    *line = 0;
    if (length > RAILNOISE_TEXT_LIMIT)
        return 12;
    if (length > 0)
        memcpy(copy, text, length);
    copy[length] = '\0';
    uint32_t refusal = read_study(copy, copy + length, s, line);
    if (!refusal)
        *line = 0;
    return refusal;
}

railnoise_answer LEVELS(const uint8_t *text, size_t text_length, int32_t *cells, size_t cell_count)
{
    railnoise_answer answer = { 0, 0, { true, 0, 0, false }, { true, 0, 0, false } };
    study s;
    answer.refusal = read_text(text, text_length, &s, &answer.line);
    if (answer.refusal)
        return answer;
    if (cell_count < 2 * (size_t)s.entry_count) {
        answer.refusal = 24;
        return answer;
    }
    answer.day = period_result(&s, 0, cells);
    answer.night = period_result(&s, 1, cells + s.entry_count);
    return answer;
}

/* The four sets of lines, in the order of the parameters. */
enum { ALTERED_BEFORE, ALTERED_AFTER, OTHER_BEFORE, OTHER_AFTER, SETS };

/* Chart 9; a silent level adds nothing. */
static railnoise_combined combine(railnoise_period a, railnoise_period b)
{
    railnoise_combined sum = { a.silent && b.silent, a.silent ? b.level : a.level, false };
    if (!a.silent && !b.silent)
        sum.level = close_tenth(10.0 * log10(pow(10.0, a.level / 100.0) + pow(10.0, b.level / 100.0)), &sum.close);
    return sum;
}

static railnoise_entitlement_period conditions(const railnoise_period *of, int period)
{
    railnoise_entitlement_period result = { combine(of[ALTERED_BEFORE], of[OTHER_BEFORE]),
                                            combine(of[ALTERED_AFTER], of[OTHER_AFTER]), false, false, false, false };
    int32_t level = result.relevant.level;
    if (result.relevant.silent)
        return result;
    result.reaches = reaches_limit(level, period);
    result.rises = result.prevailing.silent || level >= result.prevailing.level + 10;
    result.contributes = of[OTHER_AFTER].silent || level >= of[OTHER_AFTER].level + 10;
    result.entitled = result.reaches && result.rises && result.contributes;
    return result;
}

railnoise_entitlement_answer ENTITLEMENT(SET(altered_before), SET(altered_after), SET(other_before), SET(other_after))
{
    const uint8_t *texts[SETS] = { altered_before, altered_after, other_before, other_after };
    size_t lengths[SETS] = { altered_before_length, altered_after_length, other_before_length, other_after_length };
    bool empty[SETS] = { altered_before_empty, altered_after_empty, other_before_empty, other_after_empty };
    railnoise_entitlement_period nothing = { { true, 0, false }, { true, 0, false }, false, false, false, false };
    railnoise_entitlement_answer answer = { 0, 0, 0, nothing, nothing, false };
    railnoise_period day[SETS], night[SETS];
    int32_t cells[RAILNOISE_MOST_CELLS];
    for (uint32_t i = 0; i < SETS; i++) {
        railnoise_answer levels = { 0, 0, { true, 0, 0, false }, { true, 0, 0, false } };
        if (!empty[i])
            levels = LEVELS(texts[i], lengths[i], cells, RAILNOISE_MOST_CELLS);
        if (levels.refusal) {
            answer.refusal = levels.refusal;
            answer.text = i + 1;
            answer.line = levels.line;
            return answer;
        }
        day[i] = levels.day;
        night[i] = levels.night;
    }
    answer.day = conditions(day, 0);
    answer.night = conditions(night, 1);
    answer.entitled = answer.day.entitled || answer.night.entitled;
    return answer;
}

/* The second's segments and entries after the first's; 0, or the refusal of too many. */
static uint32_t append(study *first, const study *second)
{
    if (first->segment_count + second->segment_count > MOST_SEGMENTS)
        return 21;
    if (first->entry_count + second->entry_count > MOST_ENTRIES)
        return 22;
    for (int i = 0; i < second->entry_count; i++) {
        entry *e = &first->entries[first->entry_count++];
        *e = second->entries[i];
        e->segment += first->segment_count;
    }
    for (int i = 0; i < second->segment_count; i++)
        first->segments[first->segment_count++] = second->segments[i];
    return 0;
}

railnoise_merged_answer MERGED_LEVELS(const uint8_t *first, size_t first_length, const uint8_t *second,
                                      size_t second_length, int32_t *cells, size_t cell_count)
{
    railnoise_merged_answer answer = { 0, 0, 0, { true, 0, 0, false }, { true, 0, 0, false } };
    study one, two;
    answer.text = 1;
    if ((answer.refusal = read_text(first, first_length, &one, &answer.line)))
        return answer;
    answer.text = 2;
    if ((answer.refusal = read_text(second, second_length, &two, &answer.line)))
        return answer;
    answer.text = 0;
    if ((answer.refusal = append(&one, &two)))
        return answer;
    if (cell_count < 2 * (size_t)one.entry_count) {
        answer.refusal = 24;
        return answer;
    }
    answer.day = period_result(&one, 0, cells);
    answer.night = period_result(&one, 1, cells + one.entry_count);
    return answer;
}

/* Whether the total stays below a limit, of one entry's level beside the energy of the others. */
static bool stays_below(double others, int level, int32_t limit)
{
    bool close;
    return whole_decibels(close_tenth(10.0 * log10(others + pow(10.0, level / 100.0)), &close)) < limit;
}

/* The highest speed by halves, since a level rises with the speed; 0 when there is none. */
static uint32_t search(const study *s, int asked, int period, int32_t limit)
{
    double others = 0.0;
    bool close;
    for (int i = 0; i < s->entry_count; i++)
        if (i != asked && s->entries[i].trains[period] > 0)
            others += pow(10.0, entry_level(&s->entries[i], period) / 100.0);
    const entry *e = &s->entries[asked];
    if (e->trains[period] == 0)
        return others == 0.0 || whole_decibels(close_tenth(10.0 * log10(others), &close)) < limit ? FASTEST : 0;
    int level = entry_level(e, period) - speed_tenths(e->speed);
    if (!stays_below(others, level + speed_tenths(SLOWEST), limit))
        return 0;
    uint32_t below = SLOWEST, past = FASTEST + 1;
    while (past - below > 1) {
        uint32_t middle = (below + past) / 2;
        if (stays_below(others, level + speed_tenths(middle), limit))
            below = middle;
        else
            past = middle;
    }
    return below;
}

railnoise_speed_answer HIGHEST_SPEED(const uint8_t *text, size_t text_length, uint32_t entry, bool night, int32_t limit)
{
    railnoise_speed_answer answer = { 0, 0, 0 };
    study s;
    if ((answer.refusal = read_text(text, text_length, &s, &answer.line)))
        return answer;
    if (entry == 0 || entry > (uint32_t)s.entry_count) {
        answer.refusal = 25;
        return answer;
    }
    answer.speed = search(&s, (int)entry - 1, night ? 1 : 0, limit);
    if (answer.speed == 0)
        answer.refusal = 26;
    return answer;
}
