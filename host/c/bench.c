/* Speed and stack of the product's four C functions beside the plain program's two forms.
 *
 *   bench check                                     nothing but what each of them does first: all give the same answers
 *   bench time [ROUNDS]                             nanoseconds of one call, by row, and the product's ratios
 *   bench call product|plain|digits HEAD ROW COUNT  COUNT calls, for an instruction counter
 *   bench stack                                     bytes of stack that one call reaches
 *
 * A row is a study, which is put to railnoise_levels, a request, which is put to railnoise_entitlement, two drawings,
 * which are put to railnoise_merged_levels, or a study with a question, which is put to railnoise_highest_speed. They
 * stand in a table each, which `call` is told by its head: instr, request, merged or speed.
 */
#define _GNU_SOURCE
#include "plain.h"
#include "texts.h"

#include <pthread.h>
#include <stdio.h>
#include <stdlib.h>
#include <string.h>
#include <sys/mman.h>
#include <time.h>

typedef railnoise_answer levels_function(const uint8_t *, size_t, int32_t *, size_t);

static railnoise_answer no_levels(const uint8_t *text, size_t text_length, int32_t *cells, size_t cell_count)
{
    (void)text, (void)text_length, (void)cells, (void)cell_count;
    return (railnoise_answer){ 0, 0, { true, 0, 0, false }, { true, 0, 0, false } };
}

#define UNUSED(name) (void)name, (void)name##_length, (void)name##_empty
static railnoise_entitlement_answer no_entitlement(SET(altered_before), SET(altered_after), SET(other_before),
                                                   SET(other_after))
{
    UNUSED(altered_before), UNUSED(altered_after), UNUSED(other_before), UNUSED(other_after);
    return (railnoise_entitlement_answer){ .refusal = 0 };
}

static railnoise_merged_answer no_merged_levels(const uint8_t *first, size_t first_length, const uint8_t *second,
                                                size_t second_length, int32_t *cells, size_t cell_count)
{
    (void)first, (void)first_length, (void)second, (void)second_length, (void)cells, (void)cell_count;
    return (railnoise_merged_answer){ .refusal = 0 };
}

static railnoise_speed_answer no_highest_speed(const uint8_t *text, size_t text_length, uint32_t entry, bool night,
                                               int32_t limit)
{
    (void)text, (void)text_length, (void)entry, (void)night, (void)limit;
    return (railnoise_speed_answer){ .refusal = 0 };
}

/* The last does nothing: the stack that its call reaches is taken off the others'. */
enum { PRODUCT, PLAIN, DIGITS, PROGRAMS, NOTHING = PROGRAMS };
static const struct {
    const char *name;
    levels_function *levels;
    entitlement_function *entitlement;
    merged_function *merged_levels;
    speed_function *highest_speed;
} programs[] = {
    [PRODUCT] = { "product", railnoise_levels, railnoise_entitlement, railnoise_merged_levels, railnoise_highest_speed },
    [PLAIN] = { "plain", plain_levels, plain_entitlement, plain_merged_levels, plain_highest_speed },
    [DIGITS] = { "digits", digits_levels, digits_entitlement, digits_merged_levels, digits_highest_speed },
    [NOTHING] = { "nothing", no_levels, no_entitlement, no_merged_levels, no_highest_speed },
};

/* The rows of the tables, and then the sizes, which repeat six segments so that only their number differs; then
 * those that only requests have, and last those that are drawings alone. */
enum {
    ONE, SAMPLE, EIGHT, FULL, REFUSED, ROWS,
    TERMINAL_BEFORE = ROWS + 5, TERMINAL_AFTER, LINE_BESIDE,
    MAIN_LINE, FIRST_HALF, SECOND_HALF, REFUSED_HALF, STUDIES
};
static const struct {
    const char *name;
    made_study made;
} studies[STUDIES] = {
    [ONE] = { "one", { 1, 1, 150, 24 } },
    [SAMPLE] = { "sample", { 0, 0, 0, 0 } },
    [EIGHT] = { "eight", { 4, 2, 150, 24 } },
    [FULL] = { "full", { 24, 4, 150, 24 } },
    [REFUSED] = { "refused", { 24, 4, 301, 24 } },
    [ROWS] = { "24x1", { 24, 1, 150, 6 } },
    { "24x2", { 24, 2, 150, 6 } },
    { "24x4", { 24, 4, 150, 6 } },
    { "6x4", { 6, 4, 150, 6 } },
    { "12x4", { 12, 4, 150, 6 } },
    [TERMINAL_BEFORE] = { "terminal_before", { 0, 0, 0, 0 } },
    [TERMINAL_AFTER] = { "terminal_after", { 0, 0, 0, 0 } },
    [LINE_BESIDE] = { "line_beside", { 0, 0, 0, 0 } },
    [MAIN_LINE] = { "main_line", { 0, 0, 0, 0 } },
    [FIRST_HALF] = { "first_half", { 0, 0, 0, 0 } },
    [SECOND_HALF] = { "second_half", { 0, 0, 0, 0 } },
    [REFUSED_HALF] = { "refused_half", { 0, 0, 0, 0 } },
};

/* A request has the studies of its four sets in the order of the parameters, NONE for one marked as empty. As a
 * row it is counted on from the studies. */
enum { NIGHT, NEW, FULL4, REFUSED4, REQUESTS, NONE = STUDIES };
static const struct {
    const char *name;
    int sets[4];
} requests[REQUESTS] = {
    [NIGHT] = { "night", { TERMINAL_BEFORE, TERMINAL_AFTER, LINE_BESIDE, LINE_BESIDE } },
    [NEW] = { "new", { NONE, TERMINAL_AFTER, NONE, LINE_BESIDE } },
    [FULL4] = { "full4", { FULL, FULL, FULL, FULL } },
    [REFUSED4] = { "refused4", { FULL, FULL, FULL, REFUSED } },
};

/* Two drawings. As rows they are counted on from the requests. */
enum { YARD_AND_LINE, HALVES, REFUSED2, MERGED, MERGED_ROW = STUDIES + REQUESTS };
static const struct {
    const char *name;
    int first, second;
} merged[MERGED] = {
    [YARD_AND_LINE] = { "two", TERMINAL_AFTER, MAIN_LINE },
    [HALVES] = { "halves", FIRST_HALF, SECOND_HALF },
    [REFUSED2] = { "refused2", FIRST_HALF, REFUSED_HALF },
};

/* A study, which of its entries may pass how fast by day below which limit, and the answer. As rows they are counted on
 * from the drawings, and have the names of their studies. */
enum { SPEEDS = 4, SPEED_ROW = MERGED_ROW + MERGED, ALL_ROWS = SPEED_ROW + SPEEDS };
static const struct {
    int study;
    uint32_t entry;
    int32_t limit;
    railnoise_speed_answer answer;
} speeds[SPEEDS] = {
    { ONE, 1, 28, { 0, 0, 150 } },
    { EIGHT, 5, 52, { 0, 0, 168 } },
    { FULL, 50, 88, { 0, 0, 176 } },
    { REFUSED, 50, 88, { 9, 121, 0 } },
};

/* The tables, by their heads, with the rows that they show. The first one's head is that of its column's unit; its
 * rows go on with the sizes, up to the next table's first. */
static const struct {
    const char *head;
    int first, end;
} tables[] = {
    { "instr", 0, ROWS },
    { "request", STUDIES, MERGED_ROW },
    { "merged", MERGED_ROW, SPEED_ROW },
    { "speed", SPEED_ROW, ALL_ROWS },
};
enum { TABLES = sizeof tables / sizeof *tables };

static char texts[STUDIES + 1][RAILNOISE_TEXT_LIMIT];
static size_t lengths[STUDIES + 1];

static void put_typed(int study, const char *text)
{
    lengths[study] = strlen(text);
    memcpy(texts[study], text, lengths[study]);
}

static void write_texts(void)
{
    for (int i = 0; i < STUDIES; i++)
        lengths[i] = write_part(texts[i], studies[i].made, 0, studies[i].made.segments);
    put_typed(SAMPLE, sample);
    put_typed(TERMINAL_BEFORE, terminal_before);
    put_typed(TERMINAL_AFTER, terminal_after);
    put_typed(LINE_BESIDE, line_beside);
    put_typed(MAIN_LINE, main_line);
    lengths[FIRST_HALF] = write_part(texts[FIRST_HALF], studies[FULL].made, 0, 12);
    lengths[SECOND_HALF] = write_part(texts[SECOND_HALF], studies[FULL].made, 12, 24);
    lengths[REFUSED_HALF] = write_part(texts[REFUSED_HALF], studies[REFUSED].made, 12, 24);
}

static railnoise_answer ask_levels(levels_function *levels, int study, int32_t *cells)
{
    return levels((const uint8_t *)texts[study], lengths[study], cells, RAILNOISE_MOST_CELLS);
}

#define TEXT_OF(set) (const uint8_t *)texts[set], lengths[set], (set) == NONE
static railnoise_entitlement_answer ask_entitlement(entitlement_function *entitlement, int request)
{
    const int *sets = requests[request].sets;
    return entitlement(TEXT_OF(sets[0]), TEXT_OF(sets[1]), TEXT_OF(sets[2]), TEXT_OF(sets[3]));
}

static railnoise_merged_answer ask_merged(merged_function *levels, int row, int32_t *cells)
{
    int first = merged[row].first, second = merged[row].second;
    return levels((const uint8_t *)texts[first], lengths[first], (const uint8_t *)texts[second], lengths[second],
                  cells, RAILNOISE_MOST_CELLS);
}

static railnoise_speed_answer ask_speed(speed_function *highest_speed, int row)
{
    int study = speeds[row].study;
    return highest_speed((const uint8_t *)texts[study], lengths[study], speeds[row].entry, false, speeds[row].limit);
}

static const char *row_name(int row)
{
    return row < STUDIES      ? studies[row].name
           : row < MERGED_ROW ? requests[row - STUDIES].name
           : row < SPEED_ROW  ? merged[row - MERGED_ROW].name
                              : studies[speeds[row - SPEED_ROW].study].name;
}

static void call(int program, int row)
{
    int32_t cells[RAILNOISE_MOST_CELLS];
    if (row < STUDIES)
        ask_levels(programs[program].levels, row, cells);
    else if (row < MERGED_ROW)
        ask_entitlement(programs[program].entitlement, row - STUDIES);
    else if (row < SPEED_ROW)
        ask_merged(programs[program].merged_levels, row - MERGED_ROW, cells);
    else
        ask_speed(programs[program].highest_speed, row - SPEED_ROW);
}

/* Two texts are refused, at their last lines; on the others all give the same levels. */
static bool study_expected(levels_function *levels, int study)
{
    int32_t cells[RAILNOISE_MOST_CELLS];
    railnoise_answer answer = ask_levels(levels, study, cells), product = ask_levels(railnoise_levels, study, cells);
    uint32_t refused_line = study == REFUSED ? 121 : study == REFUSED_HALF ? 61 : 0;
    return answer.refusal == (refused_line > 0 ? 9 : 0) && answer.line == refused_line &&
           (study != SAMPLE || answer.day.level == 629) && answer.day.level == product.day.level &&
           answer.night.level == product.night.level;
}

static bool same_level(railnoise_combined a, railnoise_combined b)
{
    return a.silent == b.silent && a.level == b.level && a.close == b.close;
}

static bool same_period(railnoise_entitlement_period a, railnoise_entitlement_period b)
{
    return same_level(a.prevailing, b.prevailing) && same_level(a.relevant, b.relevant) && a.reaches == b.reaches &&
           a.rises == b.rises && a.contributes == b.contributes && a.entitled == b.entitled;
}

/* One request is refused, at its fourth text's last line; one house is entitled by night alone; all answers are
 * the same. */
static bool request_expected(entitlement_function *entitlement, int request)
{
    railnoise_entitlement_answer answer = ask_entitlement(entitlement, request);
    railnoise_entitlement_answer product = ask_entitlement(railnoise_entitlement, request);
    bool refused = request == REFUSED4;
    return answer.refusal == (refused ? 9 : 0) && answer.text == (refused ? 4 : 0) &&
           answer.line == (refused ? 121 : 0) &&
           (request != NIGHT || (!answer.day.entitled && answer.night.entitled)) &&
           same_period(answer.day, product.day) && same_period(answer.night, product.night) &&
           answer.entitled == product.entitled;
}

static bool same_total(railnoise_period a, railnoise_period b)
{
    return a.silent == b.silent && a.level == b.level && a.close == b.close && a.met == b.met;
}

/* One of two drawings is refused, at its last line; yard and main line are 63.9 and 63.6; the halves of the full study
 * are that study; all answers and cells are the same. */
static bool merged_expected(merged_function *levels, int row)
{
    int32_t cells[RAILNOISE_MOST_CELLS] = { 0 }, product_cells[RAILNOISE_MOST_CELLS] = { 0 };
    railnoise_merged_answer answer = ask_merged(levels, row, cells);
    railnoise_merged_answer product = ask_merged(railnoise_merged_levels, row, product_cells);
    bool refused = row == REFUSED2, same = memcmp(cells, product_cells, sizeof cells) == 0;
    if (row == HALVES) {
        railnoise_answer whole = ask_levels(railnoise_levels, FULL, product_cells);
        same = same && same_total(answer.day, whole.day) && same_total(answer.night, whole.night) &&
               memcmp(cells, product_cells, sizeof cells) == 0;
    }
    return same && answer.refusal == (refused ? 9 : 0) && answer.text == (refused ? 2 : 0) &&
           answer.line == (refused ? 61 : 0) &&
           (row != YARD_AND_LINE || (answer.day.level == 639 && answer.night.level == 636)) &&
           same_total(answer.day, product.day) && same_total(answer.night, product.night);
}

/* All give the answer that stands beside the question. */
static bool speed_expected(speed_function *highest_speed, int row)
{
    railnoise_speed_answer answer = ask_speed(highest_speed, row), expected = speeds[row].answer;
    return answer.refusal == expected.refusal && answer.line == expected.line && answer.speed == expected.speed;
}

static bool row_expected(int program, int row)
{
    return row < STUDIES      ? study_expected(programs[program].levels, row)
           : row < MERGED_ROW ? request_expected(programs[program].entitlement, row - STUDIES)
           : row < SPEED_ROW  ? merged_expected(programs[program].merged_levels, row - MERGED_ROW)
                              : speed_expected(programs[program].highest_speed, row - SPEED_ROW);
}

/* What the bench rests on. */
static void check_answers(int program)
{
    for (int row = 0; row < ALL_ROWS; row++)
        if (!row_expected(program, row)) {
            fprintf(stderr, "bench: unexpected answer to %s by %s\n", row_name(row), programs[program].name);
            exit(1);
        }
}

static double seconds(void)
{
    struct timespec now;
    clock_gettime(CLOCK_MONOTONIC, &now);
    return (double)now.tv_sec + 1e-9 * (double)now.tv_nsec;
}

static double time_calls(int program, int row, int count)
{
    double start = seconds();
    for (int i = 0; i < count; i++)
        call(program, row);
    return (seconds() - start) / count;
}

static int by_size(const void *a, const void *b)
{
    double x = *(const double *)a, y = *(const double *)b;
    return (x > y) - (x < y);
}

/* All in turn, in rounds of about 2 ms, so that a busy machine slows all; the medians count. */
static void time_row(int row, int rounds)
{
    double times[PROGRAMS][101], median[PROGRAMS];
    int counts[PROGRAMS];
    for (int p = 0; p < PROGRAMS; p++)
        counts[p] = 1 + (int)(0.002 / time_calls(p, row, 3));
    for (int i = 0; i < rounds; i++)
        for (int p = 0; p < PROGRAMS; p++)
            times[p][i] = time_calls(p, row, counts[p]);
    for (int p = 0; p < PROGRAMS; p++) {
        qsort(times[p], (size_t)rounds, sizeof *times[p], by_size);
        median[p] = times[p][rounds / 2];
    }
    printf("%-8s %10.0f %10.0f %10.0f %10.2f %10.2f\n", row_name(row), 1e9 * median[PRODUCT], 1e9 * median[PLAIN],
           1e9 * median[DIGITS], median[PRODUCT] / median[PLAIN], median[PRODUCT] / median[DIGITS]);
}

static void time_rows(const char *head, int first, int end, int rounds)
{
    printf("%-8s %10s %10s %10s %10s %10s\n", head, "product", "plain", "digits", "to plain", "to digits");
    for (int row = first; row < end; row++)
        time_row(row, rounds);
}

typedef struct {
    int program, row;
} stack_job;

static void *run_job(void *job)
{
    stack_job *j = job;
    call(j->program, j->row);
    return NULL;
}

/* Runs one call on a painted stack; gives the bytes from its end to the deepest one written. */
static size_t reached(int program, int row)
{
    enum { SIZE = 4 << 20, PAINT = 0xa5 };
    unsigned char *stack = mmap(NULL, SIZE, PROT_READ | PROT_WRITE, MAP_PRIVATE | MAP_ANONYMOUS, -1, 0);
    pthread_attr_t attributes;
    pthread_t thread;
    stack_job job = { program, row };
    if (stack == MAP_FAILED)
        exit(2);
    memset(stack, PAINT, SIZE);
    pthread_attr_init(&attributes);
    pthread_attr_setstack(&attributes, stack, SIZE);
    if (pthread_create(&thread, &attributes, run_job, &job) != 0)
        exit(2);
    pthread_join(thread, NULL);
    size_t untouched = 0;
    while (untouched < SIZE && stack[untouched] == PAINT)
        untouched++;
    munmap(stack, SIZE);
    return SIZE - untouched;
}

/* The same call with an empty function is taken off: thread start, cells and the caller's frame. */
static void measure_stack(const char *head, int first, int end)
{
    printf("%-8s %10s %10s %10s\n", head, "product", "plain", "digits");
    for (int row = first; row < end; row++) {
        size_t base = reached(NOTHING, row);
        printf("%-8s", row_name(row));
        for (int p = 0; p < PROGRAMS; p++)
            printf(" %10zu", reached(p, row) - base);
        printf("\n");
    }
}

static int usage(void)
{
    fprintf(stderr, "usage: bench check | time [ROUNDS] | call product|plain|digits HEAD ROW COUNT | stack\n");
    return 2;
}

/* The row of that name in the table with that head, ALL_ROWS where there is none. */
static int find_row(const char *head, const char *name)
{
    for (int t = 0; t < TABLES; t++)
        if (strcmp(tables[t].head, head) == 0) {
            int end = t + 1 < TABLES ? tables[t + 1].first : ALL_ROWS;
            for (int row = tables[t].first; row < end; row++)
                if (strcmp(row_name(row), name) == 0)
                    return row;
        }
    return ALL_ROWS;
}

static int call_often(char **words)
{
    int program = 0, row = find_row(words[1], words[2]), calls = atoi(words[3]);
    while (program < PROGRAMS && strcmp(words[0], programs[program].name) != 0)
        program++;
    if (program == PROGRAMS || row == ALL_ROWS)
        return usage();
    for (int i = 0; i < calls; i++)
        call(program, row);
    return 0;
}

int main(int count, char **words)
{
    write_texts();
    for (int p = 0; p < PROGRAMS; p++)
        check_answers(p);
    if (count == 2 && strcmp(words[1], "check") == 0)
        return 0;
    if (count >= 2 && strcmp(words[1], "time") == 0) {
        int rounds = count > 2 ? atoi(words[2]) : 31;
        if (rounds < 1 || rounds > 101)
            return usage();
        for (int t = 0; t < TABLES; t++)
            time_rows(t == 0 ? "ns" : tables[t].head, tables[t].first, tables[t].end, rounds);
        return 0;
    }
    if (count == 2 && strcmp(words[1], "stack") == 0) {
        for (int t = 0; t < TABLES; t++)
            measure_stack(t == 0 ? "stack" : tables[t].head, tables[t].first, tables[t].end);
        return 0;
    }
    return count == 6 && strcmp(words[1], "call") == 0 ? call_often(words + 2) : usage();
}
