/* A small test framework: each check is counted, a failed one is printed with its place. */
#ifndef CHECK_H
#define CHECK_H

#include <stdbool.h>
#include <stdio.h>

static unsigned check_count, check_failures;

static inline bool check_at(bool passed, const char *words, const char *about, int line)
{
    check_count++;
    if (!passed) {
        check_failures++;
        printf("failed, line %d: %s (%s)\n", line, words, about);
    }
    return passed;
}

/* `about` says which case it was. */
#define CHECK(condition, about) check_at((condition), #condition, (about), __LINE__)

#define COUNT(array) (sizeof(array) / sizeof *(array))

static inline int check_report(const char *title)
{
    printf("%s: %u checks, %u failed\n", title, check_count, check_failures);
    return check_failures == 0 ? 0 : 1;
}

#endif
