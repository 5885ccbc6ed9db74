/* One function in two threads that begin at the same time. Needs _DEFAULT_SOURCE. */
#ifndef THREADS_H
#define THREADS_H

#include <pthread.h>
#include <stdlib.h>

/* What each thread is handed: which of the two it is, 0 or 1, and where it counts what went wrong. */
typedef struct asker {
    int number, failures;
    void (*ask)(struct asker *);
    pthread_barrier_t *start;
} asker;

static inline void *asker_run(void *self)
{
    asker *of = self;
    pthread_barrier_wait(of->start);
    of->ask(of);
    return NULL;
}

/* The failures of both. */
static inline int failures_of_two(void (*ask)(asker *))
{
    pthread_t threads[2];
    pthread_barrier_t start;
    asker askers[2] = { { 0, 0, ask, &start }, { 1, 0, ask, &start } };
    pthread_barrier_init(&start, NULL, 2);
    for (int i = 0; i < 2; i++)
        if (pthread_create(&threads[i], NULL, asker_run, &askers[i]) != 0)
            exit(2);
    for (int i = 0; i < 2; i++)
        pthread_join(threads[i], NULL);
    pthread_barrier_destroy(&start);
    return askers[0].failures + askers[1].failures;
}

#endif
