/* Memory that ends where no page is: a read or write past it stops the program at once, whatever
 * language the library was compiled from. Beside it memory of exactly the right size, for the sanitizers
 * and valgrind. Needs _DEFAULT_SOURCE. */
#ifndef GUARDED_H
#define GUARDED_H

#include <stdint.h>
#include <stdio.h>
#include <stdlib.h>
#include <string.h>
#include <sys/mman.h>
#include <unistd.h>

/* Room for at most `size` bytes with a closed page before and after; kept until the program ends. */
typedef struct {
    uint8_t *start;
    size_t size;
} guarded;

static inline guarded guarded_make(size_t size)
{
    size_t page = (size_t)sysconf(_SC_PAGESIZE);
    size = (size + page - 1) / page * page;
    uint8_t *base = mmap(NULL, size + 2 * page, PROT_NONE, MAP_PRIVATE | MAP_ANONYMOUS, -1, 0);
    if (base == MAP_FAILED || mprotect(base + page, size, PROT_READ | PROT_WRITE) != 0) {
        perror("guarded memory");
        exit(2);
    }
    return (guarded){ base + page, size };
}

/* The place for `size` bytes that end with the room. */
static inline void *guarded_end(guarded room, size_t size)
{
    if (size > room.size) {
        fprintf(stderr, "guarded memory too small\n");
        exit(2);
    }
    return room.start + (room.size - size);
}

/* A copy of some bytes that ends with the room. */
static inline uint8_t *guarded_copy(guarded room, const void *bytes, size_t size)
{
    uint8_t *copy = guarded_end(room, size);
    if (size > 0)
        memcpy(copy, bytes, size);
    return copy;
}

/* A copy of some bytes on the heap, for free. */
static inline uint8_t *heap_copy(const void *bytes, size_t size)
{
    uint8_t *copy = malloc(size > 0 ? size : 1);
    if (copy == NULL)
        exit(2);
    if (size > 0)
        memcpy(copy, bytes, size);
    return copy;
}

#endif
