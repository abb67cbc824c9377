/* Guarded buffers, each in its own mapping. */
#define _DEFAULT_SOURCE
#include "lent.h"

#include <stdio.h>
#include <stdlib.h>
#include <string.h>
#include <sys/mman.h>
#include <unistd.h>

static uint8_t pattern[LENT_ROOM + LENT_SEEDS];

static void make_pattern(void)
{
    uint32_t x = 1;
    size_t k;

    for (k = 0; k < sizeof pattern; k++) {
        x = x * 1664525u + 1013904223u;
        pattern[k] = (uint8_t)(x >> 24);
    }
}

void lent_open(lent *b)
{
    size_t page = (size_t)sysconf(_SC_PAGESIZE);
    size_t room = (LENT_ROOM + LENT_GUARD + page - 1) / page * page;
    uint8_t *map = mmap(NULL, room + page, PROT_READ | PROT_WRITE, MAP_PRIVATE | MAP_ANONYMOUS,
                        -1, 0);

    if (map == MAP_FAILED || mprotect(map + room, page, PROT_NONE) != 0) {
        fprintf(stderr, "no memory for the guarded buffers\n");
        exit(1);
    }
    b->end = map + room;
    if (pattern[0] == 0)
        make_pattern();
}

const uint8_t *lent_pattern(size_t seed)
{
    return pattern + seed % LENT_SEEDS;
}

static uint8_t *place(lent *b, const uint8_t *bytes, size_t len)
{
    uint8_t *begin = b->end - len;

    memcpy(begin - LENT_GUARD, pattern, LENT_GUARD);
    if (len > 0)
        memcpy(begin, bytes, len);
    return begin;
}

uint8_t *lent_fill(lent *b, size_t len, size_t seed)
{
    return place(b, lent_pattern(seed), len);
}

uint8_t *lent_copy(lent *b, const uint8_t *bytes, size_t len)
{
    return place(b, bytes, len);
}

int lent_guard_kept(const lent *b, size_t len)
{
    return memcmp(b->end - len - LENT_GUARD, pattern, LENT_GUARD) == 0;
}
