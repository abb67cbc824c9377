/* Guarded buffers: each ends at a page without access and has guard bytes in front. */
#ifndef LENT_H
#define LENT_H

#include <stddef.h>
#include <stdint.h>

enum { LENT_ROOM = 81920, LENT_GUARD = 64, LENT_SEEDS = 256 };

typedef struct lent {
    uint8_t *end;
} lent;

/* Maps the buffer's room; ends the program where it cannot. */
void lent_open(lent *b);

/* LENT_ROOM bytes of the pattern with this seed. */
const uint8_t *lent_pattern(size_t seed);

/* A buffer of len bytes, filled with the pattern or with the given bytes. */
uint8_t *lent_fill(lent *b, size_t len, size_t seed);
uint8_t *lent_copy(lent *b, const uint8_t *bytes, size_t len);

/* Whether the guard bytes in front of a buffer of len bytes are as they were. */
int lent_guard_kept(const lent *b, size_t len);

#endif
