/* The two orders of windows, and the first window that works in each, by enumeration. */
#ifndef ORDERS_H
#define ORDERS_H

#include "enumerator.h"

/* Least lookahead, then fewest letters before; fewest letters in all, then least lookahead. */
enum order { LEAST_LOOKAHEAD, FEWEST_LETTERS, ORDERS };

/* The first window that works in an order. works: NO where no window up to the bound a side does;
   UNKNOWN where the allowance did not suffice for a window that stands before all that work. */
typedef struct least {
    enum answer works;
    size_t before, after;
} least;

/* The first window with the coder's settle count that works in each order; sides up to
   N (N + 1) / 2 are tried. */
void least_windows(const coder *c, least in_order[ORDERS]);

#endif
