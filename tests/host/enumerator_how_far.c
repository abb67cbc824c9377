/* The enumerator's count of received letters, from a window's first on, that some run puts out: by
   trying runs letter by letter, and by every run outright. */
#include "enumerator.h"

/* ---- by trying ---- */

/* The furthest place that a run with these outputs comes to, in this state at this place. Of letters
   that lead to one state the first is tried alone. */
static size_t furthest_place(const coder *c, const uint8_t *received, size_t n, size_t state,
                             size_t place)
{
    size_t furthest = place, i;
    unsigned tried = 0;

    if (place == n || !take_step())
        return place;
    for (i = 0; i < c->inputs && furthest < n; i++) {
        size_t next = next_state(c, state, i), end;

        if (output_letter(c, state, i) != received[place] || tried >> next & 1)
            continue;
        tried |= 1u << next;
        end = furthest_place(c, received, n, next, place + 1);
        if (end > furthest)
            furthest = end;
    }
    return furthest;
}

size_t possible_letters(const coder *c, const uint8_t *received, size_t n)
{
    size_t possible = 0, k;

    for (k = 0; k < c->starts.count; k++) {
        size_t end = furthest_place(c, received, n, c->starts.state[k], 0);

        if (end > possible)
            possible = end;
    }
    return possible;
}

/* ---- outright ---- */

/* Run number r: how many of its outputs in the window, from the first on, are the received ones. */
static size_t agreeing_letters(const coder *c, size_t r, const uint8_t *received, size_t n)
{
    size_t state = c->reachable.state[r % c->reachable.count], k;

    r /= c->reachable.count;
    for (k = 0; k < c->settle; k++, r /= c->inputs)
        state = next_state(c, state, r % c->inputs);
    for (k = 0; k < n; k++, r /= c->inputs) {
        if (output_letter(c, state, r % c->inputs) != received[k])
            return k;
        state = next_state(c, state, r % c->inputs);
    }
    return n;
}

int possible_outright(const coder *c, const uint8_t *received, size_t n, size_t most,
                      size_t *possible)
{
    size_t runs = c->reachable.count, r, k;

    for (k = 0; k < c->settle + n; k++) {
        runs *= c->inputs;
        if (runs > most)
            return 0;
    }
    *possible = 0;
    for (r = 0; r < runs; r++) {
        k = agreeing_letters(c, r, received, n);
        if (k > *possible)
            *possible = k;
    }
    return 1;
}
