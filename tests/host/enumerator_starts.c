/* The enumerator's states: the reachable ones, and those in which a window's run is at the window's
   first letter. Each of the two sets is found in two ways: by every string of input letters, and by
   following entries from the states found so far. */
#include "enumerator.h"

#include <string.h>

/* The strings from one state that are tried outright whenever start states are asked for. */
enum { FEW_STRINGS = 64 };

int in_list(const state_list *l, size_t state)
{
    size_t k;

    for (k = 0; k < l->count; k++)
        if (l->state[k] == state)
            return 1;
    return 0;
}

static void list_marked(const uint8_t *marked, state_list *l)
{
    size_t s;

    l->count = 0;
    for (s = 0; s < MOST_STATES; s++)
        if (marked[s])
            l->state[l->count++] = s;
}

/* ---- every string ---- */

/* Marks where every string of exactly n letters, as a number to base I, ends from a state. */
static void try_every_string(const coder *c, size_t from, size_t n, size_t strings, uint8_t *marked)
{
    size_t r, k;

    for (r = 0; r < strings; r++) {
        size_t state = from, rest = r;

        for (k = 0; k < n; k++, rest /= c->inputs)
            state = next_state(c, state, rest % c->inputs);
        marked[state] = 1;
    }
}

int reached_by_strings(const coder *c, size_t letters, size_t most, uint8_t *reached)
{
    size_t strings = 1, n;

    memset(reached, 0, MOST_STATES);
    for (n = 0; n <= letters; n++, strings *= c->inputs) {
        if (strings > most)
            return 0;
        try_every_string(c, 0, n, strings, reached);
    }
    return 1;
}

int ended_by_strings(const coder *c, size_t letters, size_t most, uint8_t *ended)
{
    size_t strings = 1, k;

    memset(ended, 0, MOST_STATES);
    for (k = 0; k < letters; k++) {
        strings *= c->inputs;
        if (strings > most)
            return 0;
    }
    for (k = 0; k < c->reachable.count; k++)
        try_every_string(c, c->reachable.state[k], letters, strings, ended);
    return 1;
}

/* ---- entries followed ---- */

/* Tries all strings that go on from one that has come into this state. A string is given up where
   another one has come into the same state before: it would reach nothing new. */
static void try_strings(const coder *c, size_t state, uint8_t *reached)
{
    size_t i;

    if (reached[state])
        return;
    reached[state] = 1;
    for (i = 0; i < c->inputs; i++)
        try_strings(c, next_state(c, state, i), reached);
}

void list_reachable(coder *c)
{
    uint8_t reached[MOST_STATES] = {0};

    try_strings(c, 0, reached);
    list_marked(reached, &c->reachable);
}

/* Marks the states to which one letter leads from marked ones. */
static void one_letter_on(const coder *c, const uint8_t *from, uint8_t *to)
{
    size_t s, i;

    memset(to, 0, MOST_STATES);
    for (s = 0; s < c->states; s++)
        for (i = 0; i < c->inputs && from[s]; i++)
            to[next_state(c, s, i)] = 1;
}

/* Every one of the letters is followed, also where the states stay the same. */
void ended_by_letters(const coder *c, size_t letters, uint8_t *ended)
{
    uint8_t earlier[MOST_STATES];
    size_t k;

    memset(ended, 0, MOST_STATES);
    for (k = 0; k < c->reachable.count; k++)
        ended[c->reachable.state[k]] = 1;
    for (k = 0; k < letters; k++) {
        memcpy(earlier, ended, MOST_STATES);
        one_letter_on(c, earlier, ended);
    }
}

void list_starts(coder *c, size_t settle)
{
    uint8_t ended[MOST_STATES];

    if (!ended_by_strings(c, settle, FEW_STRINGS, ended))
        ended_by_letters(c, settle, ended);
    c->settle = settle;
    list_marked(ended, &c->starts);
}
