/* The enumerator's kinds of letter (document 02, 8/13): whether kinds can be told, the carried kinds,
   the first window that tells what is to be told, and what a received window gives. */
#include "enumerator.h"

#include <string.h>

/* ---- the search ---- */

/* The pairs of different letters of one kind that is in the set and, if asked for, of letters of
   different kinds. */
static letter_pairs pairs_apart(const coder *c, const uint8_t *kinds, size_t set, int across)
{
    letter_pairs p;
    size_t i, j;

    memset(&p, 0, sizeof p);
    for (i = 0; i < c->inputs; i++)
        for (j = 0; j < c->inputs; j++)
            if (kinds[i] == kinds[j] ? i != j && set >> kinds[i] & 1 : across)
                p.with[i] |= (uint16_t)(1u << j);
    return p;
}

letter_pairs pairs_of_kinds(const coder *c, const uint8_t *kinds, size_t carried)
{
    return pairs_apart(c, kinds, carried, 1);
}

letter_pairs pairs_within(const coder *c, const uint8_t *kinds, size_t kind)
{
    return pairs_apart(c, kinds, (size_t)1 << kind, 0);
}

/* Each kind below I by itself: a window of some size tells its letters apart. Where it has none, or
   one, there is nothing to tell. */
static size_t carried_kinds(const coder *c, const uint8_t *kinds)
{
    size_t carried = 0, kind;

    for (kind = 0; kind < c->inputs; kind++) {
        letter_pairs p = pairs_within(c, kinds, kind);

        if (!pairs_meet(&p, never_apart(c)))
            carried |= (size_t)1 << kind;
    }
    return carried;
}

/* Windows are tried in the order of least lookahead. That none up to the bound tells these pairs
   apart is a fault here or in the requirement; the sides are then ones that no search gives. */
static void first_window(const coder *c, const letter_pairs *pairs, kinds_verdict *v)
{
    size_t side = side_bound(c);

    for (v->after = 0; v->after <= side; v->after++)
        for (v->before = 0; v->before <= side; v->before++)
            if (window_tells(c, pairs, v->before, v->after))
                return;
    v->before = v->after = SIZE_MAX;
}

kinds_verdict search_kinds(const coder *c, const uint8_t *kinds)
{
    kinds_verdict v = {0, 0, 0, 0};
    letter_pairs pairs = pairs_of_kinds(c, kinds, 0);

    if (pairs_meet(&pairs, never_apart(c)))
        return v;
    v.told = 1;
    v.carried = carried_kinds(c, kinds);
    pairs = pairs_of_kinds(c, kinds, v.carried);
    first_window(c, &pairs, &v);
    return v;
}

/* ---- the decoder ---- */

static int of_one_kind(const uint8_t *kinds, const uint8_t *letters, size_t count)
{
    size_t k;

    for (k = 1; k < count; k++)
        if (kinds[letters[k]] != kinds[letters[0]])
            return 0;
    return 1;
}

size_t window_kinds(const coder *c, const uint8_t *kinds, size_t before, size_t after,
                    const uint8_t *received, size_t *number)
{
    uint8_t letters[MOST_INPUTS];
    size_t fitting = fitting_letters(c, before, after, received, letters);

    *number = 0;
    if (fitting == 0)
        return KINDS_NONE;
    if (fitting == 1) {
        *number = letters[0];
        return KINDS_LETTER;
    }
    if (!of_one_kind(kinds, letters, fitting))
        return KINDS_SEVERAL;
    *number = kinds[letters[0]];
    return KINDS_KIND;
}
