/* The enumerator's first looped pair, from its definition: pairs are tried one after the other in
   the order of comparison, and the first valid one is taken.

   Letters are given up only where the pair cannot be valid any more: the outputs differ, the
   letters at the differing place are equal, the back loop does not end in (s, t), or the forward
   loop does not end in the two states where it began. */
#include "enumerator.h"

#include <string.h>

typedef struct trial {
    const coder *c;
    pair p;
    size_t letters, marked, loop_begins, begin[2];
    uint8_t bytes[SEARCH_BYTES];
    int (*take)(const pair *p, void *to);
    void *to;
} trial;

static int try_letters(trial *r, size_t k, size_t u, size_t v);

/* One letter for each run at place k, then the letters after it. */
static int try_letter(trial *r, size_t k, size_t u, size_t v, size_t i, size_t j)
{
    if (output_letter(r->c, u, i) != output_letter(r->c, v, j) || (k == r->marked && i == j))
        return 0;
    r->bytes[2 * k] = (uint8_t)i;
    r->bytes[2 * k + 1] = (uint8_t)j;
    return try_letters(r, k + 1, next_state(r->c, u, i), next_state(r->c, v, j));
}

/* All letters from place k on, the two runs being in u and v. Returns whether a pair was taken. */
static int try_letters(trial *r, size_t k, size_t u, size_t v)
{
    size_t i, j;

    if (!take_step())
        return 0;
    if (k == r->p.back_loop && (u != r->p.s || v != r->p.t))
        return 0;
    if (k == r->loop_begins) {
        r->begin[0] = u;
        r->begin[1] = v;
    }
    if (k == r->letters)
        return u == r->begin[0] && v == r->begin[1] && r->take(&r->p, r->to);
    for (i = 0; i < r->c->inputs; i++)
        for (j = 0; j < r->c->inputs; j++)
            if (try_letter(r, k, u, v, i, j))
                return 1;
    return 0;
}

/* All letters for the start states and lengths. */
static int try_pair(trial *r)
{
    r->marked = r->p.back_loop + r->p.lead_in;
    r->loop_begins = r->marked + 1 + r->p.lead_out;
    return try_letters(r, 0, r->p.s, r->p.t);
}

/* All lengths that make up the letters, both loops with at least one. */
static int try_lengths(trial *r)
{
    pair *p = &r->p;
    size_t rest = r->letters - 1;

    for (p->back_loop = 1; p->back_loop < rest; p->back_loop++)
        for (p->lead_in = 0; p->back_loop + p->lead_in < rest; p->lead_in++)
            for (p->lead_out = 0; p->back_loop + p->lead_in + p->lead_out < rest; p->lead_out++) {
                p->forward_loop = rest - p->back_loop - p->lead_in - p->lead_out;
                if (try_pair(r))
                    return 1;
            }
    return 0;
}

int each_valid_pair(const coder *c, size_t letters, int (*take)(const pair *p, void *to), void *to)
{
    trial r;
    size_t k;

    r.c = c;
    r.letters = letters;
    r.p.letters = r.bytes;
    r.take = take;
    r.to = to;
    for (k = 0; k < c->reachable.count * c->reachable.count; k++) {
        r.p.s = c->reachable.state[k / c->reachable.count];
        r.p.t = c->reachable.state[k % c->reachable.count];
        if (try_lengths(&r))
            return 1;
    }
    return 0;
}

static int take_first(const pair *p, void *to)
{
    first_pair *f = to;

    f->exists = YES;
    f->pair = *p;
    f->pair.letters = f->bytes;
    memcpy(f->bytes, p->letters, 2 * pair_letters(p));
    return 1;
}

void first_by_trying(const coder *c, first_pair *f)
{
    size_t letters;

    f->exists = UNKNOWN;
    for (letters = 3; letters <= MOST_PAIR && !steps_used_up(); letters++)
        if (each_valid_pair(c, letters, take_first, f))
            return;
}
