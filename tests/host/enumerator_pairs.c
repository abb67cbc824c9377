/* The enumerator's looped pairs: two runs followed in step, letter by letter. */
#include "enumerator.h"

static size_t marked_place(const pair *p)
{
    return p->back_loop + p->lead_in;
}

size_t pair_letters(const pair *p)
{
    return p->back_loop + p->lead_in + 1 + p->lead_out + p->forward_loop;
}

/* Follows both runs over n letters from place k on; returns whether the outputs are equal. */
static int follow_both(const coder *c, const pair *p, size_t k, size_t n, size_t state[2])
{
    int equal = 1;

    for (; n > 0; n--, k++) {
        size_t i = p->letters[2 * k], j = p->letters[2 * k + 1];

        if (output_letter(c, state[0], i) != output_letter(c, state[1], j))
            equal = 0;
        state[0] = next_state(c, state[0], i);
        state[1] = next_state(c, state[1], j);
    }
    return equal;
}

int pair_valid(const coder *c, const pair *p)
{
    size_t marked = marked_place(p), state[2], begin[2];

    if (!in_list(&c->reachable, p->s) || !in_list(&c->reachable, p->t))
        return 0;
    if (p->back_loop == 0 || p->forward_loop == 0)
        return 0;
    if (p->letters[2 * marked] == p->letters[2 * marked + 1])
        return 0;
    state[0] = p->s;
    state[1] = p->t;
    if (!follow_both(c, p, 0, p->back_loop, state))
        return 0;
    if (state[0] != p->s || state[1] != p->t)
        return 0;
    if (!follow_both(c, p, p->back_loop, p->lead_in + 1 + p->lead_out, state))
        return 0;
    begin[0] = state[0];
    begin[1] = state[1];
    if (!follow_both(c, p, marked + 1 + p->lead_out, p->forward_loop, state))
        return 0;
    return state[0] == begin[0] && state[1] == begin[1];
}

int pair_keeps_bounds(const coder *c, const pair *p)
{
    size_t bound = c->states * c->states;

    return p->back_loop <= bound && p->lead_in <= bound && p->lead_out <= bound
        && p->forward_loop <= bound && p->back_loop + p->lead_in <= bound
        && p->lead_out + p->forward_loop <= bound;
}

int turned_pair_confuses(const coder *c, const pair *p, size_t back, size_t forward)
{
    size_t marked = marked_place(p), state[2];

    state[0] = p->s;
    state[1] = p->t;
    for (; back > 0; back--)
        if (!follow_both(c, p, 0, p->back_loop, state))
            return 0;
    if (!follow_both(c, p, p->back_loop, p->lead_in, state))
        return 0;
    if (p->letters[2 * marked] == p->letters[2 * marked + 1])
        return 0;
    if (!follow_both(c, p, marked, 1 + p->lead_out, state))
        return 0;
    for (; forward > 0; forward--)
        if (!follow_both(c, p, marked + 1 + p->lead_out, p->forward_loop, state))
            return 0;
    return 1;
}

/* The place in the pair's letters of the letter that lies k places before the marked one. */
static size_t place_before(const pair *p, size_t k)
{
    if (k <= p->lead_in)
        return marked_place(p) - k;
    return p->back_loop - 1 - (k - p->lead_in - 1) % p->back_loop;
}

/* The same for k places after it. */
static size_t place_after(const pair *p, size_t k)
{
    if (k <= p->lead_out)
        return marked_place(p) + k;
    return marked_place(p) + 1 + p->lead_out + (k - p->lead_out - 1) % p->forward_loop;
}

/* The start of the cut: from s and t, through the letters of the back loop or lead-in before it. */
static void start_of_cut(const coder *c, const pair *p, size_t place, size_t state[2])
{
    state[0] = p->s;
    state[1] = p->t;
    follow_both(c, p, 0, place, state);
}

int pair_refutes_window(const coder *c, const pair *p, size_t before, size_t after)
{
    size_t marked = marked_place(p), state[2], k;

    if (p->letters[2 * marked] == p->letters[2 * marked + 1])
        return 0;
    start_of_cut(c, p, place_before(p, c->settle + before), state);
    for (k = c->settle + before; k > 0; k--)
        if (!follow_both(c, p, place_before(p, k), 1, state))
            return 0;
    if (!follow_both(c, p, marked, 1, state))
        return 0;
    for (k = 1; k <= after; k++)
        if (!follow_both(c, p, place_after(p, k), 1, state))
            return 0;
    return 1;
}
