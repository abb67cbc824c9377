/* The enumerator's windows: which windows work, judged in two ways, by all runs grouped by output
   string and by all pairs of runs; and what a received window decodes to. */
#include "enumerator.h"

#include <string.h>

/* ---- the allowance ---- */

static long steps_left;

void allow_steps(long steps)
{
    steps_left = steps;
}

int steps_used_up(void)
{
    return steps_left <= 0;
}

int take_step(void)
{
    if (steps_left <= 0)
        return 0;
    steps_left--;
    return 1;
}

/* ---- all runs, grouped by output string ---- */

/* MOST_OUTRIGHT: runs with the letters ahead of the window, of one length of window. */
enum { MOST_WORDS = 1 << 17, MOST_OUTRIGHT = 4096 };

/* n-th power, or 0 above the limit. */
static size_t limited_power(size_t base, size_t n, size_t limit)
{
    size_t power = 1;

    for (; n > 0; n--) {
        power *= base;
        if (power > limit)
            return 0;
    }
    return power;
}

/* The runs of a window: from which states, and how many letters ahead of the window they begin. */
typedef struct origin {
    const state_list *from;
    size_t ahead;
} origin;

/* In a reachable state, and so many letters ahead as the settle count says, where there are at most
   so many runs; else in a start state at the window's first letter. */
static origin origin_of(const coder *c, size_t n, size_t most)
{
    origin o = {&c->reachable, c->settle};

    if (limited_power(c->inputs, c->settle + n, most / c->reachable.count) == 0) {
        o.from = &c->starts;
        o.ahead = 0;
    }
    return o;
}

/* Run number r: its n letters in the window, and its output string there as a number to base O. */
static size_t numbered_run(const coder *c, const origin *o, size_t r, size_t n, uint8_t *letters)
{
    size_t state = o->from->state[r % o->from->count], word = 0, k;

    r /= o->from->count;
    for (k = 0; k < o->ahead; k++, r /= c->inputs)
        state = next_state(c, state, r % c->inputs);
    for (k = 0; k < n; k++) {
        letters[k] = (uint8_t)(r % c->inputs);
        r /= c->inputs;
        word = word * c->outputs + output_letter(c, state, letters[k]);
        state = next_state(c, state, letters[k]);
    }
    return word;
}

/* Marks the places where two runs of one group differ; returns how many places are newly marked. */
static size_t mark_differences(const uint8_t *one, const uint8_t *other, size_t n, uint8_t *fails)
{
    size_t fresh = 0, k;

    for (k = 0; k < n; k++)
        if (one[k] != other[k] && !fails[k]) {
            fails[k] = 1;
            fresh++;
        }
    return fresh;
}

/* Each run is compared with the first of its group: if two runs of a group differ at a place, one
   of them differs there from the first. The runs are taken in scattered order (the step is prime
   and above 16, so every run comes once), which shows differences early; the rest is left out once
   every place is marked. */
int fails_by_groups(const coder *c, size_t n, size_t most, uint8_t *fails)
{
    static uint32_t first[MOST_WORDS];
    const size_t step = 1000003;
    const origin o = origin_of(c, n, MOST_OUTRIGHT);
    size_t inputs = limited_power(c->inputs, o.ahead + n, most);
    size_t words = limited_power(c->outputs, n, MOST_WORDS);
    size_t runs = inputs * o.from->count, marked = 0, r = 0, k;
    uint8_t letters[64], earlier[64];

    memset(fails, 0, n);
    if (n > sizeof letters || inputs == 0 || words == 0 || runs > most)
        return 0;
    memset(first, 0, words * sizeof *first);
    for (k = 0; k < runs && marked < n; k++) {
        size_t word = numbered_run(c, &o, r, n, letters);

        if (first[word] == 0) {
            first[word] = (uint32_t)(r + 1);
        } else {
            numbered_run(c, &o, first[word] - 1, n, earlier);
            marked += mark_differences(letters, earlier, n, fails);
        }
        r = (r + step) % runs;
    }
    return 1;
}

/* ---- all pairs of runs ---- */

/* The pairs of states already tried at one step: other letters to the same two states give nothing
   new there. */
typedef struct tried {
    uint16_t second[MOST_STATES];
} tried;

static int first_time(tried *d, size_t s, size_t t)
{
    if (d->second[s] >> t & 1)
        return 0;
    d->second[s] |= (uint16_t)(1u << t);
    return 1;
}

static void add_entry(entry_ends *e, size_t state, size_t other, size_t output)
{
    size_t k = e->count[state]++;

    e->other[state][k] = (uint8_t)other;
    e->output[state][k] = (uint8_t)output;
}

void list_entries(const coder *c, entry_ends *out, entry_ends *in)
{
    size_t k, i;

    memset(out->count, 0, sizeof out->count);
    memset(in->count, 0, sizeof in->count);
    for (k = 0; k < c->reachable.count; k++) {
        size_t s = c->reachable.state[k];

        out->last[s] = 1;
        in->last[s] = (uint8_t)in_list(&c->starts, s);
        for (i = 0; i < c->inputs; i++) {
            add_entry(out, s, next_state(c, s, i), output_letter(c, s, i));
            add_entry(in, next_state(c, s, i), s, output_letter(c, s, i));
        }
    }
}

/* Whether two runs of n letters out of these states, or into them, have equal outputs. */
static int two_runs(const entry_ends *e, size_t s, size_t t, size_t n)
{
    tried done = {{0}};
    size_t i, j;

    if (n == 0)
        return e->last[s] && e->last[t];
    if (!take_step())
        return 0;
    for (i = 0; i < e->count[s]; i++)
        for (j = 0; j < e->count[t]; j++)
            if (e->output[s][i] == e->output[t][j]
                && first_time(&done, e->other[s][i], e->other[t][j])
                && two_runs(e, e->other[s][i], e->other[t][j], n - 1))
                return 1;
    return 0;
}

/* Whether two runs have equal outputs that read these letters in these states at the present
   place. */
static int runs_around(const coder *c, const entry_ends *out, const entry_ends *in, size_t before,
                       size_t after, const size_t from[2], const size_t by[2])
{
    return output_letter(c, from[0], by[0]) == output_letter(c, from[1], by[1])
        && two_runs(out, next_state(c, from[0], by[0]), next_state(c, from[1], by[1]), after)
        && two_runs(in, from[0], from[1], before);
}

/* Every pair of runs is a pair of runs into the present place, two letters there and a pair of runs
   out of it; pairs are given up where their outputs differ. Which run is called first does not
   matter, so the first has the smaller letter. */
enum answer works_by_pairs(const coder *c, size_t before, size_t after)
{
    static entry_ends out, in;
    const state_list *of = &c->reachable;
    size_t from[2], by[2], k;

    list_entries(c, &out, &in);
    for (k = 0; k < of->count * of->count; k++) {
        from[0] = of->state[k / of->count];
        from[1] = of->state[k % of->count];
        for (by[1] = 1; by[1] < c->inputs; by[1]++)
            for (by[0] = 0; by[0] < by[1]; by[0]++) {
                if (runs_around(c, &out, &in, before, after, from, by))
                    return NO;
                if (steps_used_up())
                    return UNKNOWN;
            }
    }
    return YES;
}

/* ---- decoding ---- */

typedef struct request {
    const coder *c;
    const uint8_t *received;
    size_t letters, marked, letter;
} request;

/* Whether a run from this state has the rest of the outputs and the letter at the marked place. */
static int run_matches(const request *q, size_t state, size_t place)
{
    tried done = {{0}};
    size_t i;

    if (place == q->letters)
        return 1;
    if (!take_step())
        return 0;
    for (i = 0; i < q->c->inputs; i++) {
        if (place == q->marked && i != q->letter)
            continue;
        if (output_letter(q->c, state, i) == q->received[place]
            && first_time(&done, next_state(q->c, state, i), 0)
            && run_matches(q, next_state(q->c, state, i), place + 1))
            return 1;
    }
    return 0;
}

static enum answer letter_fits(const coder *c, size_t before, size_t after, const uint8_t *received,
                               size_t letter)
{
    request q;
    size_t k;

    q.c = c;
    q.received = received;
    q.letters = before + 1 + after;
    q.marked = before;
    q.letter = letter;
    for (k = 0; k < c->starts.count; k++)
        if (run_matches(&q, c->starts.state[k], 0))
            return YES;
    return steps_used_up() ? UNKNOWN : NO;
}

size_t fitting_letters(const coder *c, size_t before, size_t after, const uint8_t *received,
                       uint8_t letters[MOST_INPUTS])
{
    size_t fitting = 0, x;

    for (x = 0; x < c->inputs; x++)
        if (letter_fits(c, before, after, received, x) == YES)
            letters[fitting++] = (uint8_t)x;
    return fitting;
}

uint8_t window_byte(const coder *c, size_t before, size_t after, const uint8_t *received)
{
    uint8_t letters[MOST_INPUTS];
    size_t fitting = fitting_letters(c, before, after, received, letters);

    if (fitting == 0)
        return BYTE_NONE;
    return fitting == 1 ? letters[0] : BYTE_SEVERAL;
}
