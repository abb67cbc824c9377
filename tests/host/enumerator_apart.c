/* Which input letters a window tells apart (document 02, 8/13), judged in two ways, by all runs
   grouped by output string and by following pairs of runs; and which no window of any size does, by a
   transitive closure over pairs of states. What is found of one coder is kept until another comes.
   All windows here have settle count 0: their runs start in reachable states. */
#include "enumerator.h"

#include <string.h>

int pairs_meet(const letter_pairs *one, const letter_pairs *other)
{
    size_t i;

    for (i = 0; i < MOST_INPUTS; i++)
        if (one->with[i] & other->with[i])
            return 1;
    return 0;
}

static void add_pair(letter_pairs *p, size_t i, size_t j)
{
    p->with[i] |= (uint16_t)(1u << j);
    p->with[j] |= (uint16_t)(1u << i);
}

/* ---- all runs, grouped by output string ---- */

/* The runs of one length, and its output strings times its letters, that are not too many. */
enum { MOST_RUNS_GROUPED = 5000, MOST_MARKS = 1 << 18 };

/* The letters that the runs with one output string have at each place; the string is a number to
   base O. */
typedef struct grouping {
    const coder *c;
    size_t n;
    uint8_t letters[MOST_GROUPED];
    uint16_t at[MOST_MARKS];
} grouping;

static void mark_runs(grouping *g, size_t state, size_t place, size_t word)
{
    const coder *c = g->c;
    size_t i, k;

    if (place == g->n) {
        for (k = 0; k < g->n; k++)
            g->at[word * g->n + k] |= (uint16_t)(1u << g->letters[k]);
        return;
    }
    for (i = 0; i < c->inputs; i++) {
        g->letters[place] = (uint8_t)i;
        mark_runs(g, next_state(c, state, i), place + 1,
                  word * c->outputs + output_letter(c, state, i));
    }
}

/* Adds all pairs of letters that one group has at one place. */
static void add_group(letter_pairs *p, unsigned letters)
{
    size_t i;

    for (i = 0; i < MOST_INPUTS; i++)
        if (letters >> i & 1)
            p->with[i] |= (uint16_t)(letters & ~(1u << i));
}

int confused_by_groups(const coder *c, size_t n, letter_pairs confused[MOST_GROUPED])
{
    static grouping g;
    size_t runs = c->reachable.count, words = 1, k;

    for (k = 0; k < n && k < MOST_GROUPED; k++) {
        runs *= c->inputs;
        words *= c->outputs;
        if (runs > MOST_RUNS_GROUPED || words * n > MOST_MARKS)
            return 0;
    }
    if (n > MOST_GROUPED)
        return 0;
    g.c = c;
    g.n = n;
    memset(g.at, 0, words * n * sizeof *g.at);
    memset(confused, 0, n * sizeof *confused);
    for (k = 0; k < c->reachable.count; k++)
        mark_runs(&g, c->reachable.state[k], 0, 0);
    for (k = 0; k < words * n; k++)
        if (g.at[k] & (g.at[k] - 1))
            add_group(&confused[k % n], g.at[k]);
    return 1;
}

/* ---- pairs of runs followed ---- */

/* For so many letters and two states, whether two runs of so many letters out of them, or into them,
   have equal outputs: NO and YES are kept, one more than them. */
typedef struct followed {
    entry_ends entries;
    uint8_t known[MOST_SIDE + 1][MOST_STATES][MOST_STATES];
} followed;

static kept_coder followed_coder;
static followed out, in;

static void forget_followed(const coder *c)
{
    if (!another_coder(&followed_coder, c))
        return;
    list_entries(c, &out.entries, &in.entries);
    memset(out.known, 0, sizeof out.known);
    memset(in.known, 0, sizeof in.known);
}

static int runs_follow(followed *f, size_t s, size_t t, size_t n);

static int try_entries(followed *f, size_t s, size_t t, size_t n)
{
    const entry_ends *e = &f->entries;
    size_t i, j;

    for (i = 0; i < e->count[s]; i++)
        for (j = 0; j < e->count[t]; j++)
            if (e->output[s][i] == e->output[t][j]
                && runs_follow(f, e->other[s][i], e->other[t][j], n - 1))
                return 1;
    return 0;
}

static int runs_follow(followed *f, size_t s, size_t t, size_t n)
{
    if (n == 0)
        return 1;
    if (!f->known[n][s][t])
        f->known[n][s][t] = (uint8_t)(try_entries(f, s, t, n) ? YES + 1 : NO + 1);
    return f->known[n][s][t] == YES + 1;
}

/* Whether two runs with equal outputs have two letters of a pair as their present ones in these
   states. */
static int confused_from(const coder *c, const letter_pairs *pairs, size_t s, size_t t, size_t after)
{
    size_t i, j;

    for (i = 0; i < c->inputs; i++)
        for (j = 0; j < c->inputs; j++)
            if (pairs->with[i] >> j & 1 && output_letter(c, s, i) == output_letter(c, t, j)
                && runs_follow(&out, next_state(c, s, i), next_state(c, t, j), after))
                return 1;
    return 0;
}

int tells_by_following(const coder *c, const letter_pairs *pairs, size_t before, size_t after)
{
    const state_list *of = &c->reachable;
    size_t k;

    forget_followed(c);
    for (k = 0; k < of->count * of->count; k++) {
        size_t s = of->state[k / of->count], t = of->state[k % of->count];

        if (runs_follow(&in, s, t, before) && confused_from(c, pairs, s, t, after))
            return 0;
    }
    return 1;
}

/* ---- one of the two ways ---- */

enum way { NOT_YET, BY_GROUPS, BY_FOLLOWING };

int window_tells(const coder *c, const letter_pairs *pairs, size_t before, size_t after)
{
    static kept_coder kept;
    static enum way ways[MOST_WINDOW + 1];
    static letter_pairs confused[MOST_GROUPED + 1][MOST_GROUPED];
    size_t n = before + 1 + after;

    if (another_coder(&kept, c))
        memset(ways, 0, sizeof ways);
    if (ways[n] == NOT_YET)
        ways[n] = n <= MOST_GROUPED && confused_by_groups(c, n, confused[n]) ? BY_GROUPS
                                                                              : BY_FOLLOWING;
    if (ways[n] == BY_GROUPS)
        return !pairs_meet(&confused[n][before], pairs);
    return tells_by_following(c, pairs, before, after);
}

/* ---- windows of any size ---- */

/* Pairs of reachable states, numbered by their places in the list; for each a set of such pairs. */
enum { STATE_PAIRS = MOST_STATES * MOST_STATES, WORD = 64 };

typedef struct relation {
    size_t count;
    uint64_t to[STATE_PAIRS][STATE_PAIRS / WORD];
} relation;

static int leads(const relation *r, size_t p, size_t q)
{
    return (int)(r->to[p][q / WORD] >> q % WORD & 1);
}

static size_t place_in_list(const state_list *l, size_t state)
{
    size_t k = 0;

    while (l->state[k] != state)
        k++;
    return k;
}

/* The pairs of states to which one letter of each run, with equal outputs, leads. */
static void relate(const coder *c, relation *r)
{
    const state_list *of = &c->reachable;
    size_t p, i, j;

    r->count = of->count * of->count;
    memset(r->to, 0, sizeof r->to);
    for (p = 0; p < r->count; p++) {
        size_t s = of->state[p / of->count], t = of->state[p % of->count];

        for (i = 0; i < c->inputs; i++)
            for (j = 0; j < c->inputs; j++)
                if (output_letter(c, s, i) == output_letter(c, t, j)) {
                    size_t q = place_in_list(of, next_state(c, s, i)) * of->count
                             + place_in_list(of, next_state(c, t, j));

                    r->to[p][q / WORD] |= (uint64_t)1 << q % WORD;
                }
    }
}

/* One letter or more. */
static void close_relation(relation *r)
{
    size_t k, p, w;

    for (k = 0; k < r->count; k++)
        for (p = 0; p < r->count; p++)
            if (leads(r, p, k))
                for (w = 0; w < STATE_PAIRS / WORD; w++)
                    r->to[p][w] |= r->to[k][w];
}

/* Two runs can be in a pair of states after any number of letters where a cycle leads to it, and can
   go on from it for any number of letters where it leads to a cycle: with more letters than there
   are pairs, the two runs pass one pair twice. */
static void mark_endless(const relation *r, uint8_t *behind, uint8_t *ahead)
{
    size_t p, q;

    memset(behind, 0, r->count);
    memset(ahead, 0, r->count);
    for (q = 0; q < r->count; q++)
        for (p = 0; p < r->count && leads(r, q, q); p++) {
            behind[p] |= (uint8_t)leads(r, q, p);
            ahead[p] |= (uint8_t)leads(r, p, q);
        }
}

/* A pair of letters that two runs have between such states is confused by every window. Any other is
   told by a window whose sides are long enough for all its places. */
static void find_never_apart(const coder *c, letter_pairs *never)
{
    static relation r;
    uint8_t behind[STATE_PAIRS], ahead[STATE_PAIRS];
    const state_list *of = &c->reachable;
    size_t p, i, j;

    relate(c, &r);
    close_relation(&r);
    mark_endless(&r, behind, ahead);
    memset(never, 0, sizeof *never);
    for (p = 0; p < r.count; p++)
        for (i = 0; i < c->inputs && behind[p]; i++)
            for (j = 0; j < c->inputs; j++) {
                size_t s = of->state[p / of->count], t = of->state[p % of->count];

                if (i != j && output_letter(c, s, i) == output_letter(c, t, j)
                    && ahead[place_in_list(of, next_state(c, s, i)) * of->count
                             + place_in_list(of, next_state(c, t, j))])
                    add_pair(never, i, j);
            }
}

const letter_pairs *never_apart(const coder *c)
{
    static kept_coder kept;
    static letter_pairs never;

    if (another_coder(&kept, c))
        find_never_apart(c, &never);
    return &never;
}
