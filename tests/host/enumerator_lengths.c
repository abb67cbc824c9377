/* The enumerator's first looped pair in a second way, which serves pairs of any length: by sets of
   pairs of states and exact numbers of letters.

   The two runs are in a pair of states; a step is a letter for each of them with equal outputs. For
   each n there are three sets of pairs of states:

   - loops[n]: n steps lead from it to itself;
   - ends[n]: from it lead-out and forward loop can have n letters together;
   - rests[n]: from it lead-in, differing letter, lead-out and forward loop can.

   They are made for n = 1, 2, .. until a pair can have n + 1 letters in all. Then s, t and the
   lengths are chosen one after the other, each the lowest with which the rest is possible, and the
   letters in the same way. */
#include "enumerator.h"

#include <string.h>

/* ---- sets of pairs of states ---- */

enum { PAIRS = MOST_STATES * MOST_STATES, WORDS = PAIRS / 64 };

typedef struct set {
    uint64_t word[WORDS];
} set;

static int has(const set *a, size_t p)
{
    return a->word[p / 64] >> p % 64 & 1;
}

static void put(set *a, size_t p)
{
    a->word[p / 64] |= (uint64_t)1 << p % 64;
}

static void join(set *a, const set *b)
{
    size_t k;

    for (k = 0; k < WORDS; k++)
        a->word[k] |= b->word[k];
}

static int meet(const set *a, const set *b)
{
    size_t k;

    for (k = 0; k < WORDS; k++)
        if (a->word[k] & b->word[k])
            return 1;
    return 0;
}

static int same(const set *a, const set *b)
{
    return memcmp(a, b, sizeof *a) == 0;
}

/* The first member from p on, PAIRS where there is none. */
static size_t member_from(const set *a, size_t p)
{
    while (p < PAIRS) {
        uint64_t word = a->word[p / 64] >> p % 64;

        if (word)
            return p + (size_t)__builtin_ctzll(word);
        p = (p / 64 + 1) * 64;
    }
    return PAIRS;
}

/* ---- steps ---- */

/* Pair (u, v) has the number N u + v. Where steps lead from each pair that two runs can come to,
   and where steps with different letters do. From the other pairs none leads. */
static size_t pairs;
static set any[PAIRS], apart[PAIRS];

/* The steps from (u, v) with letter i in the first run. */
static void list_letter(const coder *c, size_t u, size_t v, size_t i)
{
    size_t output = output_letter(c, u, i), next = c->states * next_state(c, u, i), j;
    set *to = &any[c->states * u + v], *differing = &apart[c->states * u + v];

    for (j = 0; j < c->inputs; j++)
        if (output_letter(c, v, j) == output) {
            put(to, next + next_state(c, v, j));
            if (i != j)
                put(differing, next + next_state(c, v, j));
        }
}

static void list_steps(const coder *c)
{
    const state_list *of = &c->reachable;
    size_t k, i;

    pairs = c->states * c->states;
    memset(any, 0, pairs * sizeof *any);
    memset(apart, 0, pairs * sizeof *apart);
    for (k = 0; k < of->count * of->count; k++)
        for (i = 0; i < c->inputs; i++)
            list_letter(c, of->state[k / of->count], of->state[k % of->count], i);
}

/* The pairs to which a step leads from the set, and those from which one leads into it. */
static set after(const set *steps, const set *a)
{
    set b = {{0}};
    size_t p;

    for (p = member_from(a, 0); p < PAIRS; p = member_from(a, p + 1))
        join(&b, &steps[p]);
    return b;
}

static set before(const set *steps, const set *a)
{
    set b = {{0}};
    size_t p;

    for (p = 0; p < pairs; p++)
        if (meet(&steps[p], a))
            put(&b, p);
    return b;
}

/* Whether there is a looped pair: N * N steps pass some pair of states twice, so a differing letter
   with that many steps before and after it lies between two loops. The two sets only lose members;
   once none is lost, none ever is. */
static int pair_exists(void)
{
    set from = {{0}}, to, kept[2];
    size_t p;

    for (p = 0; p < pairs; p++)
        put(&from, p);
    to = from;
    do {
        kept[0] = from;
        kept[1] = to;
        from = after(any, &from);
        to = before(any, &to);
    } while (!same(&from, &kept[0]) || !same(&to, &kept[1]));
    to = before(apart, &to);
    return meet(&from, &to);
}

/* ---- the sets for each number of letters ---- */

static set loops[MOST_PAIR + 1], ends[MOST_PAIR + 1], rests[MOST_PAIR + 1];

/* Where n steps lead from each pair. */
static set led[PAIRS];

static void no_letters(void)
{
    size_t p;

    memset(led, 0, sizeof led);
    for (p = 0; p < pairs; p++)
        put(&led[p], p);
    memset(&ends[0], 0, sizeof ends[0]);
    memset(&rests[0], 0, sizeof rests[0]);
}

/* A step first, then n - 1 more. */
static void lead_on(void)
{
    static set old[PAIRS];
    size_t p;

    memcpy(old, led, pairs * sizeof *old);
    for (p = 0; p < pairs; p++)
        led[p] = after(old, &any[p]);
}

static void add_number(size_t n)
{
    set differing = before(apart, &ends[n - 1]);
    size_t p;

    lead_on();
    memset(&loops[n], 0, sizeof loops[n]);
    for (p = 0; p < pairs; p++)
        if (has(&led[p], p))
            put(&loops[n], p);
    ends[n] = before(any, &ends[n - 1]);
    join(&ends[n], &loops[n]);
    rests[n] = before(any, &rests[n - 1]);
    join(&rests[n], &differing);
}

/* Whether a pair can have so many letters in all. */
static int possible(size_t letters)
{
    size_t back;

    for (back = 1; back < letters; back++)
        if (meet(&loops[back], &rests[letters - back]))
            return 1;
    return 0;
}

static size_t fewest_letters(void)
{
    size_t n;

    no_letters();
    for (n = 1; n < MOST_PAIR; n++) {
        add_number(n);
        if (possible(n + 1))
            return n + 1;
    }
    return 0;
}

/* ---- the choices ---- */

/* The number of (s, t), and the back loop. */
static size_t choose_start(size_t letters, pair *f)
{
    size_t p;

    for (p = 0; p < pairs; p++)
        for (f->back_loop = 1; f->back_loop < letters; f->back_loop++)
            if (has(&loops[f->back_loop], p) && has(&rests[letters - f->back_loop], p))
                return p;
    return PAIRS;
}

/* The other lengths, so many letters being left for them and the differing letter. */
static void choose_lengths(size_t start, size_t left, pair *f)
{
    set at = {{0}}, next;

    put(&at, start);
    for (f->lead_in = 0;; f->lead_in++) {
        left--;
        next = after(apart, &at);
        if (meet(&next, &ends[left]))
            break;
        at = after(any, &at);
    }
    for (f->lead_out = 0; !meet(&next, &loops[left]); f->lead_out++) {
        left--;
        next = after(any, &next);
    }
    f->forward_loop = left;
}

/* The lowest letters from this pair of states into the set: n of them, different at the marked
   place. Returns the pair at which they end. */
static size_t choose_letters(const coder *c, size_t p, size_t n, size_t marked, const set *goal,
                             uint8_t *bytes)
{
    static set good[MOST_PAIR + 1];
    size_t states = c->states, k, i, j, next = PAIRS;

    good[n] = *goal;
    for (k = n; k > 0; k--)
        good[k - 1] = before(k - 1 == marked ? apart : any, &good[k]);
    for (k = 0; k < n; k++, p = next)
        for (i = 0, next = PAIRS; i < c->inputs && next == PAIRS; i++)
            for (j = 0; j < c->inputs && next == PAIRS; j++) {
                size_t to = states * next_state(c, p / states, i) + next_state(c, p % states, j);

                if (output_letter(c, p / states, i) == output_letter(c, p % states, j)
                    && (k != marked || i != j) && has(&good[k + 1], to)) {
                    bytes[2 * k] = (uint8_t)i;
                    bytes[2 * k + 1] = (uint8_t)j;
                    next = to;
                }
            }
    return p;
}

/* The back loop to its start; lead-in, differing letter and lead-out to some start of a forward
   loop; the forward loop to that. */
static void choose_all_letters(const coder *c, size_t start, first_pair *f)
{
    const pair *p = &f->pair;
    uint8_t *bytes = f->bytes;
    set goal = {{0}};

    put(&goal, start);
    choose_letters(c, start, p->back_loop, MOST_PAIR, &goal, bytes);
    bytes += 2 * p->back_loop;
    start = choose_letters(c, start, p->lead_in + 1 + p->lead_out, p->lead_in,
                           &loops[p->forward_loop], bytes);
    bytes += 2 * (p->lead_in + 1 + p->lead_out);
    memset(&goal, 0, sizeof goal);
    put(&goal, start);
    choose_letters(c, start, p->forward_loop, MOST_PAIR, &goal, bytes);
}

void first_by_lengths(const coder *c, first_pair *f)
{
    size_t letters, start;

    list_steps(c);
    f->exists = NO;
    if (!pair_exists())
        return;
    f->exists = UNKNOWN;
    letters = fewest_letters();
    if (letters == 0)
        return;
    f->exists = YES;
    start = choose_start(letters, &f->pair);
    f->pair.s = start / c->states;
    f->pair.t = start % c->states;
    f->pair.letters = f->bytes;
    choose_lengths(start, letters - f->pair.back_loop, &f->pair);
    choose_all_letters(c, start, f);
}
