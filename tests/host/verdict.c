/* The verdict of a search, judged. The search reports, of the windows with its settle count, the one
   with least lookahead and, among those that work, with fewest letters before.

   A window that the search gives is tried, and so is the one with a letter before less. Where there
   is a looped pair, the search has to give the first one, every number and letter of it, and the
   pair is followed, turned 0 to 3 times either way. What is tried besides is set for each group
   (try_verdicts): every window that comes before the one given, those with less lookahead with up
   to N (N + 1) / 2 letters before; or every window up to N (N + 1) / 2 a side; or the pair cut to
   two runs of the length of each of these windows; or the first pair by trying. trying.c says how a
   window is tried, first_pairs.c how the first pair is found. Windows and first pairs for which the
   allowance does not suffice are counted as left out, and do not fail a group. */
#include "compare.h"

#include <string.h>

static verdict latest;
const verdict *const found = &latest;

static struct {
    int smaller, all, refute;
    long first;
} trying;

void forget_verdict(void)
{
    latest.known = 0;
}

void try_verdicts(int smaller, int all, int refute, long first)
{
    trying.smaller = smaller;
    trying.all = all;
    trying.refute = refute;
    trying.first = first;
}

/* A window that comes before the one given: it does not work. */
static void try_earlier(const coder *c, size_t before, size_t after)
{
    if (window_fails(c, before, after) == NO)
        differ("window %zu %zu found, but %zu %zu works", latest.before, latest.after, before,
               after);
}

/* The window works, and none that comes before it: less lookahead, whatever the letters before; as
   much lookahead and fewer letters before. */
static void judge_window(const coder *c)
{
    size_t side = side_bound(c), total = latest.before + 1 + latest.after, b, a;

    now.decoders++;
    if (latest.before > side || latest.after > side) {
        differ("window %zu %zu passes the bound", latest.before, latest.after);
        latest.known = 0;
        return;
    }
    if (total > now.longest_window)
        now.longest_window = total;
    if (window_fails(c, latest.before, latest.after) == YES)
        differ("window %zu %zu does not work", latest.before, latest.after);
    if (latest.before > 0)
        try_earlier(c, latest.before - 1, latest.after);
    if (!trying.smaller)
        return;
    for (b = 0; b + 1 < latest.before; b++)
        try_earlier(c, b, latest.after);
    for (a = 0; a < latest.after; a++)
        for (b = 0; b <= side; b++)
            try_earlier(c, b, a);
}

/* Every window up to the bound a side: none works. */
static void try_all_windows(const coder *c)
{
    size_t side = side_bound(c), b, a;

    for (b = 0; b <= side; b++)
        for (a = 0; a <= side; a++)
            if (window_fails(c, b, a) == NO)
                differ("no decoder found, but window %zu %zu works", b, a);
}

static void refute_all_windows(const coder *c)
{
    size_t side = side_bound(c), b, a;

    for (b = 0; b <= side; b++)
        for (a = 0; a <= side; a++, now.refuted++)
            if (!pair_refutes_window(c, &latest.pair, b, a))
                differ("the pair does not refute window %zu %zu", b, a);
}

/* The pair has to be the first one: its numbers and its letters. */
static void judge_first(const pair *first)
{
    const pair *p = &latest.pair;

    if (!same_numbers(p, first))
        differ("pair %zu %zu lengths %zu %zu %zu %zu found, but the first is %zu %zu lengths "
               "%zu %zu %zu %zu", p->s, p->t, p->back_loop, p->lead_in, p->lead_out,
               p->forward_loop, first->s, first->t, first->back_loop, first->lead_in,
               first->lead_out, first->forward_loop);
    else if (!same_letters(p, first))
        differ("the pair found has other letters than the first");
}

static void judge_pair(const coder *c)
{
    size_t k, m;

    now.pairs++;
    if (latest.letters > now.longest_pair)
        now.longest_pair = latest.letters;
    for (k = 0; k < 2 * latest.letters; k++)
        if (latest.bytes[k] >= c->inputs) {
            differ("letter %u of the pair is no input letter", latest.bytes[k]);
            return;
        }
    if (!pair_valid(c, &latest.pair)) {
        differ("the pair found is not valid");
        return;
    }
    for (k = 0; k < 4; k++)
        for (m = 0; m < 4; m++)
            if (!turned_pair_confuses(c, &latest.pair, k, m))
                differ("the pair turned %zu %zu times fails", k, m);
    if (trying.refute)
        refute_all_windows(c);
    if (trying.all)
        try_all_windows(c);
    if (trying.first > 0)
        try_first_pair(c, trying.first);
}

/* Reads the fields of a pair; 0 where they break the bounds. */
static int read_pair(const coder *c, const uint8_t *result, const uint8_t *lent)
{
    pair *p = &latest.pair;

    p->s = get_field(result, 1);
    p->t = get_field(result, 2);
    p->back_loop = get_field(result, 3);
    p->lead_in = get_field(result, 4);
    p->lead_out = get_field(result, 5);
    p->forward_loop = get_field(result, 6);
    p->letters = latest.bytes;
    if (p->s >= c->states || p->t >= c->states || !pair_keeps_bounds(c, p))
        return 0;
    latest.letters = pair_letters(p);
    memcpy(latest.bytes, lent, 2 * latest.letters);
    return 1;
}

/* What a search writes that finds this pair. */
static void want_pair(const pair *p, uint8_t *wanted_lent, uint8_t *wanted_result)
{
    const size_t fields[7] = {1, p->s, p->t, p->back_loop, p->lead_in, p->lead_out,
                              p->forward_loop};
    size_t k;

    for (k = 0; k < 7; k++)
        put_field(wanted_result, k, fields[k]);
    memcpy(wanted_lent, p->letters, 2 * pair_letters(p));
}

void judge_search(const arguments *a, const uint8_t *lent, const uint8_t *result,
                  uint8_t *wanted_lent, uint8_t *wanted_result)
{
    coder c = settled_coder(a->file, a->settle);
    const first_pair *first = first_pair_of(&c);
    uint64_t kind = get_field(result, 0);

    memset(&latest, 0, sizeof latest);
    latest.settle = a->settle;
    if (first->exists == YES)
        want_pair(&first->pair, wanted_lent, wanted_result);
    if (kind != (first->exists == YES) || first->exists == UNKNOWN)
        differ("verdict of kind %llu, but there is %s", (unsigned long long)kind,
               first->exists == YES ? "a looped pair"
               : first->exists == NO ? "no looped pair" : "no first pair within the bounds");
    if (kind == 0) {
        latest.known = 1;
        latest.before = get_field(result, 1);
        latest.after = get_field(result, 2);
        if (first->exists == NO)
            memcpy(wanted_result, result, 3 * 8);
        judge_window(&c);
    } else if (kind == 1) {
        latest.is_pair = 1;
        if (!read_pair(&c, result, lent)) {
            differ("the pair found breaks its bounds");
            return;
        }
        latest.known = 1;
        if (first->exists == YES)
            judge_first(&first->pair);
        judge_pair(&c);
    }
}
