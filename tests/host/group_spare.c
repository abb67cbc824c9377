/* Spare states, which no input string reaches from state 0 (document 02, 5/13): the reachable states
   found in two ways; coders padded with spare states, at the end and between their own, with which
   every call that studies the coder, and a run from a reachable state, gives what it gives without
   them; states that only the longest strings reach; pairs that start in a spare state. */
#include "calls.h"
#include "groups.h"
#include "named_orders.h"

#include <string.h>

/* ---- the reachable states ---- */

enum { MOST_STRINGS = 1 << (MOST_STATES - 1) };

/* N - 1 letters reach every state that can be reached: a shortest string passes no state twice. */
static void compare_reachable(const coder_file *f)
{
    coder c = coder_of_file(f->bytes);
    uint8_t reached[MOST_STATES];
    size_t s;

    if (!reached_by_strings(&c, c.states - 1, MOST_STRINGS, reached)) {
        differ("too many strings");
        return;
    }
    for (s = 0; s < c.states; s++)
        known_value("whether a string reaches the state", (size_t)in_list(&c.reachable, s),
                    reached[s]);
}

/* All next states with these counts and one output letter: no decoder where there are two input
   letters, with the first pair of those that start in reachable states. */
static void all_next_states(size_t states, size_t inputs, size_t every)
{
    coder_file f;
    size_t k;

    for (k = 0; k < coders_with(states, inputs, 1); k++) {
        make_numbered(&f, states, inputs, 1, k);
        compare_reachable(&f);
        if (k % every == 0)
            search(&f, random_settle());
    }
}

/* ---- padding ---- */

/* Where state s of the coder stands among the padded states: at its own number, or after one spare
   state more for each step from 0. */
static size_t moved(size_t s, int between)
{
    return between ? 2 * s : s;
}

/* The coder with spare states, so many in all: the coder's states moved, any entries elsewhere. */
static void make_padded(const coder_file *f, size_t states, int between, coder_file *g)
{
    coder c = coder_of_file(f->bytes);
    size_t s, i;

    draw_entries(g, states, c.inputs, c.outputs);
    for (s = 0; s < c.states; s++)
        for (i = 0; i < c.inputs; i++) {
            size_t at = 6 + 2 * (moved(s, between) * c.inputs + i);

            g->bytes[at] = (uint8_t)moved(next_state(&c, s, i), between);
            g->bytes[at + 1] = (uint8_t)output_letter(&c, s, i);
        }
}

/* The verdict on the padded coder is that on the coder, its start states moved. */
static void same_verdict(const coder_file *f, const coder_file *g, size_t settle, int between)
{
    verdict of_f;

    search(f, settle);
    of_f = *found;
    search(g, settle);
    known_value("whether padding keeps the kind of verdict", (size_t)found->is_pair,
                (size_t)of_f.is_pair);
    if (of_f.is_pair) {
        const pair *p = &of_f.pair;
        const size_t numbers[6] = {moved(p->s, between), moved(p->t, between), p->back_loop,
                                   p->lead_in, p->lead_out, p->forward_loop};

        known_pair(numbers);
        known_letters(of_f.bytes, 2 * of_f.letters);
    } else {
        known_value("the padded coder's before", found->before, of_f.before);
        known_value("the padded coder's after", found->after, of_f.after);
    }
}

/* The calls on the coder, and then on the padded one with the same arguments. */
static void same_replies(const coder_file *f, const coder_file *g)
{
    static const enum call calls[3] = {CALL_DECODE, CALL_WINDOW, CALL_TABLE};
    arguments a, b;
    size_t k;

    for (k = 0; k < 3; k++) {
        a = b = random_arguments(calls[k], f);
        b.file = g->bytes;
        b.file_len = g->len;
        same_reply(&a, &b);
    }
}

/* A pair of the coder, made from the one that its search gives where it gives one, is judged alike;
   its start states moved. */
static void same_check(const coder_file *f, const coder_file *g, int between)
{
    arguments a;
    reply got;
    size_t judged;

    search(f, 0);
    a = random_arguments(CALL_CHECK, f);
    got = compare(&a);
    known_value("the number returned for a pair of the coder", got.returned, 0);
    judged = get_field(got.result, 0);
    a.file = g->bytes;
    a.file_len = g->len;
    a.pair.s = moved(a.pair.s, between);
    a.pair.t = moved(a.pair.t, between);
    got = compare(&a);
    known_value("the number returned for a pair of the padded coder", got.returned, 0);
    known_value("what is said of a pair of the padded coder", get_field(got.result, 0), judged);
}

/* A run of the coder from a reachable state, moved: the same letters, and its end state moved. */
static void same_run(const coder_file *f, const coder_file *g, int between)
{
    static uint8_t sent[LENT_ROOM];
    coder c = coder_of_file(f->bytes);
    arguments a = random_arguments(CALL_RUN, f);
    size_t end;
    reply got;

    a.start = c.reachable.state[random_below(c.reachable.count)];
    got = compare(&a);
    memcpy(sent, got.lent, a.bytes_len);
    end = get_field(got.result, 1);
    a.file = g->bytes;
    a.file_len = g->len;
    a.start = moved(a.start, between);
    got = compare(&a);
    known_value("the letters of the padded coder", (size_t)memcmp(sent, got.lent, a.bytes_len), 0);
    known_value("the end state of the padded coder", get_field(got.result, 1), moved(end, between));
}

static void same_states(const char *what, const state_list *of, const state_list *padded,
                        int between)
{
    size_t k;

    known_value(what, padded->count, of->count);
    for (k = 0; k < of->count; k++)
        known_value(what, padded->state[k], moved(of->state[k], between));
}

/* Every state of the padded coder that is not one of the coder's is spare, and so are those that
   are spare there. The start states of windows are those of the coder too. */
static void same_starts(const coder_file *f, const coder_file *g, size_t settle, int between)
{
    coder c = settled_coder(f->bytes, settle), d = settled_coder(g->bytes, settle);

    same_states("the reachable states", &c.reachable, &d.reachable, between);
    same_states("the start states", &c.starts, &d.starts, between);
}

/* `known`: the least windows of the coder with settle count 0, where they are known; the padded one
   has them too. */
static void pad(const coder_file *f, size_t states, int between, const least *known)
{
    size_t settle = known ? 0 : random_settle();
    coder_file g;

    make_padded(f, states, between, &g);
    same_starts(f, &g, settle, between);
    same_verdict(f, &g, settle, between);
    if (known)
        name_known_orders(&g, settle, known, 0);
    round_trip(&g);
    same_check(f, &g, between);
    same_run(f, &g, between);
    same_replies(f, &g);
    same_replies(f, &g);
}

/* With one state more than there are, and with as many as there can be; at most 8 states. */
static void pad_all_ways(const coder_file *f, const least *known)
{
    pad(f, f->bytes[3] + 1, 0, known);
    pad(f, MOST_STATES, 0, known);
    pad(f, MOST_STATES, 1, known);
}

/* ---- states that only long strings reach ---- */

enum { ASCENDING, DESCENDING, ODD_FIRST, WAYS };

/* The k-th state of a line of n states that starts with 0. */
static size_t in_line(size_t k, size_t n, int way)
{
    size_t odd = n / 2;

    if (k == 0 || way == ASCENDING)
        return k;
    if (way == DESCENDING)
        return n - k;
    return k <= odd ? 2 * k - 1 : 2 * (k - odd);
}

/* A line of n states: letter `on` leads to the next one, the other letter to state 0, and the two
   outputs differ; in the last state both letters stay there with one output. At place `broken` of
   the line every letter leads to state 0. */
static void make_line(coder_file *f, size_t n, size_t broken, int way, size_t on)
{
    size_t k, i;

    begin_file(f, n, 2, 3);
    for (k = 0; k < n; k++)
        for (i = 0; i < 2; i++) {
            size_t at = 6 + 2 * (2 * in_line(k, n, way) + i);
            size_t next = i == on && k + 1 < n && k != broken ? in_line(k + 1, n, way) : 0;

            f->bytes[at] = (uint8_t)(k + 1 == n ? in_line(k, n, way) : next);
            f->bytes[at + 1] = (uint8_t)(k + 1 == n ? 0 : 1 + i);
        }
}

/* Broken anywhere the line has window 0 0; unbroken it has no decoder, and the pair starts in the
   last state, which N - 1 letters reach and no fewer. */
static void lines(size_t n, int way, size_t on)
{
    static const uint8_t letters[6] = {0, 0, 0, 1, 0, 0};
    const size_t last = in_line(n - 1, n, way);
    const size_t numbers[6] = {last, last, 1, 0, 0, 1};
    coder_file f;
    size_t k;

    for (k = 0; k < n; k++) {
        make_line(&f, n, k, way, on);
        compare_reachable(&f);
        known_search(&f, random_settle(), k + 1 == n, 0, 0);
        if (k + 1 == n) {
            known_pair(numbers);
            known_letters(letters, sizeof letters);
        }
        compare_some_of_each(&f);
    }
}

/* ---- pairs that start in a spare state ---- */

/* Coder C with a second state in which both letters stay with output 0. If a run might start in any
   state, each pair from the states 0 and 1 would be valid. */
static void spare_pairs(void)
{
    static const uint8_t bytes[14] = {1, 0, 11, 2, 2, 1, 0, 0, 0, 0, 1, 0, 1, 0};
    static const uint8_t letters[6] = {0, 0, 0, 1, 0, 0};
    coder_file f;
    arguments a;
    size_t k;

    memset(&f, 0, sizeof f);
    memcpy(f.bytes, bytes, sizeof bytes);
    f.len = sizeof bytes;
    a = plain(CALL_CHECK, &f);
    memcpy(letters_room, letters, sizeof letters);
    a.pair.back_loop = a.pair.forward_loop = 1;
    for (k = 0; k < 9; k++) {
        a.pair.s = k / 3;
        a.pair.t = k % 3;
        a.bytes_len = 6;
        if (a.pair.s == 2 || a.pair.t == 2) {
            known_refusal(&a, 7);
        } else {
            known_value("what is said of the pair", get_field(compare(&a).result, 0), k == 0);
            a.bytes_len = 4;
            known_refusal(&a, 9);
            a.bytes_len = 6;
            a.result_len = RESULT_BYTES - 1;
            known_refusal(&a, 11);
            a.result_len = RESULT_BYTES;
            letters_room[5] = 2;
            known_refusal(&a, 12);
            letters_room[5] = 0;
        }
    }
}

void group_spare(void)
{
    least known[ORDERS];
    coder_file f;
    example e;
    size_t k, n;
    int way;

    begin_group("spare states");
    try_verdicts(1, 0, 0, FIRST_STEPS / 20);
    all_next_states(1, 3, 1);
    all_next_states(2, 3, 1);
    all_next_states(3, 2, 1);
    all_next_states(4, 2, 64);
    all_next_states(5, 1, 8);
    for (k = 0; k < EXAMPLES; k++) {
        make_example(k, &e);
        known_windows(&e, known);
        for (n = 0; n < 40; n++)
            pad_all_ways(&e.file, known);
    }
    for (k = 0; k < 1500; k++) {
        make_random(&f, 1 + random_below(8), 1 + random_below(4), 1 + random_below(8));
        pad_all_ways(&f, NULL);
    }
    for (way = 0; way < WAYS; way++)
        for (n = 2; n <= MOST_STATES; n++)
            for (k = 0; k < 2; k++)
                lines(n, way, k);
    spare_pairs();
    end_group();
}
