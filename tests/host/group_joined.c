/* Coders in a row (document 02, 11/13): joined files and windows that are known; refusals; the examples in
   all pairs, all small coders, random ones, lines and chains, coders that undo each other; rows of three;
   coders that repeat letters. */
#include "calls.h"
#include "case_texts.h"
#include "groups.h"
#include "joined.h"

#include <stdio.h>
#include <string.h>

/* ---- pairs ---- */

/* Runs, windows and the other calls on the joined coder. Returns whether there is one. */
static int try_row(row *r, size_t letters, size_t most, int written)
{
    now.coders++;
    if (!join_row(r, written))
        return 0;
    try_runs(r, letters);
    try_windows(r, most);
    compare_some_of_each(&r->joined);
    return 1;
}

static void examples(void)
{
    example one, other;
    size_t k;
    row r;

    for (k = 0; k < EXAMPLES * EXAMPLES; k++) {
        make_example(k / EXAMPLES, &one);
        make_example(k % EXAMPLES, &other);
        r.first = one.file;
        r.second = other.file;
        try_row(&r, 30, 2, 1);
    }
}

/* ---- all small coders ---- */

enum { SMALL = 256 };
static coder_file small[SMALL];

/* Those with N, I, O up to 2 of which no letter is left over. */
static void list_small(void)
{
    size_t counts, k, n = 0;
    coder_file f;

    for (counts = 0; counts < 8; counts++) {
        size_t states = 1 + counts / 4, inputs = 1 + counts / 2 % 2, outputs = 1 + counts % 2;

        for (k = 0; k < coders_with(states, inputs, outputs); k++) {
            number_entries(&f, states, inputs, outputs, k);
            if (refusal_of_file(f.bytes, f.len) == 0 && n++ < SMALL)
                small[n - 1] = f;
        }
    }
    known_value("the small coders", n, SMALL);
}

/* Every pair of them is joined, and every so many of those that fit are tried. */
static void all_small(size_t every)
{
    size_t k, turn = 0;
    row r;

    list_small();
    for (k = 0; k < SMALL * SMALL; k++) {
        r.first = small[k / SMALL];
        r.second = small[k % SMALL];
        if (!join_row(&r, k % 1021 == 0))
            continue;
        of_rows.small++;
        if (++turn % every == 0) {
            try_runs(&r, 5);
            try_windows(&r, 1 + turn / every % 2);
        }
    }
}

/* ---- random coders ---- */

/* A coder that mostly has more output letters than input letters, and then often a decoder. */
static void random_small(coder_file *f, size_t states, size_t inputs, size_t most)
{
    size_t outputs = inputs + 1 + random_below(2);

    if (random_below(4) == 0)
        outputs = 1 + random_below(inputs);
    make_random_with_all(f, states, inputs, smaller_of(smaller_of(outputs, most), states * inputs));
}

static void random_row(size_t k)
{
    size_t one, other;
    row r;

    do {
        one = 1 + random_below(6);
        other = 1 + random_below(smaller_of(6, MOST_STATES / one));
    } while (one == other && random_below(4) > 0);
    random_small(&r.first, one, 1 + random_below(3), 5);
    random_small(&r.second, other, r.first.bytes[5], 8);
    try_row(&r, 12 + random_below(20), 1 + random_below(2), k % 4 == 0);
}

/* Up to the limits: 16 states together, 16 letters in and between, 64 out. */
static void random_large_row(size_t k)
{
    static const size_t states[5] = {1, 2, 4, 8, 16};
    size_t n = states[k % 5], inputs = 1 + random_below(16);
    row r;

    if (k % 2) {
        make_random(&r.second, n, inputs, 1 + random_below(64));
        random_first(&r.first, &r.second);
    } else {
        make_random_with_all(&r.first, n, inputs, 1 + random_below(smaller_of(16, n * inputs)));
        random_second(&r.second, &r.first);
    }
    try_row(&r, 20 + random_below(40), 1, k % 16 == 0);
}

/* ---- longer windows ---- */

/* Two states; x + s comes out, modulo m, and its lowest bit is the next state: window 1 0. */
static void make_two_state_sum(coder_file *f, size_t m)
{
    size_t s, x;

    begin_file(f, 2, m, m);
    for (s = 0; s < 2; s++)
        for (x = 0; x < m; x++) {
            uint8_t *entry = f->bytes + 6 + 2 * (s * m + x);

            entry[1] = (uint8_t)((x + s) % m);
            entry[0] = entry[1] % 2;
        }
}

/* After a coder of two states and, if it has not too many letters, ahead of one. */
static void beside_sum(const coder_file *f, int written)
{
    row r;

    make_two_state_sum(&r.first, f->bytes[4]);
    r.second = *f;
    try_row(&r, 30, 1, written);
    if (f->bytes[5] > MOST_INPUTS)
        return;
    r.first = *f;
    make_two_state_sum(&r.second, f->bytes[5]);
    try_row(&r, 30, 1, written);
}

/* Lines of states and chains, whose windows have up to 28 letters on a side. */
static void long_windows(size_t states, size_t turns)
{
    example e;
    coder_file f;

    make_example(turns % 2 ? 0 : 3, &e);
    make_constant_line(&f, states - 2, &e.file);
    beside_sum(&f, 1);
    make_line_like_g(&f, states - 2);
    beside_sum(&f, 1);
    make_forward_chain(&f, states, turns);
    beside_sum(&f, 0);
    make_backward_chain(&f, states, turns);
    beside_sum(&f, 0);
    if (turns + 3 <= states) {
        make_split_chain(&f, states, turns);
        beside_sum(&f, 0);
        make_closed_both(&f, states, turns);
        beside_sum(&f, 0);
    }
}

/* ---- coders that undo each other ---- */

/* Letters 0 to m - 1. The running sum puts out s + x, which is the next state; the change puts out x - s,
   and x is the next state; both modulo m. The sum has a decoder, the change has none. */
static void make_sum_or_change(coder_file *f, size_t m, int change)
{
    size_t s, x;

    begin_file(f, m, m, m);
    for (s = 0; s < m; s++)
        for (x = 0; x < m; x++) {
            uint8_t *entry = f->bytes + 6 + 2 * (s * m + x);
            size_t sum = (s + x) % m;

            entry[0] = (uint8_t)(change ? x : sum);
            entry[1] = (uint8_t)(change ? (x + m - s) % m : sum);
        }
}

/* The letters between the two get other names. */
static void rename_between(row *r)
{
    size_t letters = r->first.bytes[5], k;
    uint8_t name[MOST_OUTPUTS], of[MOST_OUTPUTS];
    coder_file renamed;

    for (k = 0; k < letters; k++)
        name[k] = (uint8_t)k;
    shuffle(name, letters);
    for (k = 0; k < letters; k++)
        of[name[k]] = (uint8_t)k;
    for (k = 7; k < r->first.len; k += 2)
        r->first.bytes[k] = name[r->first.bytes[k]];
    make_filled(&renamed, &r->second, letters, of);
    r->second = renamed;
}

/* From state 0 the sum of the changes is the letter itself, and so is the change of the sums: window 0 0,
   whichever comes first. With a letter more between them, which a spare state of the first puts out and
   the second takes for another one, the second has no decoder. */
static void undone(size_t m, int change_first, int spare)
{
    uint8_t of[MOST_OUTPUTS];
    coder_file base;
    size_t k;
    row r;

    make_sum_or_change(&r.first, m, change_first);
    make_sum_or_change(&r.second, m, !change_first);
    if (spare) {
        base = r.first;
        make_with_spare_letter(&r.first, &base);
        base = r.second;
        for (k = 0; k <= m; k++)
            of[k] = (uint8_t)(k < m ? k : random_below(m));
        make_filled(&r.second, &base, m + 1, of);
    }
    rename_between(&r);
    if (try_row(&r, 20, 1, 1))
        known_search(&r.joined, 0, 0, 0, 0);
}

static void undone_rows(void)
{
    size_t m, k;

    for (m = 2; m <= 4; m++)
        for (k = 0; k < 20; k++) {
            undone(m, (int)(k % 2), 0);
            if (m < 4)
                undone(m, (int)(k % 2), 1);
        }
}

/* ---- three ---- */

/* The first two joined and then the third, and the first with the other two joined: the same file, for
   (s x N + t) x M + u = s x (N x M) + t x M + u. */
static void three(void)
{
    static const size_t states[8][3] = {{2, 2, 2}, {2, 3, 2}, {3, 1, 4}, {4, 2, 2},
                                        {2, 2, 4}, {1, 5, 3}, {2, 4, 2}, {5, 3, 1}};
    const size_t *n = states[random_below(8)];
    row one, other, left, right;

    random_small(&one.first, n[0], 1 + random_below(4), 16);
    random_small(&one.second, n[1], one.first.bytes[5], 16);
    random_small(&other.second, n[2], one.second.bytes[5], 64);
    other.first = one.second;
    if (!join_row(&one, 0) || !join_row(&other, 0))
        return;
    left.first = one.joined;
    left.second = other.second;
    right.first = one.first;
    right.second = other.joined;
    if (!join_row(&left, 1) || !join_row(&right, 1))
        return;
    known_value("the length of three in a row", left.joined.len, right.joined.len);
    known_value("the bytes of three in a row",
                (size_t)memcmp(left.joined.bytes, right.joined.bytes, left.joined.len), 0);
    of_rows.threes++;
}

/* ---- repeated letters ---- */

/* A coder that repeats letters leaves the file as it is, ahead of a coder or after it. */
static void with_repeater(const coder_file *f)
{
    coder_file repeater;
    arguments a;

    make_repeater(&repeater, f->bytes[4]);
    a = join_of(&repeater, f);
    compare_known(&a, f->bytes, f->len);
    if (f->bytes[5] > MOST_INPUTS)
        return;
    make_repeater(&repeater, f->bytes[5]);
    a = join_of(f, &repeater);
    compare_known(&a, f->bytes, f->len);
}

static void repeated(void)
{
    coder_file f;
    size_t k;

    for (k = 0; k < 500; k++) {
        make_random(&f, 1 + random_below(16), 1 + random_below(16), 1 + random_below(64));
        with_repeater(&f);
        make_random(&f, 1 + random_below(16), 1 + random_below(16), 1 + random_below(16));
        with_repeater(&f);
    }
}

/* ---- the group ---- */

static unsigned long pairs_met(void)
{
    unsigned long met = 0;
    size_t k;

    for (k = 0; k < FILE_NUMBERS * FILE_NUMBERS; k++)
        met += of_rows.pairs[k / FILE_NUMBERS][k % FILE_NUMBERS] > 0;
    return met;
}

static void print_counts(void)
{
    const row_counts *c = &of_rows;
    const struct {
        const char *between, *name;
        unsigned long count;
    } rows[] = {
        {"coders in a row: ", "joined", c->joins},
        {", ", "small ones", c->small},
        {", ", "all counts different", c->uneven},
        {", ", "with spare states", c->spare},
        {", ", "two reachable states not reached together", c->unreached},
        {", ", "rows of three", c->threes},
        {"; runs: ", "all", c->runs},
        {", ", "from spare states", c->spare_runs},
        {"; sums of windows: ", "reported", c->reported},
        {", ", "small", c->tried},
        {", ", "above 136", c->large},
        {"; a letter less than the sum: ", "works too", c->less},
        {", ", "fails", c->least},
        {"; ", "input letters that came back", c->came_back},
        {"; decoders: ", "both and joined", c->decoders[1][1][1]},
        {", first: ", "joined too", c->decoders[1][0][1]},
        {", ", "joined none", c->decoders[1][0][0]},
        {", second: ", "joined too", c->decoders[0][1][1]},
        {", ", "joined none", c->decoders[0][1][0]},
        {", neither: ", "joined", c->decoders[0][0][1]},
        {", ", "joined none", c->decoders[0][0][0]},
        {"; refused with 17: ", "letters", c->letters_alone},
        {", ", "states", c->states_alone},
        {", ", "both", c->letters_and_states},
        {"; ", "buffers too short", c->short_buffers},
        {"; ", "pairs of numbers of two files", pairs_met()}
    };
    size_t k, count = sizeof rows / sizeof *rows;

    show_call(NULL);
    for (k = 0; k < count; k++)
        printf("%s%s %lu", rows[k].between, rows[k].name, rows[k].count);
    printf("; sums left out %lu\n", c->left_out);
    for (k = 0; k < count; k++)
        if (rows[k].count == 0)
            differ("count %zu of the line above is 0: %s", k, rows[k].name);
    known_value("the pairs of numbers", pairs_met(), FILE_NUMBERS * FILE_NUMBERS);
}

void group_joined(void)
{
    size_t k, j;

    begin_group("coders in a row");
    try_verdicts(0, 0, 0, 0);
    known_joined();
    joined_refusals();
    examples();
    all_small(8);
    for (k = 0; k < 5000; k++)
        random_row(k);
    for (k = 0; k < 400; k++)
        random_large_row(k);
    for (k = 3; k <= 8; k++)
        for (j = 0; j + 2 <= k; j++)
            long_windows(k, j);
    undone_rows();
    for (k = 0; k < 500; k++)
        three();
    repeated();
    print_counts();
    end_group();
}
