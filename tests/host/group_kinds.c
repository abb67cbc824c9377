/* Kinds of letter (document 02, 8/13): coders whose verdicts are known; all small coders with every
   kind list; random coders, small and large, with kind lists drawn, with lists that keep together what
   no window tells apart, with letters that have equal entries, and with filler beside others; chains. */
#include "calls.h"
#include "case_texts.h"
#include "groups.h"
#include "kinds_tried.h"

#include <stdio.h>
#include <string.h>

/* ---- small coders ---- */

/* Kind list number k: its digits to base I, the lowest for the last letter. */
static void numbered_kinds(uint8_t *kinds, size_t inputs, size_t number)
{
    size_t k;

    for (k = inputs; k > 0; k--, number /= inputs)
        kinds[k - 1] = (uint8_t)(number % inputs);
}

/* Every list, or one of so many; with cases or without. */
static void numbered_lists(const coder_file *f, size_t every, int windows, int write)
{
    size_t inputs = f->bytes[4], k;
    uint8_t kinds[MOST_INPUTS];
    arguments a;

    begin_coder(f);
    if (write)
        text_file(f->bytes, f->len);
    for (k = random_below(every); k < power(inputs, inputs); k += every) {
        numbered_kinds(kinds, inputs, k);
        try_kinds(f, kinds, windows);
        a = plain(CALL_SEARCH_KINDS, f);
        a.kinds = kinds;
        if (write)
            text_call(&a);
    }
}

static void all_small(size_t states, size_t inputs, size_t outputs, size_t step, size_t every)
{
    coder_file f;
    size_t k;

    for (k = 0; k < coders_with(states, inputs, outputs); k += step) {
        make_numbered(&f, states, inputs, outputs, k);
        numbered_lists(&f, every, ALL_WINDOWS, step == 1);
        if (step == 1)
            compare_ways_to_tell(&f, 5);
    }
}

/* ---- random coders ---- */

/* Letters that no window tells apart have one kind, and so have all that such pairs link; the kinds
   are different numbers in any order. So kinds are told. */
static void linked_kinds(const coder_file *f, uint8_t *kinds)
{
    coder c = coder_of_file(f->bytes);
    const letter_pairs *never = never_apart(&c);
    uint8_t first[MOST_INPUTS], named[MOST_INPUTS];
    size_t k, i, j;

    for (i = 0; i < c.inputs; i++)
        first[i] = named[i] = (uint8_t)i;
    for (k = 0; k < c.inputs; k++)
        for (i = 0; i < c.inputs; i++)
            for (j = 0; j < c.inputs; j++)
                if (never->with[i] >> j & 1 && first[i] > first[j])
                    first[i] = first[j];
    shuffle(named, c.inputs);
    for (i = 0; i < c.inputs; i++)
        kinds[i] = named[first[i]];
}

/* Two kinds become one. */
static void join_kinds(uint8_t *kinds, size_t inputs)
{
    uint8_t from = kinds[random_below(inputs)], to = kinds[random_below(inputs)];
    size_t k;

    for (k = 0; k < inputs; k++)
        if (kinds[k] == from)
            kinds[k] = to;
}

static void drawn_kinds(uint8_t *kinds, size_t inputs)
{
    random_kinds(inputs);
    memcpy(kinds, kinds_room, inputs);
}

static void lists_of(const coder_file *f, int windows)
{
    uint8_t kinds[MOST_INPUTS];
    arguments a = plain(CALL_SEARCH_KINDS, f);

    begin_coder(f);
    drawn_kinds(kinds, f->bytes[4]);
    try_kinds(f, kinds, windows);
    linked_kinds(f, kinds);
    try_kinds(f, kinds, windows);
    join_kinds(kinds, f->bytes[4]);
    try_kinds(f, kinds, windows);
    a.kinds = kinds;
    text_file(f->bytes, f->len);
    text_call(&a);
    do
        a = random_arguments(CALL_WINDOW_KINDS, f);
    while (a.bytes_len > 8);
    a.kinds = kinds;
    text_call(&a);
}

/* Kinds of the letters before there were more of them; then with one letter's kind drawn anew. */
static void try_filled(const coder_file *base, size_t inputs, const uint8_t *of,
                       const uint8_t *of_base, int windows)
{
    uint8_t kinds[MOST_INPUTS];
    coder_file f;
    size_t k;

    make_filled(&f, base, inputs, of);
    for (k = 0; k < inputs; k++)
        kinds[k] = of_base[of[k]];
    begin_coder(&f);
    try_kinds(&f, kinds, windows);
    kinds[random_below(inputs)] = (uint8_t)random_below(inputs);
    try_kinds(&f, kinds, windows);
}

/* Some letters with the entries of others, and their kinds: where the coder had a window for
   letters, kinds are told. */
static void filled(const coder_file *base, size_t inputs, int windows)
{
    uint8_t of[MOST_INPUTS], of_base[MOST_INPUTS];
    size_t letters = base->bytes[4], k;

    for (k = 0; k < inputs; k++)
        of[k] = (uint8_t)(k < letters ? k : random_below(letters));
    shuffle(of, inputs);
    drawn_kinds(of_base, inputs);
    try_filled(base, inputs, of, of_base, windows);
}

/* A random coder whose window for letters has more than one letter, if some are drawn; at most 16
   output letters. */
static void make_with_window(coder_file *f, size_t states, size_t inputs)
{
    static const uint8_t one_kind[MOST_INPUTS] = {0};
    size_t k;

    for (k = 0; k < 12; k++) {
        kinds_verdict v;
        coder c;

        make_random(f, states, inputs, 2 + random_below(15));
        c = coder_of_file(f->bytes);
        v = search_kinds(&c, one_kind);
        if ((v.carried & 1) && v.before + v.after > 0)
            return;
    }
}

/* The coder with a letter more, its last: outputs that no other letter has, one for all states or one
   for each. */
static void add_own_letter(const coder_file *base, coder_file *f)
{
    size_t states = base->bytes[3], letters = base->bytes[4], outputs = base->bytes[5], s;
    size_t shown = random_below(3);

    begin_file(f, states, letters + 1, outputs + states);
    for (s = 0; s < states; s++) {
        uint8_t *to = f->bytes + 6 + 2 * s * (letters + 1);

        memcpy(to, base->bytes + 6 + 2 * s * letters, 2 * letters);
        to[2 * letters] = (uint8_t)(random_below(2) ? s : random_below(states));
        to[2 * letters + 1] = (uint8_t)(outputs + (shown ? s : 0));
    }
    renumber_letters(f);
}

/* Filler with outputs of its own, two letters of it or more, beside the letters of a coder: the window
   that tells kinds is most often smaller than the one that carries the others' letters. */
static void beside_filler(size_t states, size_t letters, size_t fillers, int windows)
{
    uint8_t of[MOST_INPUTS], of_base[MOST_INPUTS];
    size_t inputs = letters + fillers, k;
    coder_file f, base;

    make_with_window(&f, states, letters);
    add_own_letter(&f, &base);
    for (k = 0; k < inputs; k++)
        of[k] = (uint8_t)(k < letters ? k : letters);
    shuffle(of, inputs);
    for (k = 0; k < inputs; k++)
        of_base[k] = (uint8_t)k;
    shuffle(of_base, inputs);
    for (k = random_below(3); k > 0; k--)
        join_kinds(of_base, letters);
    if (random_below(2))
        memset(of_base, of_base[0], letters);
    try_filled(&base, inputs, of, of_base, windows);
}

static void random_small(size_t count)
{
    coder_file f;
    size_t k;

    for (k = 0; k < count; k++) {
        make_random(&f, 1 + random_below(4), 2 + random_below(3), 1 + random_below(6));
        lists_of(&f, k % 4 == 0 ? ALL_WINDOWS : SOME_WINDOWS);
        make_random(&f, 1 + random_below(4), 1 + random_below(3), 1 + random_below(8));
        filled(&f, f.bytes[4] + 1 + random_below(3), k % 4 == 0 ? ALL_WINDOWS : SOME_WINDOWS);
        beside_filler(2 + random_below(3), 2 + random_below(2), 2 + random_below(2),
                      k % 16 == 0 ? ALL_WINDOWS : SOME_WINDOWS);
    }
}

static void random_large(size_t count)
{
    coder_file f;
    size_t k;

    for (k = 0; k < count; k++) {
        make_random(&f, 1 + random_below(16), 2 + random_below(15), 1 + random_below(64));
        lists_of(&f, SOME_WINDOWS);
        make_random(&f, 1 + random_below(16), 1 + random_below(12), 8 + random_below(57));
        filled(&f, f.bytes[4] + 1 + random_below(16 - f.bytes[4]), SOME_WINDOWS);
        beside_filler(2 + random_below(15), 2 + random_below(8), 2 + random_below(6), SOME_WINDOWS);
    }
}

/* Long windows: chains with some letters more. */
static void chains(size_t most)
{
    coder_file f;
    size_t n, turns;

    for (n = 3; n <= most; n++) {
        turns = n - 2 < 12 ? n - 2 : 12;
        make_forward_chain(&f, n, turns);
        filled(&f, turns + 3, SOME_WINDOWS);
        make_backward_chain(&f, n, turns);
        filled(&f, turns + 4, SOME_WINDOWS);
        make_split_chain(&f, n, n - 3);
        filled(&f, n < 16 ? n + 1 : 16, SOME_WINDOWS);
        make_closed_both(&f, n, turns);
        lists_of(&f, SOME_WINDOWS);
    }
}

static void print_counts(void)
{
    static const char *const names[KINDS_ANSWERS] = {"letter", "kind", "none", "several"};
    size_t k;

    show_call(NULL);
    printf("searches for kinds %lu: cannot %lu, a kind not carried %lu (window of more than a letter "
           "%lu, up to %lu letters; kinds alone need less %lu); windows of kinds:",
           of_kinds.searches, of_kinds.cannot, of_kinds.not_carried, of_kinds.longer,
           of_kinds.longest, of_kinds.wider);
    for (k = 0; k < KINDS_ANSWERS; k++)
        printf("%s %s %lu", k ? "," : "", names[k], of_kinds.answers[k]);
    printf("\n");
    if (of_kinds.cannot == 0 || of_kinds.wider == 0)
        differ("no search said cannot, or none left a kind out where kinds alone need less");
    for (k = 0; k < KINDS_ANSWERS; k++)
        if (of_kinds.answers[k] == 0)
            differ("no window had the answer %s", names[k]);
}

void group_kinds(void)
{
    size_t k;

    begin_group("kinds of letter");
    try_verdicts(0, 0, 0, 0);
    known_coders_of_kinds();
    for (k = 0; k < 8; k++)
        all_small(1 + k / 4, 1 + k / 2 % 2, 1 + k % 2, 1, 1);
    all_small(3, 2, 2, 29, 1);
    all_small(1, 3, 3, 1, 1);
    all_small(2, 3, 2, 37, 5);
    all_small(2, 3, 3, 331, 5);
    all_small(1, 4, 3, 1, 11);
    all_small(2, 4, 3, 40009, 31);
    random_small(3000);
    random_large(300);
    chains(16);
    print_counts();
    end_group();
}
