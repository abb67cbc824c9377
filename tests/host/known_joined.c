/* Joined coders whose files are known byte by byte, worked out by hand from document 02, 11/13, and whose
   windows are known, with the reason; the enumerator is not asked for either. */
#include "joined.h"

#include "calls.h"
#include "case_texts.h"

#include <string.h>

typedef struct table {
    uint8_t counts[3], entries[64];
} table;

/* The search's verdict on a joined coder: not known here, no decoder, or the window with least
   lookahead. */
enum known { NOT_KNOWN, NO_DECODER, A_WINDOW };

/* Two coders, the joined one, and what is known of its windows. */
typedef struct known_row {
    const table *first, *second;
    table joined;
    enum known known;
    size_t before, after;
} known_row;

/* ---- the coders ---- */

/* In all comments below s is the state of the first coder, x its input, y its output; t is the state of
   the second and z its output. A line of entries is a state: next state and output for each letter. */

/* The examples; x = 0 and x = 1 of each state. */
static const table coder_a = {{2, 2, 2}, {0, 0, 1, 1,  1, 1, 0, 0}};
static const table coder_b = {{1, 2, 2}, {0, 0, 0, 1}};
static const table coder_c = {{1, 2, 1}, {0, 0, 0, 0}};
static const table coder_d = {{2, 2, 2}, {0, 0, 1, 0,  0, 1, 1, 1}};
static const table coder_e = {{2, 2, 2}, {0, 0, 1, 1,  0, 1, 1, 0}};
static const table coder_f = {{3, 2, 4}, {1, 0, 2, 0,  1, 0, 1, 1,  2, 2, 2, 3}};
static const table coder_h = {{2, 2, 2}, {0, 0, 0, 1,  1, 0, 1, 0}};

/* Three letters in, four out, five at the end; the letter that goes in is never the one that comes out of
   the first. State 1 of the second is spare: no other state leads to it. */
static const table uneven_first = {{2, 3, 4}, {1, 2, 0, 3, 1, 1,
                                               1, 1, 0, 2, 0, 0}};
static const table uneven_second = {{3, 4, 5}, {2, 4, 0, 1, 2, 0, 0, 3,
                                                1, 2, 0, 0, 2, 3, 1, 1,
                                                0, 1, 2, 4, 2, 1, 0, 0}};

/* After F: four letters in, three out. */
static const table after_f = {{2, 4, 3}, {1, 0, 0, 2, 1, 1, 0, 0,
                                          0, 1, 1, 0, 0, 2, 1, 2}};

/* E with a third state, spare, that puts out 2; A with a third letter, which has the entries of 1. */
static const table e_and_spare = {{3, 2, 3}, {0, 0, 1, 1,  0, 1, 1, 0,  2, 2, 2, 2}};
static const table a_of_three = {{2, 3, 2}, {0, 0, 1, 1, 1, 1,  1, 1, 0, 0, 0, 0}};

/* A self-synchronising scrambler of three stages: the state is the last three output letters, the latest
   as its lowest bit; y = x + the two earlier ones, modulo 2; the next state is 2 s + y, modulo 8. */
static const table scrambler = {{8, 2, 2}, {0, 0, 1, 1,
                                            2, 0, 3, 1,
                                            5, 1, 4, 0,
                                            7, 1, 6, 0,
                                            1, 1, 0, 0,
                                            3, 1, 2, 0,
                                            4, 0, 5, 1,
                                            6, 0, 7, 1}};

/* ---- the rows ---- */

static const known_row rows[] = {
    /* A is the running parity, y = s + x and the next state y, modulo 2. Twice: y = s + x, z = t + y, the
       next state 2 y + z. x is the change of y, which is the change of z: two letters before. */
    {&coder_a, &coder_a, {{4, 2, 2}, {0, 0, 3, 1,
                                      1, 1, 2, 0,
                                      3, 1, 0, 0,
                                      2, 0, 1, 1}}, A_WINDOW, 2, 0},
    /* B repeats its letters in one state: ahead of a coder or after it, it leaves the file as it is. */
    {&coder_a, &coder_b, {{2, 2, 2}, {0, 0, 1, 1,  1, 1, 0, 0}}, A_WINDOW, 1, 0},
    {&coder_b, &coder_a, {{2, 2, 2}, {0, 0, 1, 1,  1, 1, 0, 0}}, A_WINDOW, 1, 0},
    {&coder_b, &coder_f, {{3, 2, 4}, {1, 0, 2, 0,  1, 0, 1, 1,  2, 2, 2, 3}}, A_WINDOW, 1, 0},
    /* D puts out the letter before, its state: z = t and the next state 2 y + y. x is the change of y, and
       so from z to the letter after it: 0 1, with a letter less than 1 0 and 0 1 together. */
    {&coder_a, &coder_d, {{4, 2, 2}, {0, 0, 3, 0,
                                      0, 1, 3, 1,
                                      3, 0, 0, 0,
                                      3, 1, 0, 1}}, A_WINDOW, 0, 1},
    /* y = s, z = t + s, the next state 2 x + z. x is the change from z to the letter after it. */
    {&coder_d, &coder_a, {{4, 2, 2}, {0, 0, 2, 0,
                                      1, 1, 3, 1,
                                      1, 1, 3, 1,
                                      0, 0, 2, 0}}, A_WINDOW, 0, 1},
    /* z is the letter two before: y = s, z = t, the next state 2 x + s. */
    {&coder_d, &coder_d, {{4, 2, 2}, {0, 0, 2, 0,
                                      0, 1, 2, 1,
                                      1, 0, 3, 0,
                                      1, 1, 3, 1}}, A_WINDOW, 0, 2},
    /* E puts out the change, y = s + x and the next state x, and has no decoder. With the parity, z = t + y
       and the next state 2 x + z, it reaches the states 0 and 3 alone, in which z = x. */
    {&coder_e, &coder_a, {{4, 2, 2}, {0, 0, 3, 1,
                                      1, 1, 2, 0,
                                      1, 1, 2, 0,
                                      0, 0, 3, 1}}, A_WINDOW, 0, 0},
    /* The same two with a letter more between them, which the first puts out in a spare state alone and
       the second takes for a 1: neither has a decoder, and the states 0 and 3 are as before. */
    {&e_and_spare, &a_of_three, {{6, 2, 2}, {0, 0, 3, 1,
                                             1, 1, 2, 0,
                                             1, 1, 2, 0,
                                             0, 0, 3, 1,
                                             5, 1, 5, 1,
                                             4, 0, 4, 0}}, A_WINDOW, 0, 0},
    /* The other way round z = t + y and the next state 2 y + y: again the states 0 and 3, and z = x. */
    {&coder_a, &coder_e, {{4, 2, 2}, {0, 0, 3, 1,
                                      0, 1, 3, 0,
                                      3, 1, 0, 0,
                                      3, 0, 0, 1}}, A_WINDOW, 0, 0},
    /* z = x + the letter two before; the next state 2 x + y. All letters turned over from the first on
       give the same z from the third on, so no window tells them. */
    {&coder_e, &coder_e, {{4, 2, 2}, {0, 0, 3, 1,
                                      0, 1, 3, 0,
                                      1, 1, 2, 0,
                                      1, 0, 2, 1}}, NO_DECODER, 0, 0},
    /* C puts out one letter in one state. */
    {&coder_d, &coder_c, {{2, 2, 1}, {0, 0, 1, 0,  0, 0, 1, 0}}, NO_DECODER, 0, 0},
    /* H stays in state 0, where it repeats letters, and in the spare state 1, where it puts out 0: the
       states 2 and 3 are spare with H first, the states 1 and 3 with H second. */
    {&coder_h, &coder_a, {{4, 2, 2}, {0, 0, 1, 1,
                                      1, 1, 0, 0,
                                      2, 0, 2, 0,
                                      3, 1, 3, 1}}, A_WINDOW, 1, 0},
    {&coder_a, &coder_h, {{4, 2, 2}, {0, 0, 2, 1,
                                      1, 0, 3, 0,
                                      2, 1, 0, 0,
                                      3, 0, 1, 0}}, A_WINDOW, 1, 0},
    /* In F's states 1 and 2 z says y. In state 0 z is 0 for both, and the z after it says which y it was: 0
       or 1 after y = 0, 2 or 3 after y = 1. A 0 of state 1 has y = 0 too, with 0 or 1 after it. So two
       letters of z say both y, and with them x; a single 0 does not. */
    {&coder_a, &coder_f, {{6, 2, 4}, {1, 0, 5, 0,
                                      1, 0, 4, 1,
                                      2, 2, 5, 3,
                                      5, 0, 1, 0,
                                      4, 1, 1, 0,
                                      5, 3, 2, 2}}, A_WINDOW, 1, 0},
    /* State 3 s + t, not s + 2 t. From state 0 with x = 2: the first goes to 1 with y = 1, by which the
       second stays in 0 with z = 1; so 3 x 1 + 0 = 3 and 1. By x in place of y it were 5 and 0. */
    {&uneven_first, &uneven_second, {{6, 3, 5}, {5, 0, 0, 3, 3, 1,
                                                 5, 3, 1, 1, 3, 0,
                                                 5, 1, 0, 0, 5, 4,
                                                 3, 1, 2, 0, 2, 4,
                                                 3, 0, 2, 3, 1, 2,
                                                 5, 4, 2, 1, 0, 1}}, NOT_KNOWN, 0, 0},
    /* State 2 s + t, not s + 3 t. */
    {&coder_f, &after_f, {{6, 2, 3}, {3, 0, 5, 0,
                                      2, 1, 4, 1,
                                      3, 0, 2, 2,
                                      2, 1, 3, 0,
                                      5, 1, 4, 0,
                                      4, 2, 5, 2}}, NOT_KNOWN, 0, 0},
    /* Scrambled, then the running parity: z = t + y, the next state 2 (2 s + y) + z with 2 s + y modulo 8.
       x = y + the y two and three before it, and each y is the change of z; so x is the sum of z and of
       those one, two and four before it, modulo 2: four letters before. 8 x 2 = 16 states. */
    {&scrambler, &coder_a, {{16, 2, 2}, {0, 0, 3, 1,
                                         1, 1, 2, 0,
                                         4, 0, 7, 1,
                                         5, 1, 6, 0,
                                         11, 1, 8, 0,
                                         10, 0, 9, 1,
                                         15, 1, 12, 0,
                                         14, 0, 13, 1,
                                         3, 1, 0, 0,
                                         2, 0, 1, 1,
                                         7, 1, 4, 0,
                                         6, 0, 5, 1,
                                         8, 0, 11, 1,
                                         9, 1, 10, 0,
                                         12, 0, 15, 1,
                                         13, 1, 14, 0}}, A_WINDOW, 4, 0}
};

enum { ROWS = sizeof rows / sizeof *rows };

/* ---- one row ---- */

static void make_table(coder_file *f, const table *t)
{
    begin_file(f, t->counts[0], t->counts[1], t->counts[2]);
    memcpy(f->bytes + 6, t->entries, f->len - 6);
}

/* Every length of both buffers up to two bytes more than it takes: the file, or 11. */
static void known_lengths(const row *r, const coder_file *joined)
{
    arguments a = join_of(&r->first, &r->second);

    known_value("the joined file's length", a.lent_len, joined->len);
    for (a.lent_len = 0; a.lent_len < joined->len + 3; a.lent_len++)
        if (a.lent_len < joined->len) {
            known_refusal(&a, 11);
            text_join_refused(&a, 11);
            of_rows.short_buffers++;
        } else {
            compare_known(&a, joined->bytes, joined->len);
            text_join(&a, joined->bytes, joined->len);
        }
    for (a.result_len = 0; a.result_len < RESULT_BYTES + 2; a.result_len++)
        if (a.result_len < RESULT_BYTES) {
            known_refusal(&a, 11);
            of_rows.short_buffers++;
        } else {
            compare_known(&a, joined->bytes, joined->len);
        }
}

static void known_row_of(const known_row *k)
{
    coder_file joined;
    row r;

    make_table(&r.first, k->first);
    make_table(&r.second, k->second);
    make_table(&joined, &k->joined);
    text_file(r.first.bytes, r.first.len);
    known_lengths(&r, &joined);
    if (!join_row(&r, 0))
        return; /* a difference, and counted as one */
    known_value("the joined file's bytes", (size_t)memcmp(r.joined.bytes, joined.bytes, joined.len),
                0);
    try_runs(&r, 40);
    if (k->known != NOT_KNOWN)
        known_search(&joined, 0, k->known == NO_DECODER, k->before, k->after);
    try_windows(&r, 2);
}

/* One file at one place for both coders. */
static void known_twice(void)
{
    coder_file f, joined;
    arguments a;

    make_table(&f, &coder_a);
    make_table(&joined, &rows[0].joined);
    a = join_of(&f, &f);
    compare_known(&a, joined.bytes, joined.len);
    a.lent_len--;
    known_refusal(&a, 11);
    make_table(&f, &coder_f);
    a = join_of(&f, &f);
    known_refusal(&a, 17);
}

/* The scrambler after A has the same window, for its y is z + the z two and three before it, and x is the
   change of y; ahead of F it is refused, with 24 states, and so is F ahead of it, with 4 letters and 2. */
static void known_scrambled(void)
{
    coder_file f;
    arguments a;
    row r;

    make_table(&r.first, &coder_a);
    make_table(&r.second, &scrambler);
    if (join_row(&r, 1)) {
        known_search(&r.joined, 0, 0, 4, 0);
        try_runs(&r, 40);
        try_windows(&r, 1);
    }
    make_table(&f, &coder_f);
    a = join_of(&r.second, &f);
    known_refusal(&a, 17);
    a = join_of(&f, &r.second);
    known_refusal(&a, 17);
}

/* ---- windows with many letters ---- */

/* A with itself: b 0 works for A with any b from 1 on, so b + c 0 for both, and D with itself in the same
   way after the present letter. A sum above 136 works, by the enumerator, and no call takes it: 8. */
static void large_sum(const row *r, size_t one, size_t other, int ahead)
{
    coder c = coder_of_file(r->joined.bytes);
    size_t sum = one + other, before = ahead ? sum : 0, after = ahead ? 0 : sum;
    arguments a;

    letters_back(&r->first, ahead ? one : 0, ahead ? 0 : one);
    letters_back(&r->second, ahead ? other : 0, ahead ? 0 : other);
    known_value("whether the sum fails", window_fails(&c, before, after), NO);
    if (sum <= MOST_SIDE) {
        letters_back(&r->joined, before, after);
        return;
    }
    of_rows.large++;
    memset(letters_room, 0, MOST_WINDOW);
    a = plain(CALL_DECODE, &r->joined);
    a.before = before;
    a.after = after;
    a.bytes_len = sum + 1;
    a.lent_len = 1;
    known_refusal(&a, 8);
    a.call = CALL_WINDOW;
    known_refusal(&a, 8);
    a.call = CALL_TABLE;
    known_refusal(&a, 8);
}

static void large_sums(const table *t, int ahead)
{
    static const size_t sides[8][2] = {{1, 1},    {1, 135},  {68, 68},   {135, 1},
                                       {136, 1},  {1, 136},  {68, 69},   {136, 136}};
    row r;
    size_t k;

    make_table(&r.first, t);
    make_table(&r.second, t);
    if (!join_row(&r, 0))
        return; /* a difference, and counted as one */
    for (k = 0; k < 8; k++)
        large_sum(&r, sides[k][0], sides[k][1], ahead);
}

void known_joined(void)
{
    size_t k;

    for (k = 0; k < ROWS; k++)
        known_row_of(&rows[k]);
    known_twice();
    known_scrambled();
    large_sums(&coder_a, 1);
    large_sums(&coder_d, 0);
}
