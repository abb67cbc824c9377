/* Settle counts (document 02, 6/13). One group: their limit, with each other number of refusal beside
   14. The other: start states in two ways; coders whose windows are known for every settle count;
   coder G; what holds for every coder as the settle count grows. */
#include "calls.h"
#include "groups.h"
#include "known_settles.h"
#include "named_orders.h"
#include "settles.h"

#include <string.h>

/* ---- the limit ---- */

enum { SETTLE_CALLS = 4 };

static const enum call settle_calls[SETTLE_CALLS] = {CALL_SEARCH, CALL_DECODE, CALL_WINDOW,
                                                     CALL_TABLE};

/* A call that is accepted, with window 1 0 where it takes one, and no byte to spare. */
static arguments accepted(enum call call, const coder_file *f)
{
    arguments a = plain(call, f);

    memset(letters_room, 0, 16);
    a.before = 1;
    a.bytes_len = call == CALL_DECODE ? 5 : 2;
    a.lent_len = 4;
    if (call == CALL_SEARCH)
        a.lent_len = SEARCH_BYTES;
    if (call == CALL_TABLE)
        a.lent_len = table_bytes(f->bytes[5], 2);
    return a;
}

static void both_sides(enum call call, const coder_file *f)
{
    static const size_t right[4] = {0, 1, MOST_SETTLE - 1, MOST_SETTLE};
    static const size_t wrong[12] = {MOST_SETTLE + 1, MOST_SETTLE + 2, 128, 255, 256, 320, 65536,
                                     (size_t)1 << 32, ((size_t)1 << 32) + 2, (size_t)1 << 63,
                                     SIZE_MAX - 63, SIZE_MAX};
    arguments a = accepted(call, f);
    size_t k;

    for (k = 0; k < 4; k++) {
        a.settle = right[k];
        known_refusal(&a, 0);
    }
    for (k = 0; k < 12; k++) {
        a.settle = wrong[k];
        known_refusal(&a, 14);
    }
}

/* A call with another fault: its number with a settle count of 64, and that or 14 with one above. */
static void beside(const arguments *a, size_t number, int comes_first)
{
    arguments b = *a;

    b.settle = MOST_SETTLE;
    known_refusal(&b, number);
    b.settle = MOST_SETTLE + 1;
    known_refusal(&b, comes_first ? number : 14);
    b.settle = SIZE_MAX;
    known_refusal(&b, comes_first ? number : 14);
}

/* The numbers of the file. */
static void before_14(const arguments *a, size_t number)
{
    beside(a, number, 1);
}

static void beside_file(enum call call, const coder_file *f)
{
    arguments a = accepted(call, f);

    with_file_faults(&a, f, FILE_FAULTS, before_14);
}

/* 8 comes before 14; 9 to 13 come after it. */
static void beside_window(enum call call, const coder_file *f)
{
    arguments a = accepted(call, f), b;

    b = a;
    b.before = MOST_SIDE + 1;
    beside(&b, 8, 1);
    b = a;
    b.after = SIZE_MAX;
    beside(&b, 8, 1);
    if (call == CALL_WINDOW) {
        b = a;
        b.bytes_len = 1;
        beside(&b, 9, 0);
        b.bytes_len = 3;
        beside(&b, 9, 0);
    }
    if (call == CALL_TABLE) {
        b = a;
        b.before = longest_window(f->bytes[5]);
        beside(&b, 10, 0);
        b.lent_len = 0;
        beside(&b, 10, 0);
    } else {
        letters_room[1] = f->bytes[5];
        beside(&a, 13, 0);
        letters_room[1] = 0;
    }
}

static void beside_buffers(enum call call, const coder_file *f)
{
    arguments a = accepted(call, f);

    for (a.result_len = 0; a.result_len < RESULT_BYTES; a.result_len += 21)
        beside(&a, 11, 0);
    a.result_len = RESULT_BYTES;
    if (call == CALL_WINDOW)
        return;
    a.lent_len--;
    beside(&a, 11, 0);
    a.lent_len = 0;
    beside(&a, 11, 0);
}

void group_settle_limit(void)
{
    example e;
    size_t k, call;

    begin_group("the settle count's limit, and 14 beside each other number");
    try_verdicts(0, 0, 0, 0);
    for (k = 0; k < EXAMPLES; k++) {
        make_example(k, &e);
        if (e.file.bytes[5] == 1)
            continue; /* no table is too large */
        for (call = 0; call < SETTLE_CALLS; call++) {
            both_sides(settle_calls[call], &e.file);
            beside_file(settle_calls[call], &e.file);
            if (settle_calls[call] != CALL_SEARCH)
                beside_window(settle_calls[call], &e.file);
            beside_buffers(settle_calls[call], &e.file);
        }
    }
    end_group();
}

/* ---- start states in two ways ---- */

enum { MOST_STRINGS = 256 };

/* The two ways agree for every settle count for which there are few enough strings. */
static void compare_starts(const coder_file *f)
{
    coder c = coder_of_file(f->bytes);
    uint8_t by_strings[MOST_STATES], by_letters[MOST_STATES];
    size_t p;

    for (p = 0; p <= MOST_SETTLE && ended_by_strings(&c, p, MOST_STRINGS, by_strings); p++) {
        ended_by_letters(&c, p, by_letters);
        known_value("the states in which runs end", (size_t)memcmp(by_strings, by_letters,
                                                                   MOST_STATES), 0);
    }
}

static void all_starts(size_t states, size_t inputs, size_t every)
{
    coder_file f;
    size_t k;

    for (k = 0; k < coders_with(states, inputs, 1); k += every) {
        make_numbered(&f, states, inputs, 1, k);
        compare_starts(&f);
    }
}

/* ---- windows known beforehand ---- */

static void known_line(const coder_file *f, size_t settle, const least known[ORDERS])
{
    const least *w = &known[LEAST_LOOKAHEAD];

    known_search(f, settle, 0, w->before, w->after);
    name_known_orders(f, settle, known, 1);
    round_trip(f);
    compare_some_of_each(f);
}

/* Lines of every length with every settle count from 0 to 16, and 64. */
static void known_lines(void)
{
    size_t line, p;

    for (line = 1; line < MOST_STATES; line++)
        for (p = 0; p <= 17; p++)
            each_known_line(line, p == 17 ? MOST_SETTLE : p, known_line);
}

static void known_examples(const example *e)
{
    least known[ORDERS];
    size_t p;

    for (p = 0; p <= MOST_SETTLE; p += p < 17 ? 1 : 47) {
        const least *w = &known[LEAST_LOOKAHEAD];

        known_settled(e, p, known);
        known_search(&e->file, p, e->pair, w->before, w->after);
        if (e->pair) {
            known_pair(e->first);
            known_letters(e->letters, sizeof e->letters);
        }
        name_known_orders(&e->file, p, known, 1);
        round_trip(&e->file);
    }
}

/* ---- coder G ---- */

static void known_bytes(arguments *a, const uint8_t *bytes, size_t count)
{
    reply got;

    a->lent_len = count;
    got = compare(a);
    known_value("field 0", get_field(got.result, 0), count);
    known_value("the bytes' order", (size_t)memcmp(got.lent, bytes, count), 0);
}

/* Window 0 0, each received letter: what fits from the start states, all four with p = 0, the states
   1 to 3 with p = 1, and 2 and 3 with p = 2 and above. As single windows and as a table. */
static void letters_of_g(const coder_file *g)
{
    static const uint8_t rows[4][6] = {{255, 1, 0, 1, 0, 1}, {255, 1, 0, 1, 254, 254},
                                       {0, 1, 0, 1, 254, 254}, {0, 1, 0, 1, 254, 254}};
    arguments table = plain(CALL_TABLE, g), window = plain(CALL_WINDOW, g);
    size_t p, k;

    window.bytes_len = 1;
    for (p = 0; p < 4; p++) {
        table.settle = window.settle = p;
        known_bytes(&table, rows[p], 6);
        for (k = 0; k < 6; k++) {
            letters_room[0] = (uint8_t)k;
            known_value("the byte of the window", get_field(compare(&window).result, 0),
                        rows[p][k]);
        }
    }
}

/* From state 0 the letters 0 1 0 1 1 0 give 4 0 2 3 3 2. With p = 2 and window 0 0 they come back
   from byte 2 on. Of the two before, no run from states 2 and 3 puts out the 4, and the 0 is decoded
   as from state 2, though the letter was 1. With p = 1 and window 1 0 they come back from byte 1 on,
   the letter at place 2; with p = 0 and window 2 0 all, the first at place 2. */
static void string_of_g(const coder_file *g)
{
    static const uint8_t sent[6] = {4, 0, 2, 3, 3, 2};
    static const uint8_t with_2[6] = {254, 0, 0, 1, 1, 0}, with_1[5] = {254, 0, 1, 1, 0};
    arguments a = plain(CALL_DECODE, g);

    memcpy(letters_room, sent, sizeof sent);
    a.bytes_len = sizeof sent;
    a.settle = 2;
    known_bytes(&a, with_2, 6);
    a.before = a.settle = 1;
    known_bytes(&a, with_1, 5);
    a.before = 2;
    a.settle = 0;
    known_bytes(&a, with_2 + 2, 4);
}

static void coder_g(void)
{
    coder_file line;
    example e;

    make_example(6, &e);
    make_line_like_g(&line, 2);
    known_value("the line's length", line.len, e.file.len);
    known_value("the line's order", (size_t)memcmp(line.bytes, e.file.bytes, line.len), 0);
    letters_of_g(&e.file);
    string_of_g(&e.file);
}

/* ---- every coder ---- */

static const size_t few[7] = {0, 1, 2, 3, 15, 16, 64};

static void small_coder(const coder_file *f)
{
    size_t k;

    search(f, few[0]);
    for (k = 1; k < 7; k++)
        search_further(f, few[k]);
    same_when_settled(f);
}

static void all_small(size_t states, size_t inputs, size_t outputs, size_t every)
{
    coder_file f;
    size_t k;

    for (k = 0; k < coders_with(states, inputs, outputs); k += every) {
        make_numbered(&f, states, inputs, outputs, k);
        small_coder(&f);
        if (k / every % 16 == 0)
            least_windows_further(&f, few, 7);
    }
}

/* A random coder, behind a line of random length or not: settle counts from 0 to 16, then further. */
static void random_coder(size_t states, size_t line)
{
    coder_file f, end;
    size_t p;

    make_random(&end, states, 1 + random_below(4), 1 + random_below(8));
    make_constant_line(&f, line, &end);
    compare_starts(&f);
    search(&f, 0);
    for (p = 1; p <= SETTLED + 1; p++)
        search_further(&f, p);
    search_further(&f, SETTLED + 2 + random_below(40));
    search_further(&f, MOST_SETTLE);
    round_trip(&f);
    same_when_settled(&f);
    compare_some_of_each(&f);
}

void group_settle(void)
{
    example e;
    size_t k;

    begin_group("settle counts");
    all_starts(1, 3, 1);
    all_starts(2, 3, 1);
    all_starts(3, 2, 1);
    all_starts(4, 2, 16);
    all_starts(5, 1, 1);
    try_verdicts(1, 0, 0, 0);
    coder_g();
    for (k = 0; k < EXAMPLES; k++) {
        make_example(k, &e);
        known_examples(&e);
    }
    known_lines();
    try_verdicts(0, 0, 0, 0);
    for (k = 0; k < 8; k++)
        all_small(1 + k / 4, 1 + k / 2 % 2, 1 + k % 2, 1);
    all_small(3, 2, 2, 16);
    for (k = 0; k < 400; k++)
        random_coder(1 + random_below(8), random_below(9));
    end_group();
}
