/* Received letters as a single window: what is known of the possible ones, and what follows from what
   the library said of them. */
#include "how_far.h"

#include "calls.h"
#include "case_texts.h"

#include <string.h>

enum { MOST_OUTRIGHT = 4096, MOST_WRITTEN = 8, SMALL_TABLE = 300 };

how_far_counts of_how_far;

/* ---- one window ---- */

/* The places at which the present letter of n can stand. */
static size_t first_place(size_t n)
{
    return n > MOST_SIDE + 1 ? n - MOST_SIDE - 1 : 0;
}

static size_t last_place(size_t n)
{
    return n > MOST_SIDE + 1 ? MOST_SIDE : n - 1;
}

static size_t random_place(size_t n)
{
    return first_place(n) + random_below(last_place(n) - first_place(n) + 1);
}

/* The result has 64 bytes, or some more. */
static arguments call_with(enum call call, const received *r, size_t before)
{
    arguments a = plain(call, r->file);

    a.settle = r->settle;
    a.before = before;
    a.after = r->n - 1 - before;
    a.bytes = r->letters;
    a.bytes_len = r->n;
    a.result_len += random_below(3) ? 0 : random_below(65);
    return a;
}

static int is_none(const reply *got)
{
    return got->returned == 0 && get_field(got->result, 0) == BYTE_NONE;
}

static size_t stop_of(size_t possible, size_t before, size_t after)
{
    if (possible == 0)
        return STOP_FIRST;
    if (possible >= before + after)
        return STOP_LAST;
    if (possible == before)
        return STOP_PRESENT;
    return possible < before ? STOP_BEFORE : STOP_AFTER;
}

static void count_answer(const arguments *a, const reply *got)
{
    size_t possible;

    if (got->returned != 0)
        return;
    if (!is_none(got)) {
        if (get_field(got->result, 0) == BYTE_SEVERAL)
            of_how_far.several++;
        else
            of_how_far.letter++;
        return;
    }
    possible = get_field(got->result, 1);
    of_how_far.stops[stop_of(possible, a->before, a->after)]++;
    if (of_how_far.most < possible && possible < a->bytes_len)
        of_how_far.most = possible;
}

void case_of(const received *r)
{
    arguments a = call_with(CALL_WINDOW, r, random_place(r->n));

    text_call(&a);
}

static reply try_at(const received *r, size_t before)
{
    arguments a = call_with(CALL_WINDOW, r, before);
    reply got = compare(&a);

    count_answer(&a, &got);
    return got;
}

/* ---- what is known ---- */

void send_letters(const coder_file *f, size_t settle, size_t n, uint8_t *letters)
{
    static uint8_t input[MOST_SETTLE + MOST_WINDOW], output[MOST_SETTLE + MOST_WINDOW];
    coder c = coder_of_file(f->bytes);
    size_t k;

    for (k = 0; k < settle + n; k++)
        input[k] = (uint8_t)random_below(c.inputs);
    follow_run(&c, c.reachable.state[random_below(c.reachable.count)], input, settle + n, output);
    memcpy(letters, output + settle, n);
}

static void expect(const reply *got, size_t n, size_t possible)
{
    known_value("whether no run gives the letters", (size_t)is_none(got), possible < n);
    if (possible < n)
        known_value("the number of possible letters", get_field(got->result, 1), possible);
}

/* The enumerator's two ways agree where there are not too many runs. */
static void compare_ways(const received *r)
{
    coder c = settled_coder(r->file->bytes, r->settle);
    size_t outright;

    if (!possible_outright(&c, r->letters, r->n, MOST_OUTRIGHT, &outright))
        return;
    allow_steps(ANSWER_STEPS);
    known_value("the number of possible letters, by trying",
                possible_letters(&c, r->letters, r->n), outright);
}

/* No run gives the letters: the byte alone in a string and in a table, and by kinds nothing but
   none. */
static void plain_nones(const received *r, size_t before)
{
    size_t outputs = r->file->bytes[5], index = 0, k;
    arguments a = call_with(CALL_DECODE, r, before);
    reply got;

    a.lent_len = 1 + random_below(3);
    got = compare(&a);
    known_value("the byte of the string", got.lent[0], BYTE_NONE);
    if (r->settle == 0) {
        a = call_with(CALL_WINDOW_KINDS, r, before);
        known_value("the answer by kinds", get_field(compare(&a).result, 0), KINDS_NONE);
    }
    if (table_bytes(outputs, r->n) > SMALL_TABLE)
        return;
    for (k = 0; k < r->n; k++)
        index = index * outputs + r->letters[k];
    a = call_with(CALL_TABLE, r, before);
    a.bytes_len = 0;
    a.lent_len = table_bytes(outputs, r->n);
    known_value("the byte of the table", compare(&a).lent[index], BYTE_NONE);
}

void known_how_far(const received *r, size_t possible)
{
    size_t b;

    compare_ways(r);
    for (b = first_place(r->n); b <= last_place(r->n); b++) {
        reply got = try_at(r, b);

        expect(&got, r->n, possible);
    }
    if (possible < r->n)
        plain_nones(r, random_place(r->n));
    if (r->n <= MOST_WRITTEN || random_below(64) == 0)
        case_of(r);
}

void known_none(const received *r, size_t possible)
{
    arguments a = call_with(CALL_WINDOW, r, random_place(r->n));
    reply got = compare_none(&a, possible);

    count_answer(&a, &got);
}

/* ---- what the library said ---- */

static size_t possible_by(const reply *got, size_t n)
{
    return is_none(got) ? get_field(got->result, 1) : n;
}

/* The possible letters alone are given by some run; with one letter more by none, and as many are
   possible. */
static void try_parts(const received *r, size_t possible)
{
    received part = *r;
    reply got;

    part.n = possible;
    if (possible > 0) {
        got = try_at(&part, random_place(part.n));
        if (got.returned == 0)
            expect(&got, part.n, possible);
    }
    part.n = possible + 1;
    got = try_at(&part, random_place(part.n));
    if (got.returned == 0)
        expect(&got, part.n, possible);
}

static void same_at(const received *r, size_t before, size_t possible)
{
    reply got = try_at(r, before);

    if (got.returned == 0)
        known_value("the number of possible letters with another present place",
                    possible_by(&got, r->n), possible);
}

size_t try_how_far(const received *r, size_t at_least, int places)
{
    size_t first = first_place(r->n), b = places == TWO_PLACES ? random_place(r->n) : first;
    reply got = try_at(r, b);
    size_t possible = possible_by(&got, r->n);

    if (got.returned != 0)
        return r->n + 1;
    if (possible < at_least)
        differ("%zu letters possible, but a run has sent %zu", possible, at_least);
    compare_ways(r);
    if (places == TWO_PLACES)
        same_at(r, random_place(r->n), possible);
    else
        for (b = first + 1; b <= last_place(r->n); b++)
            same_at(r, b, possible);
    if (possible < r->n)
        try_parts(r, possible);
    return possible;
}
