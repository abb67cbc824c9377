/* Coders of which it is known beforehand how many received letters, from the first on, some run puts
   out, with the reason. */
#include "how_far.h"

#include "calls.h"
#include "case_texts.h"

#include <string.h>

/* ---- examples ---- */

/* Letters, and how many of them are possible with the settle counts 0, 1 and 2; from 2 on the start
   states of all these coders stay the same. */
typedef struct row {
    size_t n;
    uint8_t letters[7], possible[3];
} row;

static void known_rows(const coder_file *f, const row *rows, size_t count)
{
    static const size_t settles[5] = {0, 1, 2, 15, MOST_SETTLE};
    size_t p, k;

    text_file(f->bytes, f->len);
    for (p = 0; p < 5; p++)
        for (k = 0; k < count; k++) {
            const received r = {f, settles[p], rows[k].n, rows[k].letters};
            const uint8_t *possible = rows[k].possible;

            known_how_far(&r, possible[p < 2 ? p : 2]);
            of_how_far.settles += p < 2 && possible[p] != possible[p + 1];
        }
}

/* State 0 puts out 4 or 5 and leads to 1. State 1 puts out 0 and leads to 2 or to 3 by its letter.
   State 2 stays and puts out 0 or 1, state 3 stays and puts out 2 or 3. A window starts in any of
   them with p = 0, in 1 to 3 with p = 1, in 2 or 3 from p = 2 on. */
static void rows_of_g(void)
{
    static const row rows[] = {
        {2, {1, 2}, {1, 1, 1}},
        {1, {4}, {1, 0, 0}},
        {1, {0}, {1, 1, 1}},
        {2, {0, 2}, {2, 2, 1}},
        {2, {5, 1}, {1, 0, 0}},
        {2, {4, 4}, {1, 0, 0}},
        {2, {3, 5}, {1, 1, 1}},
        {3, {0, 2, 1}, {2, 2, 1}},
        {3, {5, 5, 0}, {1, 0, 0}},
        {3, {0, 4, 0}, {1, 1, 1}},
        {4, {0, 2, 3, 1}, {3, 3, 1}},
        {4, {4, 0, 2, 1}, {3, 0, 0}},
        {4, {0, 0, 1, 2}, {3, 3, 3}},
        {4, {2, 3, 2, 4}, {3, 3, 3}},
        {5, {4, 0, 1, 2, 3}, {3, 0, 0}},
        {5, {4, 0, 1, 1, 0}, {5, 0, 0}},
        {5, {5, 0, 3, 2, 2}, {5, 0, 0}},
        {5, {0, 0, 1, 2, 0}, {3, 3, 3}},
        {6, {0, 2, 3, 3, 2, 0}, {5, 5, 1}},
        {6, {1, 4, 0, 0, 1, 1}, {1, 1, 1}},
        {6, {1, 0, 0, 1, 1, 3}, {5, 5, 5}},
        {7, {5, 0, 0, 1, 0, 3, 2}, {5, 0, 0}}
    };
    example e;

    make_example(6, &e);
    known_rows(&e.file, rows, sizeof rows / sizeof *rows);
}

/* State 0 puts out 0 and leads to 1 or to 2 by its letter. State 1 stays and puts out 0 or 1, state 2
   stays and puts out 2 or 3. A window starts in any of them with p = 0, in 1 or 2 from p = 1 on. */
static void rows_of_f(void)
{
    static const row rows[] = {
        {2, {1, 2}, {1, 1, 1}},
        {2, {0, 2}, {2, 1, 1}},
        {3, {0, 2, 1}, {2, 1, 1}},
        {3, {2, 0, 0}, {1, 1, 1}},
        {3, {0, 3, 2}, {3, 1, 1}},
        {4, {0, 1, 3, 2}, {2, 2, 2}},
        {4, {3, 2, 3, 0}, {3, 3, 3}},
        {5, {0, 2, 3, 3, 1}, {4, 1, 1}}
    };
    example e;

    make_example(5, &e);
    known_rows(&e.file, rows, sizeof rows / sizeof *rows);
}

/* State 0 puts out 0 and stays or 1 and leads to 1; state 1 puts out 1 and stays or 2 and leads to 0.
   State 2 is spare: it puts out 3 and leads to 0, or 0 and stays. Each of the others is entered from
   itself, so settle counts change nothing. */
static void rows_with_spare_state(void)
{
    static const uint8_t entries[12] = {0, 0, 1, 1, 1, 1, 0, 2, 0, 3, 2, 0};
    static const row rows[] = {
        {1, {3}, {0, 0, 0}},
        {3, {3, 0, 1}, {0, 0, 0}},
        {2, {0, 3}, {1, 1, 1}},
        {2, {0, 2}, {1, 1, 1}},
        {2, {2, 2}, {1, 1, 1}},
        {3, {0, 3, 0}, {1, 1, 1}},
        {4, {0, 0, 3, 2}, {2, 2, 2}},
        {4, {1, 2, 0, 2}, {3, 3, 3}},
        {5, {0, 0, 2, 1, 1}, {2, 2, 2}},
        {5, {2, 0, 1, 1, 3}, {4, 4, 4}},
        {5, {2, 1, 2, 0, 0}, {5, 5, 5}},
        {7, {1, 1, 2, 1, 2, 2, 0}, {5, 5, 5}}
    };
    coder_file f;

    begin_file(&f, 3, 2, 4);
    memcpy(f.bytes + 6, entries, sizeof entries);
    known_rows(&f, rows, sizeof rows / sizeof *rows);
}

/* A to E and H: some run gives any letters. In D each letter chooses the next output, and the first one
   is that of either start state; in the others each reachable state puts out every letter. */
static void always_possible(const example *e)
{
    size_t outputs = e->file.bytes[5], k;
    received r = {&e->file, 0, 0, letters_room};

    for (r.settle = 0; r.settle < 3; r.settle++) {
        text_file(e->file.bytes, e->file.len);
        for (r.n = 1; r.n <= 5; r.n++)
            for (k = 0; k < power(outputs, r.n); k++) {
                put_digits(letters_room, r.n, outputs, k);
                known_how_far(&r, r.n);
            }
    }
}

/* ---- lines ---- */

/* A line of m states that ends in coder B. A run puts out the line's letter 2 at first, as often as
   there are states of the line from its start state on, at most m - p times; then 0 and 1 in any
   order, and 2 never again. So more than m - p letters 2 at the front are possible m - p times; else
   the letters are possible up to the next 2. */
static size_t of_constant_line(const uint8_t *letters, size_t n, size_t line, size_t settle)
{
    size_t most = line > settle ? line - settle : 0, k = 0;

    while (k < n && letters[k] == 2)
        k++;
    if (k > most)
        return most;
    while (k < n && letters[k] != 2)
        k++;
    return k;
}

/* How many of the letters from this place on are `low` or the one after it. */
static size_t of_two(const uint8_t *letters, size_t n, size_t from, size_t low)
{
    size_t k = from;

    while (k < n && letters[k] / 2 == low / 2)
        k++;
    return k - from;
}

static size_t larger(size_t one, size_t other)
{
    return one > other ? one : other;
}

/* A line of m states like coder G: 4 or 5 in each of them but the last, then 0, then only 0 and 1 or
   only 2 and 3. A run that starts in the line, where p is below m, has from 0 to m - 1 - p letters 4
   and 5 before the 0. One that starts behind it has only 0 and 1 or only 2 and 3. */
static size_t of_line_like_g(const uint8_t *letters, size_t n, size_t line, size_t settle)
{
    size_t front = of_two(letters, n, 0, 4);
    size_t behind = larger(of_two(letters, n, 0, 0), of_two(letters, n, 0, 2));

    if (settle >= line)
        return behind;
    if (front > line - 1 - settle)
        return line - 1 - settle;
    if (front == n || letters[front] != 0)
        return larger(front, behind);
    return larger(behind, front + 1 + larger(of_two(letters, n, front + 1, 0),
                                             of_two(letters, n, front + 1, 2)));
}

/* A sort of line: the coder; so many letters of the line and then letters of the end, as some run has
   them; how many of any letters are possible. */
typedef struct line_sort {
    void (*make)(coder_file *f, size_t line);
    void (*send)(uint8_t *letters, size_t front, size_t n);
    size_t (*possible)(const uint8_t *letters, size_t n, size_t line, size_t settle);
    size_t longest;
} line_sort;

static void make_line_to_b(coder_file *f, size_t line)
{
    example e;

    make_example(1, &e);
    make_constant_line(f, line, &e.file);
}

static void send_to_b(uint8_t *letters, size_t front, size_t n)
{
    size_t k;

    for (k = 0; k < n; k++)
        letters[k] = (uint8_t)(k < front ? 2 : random_below(2));
}

static void send_like_g(uint8_t *letters, size_t front, size_t n)
{
    size_t low = 2 * random_below(2), k;

    for (k = 0; k < n; k++)
        letters[k] = (uint8_t)((k < front ? 4 : low) + random_below(2));
    if (front < n)
        letters[front] = 0;
}

static const line_sort sorts[2] = {{make_line_to_b, send_to_b, of_constant_line, 15},
                                   {make_line_like_g, send_like_g, of_line_like_g, 14}};

static void known_on_line(const line_sort *sort, size_t line, const received *r)
{
    size_t possible = sort->possible(r->letters, r->n, line, r->settle);

    known_how_far(r, possible);
    of_how_far.settles += possible != sort->possible(r->letters, r->n, line, r->settle + 1);
}

/* The letters as they are, and with each altered, one at a time: to all other letters where `every` is
   1, to one where it is one less than there are. */
static void alter_each(const line_sort *sort, size_t line, const received *r, size_t every)
{
    size_t outputs = r->file->bytes[5], k, j;

    text_file(r->file->bytes, r->file->len);
    known_on_line(sort, line, r);
    for (k = 0; k < r->n; k++) {
        const uint8_t kept = letters_room[k];

        for (j = 1 + random_below(every); j < outputs; j += every) {
            letters_room[k] = (uint8_t)((kept + j) % outputs);
            known_on_line(sort, line, r);
        }
        letters_room[k] = kept;
    }
}

static void short_windows(const line_sort *sort, size_t line)
{
    static const size_t settles[7] = {0, 1, 2, 4, 13, 15, MOST_SETTLE};
    size_t front, p;
    coder_file f;

    sort->make(&f, line);
    for (front = 0; front < 6; front += 2) {
        received r = {&f, 0, 5 + front / 2, letters_room};

        sort->send(letters_room, front, r.n);
        for (p = 0; p < 7; p++) {
            r.settle = settles[p];
            alter_each(sort, line, &r, 1);
        }
    }
}

/* Both sides 136; and 137 letters, the present one at each place, some of them altered. */
static void long_windows(const line_sort *sort)
{
    static const size_t settles[3] = {0, 6, 15}, fronts[3] = {4, 7, 0};
    static const size_t places[5] = {0, 5, 70, 101, MOST_SIDE};
    coder_file f;
    size_t p, k;

    sort->make(&f, sort->longest);
    for (p = 0; p < 3; p++) {
        received r = {&f, settles[p], MOST_WINDOW, letters_room};

        sort->send(letters_room, fronts[p], r.n);
        alter_each(sort, sort->longest, &r, f.bytes[5] - 1u);
        r.n = MOST_SIDE + 1;
        for (k = 0; k < 5; k++) {
            sort->send(letters_room, fronts[p], r.n);
            letters_room[places[k]] = (uint8_t)(f.bytes[5] - 1);
            known_on_line(sort, sort->longest, &r);
        }
    }
}

/* ---- a letter of a spare state ---- */

/* The letter that a spare state alone puts out is possible nowhere: what a run has sent is possible up
   to the first place at which that letter stands. Chains, whose runs have equal outputs for long. */
static void chains_with_spare_letter(size_t states)
{
    coder_file chain[4], f;
    size_t k, j;

    make_forward_chain(&chain[0], states, states - 2);
    make_backward_chain(&chain[1], states, states - 2);
    make_split_chain(&chain[2], states, states / 2);
    make_closed_both(&chain[3], states, states - 2);
    for (k = 0; k < 4; k++) {
        received r = {&f, random_settle(), MOST_WINDOW, letters_room};

        make_with_spare_letter(&f, &chain[k]);
        send_letters(&f, r.settle, r.n, letters_room);
        for (j = 0; j < r.n; j++) {
            uint8_t kept = letters_room[j];

            letters_room[j] = (uint8_t)(f.bytes[5] - 1);
            known_none(&r, j);
            letters_room[j] = kept;
        }
    }
}

void known_coders_of_how_far(void)
{
    static const size_t lines[3] = {2, 5, 13};
    example e;
    size_t k, j;

    rows_of_g();
    rows_of_f();
    rows_with_spare_state();
    for (k = 0; k < EXAMPLES; k++) {
        make_example(k, &e);
        if (e.name != 'F' && e.name != 'G')
            always_possible(&e);
    }
    for (k = 0; k < 2; k++) {
        for (j = 0; j < 3; j++)
            short_windows(&sorts[k], lines[j]);
        long_windows(&sorts[k]);
    }
    chains_with_spare_letter(5);
    chains_with_spare_letter(15);
}
