/* Damaged strings (document 02, 10/13): strings of which the bytes are known; strings of the examples, of
   small and random coders, lines and chains, with the window that the search reports and with another
   one; strings about as long as a window; refusals that come with damage. */
#include "calls.h"
#include "case_texts.h"
#include "damaged_strings.h"
#include "groups.h"

#include <stdio.h>
#include <string.h>

/* ---- short strings ---- */

/* Sent strings with no letter, of a letter less than a window, of a window and of a letter more. */
static void short_strings(const coder_file *f, const window *w, int works)
{
    static coded s;
    size_t letters = window_letters(w), k;

    for (k = 0; k < 4; k++)
        if (send_string(&s, f, w, works, k == 0 ? 0 : letters + k - 2)) {
            each_letter(&s, 1 + s.n / 16);
            try_ways(&s, 3, 0);
            lose_ends(&s, s.n, 0, 0, 0);
            lose_ends(&s, s.n, 0, letters + 2, 0);
        }
}

/* ---- refusals ---- */

static void known_number(const arguments *a, size_t number)
{
    known_refusal(a, number);
    if (number != 0)
        text_string_refused(a, number);
}

/* One letter of the received string is O: altered to that, or added. */
static void letters_from_o(const coded *s)
{
    static uint8_t received[MOST_STRING];
    const uint8_t outputs = s->file->bytes[5];
    size_t place;
    arguments a;

    for (place = 0; place <= s->n; place++) {
        memcpy(received, s->letters, s->n);
        memmove(received + place + 1, received + place, s->n - place);
        received[place] = outputs;
        a = string_call(s, received, s->n + 1);
        known_number(&a, 13);
        received[place] = (uint8_t)(outputs - 1);
        known_number(&a, 0);
        if (place == s->n)
            return;
        memcpy(received, s->letters, s->n);
        received[place] = outputs;
        a = string_call(s, received, s->n);
        known_number(&a, 13);
        received[place] = 255;
        known_number(&a, 13);
        received[place] = (uint8_t)(outputs - 1);
        known_number(&a, 0);
    }
}

/* A buffer that is just large enough for the string that was sent: with a letter more one byte is
   missing, with a letter less one stays. */
static void buffers_as_sent(const coded *s)
{
    static uint8_t received[MOST_STRING];
    arguments a = string_call(s, s->letters, s->n);

    a.lent_len = s->count;
    known_number(&a, 0);
    memcpy(received, s->letters, s->n);
    received[s->n] = (uint8_t)random_below(s->file->bytes[5]);
    a.bytes = received;
    a.bytes_len = s->n + 1;
    known_number(&a, 11);
    received[0] = s->file->bytes[5];
    known_number(&a, 11);
    a.lent_len++;
    known_number(&a, 13);
    received[0] = s->letters[0];
    known_number(&a, 0);
    a.lent_len = s->count;
    a.bytes_len = s->n - 1;
    known_number(&a, 0);
}

/* A string of so many letters more than b + a: with none more it has no byte, and a letter added makes
   the first. */
static void refused(const coder_file *f, const window *w, int works)
{
    static coded s;
    size_t more;

    for (more = w->before + w->after > 0 ? 0 : 1; more < 4; more++)
        if (send_string(&s, f, w, works, w->before + w->after + more)) {
            letters_from_o(&s);
            buffers_as_sent(&s);
        }
}

/* ---- coders ---- */

/* What is tried with each window of a coder. */
typedef void visitor(const coder_file *f, const window *w, int works);

/* The window that the search reports for the settle count, and another one that need not work, with
   more letters on the one side than on the other. */
static void with_windows(const coder_file *f, size_t settle, visitor *visit)
{
    window w = {random_below(4), 0, settle};

    search(f, settle);
    if (found->known && !found->is_pair) {
        const window reported = {found->before, found->after, settle};

        visit(f, &reported, 1);
    }
    w.after = (w.before + 1 + random_below(3)) % 4;
    visit(f, &w, 0);
}

/* With letters enough for the settle count ahead of windows. */
static void settled_strings(const coder_file *f, const window *w, int works)
{
    static coded s;
    size_t n = w->settle + window_letters(w) + 5 + random_below(12);

    if (send_string(&s, f, w, works, n)) {
        each_letter(&s, 1 + n / 8);
        ends(&s);
        try_ways(&s, n / 2, 0);
    }
}

static void example_strings(const coder_file *f, const window *w, int works)
{
    static coded s;

    if (send_string(&s, f, w, works, window_letters(w) + 6 + random_below(8))) {
        each_letter(&s, 1);
        cut_to_window(&s);
        ends(&s);
        try_ways(&s, 2, 7);
        try_ways(&s, 6, 0);
    }
    settled_strings(f, w, works);
    short_strings(f, w, works);
    refused(f, w, works);
}

static void small_strings(const coder_file *f, const window *w, int works)
{
    static coded s;

    if (send_string(&s, f, w, works, window_letters(w) + 2 + random_below(6))) {
        each_letter(&s, 1);
        cut_to_window(&s);
        ends(&s);
        try_ways(&s, 4, 1 + random_below(7));
    }
    short_strings(f, w, works);
}

static void random_strings(const coder_file *f, const window *w, int works)
{
    static coded s;

    if (send_string(&s, f, w, works, window_letters(w) + random_below(40))) {
        one_letter(&s, 1 + s.n / 4, (enum change_kind)(ALTERED + random_below(3)));
        cut_to_window(&s);
        ends(&s);
        try_ways(&s, 4 + random_below(12), 1 + random_below(16));
    }
    if (random_below(4) == 0)
        settled_strings(f, w, works);
}

/* Windows with many letters: not many of them, for each takes the enumerator many steps. */
static void long_strings(const coder_file *f, const window *w, int works)
{
    static coded s;
    size_t letters = window_letters(w);

    if (send_string(&s, f, w, works, letters + 8 + random_below(16))) {
        each_letter(&s, 1 + s.n / 12);
        cut_to_window(&s);
        ends(&s);
        try_ways(&s, letters, 0);
    }
}

static const size_t settles[5] = {0, 1, 2, 15, MOST_SETTLE};

static void one_coder(const coder_file *f, size_t settle, visitor *visit)
{
    now.coders++;
    text_file(f->bytes, f->len);
    with_windows(f, settle, visit);
}

static void examples(void)
{
    example e;
    size_t k, p;

    for (k = 0; k < EXAMPLES; k++)
        for (p = 0; p < 5; p++) {
            make_example(k, &e);
            one_coder(&e.file, settles[p], example_strings);
        }
}

static void all_small(size_t states, size_t inputs, size_t outputs)
{
    coder_file f;
    size_t k;

    for (k = 0; k < coders_with(states, inputs, outputs); k++) {
        make_numbered(&f, states, inputs, outputs, k);
        one_coder(&f, settles[k % 5], small_strings);
    }
}

/* Lines, whose windows have fewer letters before with each settle count. */
static void lines(size_t line)
{
    static const size_t end[3] = {0, 1, 3};
    coder_file f;
    example e;
    size_t k, p;

    for (p = 0; p < 5; p++) {
        for (k = 0; k < 3; k++) {
            make_example(end[k], &e);
            make_constant_line(&f, line, &e.file);
            one_coder(&f, settles[p], random_strings);
        }
        make_line_like_g(&f, line);
        one_coder(&f, settles[p], random_strings);
    }
}

/* A random coder, behind a line of states or alone. */
static void random_coder(size_t states, size_t inputs, size_t outputs)
{
    coder_file f, end;

    make_random(&end, states, inputs, outputs);
    make_constant_line(&f, random_below(2) * random_below(16 - states), &end);
    one_coder(&f, random_below(2) ? 0 : random_settle(), random_strings);
}

static void chains(size_t states)
{
    coder_file f;

    make_forward_chain(&f, states, states - 2);
    one_coder(&f, 0, long_strings);
    make_backward_chain(&f, states, states < 12 ? states - 2 : 4);
    one_coder(&f, 0, long_strings);
    make_split_chain(&f, states, states / 3);
    one_coder(&f, 0, long_strings);
    make_either_chain(&f, states, 1, states - 3, states / 2, 1);
    one_coder(&f, random_settle(), long_strings);
    make_closed_both(&f, states, 1);
    one_coder(&f, random_settle(), long_strings);
}

/* ---- the group ---- */

static void print_counts(void)
{
    const damage_counts *c = &of_damage;
    const struct {
        const char *between, *name;
        unsigned long count;
    } rows[] = {
        {"damaged strings: ", "altered", c->strings[ALTERED]},
        {", ", "lost", c->strings[LOST]},
        {", ", "added", c->strings[ADDED]},
        {", ", "mixed", c->strings[KEPT]},
        {", ", "left with no byte", c->no_byte},
        {"; places that are the same: ", "no altered letter", c->unaltered},
        {", after the last loss or addition: ", "settle count 0", c->after_last[0]},
        {", ", "1 to 15", c->after_last[1]},
        {", ", "above", c->after_last[2]},
        {"; by the kept window alone: ", "ahead of the first", c->ahead},
        {", ", "between two", c->between},
        {", ", "after the last", c->not_settled},
        {"; ", "input letters that came back", c->came_back},
        {"; windows with damage: ", "the same byte", c->same},
        {", ", "another", c->other},
        {", ", "none", c->none},
        {", ", "a wrong letter", c->wrong},
        {"; another byte by the first letter: ", "altered", c->but_first[0]},
        {", ", "shifted", c->but_first[1]},
        {"; by the last: ", "altered", c->but_last[0]},
        {", ", "shifted", c->but_last[1]}
    };
    size_t k, count = sizeof rows / sizeof *rows;

    show_call(NULL);
    for (k = 0; k < count; k++)
        printf("%s%s %lu", rows[k].between, rows[k].name, rows[k].count);
    printf("\n");
    for (k = 0; k < count; k++)
        if (rows[k].count == 0)
            differ("count %zu of the line above is 0: %s", k, rows[k].name);
}

void group_damaged_strings(void)
{
    static const size_t line_lengths[4] = {1, 3, 8, 13}, chain_states[4] = {5, 7, 11, 16};
    size_t k;

    begin_group("damaged strings");
    try_verdicts(0, 0, 0, 0);
    known_damaged_strings();
    examples();
    for (k = 0; k < 8; k++)
        all_small(1 + k / 4, 1 + k / 2 % 2, 1 + k % 2);
    for (k = 0; k < 4; k++)
        lines(line_lengths[k]);
    for (k = 0; k < 1000; k++)
        random_coder(1 + random_below(6), 1 + random_below(4), 1 + random_below(8));
    for (k = 0; k < 200; k++)
        random_coder(1 + random_below(15), 1 + random_below(16), 1 + random_below(60));
    for (k = 0; k < 4; k++)
        chains(chain_states[k]);
    print_counts();
    end_group();
}
