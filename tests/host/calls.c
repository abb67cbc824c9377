/* The comparisons made on one coder: its search, a round trip, calls with random arguments, and
   calls with all arguments of small size. */
#include "calls.h"

#include <string.h>

/* ---- the search, and what it leads to ---- */

void search(const coder_file *f, size_t settle)
{
    arguments a = plain(CALL_SEARCH, f);

    forget_verdict();
    a.settle = settle;
    a.lent_len = SEARCH_BYTES + random_below(4);
    a.result_len += random_below(4);
    now.searches++;
    compare(&a);
}

void known_search(const coder_file *f, size_t settle, int is_pair, size_t before, size_t after)
{
    search(f, settle);
    known_value("whether there is no decoder", (size_t)found->is_pair, (size_t)is_pair);
    if (is_pair)
        return;
    known_value("the window's before", found->before, before);
    known_value("the window's after", found->after, after);
}

void known_pair(const size_t numbers[6])
{
    const pair *p = &found->pair;

    if (!found->known || !found->is_pair)
        return;
    known_value("the pair's s", p->s, numbers[0]);
    known_value("the pair's t", p->t, numbers[1]);
    known_value("the back loop", p->back_loop, numbers[2]);
    known_value("the lead-in", p->lead_in, numbers[3]);
    known_value("the lead-out", p->lead_out, numbers[4]);
    known_value("the forward loop", p->forward_loop, numbers[5]);
}

void known_letters(const uint8_t *letters, size_t len)
{
    if (found->known && found->is_pair)
        known_value("the letters' order", (size_t)memcmp(found->bytes, letters, len), 0);
}

void known_refusal(const arguments *a, size_t number)
{
    known_value("the number returned", compare(a).returned, number);
}

/* `bytes` and `len` are those of one of the files of `a`. */
static void with_faults(const arguments *a, const uint8_t **bytes, size_t *len, const coder_file *f,
                        size_t faults, void (*visit)(const arguments *a, size_t number))
{
    coder_file faulty;
    size_t k, number;

    *bytes = faulty.bytes;
    for (k = 0; k < faults; k++) {
        number = make_faulty(f, k, &faulty);
        *len = faulty.len;
        visit(a, number);
    }
}

void with_file_faults(const arguments *a, const coder_file *f, size_t faults,
                      void (*visit)(const arguments *a, size_t number))
{
    arguments b = *a;

    with_faults(&b, &b.file, &b.file_len, f, faults, visit);
}

void with_second_faults(const arguments *a, const coder_file *second, size_t faults,
                        void (*visit)(const arguments *a, size_t number))
{
    arguments b = *a;

    with_faults(&b, &b.second, &b.second_len, second, faults, visit);
}

void same_reply(const arguments *a, const arguments *b)
{
    static uint8_t bytes[LENT_ROOM];
    reply got = compare(a);
    size_t returned = got.returned, count = 0, first = 0, second = 0;

    if (returned == 0) {
        first = get_field(got.result, 0);
        second = get_field(got.result, 1);
        count = a->call == CALL_DECODE || a->call == CALL_TABLE ? first : 0;
        if (count > a->lent_len)
            return; /* a difference, and counted as one */
        memcpy(bytes, got.lent, count);
    }
    got = compare(b);
    known_value("the number returned by the second call", got.returned, returned);
    if (returned != 0 || got.returned != 0)
        return;
    known_value("field 0 of the second call", get_field(got.result, 0), first);
    if (a->call == CALL_WINDOW && first == BYTE_NONE)
        known_value("field 1 of the second call", get_field(got.result, 1), second);
    known_value("the bytes of the second call", (size_t)memcmp(bytes, got.lent, count), 0);
}

void compare_random(enum call call, const coder_file *f)
{
    arguments a = random_arguments(call, f);

    compare(&a);
}

void compare_some_of_each(const coder_file *f)
{
    compare_random(CALL_RUN, f);
    compare_random(CALL_DECODE, f);
    compare_random(CALL_CHECK, f);
    compare_random(CALL_CHECK, f);
    compare_random(CALL_WINDOW, f);
    compare_random(CALL_WINDOW, f);
    compare_random(CALL_TABLE, f);
    compare_random(CALL_WRITE, f);
}

/* What a run from this state sends, on random letters that are left in `input`, as a string to be
   decoded with the window found. */
static arguments sent_from(const coder_file *f, size_t start, uint8_t *input)
{
    coder c = coder_of_file(f->bytes);
    arguments a = plain(CALL_DECODE, f);
    size_t n;

    a.before = found->before;
    a.after = found->after;
    a.settle = found->settle;
    n = a.before + a.after + random_below(200);
    random_letters(n, c.inputs);
    memcpy(input, letters_room, n);
    follow_run(&c, start, input, n, letters_room);
    a.bytes_len = n;
    a.lent_len = n - a.before - a.after;
    return a;
}

/* The bytes that fewer than p letters stand ahead of are written over the letters at their places,
   as the enumerator has them. Returns 0 where its allowance does not suffice. */
static int first_bytes(const coder *c, const arguments *a, uint8_t *input)
{
    size_t k;

    allow_steps(ANSWER_STEPS);
    for (k = 0; k < a->settle && k < a->lent_len; k++)
        input[a->before + k] = window_byte(c, a->before, a->after, a->bytes + k);
    return !steps_used_up();
}

void round_trip(const coder_file *f)
{
    static uint8_t input[1024];
    coder c = settled_coder(f->bytes, found->settle);
    arguments a;
    size_t start;

    if (!found->known || found->is_pair)
        return;
    a = sent_from(f, c.reachable.state[random_below(c.reachable.count)], input);
    if (first_bytes(&c, &a, input))
        compare_known(&a, input + a.before, a.lent_len);
    else
        now.answers_left++;
    start = random_below(c.states);
    if (in_list(&c.reachable, start))
        return;
    a = sent_from(f, start, input);
    compare(&a);
}

void compare_both_ways(const coder_file *f, size_t settle, size_t most)
{
    coder c = settled_coder(f->bytes, settle);
    uint8_t fails[MOST_WINDOW];
    size_t n, b;

    for (n = 1; n <= most; n++)
        if (fails_by_groups(&c, n, MOST_RUNS, fails))
            for (b = 0; b < n; b++) {
                enum answer works;

                allow_steps(ANSWER_STEPS);
                works = works_by_pairs(&c, b, n - 1 - b);
                known_value("whether a window works, by pairs", works, fails[b] ? NO : YES);
            }
}

/* ---- all arguments of small size ---- */

void all_runs(const coder_file *f, size_t most)
{
    coder c = coder_of_file(f->bytes);
    arguments a = plain(CALL_RUN, f);
    size_t n, k;

    for (a.start = 0; a.start < c.states; a.start++)
        for (n = 0; n <= most; n++)
            for (k = 0; k < power(c.inputs, n); k++) {
                put_digits(letters_room, n, c.inputs, k);
                a.bytes_len = n;
                a.lent_len = n + k % 2;
                compare(&a);
            }
}

void all_windows(const coder_file *f, size_t settle, size_t most)
{
    coder c = coder_of_file(f->bytes);
    arguments a = plain(CALL_WINDOW, f);
    size_t n, k;

    a.settle = settle;
    for (n = 1; n <= most; n++)
        for (a.before = 0; a.before < n; a.before++) {
            a.after = n - 1 - a.before;
            a.bytes_len = n;
            for (k = 0; k < power(c.outputs, n); k++) {
                put_digits(letters_room, n, c.outputs, k);
                compare(&a);
            }
        }
}

void all_strings(const coder_file *f, size_t settle, size_t window, size_t most)
{
    coder c = coder_of_file(f->bytes);
    arguments a = plain(CALL_DECODE, f);
    size_t n, k;

    a.settle = settle;
    for (a.before = 0; a.before < window; a.before++)
        for (a.after = 0; a.before + a.after < window; a.after++)
            for (n = 0; n <= most; n++)
                for (k = 0; k < power(c.outputs, n); k++) {
                    put_digits(letters_room, n, c.outputs, k);
                    a.bytes_len = n;
                    a.lent_len = n > a.before + a.after ? n - a.before - a.after : 0;
                    compare(&a);
                }
}

void all_tables(const coder_file *f, size_t settle, size_t most)
{
    coder c = coder_of_file(f->bytes);
    arguments a = plain(CALL_TABLE, f);

    a.settle = settle;
    for (a.before = 0; a.before < most; a.before++)
        for (a.after = 0; a.before + a.after < most; a.after++) {
            a.lent_len = power(c.outputs, a.before + 1 + a.after) + a.before % 2;
            compare(&a);
        }
}

void whole_table(const coder_file *f, size_t before, size_t after, size_t settle)
{
    static uint8_t wanted[MOST_TABLE];
    arguments a = plain(CALL_TABLE, f);
    coder c = settled_coder(f->bytes, settle);
    size_t bytes = table_bytes(c.outputs, before + 1 + after), k;

    if (bytes > MOST_TABLE) {
        differ("a table of more than %d bytes is wanted", MOST_TABLE);
        return;
    }
    for (k = 0; k < bytes; k++) {
        allow_steps(ANSWER_STEPS);
        wanted[k] = table_byte(&c, before, after, k);
        if (steps_used_up()) {
            now.answers_left++;
            return;
        }
    }
    a.before = before;
    a.after = after;
    a.settle = settle;
    a.lent_len = bytes + 1;
    compare_known(&a, wanted, bytes);
}

static void all_letters_of_pair(arguments *a, const coder *c)
{
    size_t letters = pair_letters(&a->pair), k;

    a->bytes_len = 2 * letters;
    for (k = 0; k < power(c->inputs, 2 * letters); k++) {
        put_digits(letters_room, 2 * letters, c->inputs, k);
        compare(a);
    }
}

void all_pairs(const coder_file *f, size_t most)
{
    coder c = coder_of_file(f->bytes);
    arguments a = plain(CALL_CHECK, f);
    pair *p = &a.pair;

    for (p->s = 0; p->s < c.states; p->s++)
        for (p->t = 0; p->t < c.states; p->t++)
            for (p->back_loop = 0; p->back_loop < most; p->back_loop++)
                for (p->lead_in = 0; p->back_loop + p->lead_in < most; p->lead_in++)
                    for (p->lead_out = 0; p->back_loop + p->lead_in + p->lead_out < most;
                         p->lead_out++)
                        for (p->forward_loop = 0; p->back_loop + p->lead_in + p->lead_out
                                 + p->forward_loop < most; p->forward_loop++)
                            all_letters_of_pair(&a, &c);
}
