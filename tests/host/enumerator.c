/* The brute-force enumerator: the coder of a file, its runs, and what an accepted call writes. */
#include "enumerator.h"

#include <string.h>

/* ---- the coder and its runs ---- */

coder coder_of_file(const uint8_t *file)
{
    return settled_coder(file, 0);
}

coder settled_coder(const uint8_t *file, size_t settle)
{
    coder c;

    c.states = file[3];
    c.inputs = file[4];
    c.outputs = file[5];
    c.entries = file + 6;
    list_reachable(&c);
    list_starts(&c, settle);
    return c;
}

size_t next_state(const coder *c, size_t state, size_t input)
{
    return c->entries[2 * (state * c->inputs + input)];
}

size_t output_letter(const coder *c, size_t state, size_t input)
{
    return c->entries[2 * (state * c->inputs + input) + 1];
}

size_t side_bound(const coder *c)
{
    return c->states * (c->states + 1) / 2;
}

int another_coder(kept_coder *k, const coder *c)
{
    size_t bytes = 2 * c->states * c->inputs;

    if (k->states == c->states && k->inputs == c->inputs && k->outputs == c->outputs
        && memcmp(k->entries, c->entries, bytes) == 0)
        return 0;
    k->states = c->states;
    k->inputs = c->inputs;
    k->outputs = c->outputs;
    memcpy(k->entries, c->entries, bytes);
    return 1;
}

size_t follow_run(const coder *c, size_t start, const uint8_t *input, size_t n, uint8_t *output)
{
    size_t state = start, k;

    for (k = 0; k < n; k++) {
        output[k] = (uint8_t)output_letter(c, state, input[k]);
        state = next_state(c, state, input[k]);
    }
    return state;
}

/* ---- what a call writes ---- */

void put_field(uint8_t *result, size_t k, uint64_t value)
{
    size_t d;

    for (d = 0; d < 8; d++)
        result[8 * k + d] = (uint8_t)(value >> (56 - 8 * d));
}

uint64_t get_field(const uint8_t *result, size_t k)
{
    uint64_t value = 0;
    size_t d;

    for (d = 0; d < 8; d++)
        value = value << 8 | result[8 * k + d];
    return value;
}

uint8_t table_byte(const coder *c, size_t before, size_t after, size_t index)
{
    uint8_t received[MOST_WINDOW];
    size_t k;

    for (k = before + 1 + after; k > 0; k--, index /= c->outputs)
        received[k - 1] = (uint8_t)(index % c->outputs);
    return window_byte(c, before, after, received);
}

/* Version 1; in two bytes, the higher one first, how many bytes are still to come; N; I; O; the
   entries. */
size_t put_file(const size_t counts[3], const uint8_t *entries, size_t len, uint8_t *file)
{
    size_t count = 3 + len, k;

    file[0] = 1;
    file[1] = (uint8_t)(count >> 8);
    file[2] = (uint8_t)(count & 255);
    for (k = 0; k < 3; k++)
        file[3 + k] = (uint8_t)counts[k];
    for (k = 0; k < len; k++)
        file[6 + k] = entries[k];
    return 3 + count;
}

/* The fields of a single window: a second one with none alone. */
static void put_window_answer(const coder *c, const arguments *a, uint8_t *result)
{
    uint8_t byte = window_byte(c, a->before, a->after, a->bytes);

    put_field(result, 0, byte);
    if (byte == BYTE_NONE)
        put_field(result, 1, possible_letters(c, a->bytes, a->bytes_len));
}

/* The fields of a search for kinds; with "cannot" there is one alone. */
static void put_kinds_verdict(const kinds_verdict *v, uint8_t *result)
{
    put_field(result, 0, v->told ? 0 : 1);
    if (!v->told)
        return;
    put_field(result, 1, v->before);
    put_field(result, 2, v->after);
    put_field(result, 3, v->carried);
}

/* The fields of a window decoded by kinds: a number for a letter or a kind alone. */
static void put_kinds_answer(const coder *c, const arguments *a, uint8_t *result)
{
    size_t number, answer = window_kinds(c, a->kinds, a->before, a->after, a->bytes, &number);

    put_field(result, 0, answer);
    if (answer == KINDS_LETTER || answer == KINDS_KIND)
        put_field(result, 1, number);
}

/* The coder with the settle count of the call; the calls for kinds and the join have none. */
static coder coder_of_call(const arguments *a)
{
    if (a->call == CALL_SEARCH_KINDS || a->call == CALL_WINDOW_KINDS || a->call == CALL_JOIN)
        return coder_of_file(a->file);
    return settled_coder(a->file, a->settle);
}

int expected_answer(const arguments *a, uint8_t *lent, uint8_t *result)
{
    kinds_verdict v;
    coder c, second;
    size_t count, k;
    pair p;

    if (a->call == CALL_WRITE) {
        put_field(result, 0, put_file(a->counts, a->bytes, a->bytes_len, lent));
        return 1;
    }
    c = coder_of_call(a);
    switch (a->call) {
    case CALL_RUN:
        put_field(result, 1, follow_run(&c, a->start, a->bytes, a->bytes_len, lent));
        put_field(result, 0, a->bytes_len);
        return 1;
    case CALL_DECODE:
        count = full_windows(a);
        for (k = 0; k < count; k++)
            lent[k] = window_byte(&c, a->before, a->after, a->bytes + k);
        put_field(result, 0, count);
        return !steps_used_up();
    case CALL_CHECK:
        p = a->pair;
        p.letters = a->bytes;
        put_field(result, 0, (uint64_t)pair_valid(&c, &p));
        return 1;
    case CALL_WINDOW:
        put_window_answer(&c, a, result);
        return !steps_used_up();
    case CALL_TABLE:
        count = table_bytes(c.outputs, a->before + 1 + a->after);
        for (k = 0; k < count; k++)
            lent[k] = table_byte(&c, a->before, a->after, k);
        put_field(result, 0, count);
        return !steps_used_up();
    case CALL_SEARCH_KINDS:
        v = search_kinds(&c, a->kinds);
        put_kinds_verdict(&v, result);
        return 1;
    case CALL_WINDOW_KINDS:
        put_kinds_answer(&c, a, result);
        return !steps_used_up();
    case CALL_JOIN:
        second = coder_of_file(a->second);
        put_field(result, 0, put_joined(&c, &second, lent));
        return 1;
    default:
        return 0;
    }
}
