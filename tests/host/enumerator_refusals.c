/* The enumerator's refusals: the first number that applies, in the order of docs/refusals.md. */
#include "enumerator.h"

/* ---- the file ---- */

static int in_range(size_t value, size_t most)
{
    return value >= 1 && value <= most;
}

static int counts_in_range(size_t states, size_t inputs, size_t outputs)
{
    return in_range(states, MOST_STATES) && in_range(inputs, MOST_INPUTS)
        && in_range(outputs, MOST_OUTPUTS);
}

static int entries_in_range(size_t states, size_t inputs, size_t outputs, const uint8_t *entries)
{
    size_t k;

    for (k = 0; k < states * inputs; k++)
        if (entries[2 * k] >= states || entries[2 * k + 1] >= outputs)
            return 0;
    return 1;
}

/* Document 02, 7/13: a letter below O that no entry names. */
static int letter_unused(size_t states, size_t inputs, size_t outputs, const uint8_t *entries)
{
    size_t letter, k;

    for (letter = 0; letter < outputs; letter++) {
        k = 0;
        while (k < states * inputs && entries[2 * k + 1] != letter)
            k++;
        if (k == states * inputs)
            return 1;
    }
    return 0;
}

size_t refusal_of_file(const uint8_t *file, size_t len)
{
    size_t count, states, inputs, outputs;

    if (len < 6)
        return 1;
    if (file[0] != 1)
        return 2;
    count = (size_t)file[1] * 256 + file[2];
    if (count != len - 3)
        return 3;
    states = file[3];
    inputs = file[4];
    outputs = file[5];
    if (!counts_in_range(states, inputs, outputs))
        return 4;
    if (count != 3 + 2 * states * inputs)
        return 5;
    if (!entries_in_range(states, inputs, outputs, file + 6))
        return 6;
    if (letter_unused(states, inputs, outputs, file + 6))
        return 15;
    return 0;
}

/* ---- the calls ---- */

static int some_letter_from(const uint8_t *letters, size_t n, size_t limit)
{
    size_t k;

    for (k = 0; k < n; k++)
        if (letters[k] >= limit)
            return 1;
    return 0;
}

static int sides_too_large(const arguments *a)
{
    return a->before > MOST_SIDE || a->after > MOST_SIDE;
}

static int settle_too_large(const arguments *a)
{
    return a->settle > MOST_SETTLE;
}

/* Document 02, 8/13: a list that has not a kind for each letter, or has one that is not below I. */
static int kinds_wrong(const arguments *a, const coder *c)
{
    return a->kinds_len != c->inputs || some_letter_from(a->kinds, a->kinds_len, c->inputs);
}

/* Whether the bytes are twice the letters of the pair, without adding what could wrap. */
static int pair_bytes_match(const arguments *a)
{
    const size_t lengths[4] = {a->pair.back_loop, a->pair.lead_in, a->pair.lead_out,
                               a->pair.forward_loop};
    size_t rest, k;

    if (a->bytes_len % 2 != 0 || a->bytes_len == 0)
        return 0;
    rest = a->bytes_len / 2 - 1;
    for (k = 0; k < 4; k++) {
        if (lengths[k] > rest)
            return 0;
        rest -= lengths[k];
    }
    return rest == 0;
}

size_t table_bytes(size_t outputs, size_t letters)
{
    size_t bytes = 1;

    if (outputs == 1)
        return 1;
    for (; letters > 0; letters--) {
        bytes *= outputs;
        if (bytes > MOST_TABLE)
            return MOST_TABLE + 1;
    }
    return bytes;
}

/* Document 02, 4/13: a line a case, from this O to that one. Any window that a call may name is
   allowed where O is 1. */
size_t longest_window(size_t outputs)
{
    static const struct { size_t from, to, letters; } cases[] = {
        {1, 1, MOST_WINDOW},
        {2, 2, 16},
        {3, 3, 10},
        {4, 4, 8},
        {5, 6, 6},
        {7, 9, 5},
        {10, 16, 4},
        {17, 40, 3},
        {41, 64, 2},
    };
    size_t k;

    for (k = 0; k < sizeof cases / sizeof cases[0]; k++)
        if (outputs >= cases[k].from && outputs <= cases[k].to)
            return cases[k].letters;
    return 0;
}

size_t full_windows(const arguments *a)
{
    if (a->bytes_len < a->before + 1 + a->after)
        return 0;
    return a->bytes_len - a->before - a->after;
}

static size_t refusal_of_run(const arguments *a, const coder *c)
{
    if (a->start >= c->states)
        return 7;
    if (a->lent_len < a->bytes_len || a->result_len < RESULT_BYTES)
        return 11;
    if (some_letter_from(a->bytes, a->bytes_len, c->inputs))
        return 12;
    return 0;
}

static size_t refusal_of_search(const arguments *a)
{
    if (settle_too_large(a))
        return 14;
    if (a->lent_len < SEARCH_BYTES || a->result_len < RESULT_BYTES)
        return 11;
    return 0;
}

static size_t refusal_of_decode(const arguments *a, const coder *c)
{
    if (sides_too_large(a))
        return 8;
    if (settle_too_large(a))
        return 14;
    if (a->lent_len < full_windows(a) || a->result_len < RESULT_BYTES)
        return 11;
    if (some_letter_from(a->bytes, a->bytes_len, c->outputs))
        return 13;
    return 0;
}

static size_t refusal_of_check(const arguments *a, const coder *c)
{
    if (a->pair.s >= c->states || a->pair.t >= c->states)
        return 7;
    if (!pair_bytes_match(a))
        return 9;
    if (a->result_len < RESULT_BYTES)
        return 11;
    if (some_letter_from(a->bytes, a->bytes_len, c->inputs))
        return 12;
    return 0;
}

/* What one window receives, letters decoded or kinds. */
static size_t refusal_of_received(const arguments *a, const coder *c)
{
    if (a->bytes_len != a->before + 1 + a->after)
        return 9;
    if (a->result_len < RESULT_BYTES)
        return 11;
    if (some_letter_from(a->bytes, a->bytes_len, c->outputs))
        return 13;
    return 0;
}

static size_t refusal_of_window(const arguments *a, const coder *c)
{
    if (sides_too_large(a))
        return 8;
    if (settle_too_large(a))
        return 14;
    return refusal_of_received(a, c);
}

static size_t refusal_of_table(const arguments *a, const coder *c)
{
    size_t letters;

    if (sides_too_large(a))
        return 8;
    if (settle_too_large(a))
        return 14;
    letters = a->before + 1 + a->after;
    if (letters > longest_window(c->outputs))
        return 10;
    if (a->lent_len < table_bytes(c->outputs, letters) || a->result_len < RESULT_BYTES)
        return 11;
    return 0;
}

static size_t refusal_of_search_kinds(const arguments *a, const coder *c)
{
    if (kinds_wrong(a, c))
        return 16;
    if (a->result_len < RESULT_BYTES)
        return 11;
    return 0;
}

static size_t refusal_of_window_kinds(const arguments *a, const coder *c)
{
    if (kinds_wrong(a, c))
        return 16;
    if (sides_too_large(a))
        return 8;
    return refusal_of_received(a, c);
}

/* Document 02, 3/13 and 7/13: 4, 5 of the number of entry bytes, 6, 15, 11. */
static size_t refusal_of_write(const arguments *a)
{
    size_t states = a->counts[0], inputs = a->counts[1], outputs = a->counts[2];

    if (!counts_in_range(states, inputs, outputs))
        return 4;
    if (a->bytes_len != 2 * states * inputs)
        return 5;
    if (!entries_in_range(states, inputs, outputs, a->bytes))
        return 6;
    if (letter_unused(states, inputs, outputs, a->bytes))
        return 15;
    if (a->lent_len < 6 + 2 * states * inputs || a->result_len < RESULT_BYTES)
        return 11;
    return 0;
}

/* Document 02, 11/13: all numbers of the second file come after those of the first; then 17, 11. */
static size_t refusal_of_join(const arguments *a, const coder *first)
{
    size_t number = refusal_of_file(a->second, a->second_len), states;

    if (number != 0)
        return number;
    states = first->states * a->second[3];
    if (first->outputs != a->second[4] || states > MOST_STATES)
        return 17;
    if (a->lent_len < 6 + 2 * states * first->inputs || a->result_len < RESULT_BYTES)
        return 11;
    return 0;
}

size_t refusal_of_call(const arguments *a)
{
    size_t number;
    coder c;

    if (a->call == CALL_WRITE)
        return refusal_of_write(a);
    number = refusal_of_file(a->file, a->file_len);
    if (number != 0)
        return number;
    c = coder_of_file(a->file);
    switch (a->call) {
    case CALL_RUN:
        return refusal_of_run(a, &c);
    case CALL_SEARCH:
        return refusal_of_search(a);
    case CALL_DECODE:
        return refusal_of_decode(a, &c);
    case CALL_CHECK:
        return refusal_of_check(a, &c);
    case CALL_WINDOW:
        return refusal_of_window(a, &c);
    case CALL_SEARCH_KINDS:
        return refusal_of_search_kinds(a, &c);
    case CALL_WINDOW_KINDS:
        return refusal_of_window_kinds(a, &c);
    case CALL_JOIN:
        return refusal_of_join(a, &c);
    default:
        return refusal_of_table(a, &c);
    }
}
