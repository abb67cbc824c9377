/* Coder files: examples, numbered, random, chains. */
#include "coders.h"

#include <string.h>

/* ---- random numbers ---- */

static uint64_t random_state;

void random_seed(uint64_t seed)
{
    random_state = seed;
}

static uint64_t random_word(void)
{
    random_state ^= random_state >> 12;
    random_state ^= random_state << 25;
    random_state ^= random_state >> 27;
    return random_state * UINT64_C(2685821657736338717);
}

size_t random_below(size_t limit)
{
    return (size_t)((random_word() >> 16) % limit);
}

/* ---- files ---- */

void begin_file(coder_file *f, size_t states, size_t inputs, size_t outputs)
{
    size_t count = 3 + 2 * states * inputs;

    memset(f, 0, sizeof *f);
    f->len = count + 3;
    f->bytes[0] = 1;
    f->bytes[1] = (uint8_t)(count / 256);
    f->bytes[2] = (uint8_t)(count % 256);
    f->bytes[3] = (uint8_t)states;
    f->bytes[4] = (uint8_t)inputs;
    f->bytes[5] = (uint8_t)outputs;
}

static void put_entry(coder_file *f, size_t state, size_t input, size_t next, size_t output)
{
    size_t at = 6 + 2 * (state * f->bytes[4] + input);

    f->bytes[at] = (uint8_t)next;
    f->bytes[at + 1] = (uint8_t)output;
}

void renumber_letters(coder_file *f)
{
    uint8_t named[256] = {0}, number[256];
    size_t k, count = 0;

    for (k = 7; k < f->len; k += 2)
        named[f->bytes[k]] = 1;
    for (k = 0; k < 256; k++)
        if (named[k])
            number[k] = (uint8_t)count++;
    for (k = 7; k < f->len; k += 2)
        f->bytes[k] = number[f->bytes[k]];
    f->bytes[5] = (uint8_t)count;
}

/* ---- examples ---- */

typedef struct example_row {
    char name;
    uint8_t counts[3];
    uint8_t entries[16];
    int pair;
    size_t windows[4];
    size_t first[6];
    uint8_t letters[6];
} example_row;

static const example_row rows[EXAMPLES] = {
    {'A', {2, 2, 2}, {0, 0, 1, 1, 1, 1, 0, 0}, 0, {1, 0, 1, 0}, {0}, {0}},
    {'B', {1, 2, 2}, {0, 0, 0, 1}, 0, {0, 0, 0, 0}, {0}, {0}},
    {'C', {1, 2, 1}, {0, 0, 0, 0}, 1, {0}, {0, 0, 1, 0, 0, 1}, {0, 0, 0, 1, 0, 0}},
    {'D', {2, 2, 2}, {0, 0, 1, 0, 0, 1, 1, 1}, 0, {0, 1, 0, 1}, {0}, {0}},
    {'E', {2, 2, 2}, {0, 0, 1, 1, 0, 1, 1, 0}, 1, {0}, {0, 1, 1, 0, 0, 1}, {0, 1, 0, 1, 0, 1}},
    {'F', {3, 2, 4}, {1, 0, 2, 0, 1, 0, 1, 1, 2, 2, 2, 3}, 0, {1, 0, 1, 0}, {0}, {0}},
    {'G', {4, 2, 6}, {1, 4, 1, 5, 2, 0, 3, 0, 2, 0, 2, 1, 3, 2, 3, 3}, 0, {2, 0, 0, 1}, {0}, {0}},
    {'H', {2, 2, 2}, {0, 0, 0, 1, 1, 0, 1, 0}, 0, {0, 0, 0, 0}, {0}, {0}}
};

void make_example(size_t k, example *e)
{
    const example_row *r = &rows[k];

    e->name = r->name;
    e->pair = r->pair;
    e->before = r->windows[0];
    e->after = r->windows[1];
    e->fewest_before = r->windows[2];
    e->fewest_after = r->windows[3];
    memcpy(e->first, r->first, sizeof e->first);
    memcpy(e->letters, r->letters, sizeof e->letters);
    begin_file(&e->file, r->counts[0], r->counts[1], r->counts[2]);
    memcpy(e->file.bytes + 6, r->entries, e->file.len - 6);
}

/* ---- numbered coders ---- */

size_t coders_with(size_t states, size_t inputs, size_t outputs)
{
    size_t count = 1, k;

    for (k = 0; k < states * inputs; k++)
        count *= states * outputs;
    return count;
}

void number_entries(coder_file *f, size_t states, size_t inputs, size_t outputs, size_t number)
{
    size_t k;

    begin_file(f, states, inputs, outputs);
    for (k = 0; k < states * inputs; k++) {
        put_entry(f, k / inputs, k % inputs, number % states, number / states % outputs);
        number /= states * outputs;
    }
}

void make_numbered(coder_file *f, size_t states, size_t inputs, size_t outputs, size_t number)
{
    number_entries(f, states, inputs, outputs, number);
    renumber_letters(f);
}

/* ---- random coders ---- */

static void random_entry(coder_file *f, size_t state, size_t input)
{
    put_entry(f, state, input, random_below(f->bytes[3]), random_below(f->bytes[5]));
}

/* Every letter of a state has an output of its own. */
static void separate_outputs(coder_file *f, size_t state)
{
    size_t first = random_below(f->bytes[5]), i;

    for (i = 0; i < f->bytes[4]; i++)
        put_entry(f, state, i, random_below(f->bytes[3]), (first + i) % f->bytes[5]);
}

/* The state keeps the latest letters; the output is the same for all letters of a state. */
static void shift_register(coder_file *f)
{
    size_t states = f->bytes[3], inputs = f->bytes[4], s, i;

    for (s = 0; s < states; s++) {
        size_t output = random_below(f->bytes[5]);

        for (i = 0; i < inputs; i++)
            put_entry(f, s, i, (s * inputs + i) % states, output);
    }
}

/* The output is a sum, as in a running parity. */
static void running_sum(coder_file *f)
{
    size_t states = f->bytes[3], outputs = f->bytes[5], factor = 1 + random_below(4), s, i;

    for (s = 0; s < states; s++)
        for (i = 0; i < f->bytes[4]; i++)
            put_entry(f, s, i, (s * factor + i) % states, (s + i) % outputs);
}

static void draw_entry(coder_file *f)
{
    random_entry(f, random_below(f->bytes[3]), random_below(f->bytes[4]));
}

void draw_entries(coder_file *f, size_t states, size_t inputs, size_t outputs)
{
    size_t kind = random_below(8), s, i;

    begin_file(f, states, inputs, outputs);
    for (s = 0; s < states; s++)
        for (i = 0; i < inputs; i++)
            random_entry(f, s, i);
    if (kind >= 3 && kind <= 4)
        for (s = 0; s < states; s++)
            separate_outputs(f, s);
    if (kind == 5)
        shift_register(f);
    if (kind == 6)
        running_sum(f);
    if (kind == 7) {
        shift_register(f);
        draw_entry(f);
    }
}

void make_random(coder_file *f, size_t states, size_t inputs, size_t outputs)
{
    draw_entries(f, states, inputs, outputs);
    renumber_letters(f);
}

static size_t entries_with_letter(const coder_file *f, size_t letter)
{
    size_t k, count = 0;

    for (k = 7; k < f->len; k += 2)
        count += f->bytes[k] == letter;
    return count;
}

void make_random_with_all(coder_file *f, size_t states, size_t inputs, size_t outputs)
{
    size_t letter, k;

    draw_entries(f, states, inputs, outputs);
    for (letter = 0; letter < outputs; letter++) {
        if (entries_with_letter(f, letter) > 0)
            continue;
        do
            k = 7 + 2 * random_below(states * inputs);
        while (entries_with_letter(f, f->bytes[k]) < 2);
        f->bytes[k] = (uint8_t)letter;
    }
}

void make_in_turn(coder_file *f, size_t states, size_t inputs, size_t outputs)
{
    size_t k;

    begin_file(f, states, inputs, outputs);
    for (k = 0; k < states * inputs; k++)
        put_entry(f, k / inputs, k % inputs, k % states, outputs - 1 - k % outputs);
}

void make_repeater(coder_file *f, size_t letters)
{
    size_t k;

    begin_file(f, 1, letters, letters);
    for (k = 0; k < letters; k++)
        put_entry(f, 0, k, 0, k);
}

/* The letter drawn may be one that no entry has named. */
void change_entry(coder_file *f)
{
    if (f->bytes[5] < 64)
        f->bytes[5]++;
    draw_entry(f);
    renumber_letters(f);
}

/* ---- letters with equal entries ---- */

void shuffle(uint8_t *bytes, size_t n)
{
    size_t k;

    for (k = n; k > 1; k--) {
        size_t j = random_below(k);
        uint8_t kept = bytes[k - 1];

        bytes[k - 1] = bytes[j];
        bytes[j] = kept;
    }
}

void make_filled(coder_file *f, const coder_file *base, size_t inputs, const uint8_t *of)
{
    size_t states = base->bytes[3], letters = base->bytes[4], s, k;

    begin_file(f, states, inputs, base->bytes[5]);
    for (s = 0; s < states; s++)
        for (k = 0; k < inputs; k++)
            memcpy(f->bytes + 6 + 2 * (s * inputs + k),
                   base->bytes + 6 + 2 * (s * letters + of[k]), 2);
}

/* ---- a letter of a spare state ---- */

void make_with_spare_letter(coder_file *f, const coder_file *base)
{
    size_t states = base->bytes[3], inputs = base->bytes[4], i;

    begin_file(f, states + 1, inputs, base->bytes[5] + 1u);
    memcpy(f->bytes + 6, base->bytes + 6, base->len - 6);
    for (i = 0; i < inputs; i++)
        put_entry(f, states, i, random_below(states + 1), base->bytes[5]);
}

/* ---- faults ---- */

/* A file too short; one byte changed; a letter more. */
size_t make_faulty(const coder_file *f, size_t fault, coder_file *g)
{
    static const struct {
        size_t number, place;
        uint8_t byte;
    } changes[FILE_FAULTS] = {{1, 0, 1},  {2, 0, 2},  {3, 2, 0},  {4, 3, 17},
                              {5, 4, 1},  {6, 6, 16}, {6, 7, 64}, {15, 5, 0}};

    *g = *f;
    g->bytes[changes[fault].place] = changes[fault].byte;
    if (changes[fault].number == 1)
        g->len = 5;
    if (changes[fault].number == 15)
        g->bytes[5] = (uint8_t)(f->bytes[5] + 1);
    return changes[fault].number;
}

/* ---- lines ---- */

void make_constant_line(coder_file *f, size_t line, const coder_file *end)
{
    size_t states = end->bytes[3], inputs = end->bytes[4], outputs = end->bytes[5], k;

    begin_file(f, line + states, inputs, outputs + 1);
    for (k = 0; k < line * inputs; k++)
        put_entry(f, k / inputs, k % inputs, k / inputs + 1, outputs);
    for (k = 0; k < states * inputs; k++)
        put_entry(f, line + k / inputs, k % inputs, line + end->bytes[6 + 2 * k],
                  end->bytes[7 + 2 * k]);
    renumber_letters(f);
}

void make_line_like_g(coder_file *f, size_t line)
{
    size_t k, i;

    begin_file(f, line + 2, 2, 6);
    for (i = 0; i < 2; i++) {
        for (k = 0; k + 1 < line; k++)
            put_entry(f, k, i, k + 1, 4 + i);
        put_entry(f, line - 1, i, line + i, 0);
        put_entry(f, line, i, line, i);
        put_entry(f, line + 1, i, line + 1, 2 + i);
    }
    renumber_letters(f);
}

/* ---- chains ---- */

/* Output letters of all chains while they are made: 0 for the shift, d for turn d; the padding
   comes after. At the end they are renumbered. */
enum { NO_ENTRY = 255 };

size_t chain_pairs(size_t states, size_t turns)
{
    size_t pairs = 0, apart;

    for (apart = 1; apart <= turns + 1; apart++)
        pairs += states - apart;
    return pairs;
}

/* Shifts under letter 0, turn d under letter d, left out where d is skipped; no other entries. */
static void begin_chain(coder_file *f, size_t states, size_t inputs, size_t turns, size_t skipped)
{
    size_t s, d;

    begin_file(f, states, inputs, 64);
    memset(f->bytes + 6, NO_ENTRY, f->len - 6);
    for (s = 0; s + 1 < states; s++)
        put_entry(f, s, 0, s + 1, 0);
    for (d = 1; d <= turns; d++)
        if (d != skipped) {
            put_entry(f, states - 1 - d, d, 0, d);
            put_entry(f, states - 1, d, d + 1, d);
        }
}

static int is_free(const coder_file *f, size_t state, size_t input)
{
    return f->bytes[6 + 2 * (state * f->bytes[4] + input)] == NO_ENTRY;
}

/* Fills the free entries of a state with one output, to states 0, apart, 2 apart and so on. */
static void pad_with_own_output(coder_file *f, size_t state, size_t output, size_t apart)
{
    size_t to = 0, i;

    for (i = 0; i < f->bytes[4]; i++)
        if (is_free(f, state, i)) {
            put_entry(f, state, i, to, output);
            to += apart;
        }
}

/* The same for every state, each with an output of its own, to states 0, 1, 2 and so on. */
static void pad_with_own_outputs(coder_file *f, size_t output)
{
    size_t s;

    for (s = 0; s < f->bytes[3]; s++)
        pad_with_own_output(f, s, output + s, 1);
}

/* Fills the free entries so that all states have the same under one letter: runs join. */
static void pad_joining(coder_file *f, size_t output)
{
    size_t s, i;

    for (s = 0; s < f->bytes[3]; s++)
        for (i = 0; i < f->bytes[4]; i++)
            if (is_free(f, s, i))
                put_entry(f, s, i, 0, output + i);
}

/* Fills the free entries of all states but the last with more shifts, an output for each letter:
   no pair of states gets a new successor. */
static void pad_shifting(coder_file *f, size_t output)
{
    size_t s, i;

    for (s = 0; s + 1 < f->bytes[3]; s++)
        for (i = 0; i < f->bytes[4]; i++)
            if (is_free(f, s, i))
                put_entry(f, s, i, s + 1, output + i);
}

void make_forward_chain(coder_file *f, size_t states, size_t turns)
{
    begin_chain(f, states, turns + 2, turns, 0);
    pad_with_own_outputs(f, turns + 1);
    renumber_letters(f);
}

void make_backward_chain(coder_file *f, size_t states, size_t turns)
{
    begin_chain(f, states, turns + 2, turns, 0);
    put_entry(f, states - 2 - turns, turns + 1, 0, turns + 1);
    put_entry(f, states - 1, 0, 0, turns + 1);
    pad_joining(f, turns + 2);
    renumber_letters(f);
}

/* Runs join at the end of the first part under different letters; the padding of the last state
   leads under different letters to the first pair of the second part. */
void make_split_chain(coder_file *f, size_t states, size_t turns)
{
    begin_chain(f, states, states, states - 2, turns + 1);
    put_entry(f, states - 1, turns + 1, 0, turns + 1);
    put_entry(f, states - 2 - turns, states - 1, 0, turns + 1);
    pad_with_own_output(f, states - 1, states - 1, turns + 2);
    pad_shifting(f, states);
    renumber_letters(f);
}

/* Equal outputs under different letters lie at three places only. At the last pair of the chain,
   with p - 1 letters before it: the runs go on in 0 and states - after, a pair off the chain, which
   shifts for after - 1 letters. At {back - 1, back}, with back - 1 letters before it: the runs join
   in 0. In the last state, where the two runs may have been one: they go on in 0 and states -
   ahead, also off the chain. The padding adds none: in the last state an output for each entry, in
   the others shifts with an output for each letter. */
void make_either_chain(coder_file *f, size_t states, size_t turns, size_t after, size_t back,
                       size_t ahead)
{
    size_t last = states - 1, own = 2 * turns + 8, i;

    begin_chain(f, states, turns + 4, turns, 0);
    put_entry(f, last - 1 - turns, turns + 1, 0, turns + 1);
    put_entry(f, last, 0, states - after, turns + 1);
    if (back > 0) {
        put_entry(f, back - 1, turns + 2, 0, turns + 2);
        put_entry(f, back, turns + 3, 0, turns + 2);
    }
    if (ahead > 0) {
        put_entry(f, last, turns + 1, 0, turns + 3);
        put_entry(f, last, turns + 2, states - ahead, turns + 3);
    }
    pad_shifting(f, turns + 4);
    for (i = 0; i < f->bytes[4]; i++)
        if (is_free(f, last, i))
            put_entry(f, last, i, 0, own + i);
    renumber_letters(f);
}

/* Closed from the last pair to (1, 0) under different letters. */
static void begin_closed(coder_file *f, size_t states, size_t turns)
{
    begin_chain(f, states, turns == 0 ? 2 : turns + 1, turns, 0);
    put_entry(f, states - 2 - turns, 1, 1, turns + 1);
    put_entry(f, states - 1, 0, 0, turns + 1);
}

void make_closed_back(coder_file *f, size_t states, size_t turns)
{
    begin_closed(f, states, turns);
    pad_joining(f, turns + 2);
    renumber_letters(f);
}

void make_closed_both(coder_file *f, size_t states, size_t turns)
{
    begin_closed(f, states, turns);
    pad_with_own_output(f, states - 1, turns + 2, 1);
    pad_shifting(f, turns + 3);
    renumber_letters(f);
}

/* Closed under one letter; the different letters lie in the padding. */
void make_closed_forward(coder_file *f, size_t states, size_t turns)
{
    begin_chain(f, states, turns + 3, turns, 0);
    put_entry(f, states - 2 - turns, turns + 1, 1, turns + 1);
    put_entry(f, states - 1, turns + 1, 0, turns + 1);
    pad_with_own_outputs(f, turns + 2);
    renumber_letters(f);
}
