/* Output letters that no entry names (document 02, 7/13), refused with 15 by every call: all small
   tables of entries; the examples with letters more or renamed; a letter that one entry alone
   names, at every place; each letter left out for every O; as many letters as entries, and one
   more; next states, which name no letter; 15 beside each other number, in both files of a join. */
#include "calls.h"
#include "case_texts.h"
#include "groups.h"

#include <string.h>

static size_t entries_of(const coder_file *f)
{
    return (f->len - 6) / 2;
}

static uint8_t *letter_at(coder_file *f, size_t k)
{
    return &f->bytes[7 + 2 * k];
}

/* How many letters the entries name. */
static size_t letters_named(const coder_file *f)
{
    uint8_t named[256] = {0};
    size_t k, count = 0;

    for (k = 7; k < f->len; k += 2)
        count += !named[f->bytes[k]]++;
    return count;
}

/* Arguments that only the coder can be refused for, with room for each other thing: one letter 0,
   the window 0 0, the pair of three letters 0 from state 0, and after it a coder that repeats its
   letters. */
static arguments on_coder(enum call call, const coder_file *f)
{
    arguments a = plain(call, f);

    memset(letters_room, 0, 16);
    a.bytes_len = call == CALL_CHECK ? 6 : 1;
    a.pair.back_loop = a.pair.forward_loop = 1;
    a.lent_len = SEARCH_BYTES;
    if (call == CALL_WRITE) {
        a.bytes_len = f->len - 6;
        memcpy(letters_room, f->bytes + 6, a.bytes_len);
    }
    return a;
}

/* The coder as the second of a join, after one that repeats letters. */
static arguments on_second(const coder_file *f)
{
    static coder_file first;
    arguments a;

    make_repeater(&first, f->bytes[4]);
    a = join_of(&first, f);
    a.lent_len = MOST_FILE;
    return a;
}

/* No coder comes after one that puts out more than 16 letters: 17. */
static void every_call(const coder_file *f, size_t number)
{
    arguments a;
    int call;

    now.coders++;
    for (call = 0; call < CALLS; call++) {
        a = on_coder((enum call)call, f);
        if (call == CALL_JOIN && number == 0 && f->bytes[5] > MOST_INPUTS)
            known_refusal(&a, 17);
        else
            known_refusal(&a, number);
    }
    a = on_second(f);
    known_refusal(&a, number);
}

/* The same, and in cases by the library's own reader, writer and searches in both orders. */
static void every_way(const coder_file *f, size_t number)
{
    const size_t counts[3] = {f->bytes[3], f->bytes[4], f->bytes[5]};
    size_t len = f->len - 6;
    int order;

    every_call(f, number);
    text_file(f->bytes, f->len);
    if (number == 0) {
        text_reader(counts, f->bytes + 6, len);
        text_writer(counts, f->bytes + 6, len, f->len, f->bytes, f->len);
        return;
    }
    text_reader_refused(number);
    text_writer_refused(counts, f->bytes + 6, len, f->len, number);
    for (order = 0; order < ORDERS; order++)
        text_refusal((enum order)order, 0, SEARCH_BYTES, number);
}

/* ---- all small tables ---- */

/* Those with a letter that no entry names with every call, the others with one: they have groups of
   their own. */
static void all_tables_of_entries(size_t states, size_t inputs, size_t outputs)
{
    coder_file f;
    arguments a;
    size_t k;

    for (k = 0; k < coders_with(states, inputs, outputs); k++) {
        number_entries(&f, states, inputs, outputs, k);
        if (letters_named(&f) < outputs) {
            every_call(&f, 15);
        } else {
            a = on_coder(CALL_RUN, &f);
            known_refusal(&a, 0);
        }
    }
}

/* ---- the examples ---- */

/* Every O above the right one: 15 up to 64, and 4 from 65 on. */
static void more_letters(const coder_file *f)
{
    coder_file g = *f;
    size_t outputs;

    every_way(f, 0);
    for (outputs = (size_t)f->bytes[5] + 1; outputs < 256; outputs++) {
        g.bytes[5] = (uint8_t)outputs;
        every_way(&g, outputs <= MOST_OUTPUTS ? 15 : 4);
    }
}

/* The entries of a letter get another letter one after the other, the first entries first or last:
   15 when none is left. */
static void renamed_letters(const coder_file *f, int last_first)
{
    size_t letter, left, j, k;

    for (letter = 0; letter < f->bytes[5] && f->bytes[5] > 1; letter++) {
        coder_file g = *f;

        for (k = 0, left = 0; k < entries_of(f); k++)
            left += *letter_at(&g, k) == letter;
        for (j = 0; j < entries_of(f); j++) {
            k = last_first ? entries_of(f) - 1 - j : j;
            if (*letter_at(&g, k) == letter) {
                *letter_at(&g, k) = (uint8_t)((letter + 1) % f->bytes[5]);
                every_way(&g, --left > 0 ? 0 : 15);
            }
        }
    }
}

/* ---- one entry ---- */

/* 16 states, 15 of them spare, and two letters of which one stands at one entry alone. */
static void one_entry_names(size_t letter)
{
    coder_file f;
    size_t k;

    begin_file(&f, MOST_STATES, MOST_INPUTS, 2);
    for (k = 0; k < entries_of(&f); k++)
        *letter_at(&f, k) = (uint8_t)(1 - letter);
    every_way(&f, 15);
    for (k = 0; k < entries_of(&f); k++) {
        *letter_at(&f, k) = (uint8_t)letter;
        every_call(&f, 0);
        *letter_at(&f, k) = (uint8_t)(1 - letter);
    }
}

/* ---- each letter for every O ---- */

/* The largest coder: 16 states, 16 input letters, all letters in turn. With one letter of them left
   out, 15. */
static void each_letter_left_out(size_t outputs)
{
    coder_file f, g;
    size_t letter, k;

    begin_file(&f, MOST_STATES, MOST_INPUTS, outputs);
    for (k = 0; k < entries_of(&f); k++)
        *letter_at(&f, k) = (uint8_t)(k % outputs);
    every_call(&f, 0);
    for (letter = 0; letter < outputs && outputs > 1; letter++) {
        g = f;
        for (k = 0; k < entries_of(&g); k++)
            if (*letter_at(&g, k) == letter)
                *letter_at(&g, k) = (uint8_t)(letter > 0 ? letter - 1 : outputs - 1);
        every_call(&g, 15);
    }
}

/* 64 letters, those from 1 on named once each at random entries, and the rest 0. One of them
   renamed: 15. All that are 0 renamed: 15. */
static void each_named_once(void)
{
    size_t at[MOST_OUTPUTS], letter, k;
    coder_file f, g;

    begin_file(&f, MOST_STATES, MOST_INPUTS, MOST_OUTPUTS);
    for (letter = 1; letter < MOST_OUTPUTS; letter++) {
        do
            at[letter] = random_below(entries_of(&f));
        while (*letter_at(&f, at[letter]) != 0);
        *letter_at(&f, at[letter]) = (uint8_t)letter;
    }
    every_way(&f, 0);
    for (letter = 1; letter < MOST_OUTPUTS; letter++) {
        g = f;
        do
            *letter_at(&g, at[letter]) = (uint8_t)random_below(MOST_OUTPUTS);
        while (*letter_at(&g, at[letter]) == letter);
        every_way(&g, 15);
    }
    g = f;
    for (k = 0; k < entries_of(&g); k++)
        if (*letter_at(&g, k) == 0)
            *letter_at(&g, k) = 1;
    every_way(&g, 15);
}

/* ---- as many letters as entries ---- */

static void letters_and_entries(size_t states, size_t inputs)
{
    size_t entries = states * inputs, k;
    coder_file f;

    begin_file(&f, states, inputs, entries < MOST_OUTPUTS ? entries : MOST_OUTPUTS);
    for (k = 0; k < entries; k++)
        *letter_at(&f, k) = (uint8_t)((entries - 1 - k) % f.bytes[5]);
    every_call(&f, 0);
    if (entries >= MOST_OUTPUTS)
        return;
    f.bytes[5]++;
    every_call(&f, 15);
    for (k = 0; k < entries; k++)
        *letter_at(&f, k) = (uint8_t)(MOST_OUTPUTS - 1 - k);
    f.bytes[5] = MOST_OUTPUTS;
    every_call(&f, 15);
}

/* ---- next states ---- */

/* The next states are all numbers below O, and so are the letters but one: 15. With that one,
   accepted. */
static void next_states(size_t outputs)
{
    size_t letter, k;
    coder_file f;

    for (letter = 0; letter < outputs; letter++) {
        begin_file(&f, outputs, 2, outputs);
        for (k = 0; k < 2 * outputs; k++) {
            f.bytes[6 + 2 * k] = (uint8_t)(k / 2);
            *letter_at(&f, k) = (uint8_t)(k / 2 == letter ? (letter + 1) % outputs : k / 2);
        }
        every_way(&f, 15);
        *letter_at(&f, 2 * letter + letter % 2) = (uint8_t)letter;
        every_way(&f, 0);
    }
}

/* ---- beside each other number ---- */

/* The call has this number with the coder as it is, and 15 with a letter more, or the same number
   where that comes first. */
static void beside(const arguments *a, size_t number, int comes_first)
{
    coder_file g;
    arguments b = *a;

    known_refusal(a, number);
    memset(&g, 0, sizeof g);
    memcpy(g.bytes, a->file, a->file_len);
    g.bytes[5]++;
    b.file = g.bytes;
    b.counts[2]++;
    known_refusal(&b, comes_first ? number : 15);
}

/* The same of the second file of a join. */
static void beside_second(const arguments *a, size_t number, int comes_first)
{
    coder_file g;
    arguments b = *a;

    known_refusal(a, number);
    memset(&g, 0, sizeof g);
    memcpy(g.bytes, a->second, a->second_len);
    g.bytes[5]++;
    b.second = g.bytes;
    known_refusal(&b, comes_first ? number : 15);
}

static void before_15(const arguments *a, size_t number)
{
    beside(a, number, 1);
}

static void before_15_of_second(const arguments *a, size_t number)
{
    beside_second(a, number, 1);
}

static void beside_earlier(enum call call, const coder_file *f)
{
    arguments a = on_coder(call, f);

    with_file_faults(&a, f, FAULTS_BEFORE_15, before_15);
}

/* All numbers of the first file, 15 too, come before those of the second; 17 and 11 come after. */
static void beside_in_second(const coder_file *f)
{
    coder_file first;
    arguments a = on_second(f);

    make_in_turn(&first, 2, 3, f->bytes[4]);
    with_second_faults(&a, f, FAULTS_BEFORE_15, before_15_of_second);
    with_file_faults(&a, &first, FILE_FAULTS, before_15_of_second);
    make_in_turn(&first, 2, 3, f->bytes[4] + 1u);
    a.file = first.bytes;
    a.file_len = first.len;
    beside_second(&a, 17, 0);
    make_in_turn(&first, MOST_STATES + 1u - f->bytes[3], 3, f->bytes[4]);
    a.file_len = first.len;
    if (f->bytes[3] > 1)
        beside_second(&a, 17, 0);
    a = on_second(f);
    a.lent_len = f->len - 1;
    beside_second(&a, 11, 0);
    a.lent_len = MOST_FILE;
    a.result_len = RESULT_BYTES - 1;
    beside_second(&a, 11, 0);
}

static void beside_earlier_of_parts(const coder_file *f)
{
    arguments a = on_coder(CALL_WRITE, f);

    letters_room[1] = MOST_OUTPUTS;
    beside(&a, 6, 1);
    a.bytes_len--;
    beside(&a, 5, 1);
    a.counts[0] = 17;
    beside(&a, 4, 1);
}

static void beside_numbers(enum call call, const coder_file *f)
{
    arguments a = on_coder(call, f), b = a;

    b.start = b.pair.t = f->bytes[3];
    if (call == CALL_RUN || call == CALL_CHECK)
        beside(&b, 7, 0);
    b = a;
    b.kinds_len--;
    if (call == CALL_SEARCH_KINDS || call == CALL_WINDOW_KINDS)
        beside(&b, 16, 0);
    b = a;
    b.before = MOST_SIDE + 1;
    if (call == CALL_DECODE || call == CALL_WINDOW || call == CALL_TABLE
        || call == CALL_WINDOW_KINDS)
        beside(&b, 8, 0);
    b = a;
    b.settle = MOST_SETTLE + 1;
    if (call == CALL_DECODE || call == CALL_WINDOW || call == CALL_TABLE || call == CALL_SEARCH)
        beside(&b, 14, 0);
    b = a;
    b.bytes_len++;
    if (call == CALL_CHECK || call == CALL_WINDOW || call == CALL_WINDOW_KINDS)
        beside(&b, 9, 0);
    b = a;
    b.before = MOST_SIDE;
    if (call == CALL_TABLE)
        beside(&b, 10, 0);
    if (call == CALL_JOIN) {
        make_repeater(&second_room, f->bytes[5] + 1u);
        b = join_of(f, &second_room);
        beside(&b, 17, 0);
    }
}

static void beside_buffers_and_letters(enum call call, const coder_file *f)
{
    arguments a = on_coder(call, f);

    if (call == CALL_RUN || call == CALL_CHECK) {
        letters_room[0] = f->bytes[4];
        beside(&a, 12, 0);
        letters_room[0] = 0;
    }
    if (call == CALL_DECODE || call == CALL_WINDOW || call == CALL_WINDOW_KINDS) {
        letters_room[0] = 255;
        beside(&a, 13, 0);
        letters_room[0] = 0;
    }
    a.result_len = RESULT_BYTES - 1;
    beside(&a, 11, 0);
    a.result_len = RESULT_BYTES;
    a.lent_len = 0;
    if (call != CALL_CHECK && call != CALL_WINDOW && call != CALL_SEARCH_KINDS
        && call != CALL_WINDOW_KINDS)
        beside(&a, 11, 0);
}

void group_unused(void)
{
    size_t n, i, k;
    example e;
    int call;

    begin_group("output letters that no entry names");
    try_verdicts(0, 0, 0, 0);
    for (k = 0; k < 8; k++)
        all_tables_of_entries(1 + k / 4, 1 + k / 2 % 2, 1 + k % 2);
    all_tables_of_entries(3, 2, 2);
    all_tables_of_entries(2, 2, 3);
    all_tables_of_entries(2, 2, 4);
    all_tables_of_entries(3, 1, 3);
    all_tables_of_entries(1, 4, 4);
    for (k = 0; k < EXAMPLES; k++) {
        make_example(k, &e);
        more_letters(&e.file);
        renamed_letters(&e.file, 0);
        renamed_letters(&e.file, 1);
        if (e.file.bytes[5] == 1)
            continue; /* no table is too large */
        for (call = 0; call < CALLS; call++) {
            if (call != CALL_WRITE)
                beside_earlier((enum call)call, &e.file);
            beside_numbers((enum call)call, &e.file);
            beside_buffers_and_letters((enum call)call, &e.file);
        }
        beside_earlier_of_parts(&e.file);
        beside_in_second(&e.file);
    }
    one_entry_names(0);
    one_entry_names(1);
    for (k = 1; k <= MOST_OUTPUTS; k++)
        each_letter_left_out(k);
    for (k = 0; k < 8; k++)
        each_named_once();
    for (n = 1; n <= MOST_STATES; n++)
        for (i = 1; i <= MOST_INPUTS; i++)
            letters_and_entries(n, i);
    for (n = 2; n <= MOST_STATES; n++)
        next_states(n);
    end_group();
}
