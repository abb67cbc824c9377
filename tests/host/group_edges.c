/* Arguments at the edges of what is refused: counts, sides, lengths, buffers and files, and the second
   file of a join. */
#include "calls.h"
#include "case_texts.h"
#include "groups.h"

#include <string.h>

static uint8_t file_room[LENT_ROOM];

/* The file of these counts as the second of a join. The first puts out as many letters as it takes,
   unless there are none or too many, which is 4. */
static void edge_second_counts(size_t inputs, size_t len, size_t number)
{
    coder_file first;
    arguments a;

    make_repeater(&first, inputs >= 1 && inputs <= MOST_INPUTS ? inputs : 1);
    a = join_of(&first, &first);
    a.second = file_room;
    a.second_len = len;
    a.lent_len = MOST_FILE;
    known_refusal(&a, number);
}

/* Counts at and past their ranges: a file of the right length, for the writer entries of the right
   number. All entries lead to state 0; their letters go through all that there are, as far as there
   are entries. No coder takes more than 16 letters, so none comes after one that puts out more: 17. */
static void edge_counts(size_t states, size_t inputs, size_t outputs, size_t number)
{
    size_t count = 3 + 2 * states * inputs;
    arguments a;
    coder_file none;
    size_t k;
    int call;

    memset(&none, 0, sizeof none);
    memset(file_room, 0, count + 3);
    file_room[0] = 1;
    file_room[1] = (uint8_t)(count / 256);
    file_room[2] = (uint8_t)(count % 256);
    file_room[3] = (uint8_t)states;
    file_room[4] = (uint8_t)inputs;
    file_room[5] = (uint8_t)outputs;
    for (k = 0; k < states * inputs && outputs > 0; k++)
        file_room[7 + 2 * k] = (uint8_t)(k % outputs);
    for (call = 0; call < CALLS; call++) {
        memset(letters_room, 0, count);
        if (call == CALL_WRITE)
            memcpy(letters_room, file_room + 6, count - 3);
        a = plain((enum call)call, &none);
        a.file = file_room;
        a.file_len = count + 3;
        a.kinds_len = inputs;
        a.pair.back_loop = a.pair.forward_loop = 1;
        a.counts[0] = states;
        a.counts[1] = inputs;
        a.counts[2] = outputs;
        a.bytes_len = call == CALL_CHECK ? 6 : call == CALL_WRITE ? count - 3 : 1;
        a.lent_len = SEARCH_BYTES;
        if (call == CALL_JOIN) {
            make_repeater(&second_room, outputs >= 1 && outputs <= MOST_INPUTS ? outputs : 1);
            a.second_len = second_room.len;
        }
        known_refusal(&a, call == CALL_JOIN && number == 0 && outputs > MOST_INPUTS ? 17 : number);
    }
    edge_second_counts(inputs, count + 3, number);
}

static void edge_sides(const coder_file *f)
{
    arguments a = plain(CALL_WINDOW, f);
    size_t k;

    memset(letters_room, 0, 1024);
    for (k = 0; k < 4; k++) {
        a.call = CALL_WINDOW;
        a.before = k % 2 ? MOST_SIDE + (k > 1) : 0;
        a.after = k % 2 ? 0 : MOST_SIDE + (k > 1);
        a.bytes_len = a.before + 1 + a.after;
        known_refusal(&a, k > 1 ? 8 : 0);
        a.call = CALL_DECODE;
        a.lent_len = 1;
        known_refusal(&a, k > 1 ? 8 : 0);
        a.bytes_len--;
        a.lent_len = 0;
        known_refusal(&a, k > 1 ? 8 : 0);
    }
    a.before = a.after = MOST_SIDE;
    a.call = CALL_WINDOW;
    a.bytes_len = MOST_WINDOW;
    known_refusal(&a, 0);
}

/* Lengths whose sum, or twice whose sum, passes what a number holds. */
static void edge_lengths(const coder_file *f)
{
    static const size_t lengths[][4] = {
        {(size_t)1 << 63, 0, 1, 1}, {SIZE_MAX, 1, 0, 2}, {SIZE_MAX, 1, 1, 1},
        {SIZE_MAX, SIZE_MAX, 2, 2}, {(size_t)1 << 63, (size_t)1 << 63, 1, 1},
        {1, SIZE_MAX, 1, 1}, {1, 0, SIZE_MAX, 2}, {1, 1, 1, SIZE_MAX}, {(size_t)1 << 62, 0, 0, 2},
        {SIZE_MAX - 1, 2, 1, 1}, {(size_t)1 << 32, 0, 1, 1}, {SIZE_MAX, 0, 0, 0}
    };
    arguments a = plain(CALL_CHECK, f);
    size_t k;

    memset(letters_room, 0, 16);
    for (k = 0; k < sizeof lengths / sizeof *lengths; k++) {
        a.pair.back_loop = lengths[k][0];
        a.pair.lead_in = lengths[k][1];
        a.pair.lead_out = lengths[k][2];
        a.pair.forward_loop = lengths[k][3];
        for (a.bytes_len = 0; a.bytes_len <= 10; a.bytes_len++)
            known_refusal(&a, 9);
    }
}

/* ---- kinds ---- */

/* From C, and in a case by the library's own call, which has no result buffer. */
static void both(const arguments *a, size_t number)
{
    known_refusal(a, number);
    text_call(a);
}

/* The call with the kinds given is accepted or, for the other faults that it has, refused with this
   number. With a list that has fewer or more bytes, or a kind of I or 255 at any place, it is 16. */
static void edge_kinds_of(arguments a, size_t number)
{
    size_t inputs = a.kinds_len, k;

    both(&a, number);
    for (a.kinds_len = 0; a.kinds_len < inputs + 3; a.kinds_len++)
        both(&a, a.kinds_len == inputs ? number : 16);
    a.kinds_len = 256 + inputs;
    both(&a, 16);
    a.kinds_len = inputs;
    for (k = 0; k < inputs; k++) {
        uint8_t kept = kinds_room[k];

        kinds_room[k] = (uint8_t)(inputs - 1);
        both(&a, number);
        kinds_room[k] = (uint8_t)inputs;
        both(&a, 16);
        kinds_room[k] = 255;
        both(&a, 16);
        kinds_room[k] = kept;
    }
}

/* A window of 3 letters before and 1 after; its received letters are 0 but for one, which is the last
   that there is. All kinds are there, the highest first. */
static arguments plain_kinds(enum call call, const coder_file *f)
{
    arguments a = plain(call, f);
    size_t k;

    for (k = 0; k < a.kinds_len; k++)
        kinds_room[k] = (uint8_t)(a.kinds_len - 1 - k);
    if (call == CALL_SEARCH_KINDS)
        return a;
    memset(letters_room, 0, MOST_WINDOW + 2);
    letters_room[4] = (uint8_t)(f->bytes[5] - 1);
    a.before = 3;
    a.after = 1;
    a.bytes_len = 5;
    return a;
}

/* The numbers after 16 of a window, each with those that come after it: 8, 9, 11, 13. With each of
   them a fault of the kinds gives 16. No settle count is given: one of 65 among the arguments here
   changes nothing. */
static void edge_window_kinds(const coder_file *f)
{
    arguments a = plain_kinds(CALL_WINDOW_KINDS, f);

    a.settle = MOST_SETTLE + 1;
    both(&a, 0);
    letters_room[4] = f->bytes[5];
    edge_kinds_of(a, 13);
    letters_room[0] = 255;
    both(&a, 13);
    a.result_len = RESULT_BYTES - 1;
    edge_kinds_of(a, 11);
    a.bytes_len = 4;
    edge_kinds_of(a, 9);
    a.bytes_len = 6;
    edge_kinds_of(a, 9);
    a.after = MOST_SIDE + 1;
    edge_kinds_of(a, 8);
    a.after = 1;
    a.before = SIZE_MAX;
    edge_kinds_of(a, 8);
}

/* Both sides up to 136; the number of letters one less and one more; a result of 63 bytes. */
static void edge_sides_of_kinds(const coder_file *f)
{
    static const size_t sides[6][3] = {{MOST_SIDE, 0, 0}, {0, MOST_SIDE, 0},
                                       {MOST_SIDE, MOST_SIDE, 0}, {MOST_SIDE + 1, 0, 8},
                                       {0, MOST_SIDE + 1, 8}, {SIZE_MAX, 1, 8}};
    arguments a = plain_kinds(CALL_WINDOW_KINDS, f);
    size_t k;

    for (k = 0; k < 6; k++) {
        a.before = sides[k][0];
        a.after = sides[k][1];
        a.bytes_len = a.before + 1 + a.after;
        both(&a, sides[k][2]);
        a.bytes_len = a.bytes_len < 2 ? 0 : a.bytes_len - 1;
        both(&a, sides[k][2] ? 8 : 9);
        a.bytes_len += 2;
        both(&a, sides[k][2] ? 8 : 9);
    }
}

static void in_place_of_16(const arguments *a, size_t number)
{
    known_refusal(a, number);
    text_file(a->file, a->file_len);
    text_call(a);
}

/* A file with a fault comes before 16; 16 comes before a result too short. */
static void edge_kinds(const coder_file *f)
{
    arguments a;
    int call;

    for (call = CALL_SEARCH_KINDS; call <= CALL_WINDOW_KINDS; call++) {
        text_file(f->bytes, f->len);
        a = plain_kinds((enum call)call, f);
        edge_kinds_of(a, 0);
        for (a.result_len = 0; a.result_len < RESULT_BYTES; a.result_len++)
            known_refusal(&a, 11);
        known_refusal(&a, 0);
        a.result_len = RESULT_BYTES - 1;
        edge_kinds_of(a, 11);
        kinds_room[0] = 255;
        with_file_faults(&a, f, FILE_FAULTS, in_place_of_16);
        a = plain_kinds((enum call)call, f);
        a.kinds_len = 0;
        with_file_faults(&a, f, FILE_FAULTS, in_place_of_16);
    }
    text_file(f->bytes, f->len);
    edge_window_kinds(f);
    edge_sides_of_kinds(f);
}

/* ---- coders in a row ---- */

/* A letter less or more between the two, a state more than fits, which after one state is 4, and buffers
   up to just enough. */
static void edge_row(const coder_file *f)
{
    size_t states = f->bytes[3], outputs = f->bytes[5], most = MOST_STATES / states, need, k;
    coder_file second;
    arguments a;

    for (k = outputs > 1 ? outputs - 1 : 1; k <= outputs + 1; k++) {
        make_in_turn(&second, most, k, 3);
        a = join_of(f, &second);
        known_refusal(&a, k == outputs ? 0 : 17);
    }
    make_in_turn(&second, most + 1, outputs, 3);
    a = join_of(f, &second);
    known_refusal(&a, most < MOST_STATES ? 17 : 4);
    make_in_turn(&second, most, outputs, 3);
    a = join_of(f, &second);
    need = a.lent_len;
    for (a.lent_len = 0; a.lent_len <= need + 1; a.lent_len++)
        known_refusal(&a, a.lent_len < need ? 11 : 0);
    for (a.result_len = 0; a.result_len <= RESULT_BYTES + 1; a.result_len++)
        known_refusal(&a, a.result_len < RESULT_BYTES ? 11 : 0);
}

/* ---- buffers and files ---- */

static void edge_buffers(const coder_file *f)
{
    arguments a = plain(CALL_SEARCH, f);

    a.lent_len = SEARCH_BYTES - 1;
    known_refusal(&a, 11);
    a.lent_len = SEARCH_BYTES;
    known_refusal(&a, 0);
    for (a.result_len = 0; a.result_len < RESULT_BYTES; a.result_len++)
        known_refusal(&a, 11);
}

/* Files cut everywhere, and files longer than the count field can say. */
static void edge_files(const coder_file *f)
{
    arguments a = plain(CALL_SEARCH, f);
    size_t k;

    a.lent_len = SEARCH_BYTES;
    for (a.file_len = 0; a.file_len < f->len; a.file_len++)
        known_refusal(&a, a.file_len < 6 ? 1 : 3);
    memset(file_room, 0, sizeof file_room);
    memcpy(file_room, f->bytes, f->len);
    a.file = file_room;
    for (k = 0; k < 3; k++) {
        a.file_len = f->len + 65535 + k;
        known_refusal(&a, 3);
    }
    file_room[0] = 0;
    known_refusal(&a, 2);
}

/* The same of a join's second file. */
static void edge_second_files(const coder_file *f)
{
    coder_file first;
    arguments a;
    size_t k;

    make_repeater(&first, f->bytes[4]);
    a = join_of(&first, f);
    for (a.second_len = 0; a.second_len <= f->len; a.second_len++)
        known_refusal(&a, a.second_len < 6 ? 1 : a.second_len < f->len ? 3 : 0);
    memset(file_room, 0, sizeof file_room);
    memcpy(file_room, f->bytes, f->len);
    a.second = file_room;
    for (k = 0; k < 3; k++) {
        a.second_len = f->len + 65535 + k;
        known_refusal(&a, 3);
    }
    file_room[0] = 0;
    known_refusal(&a, 2);
}

void group_edges(void)
{
    example e;
    size_t k;

    begin_group("edges");
    try_verdicts(0, 0, 0, FIRST_STEPS);
    edge_counts(16, 1, 1, 0);
    edge_counts(17, 1, 1, 4);
    edge_counts(1, 16, 1, 0);
    edge_counts(1, 17, 1, 4);
    edge_counts(4, 16, 64, 0);
    edge_counts(4, 16, 65, 4);
    edge_counts(16, 16, 64, 0);
    edge_counts(16, 16, 65, 4);
    edge_counts(1, 1, 64, 15);
    edge_counts(1, 1, 65, 4);
    edge_counts(17, 17, 65, 4);
    edge_counts(0, 1, 1, 4);
    edge_counts(1, 0, 1, 4);
    edge_counts(1, 1, 0, 4);
    edge_counts(255, 1, 1, 4);
    for (k = 0; k < EXAMPLES; k++) {
        make_example(k, &e);
        edge_sides(&e.file);
        edge_lengths(&e.file);
        edge_buffers(&e.file);
        edge_kinds(&e.file);
        edge_row(&e.file);
        edge_files(&e.file);
        edge_second_files(&e.file);
    }
    end_group();
}
