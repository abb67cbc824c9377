/* The examples A to H: what is known of them, and all their arguments of small size. */
#include "calls.h"
#include "groups.h"
#include "named_orders.h"

#include <string.h>

static void known_table(const coder_file *f, size_t before, size_t after, const uint8_t *table)
{
    arguments a = plain(CALL_TABLE, f);
    reply got;

    a.before = before;
    a.after = after;
    a.lent_len = 4;
    got = compare(&a);
    known_value("the table's order", (size_t)memcmp(got.lent, table, 4), 0);
}

static void known_window(const coder_file *f, size_t before, size_t after, size_t first,
                         size_t second, size_t byte)
{
    arguments a = plain(CALL_WINDOW, f);
    reply got;

    letters_room[0] = (uint8_t)first;
    letters_room[1] = (uint8_t)second;
    a.before = before;
    a.after = after;
    a.bytes_len = before + 1 + after;
    got = compare(&a);
    known_value("the byte of the window", get_field(got.result, 0), byte);
}

static void known_run_of_a(const coder_file *f)
{
    static const uint8_t input[3] = {1, 1, 0}, output[3] = {1, 0, 0};
    arguments a = plain(CALL_RUN, f);
    reply got;

    memcpy(letters_room, input, 3);
    a.bytes_len = 3;
    a.lent_len = 3;
    got = compare(&a);
    known_value("the run's order", (size_t)memcmp(got.lent, output, 3), 0);
    known_value("the end state", get_field(got.result, 1), 0);
}

static void known_pair_of_c(const coder_file *f)
{
    static const uint8_t letters[6] = {0, 0, 0, 1, 0, 0};
    arguments a = plain(CALL_CHECK, f);
    reply got;

    memcpy(letters_room, letters, 6);
    a.pair.back_loop = 1;
    a.pair.forward_loop = 1;
    a.bytes_len = 6;
    got = compare(&a);
    known_value("the pair", get_field(got.result, 0), 1);
}

static void known_orders(const example *e)
{
    least known[ORDERS];

    known_windows(e, known);
    name_known_orders(&e->file, 0, known, 1);
}

static void known_values(const example *e)
{
    static const uint8_t table_a[4] = {0, 1, 1, 0}, table_d[4] = {0, 1, 0, 1};
    static const uint8_t file_a[14] = {1, 0, 11, 2, 2, 2, 0, 0, 1, 1, 1, 1, 0, 0};
    coder c = coder_of_file(e->file.bytes);

    known_search(&e->file, 0, e->pair, e->before, e->after);
    if (e->pair) {
        known_pair(e->first);
        known_letters(e->letters, sizeof e->letters);
    }
    known_orders(e);
    switch (e->name) {
    case 'A':
        known_value("the file's length", e->file.len, sizeof file_a);
        known_value("the file's order", (size_t)memcmp(e->file.bytes, file_a, sizeof file_a), 0);
        known_table(&e->file, 1, 0, table_a);
        known_run_of_a(&e->file);
        break;
    case 'C':
        known_pair_of_c(&e->file);
        break;
    case 'D':
        known_table(&e->file, 0, 1, table_d);
        break;
    case 'F':
        allow_steps(PAIR_STEPS);
        known_value("whether 0 1 works", works_by_pairs(&c, 0, 1), YES);
        break;
    case 'G':
        known_window(&e->file, 0, 1, 0, 0, 0);
        known_window(&e->file, 0, 1, 0, 2, 1);
        known_window(&e->file, 0, 1, 1, 2, 254);
        known_window(&e->file, 0, 0, 0, 0, 255);
        break;
    default:
        break;
    }
}

void group_examples(void)
{
    example e;
    size_t k, p;

    begin_group("examples A to H");
    try_verdicts(1, 1, 1, FIRST_STEPS);
    for (k = 0; k < EXAMPLES; k++) {
        make_example(k, &e);
        known_values(&e);
        round_trip(&e.file);
        all_runs(&e.file, 6);
        all_pairs(&e.file, 3);
        for (p = 0; p < 3; p++) {
            compare_both_ways(&e.file, p, 7);
            all_windows(&e.file, p, e.file.bytes[5] > 2 ? 4 : 7);
            all_strings(&e.file, p, 3, e.file.bytes[5] > 2 ? 4 : 6);
            all_tables(&e.file, p, e.file.bytes[5] > 2 ? 5 : 9);
        }
    }
    end_group();
}
