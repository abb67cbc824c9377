/* The table limit: for every O the longest window that may have a table and one letter more, the
   present letter at every place of it; windows far too long; whole tables. */
#include "calls.h"
#include "groups.h"

#include <string.h>

/* A coder of two states, or of five where two have too few entries, with as many input letters as it
   takes to have two entries more than O. The letters go up to O - 1 and from there down again, so
   that some are named twice. */
static void make_with_outputs(coder_file *f, size_t outputs)
{
    size_t states = outputs + 2 <= 2 * MOST_INPUTS ? 2 : 5;
    size_t inputs = (outputs + 2 + states - 1) / states, k;

    begin_file(f, states, inputs, outputs);
    for (k = 0; k < states * inputs; k++) {
        f->bytes[6 + 2 * k] = (uint8_t)((k / inputs + k % inputs) % states);
        f->bytes[7 + 2 * k] = (uint8_t)(k < outputs ? k : outputs - 1 - (k - outputs) % outputs);
    }
}

/* The cases of document 02 and the bytes of document 01 say the same. */
static void cases_and_bytes(size_t outputs)
{
    size_t n;

    for (n = 1; n <= MOST_WINDOW; n++)
        known_value("whether windows of so many letters may have a table",
                    n <= longest_window(outputs), table_bytes(outputs, n) <= MOST_TABLE);
}

/* Not refused with 10: 11 with a byte too few, else the whole table. */
static void allowed(const coder_file *f, size_t before, size_t after)
{
    arguments a = plain(CALL_TABLE, f);

    a.before = before;
    a.after = after;
    a.settle = random_settle();
    a.lent_len = table_bytes(f->bytes[5], before + 1 + after) - 1;
    known_refusal(&a, 11);
    whole_table(f, before, after, a.settle);
}

/* Refused with this number, with much room, with no room, and with a short result. */
static void refused(const coder_file *f, size_t before, size_t after, size_t number)
{
    arguments a = plain(CALL_TABLE, f);

    a.before = before;
    a.after = after;
    a.settle = random_settle();
    a.lent_len = LENT_ROOM;
    known_refusal(&a, number);
    a.lent_len = 0;
    known_refusal(&a, number);
    a.result_len = 0;
    known_refusal(&a, number);
}

/* O = 1: a table of one byte for any window that a call may name. */
static void any_window(const coder_file *f)
{
    static const size_t sides[4] = {0, 1, MOST_SIDE - 1, MOST_SIDE};
    size_t k;

    for (k = 0; k < 16; k++)
        allowed(f, sides[k / 4], sides[k % 4]);
}

static void both_sides_of_limit(const coder_file *f)
{
    size_t letters = longest_window(f->bytes[5]), b;

    for (b = 0; b < letters; b++)
        allowed(f, b, letters - 1 - b);
    for (b = 0; b <= letters; b++)
        refused(f, b, letters - b, 10);
    refused(f, MOST_SIDE, 0, 10);
    refused(f, 0, MOST_SIDE, 10);
    refused(f, MOST_SIDE, MOST_SIDE, 10);
}

void group_table_limit(void)
{
    static const size_t before[3] = {1, 8, 15}, of[3] = {0, 3, 7};
    coder_file f;
    example e;
    size_t outputs, k;

    begin_group("the table limit, for every O");
    for (outputs = 1; outputs <= MOST_OUTPUTS; outputs++) {
        cases_and_bytes(outputs);
        make_with_outputs(&f, outputs);
        if (outputs == 1)
            any_window(&f);
        else
            both_sides_of_limit(&f);
        refused(&f, MOST_SIDE + 1, 0, 8);
        refused(&f, 0, MOST_SIDE + 1, 8);
    }
    for (k = 0; k < 3; k++) {
        make_example(of[k], &e);
        whole_table(&e.file, before[k], 15 - before[k], 0);
        whole_table(&e.file, before[k], 15 - before[k], 1);
    }
    known_value("the number of tables left out", now.answers_left, 0);
    end_group();
}
