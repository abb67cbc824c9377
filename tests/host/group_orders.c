/* The search in a named order, refused and at the edge of it: each order with both sides of the
   buffer's length and of the settle count's limit, and with each number of the file. The last group:
   it ends the texts of cases. */
#include "calls.h"
#include "case_texts.h"
#include "groups.h"
#include "named_orders.h"

#include <string.h>

/* Both orders, lent so many bytes, are refused with this number. */
static void refused(const uint8_t *file, size_t len, size_t settle, size_t lent, size_t number)
{
    arguments a;
    int order;

    memset(&a, 0, sizeof a);
    a.call = CALL_SEARCH;
    a.file = file;
    a.file_len = len;
    a.settle = settle;
    a.lent_len = lent;
    a.result_len = RESULT_BYTES;
    known_refusal(&a, number);
    text_file(file, len);
    for (order = 0; order < ORDERS; order++)
        text_refusal((enum order)order, settle, lent, number);
}

static void edge_buffers(const example *e)
{
    coder c = coder_of_file(e->file.bytes);
    least known[ORDERS];
    int order;

    known_windows(e, known);
    text_file(e->file.bytes, e->file.len);
    for (order = 0; order < ORDERS; order++)
        text_answer((enum order)order, 0, SEARCH_BYTES, &known[order], first_pair_of(&c));
    refused(e->file.bytes, e->file.len, 0, SEARCH_BYTES - 1, 11);
    refused(e->file.bytes, e->file.len, 0, 0, 11);
}

/* 64 is taken: 11 with a buffer too short. Above it 14, also with a buffer too short, and for
   numbers whose lowest byte or word is small. */
static void edge_settles(const example *e)
{
    static const size_t wrong[6] = {MOST_SETTLE + 1, 256, 256 + MOST_SETTLE, (size_t)1 << 32,
                                    (size_t)1 << 63, SIZE_MAX};
    size_t k;

    refused(e->file.bytes, e->file.len, MOST_SETTLE, SEARCH_BYTES - 1, 11);
    for (k = 0; k < 6; k++) {
        refused(e->file.bytes, e->file.len, wrong[k], SEARCH_BYTES, 14);
        refused(e->file.bytes, e->file.len, wrong[k], SEARCH_BYTES - 1, 14);
        refused(e->file.bytes, e->file.len, wrong[k], 0, 14);
    }
}

/* Coder B with a fault. The buffers too short show that the number of the file comes before 11, the
   settle counts too large that it comes before 14. */
static void refused_files(void)
{
    static const struct {
        size_t number, len;
        uint8_t bytes[12];
    } rows[] = {
        {1, 0, {0}},
        {1, 5, {1, 0, 7, 1, 2}},
        {2, 10, {0, 0, 7, 1, 2, 2, 0, 0, 0, 1}},
        {2, 10, {2, 0, 7, 1, 2, 2, 0, 0, 0, 1}},
        {3, 10, {1, 0, 6, 1, 2, 2, 0, 0, 0, 1}},
        {3, 9, {1, 0, 7, 1, 2, 2, 0, 0, 0}},
        {4, 10, {1, 0, 7, 0, 2, 2, 0, 0, 0, 1}},
        {4, 10, {1, 0, 7, 17, 2, 2, 0, 0, 0, 1}},
        {4, 10, {1, 0, 7, 1, 17, 2, 0, 0, 0, 1}},
        {4, 10, {1, 0, 7, 1, 2, 65, 0, 0, 0, 1}},
        {5, 12, {1, 0, 9, 1, 2, 2, 0, 0, 0, 1, 0, 0}},
        {5, 8, {1, 0, 5, 1, 2, 2, 0, 0}},
        {6, 10, {1, 0, 7, 1, 2, 2, 0, 0, 1, 1}},
        {6, 10, {1, 0, 7, 1, 2, 2, 0, 0, 0, 2}},
        {15, 10, {1, 0, 7, 1, 2, 3, 0, 0, 0, 1}},
        {15, 10, {1, 0, 7, 1, 2, 2, 0, 1, 0, 1}}
    };
    size_t k;

    for (k = 0; k < sizeof rows / sizeof *rows; k++) {
        refused(rows[k].bytes, rows[k].len, 0, SEARCH_BYTES, rows[k].number);
        refused(rows[k].bytes, rows[k].len, 2, SEARCH_BYTES - 1, rows[k].number);
        refused(rows[k].bytes, rows[k].len, MOST_SETTLE, 0, rows[k].number);
        refused(rows[k].bytes, rows[k].len, MOST_SETTLE + 1, SEARCH_BYTES, rows[k].number);
    }
}

void group_orders(void)
{
    example e;
    size_t k;

    begin_group("named orders: buffers, settle counts and refused files");
    for (k = 0; k < EXAMPLES; k++) {
        make_example(k, &e);
        edge_buffers(&e);
        edge_settles(&e);
    }
    refused_files();
    close_texts();
    end_group();
}
