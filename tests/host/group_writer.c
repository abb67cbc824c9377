/* The writer: both sides of each of its refusals, and random coders written and read back. What a
   host in C writes is read by the library's own reader, in cases for the program cases. */
#include "calls.h"
#include "case_texts.h"
#include "groups.h"

#include <string.h>

/* The writer on the counts and entries of a coder file, with just the room it needs. */
static arguments parts_of(const coder_file *f)
{
    arguments a = plain(CALL_WRITE, f);

    a.bytes_len = f->len - 6;
    memcpy(letters_room, f->bytes + 6, a.bytes_len);
    a.lent_len = f->len;
    return a;
}

/* From C, and in a case by the library's own call: this number, or the file that C has written. */
static void known_both(const arguments *a, size_t number)
{
    reply got = compare(a);

    known_value("the number returned", got.returned, number);
    if (number != 0)
        text_writer_refused(a->counts, a->bytes, a->bytes_len, a->lent_len, number);
    else
        text_writer(a->counts, a->bytes, a->bytes_len, a->lent_len, got.lent, 6 + a->bytes_len);
}

/* ---- both sides of each refusal ---- */

/* A count of 0, past its limit, and past it only as a whole: its lowest byte or word is the right
   one. */
static void edge_count(const coder_file *f, size_t k)
{
    static const size_t most[3] = {MOST_STATES, MOST_INPUTS, MOST_OUTPUTS};
    arguments a = parts_of(f);
    size_t right = a.counts[k], j;
    const size_t wrong[8] = {0, most[k] + 1, 255, 256 + right, 65536 + right,
                             ((size_t)1 << 32) + right, ((size_t)1 << 63) + right, SIZE_MAX};

    for (j = 0; j < 8; j++) {
        a.counts[k] = wrong[j];
        known_both(&a, 4);
    }
    a.counts[k] = right;
    known_both(&a, 0);
}

/* States and inputs whose product, or twice it, is a small number if it is cut to 64 bits. */
static void edge_products(void)
{
    static const size_t counts[4][2] = {{(size_t)1 << 63, 2}, {(size_t)1 << 62, 2},
                                        {(size_t)1 << 32, (size_t)1 << 32}, {SIZE_MAX, SIZE_MAX}};
    coder_file none;
    arguments a;
    size_t k;

    memset(&none, 0, sizeof none);
    a = plain(CALL_WRITE, &none);
    memset(letters_room, 0, 16);
    a.counts[2] = 1;
    a.lent_len = MOST_FILE;
    for (k = 0; k < 4; k++) {
        a.counts[0] = counts[k][0];
        a.counts[1] = counts[k][1];
        for (a.bytes_len = 0; a.bytes_len <= 4; a.bytes_len++)
            known_both(&a, 4);
    }
}

/* Every number of entry bytes up to two entries more than there are; with a bad entry besides, for 5
   comes before 6. */
static void edge_number(const coder_file *f)
{
    arguments a = parts_of(f);
    size_t right = a.bytes_len;

    memset(letters_room + right, 0, 4);
    a.lent_len = MOST_FILE + 4;
    for (a.bytes_len = 0; a.bytes_len <= right + 4; a.bytes_len++)
        known_both(&a, a.bytes_len == right ? 0 : 5);
    letters_room[0] = 255;
    for (a.bytes_len = 0; a.bytes_len <= right + 4; a.bytes_len++)
        known_both(&a, a.bytes_len == right ? 6 : 5);
}

/* The coder with each entry under two input letters: so another letter at one entry leaves none
   without an entry. */
static void make_doubled(const coder_file *f, coder_file *g)
{
    size_t inputs = f->bytes[4], k;

    begin_file(g, f->bytes[3], 2 * inputs, f->bytes[5]);
    for (k = 0; k < (g->len - 6) / 2; k++)
        memcpy(g->bytes + 6 + 2 * k,
               f->bytes + 6 + 2 * (k / (2 * inputs) * inputs + k % inputs), 2);
}

/* Each byte of the entries at its highest and one higher. */
static void edge_entries(const coder_file *f)
{
    coder_file g;
    arguments a;
    size_t k;

    make_doubled(f, &g);
    a = parts_of(&g);
    for (k = 0; k < a.bytes_len; k++) {
        size_t limit = a.counts[k % 2 ? 2 : 0];

        letters_room[k] = (uint8_t)(limit - 1);
        known_both(&a, 0);
        letters_room[k] = (uint8_t)limit;
        known_both(&a, 6);
        letters_room[k] = g.bytes[6 + k];
    }
}

/* Every length of both buffers up to just enough. An empty buffer is refused with 11 only where no
   other number applies. */
static void edge_writer_buffers(const coder_file *f)
{
    arguments a = parts_of(f);

    for (a.lent_len = 0; a.lent_len < f->len; a.lent_len++)
        known_both(&a, 11);
    for (a.result_len = 0; a.result_len < RESULT_BYTES; a.result_len++)
        known_refusal(&a, 11);
    known_both(&a, 0);
    a.lent_len = a.result_len = 0;
    a.counts[1] += MOST_INPUTS;
    known_refusal(&a, 4);
    a.counts[1] -= MOST_INPUTS;
    a.bytes_len--;
    known_refusal(&a, 5);
    a.bytes_len++;
    letters_room[0] = MOST_STATES;
    known_refusal(&a, 6);
    letters_room[0] = f->bytes[6];
    a.counts[2]++;
    known_refusal(&a, 15);
}

/* ---- written and read back ---- */

/* What C wrote for the counts and entries of a file is that file; the library's own reader gives the
   counts and the entries for it; its own writer writes it too. Other calls take it. */
static void written_and_read(const coder_file *f)
{
    coder_file written;
    arguments a = random_arguments(CALL_WRITE, f);
    reply got = compare_known(&a, f->bytes, f->len);

    now.coders++;
    written.len = f->len;
    memcpy(written.bytes, got.lent, written.len);
    if (memcmp(written.bytes, f->bytes, f->len) != 0)
        return; /* a difference, and counted as one */
    text_file(written.bytes, written.len);
    text_reader(a.counts, f->bytes + 6, f->len - 6);
    text_writer(a.counts, f->bytes + 6, f->len - 6, a.lent_len, f->bytes, f->len);
    compare_random(CALL_RUN, &written);
    compare_random(CALL_WINDOW, &written);
}

void group_writer(void)
{
    example e;
    coder_file f;
    size_t k, c;

    begin_group("the writer: edges, and random coders written and read back");
    try_verdicts(0, 0, 0, 0);
    text_file(NULL, 0);
    for (k = 0; k < EXAMPLES; k++) {
        make_example(k, &e);
        for (c = 0; c < 3; c++)
            edge_count(&e.file, c);
        edge_number(&e.file);
        text_file(NULL, 0);
        edge_entries(&e.file);
        edge_writer_buffers(&e.file);
        written_and_read(&e.file);
        text_file(NULL, 0);
    }
    edge_products();
    do
        make_random(&f, MOST_STATES, MOST_INPUTS, MOST_OUTPUTS);
    while (f.bytes[5] != MOST_OUTPUTS);
    known_value("the largest file's length", f.len, MOST_FILE);
    written_and_read(&f);
    for (k = 0; k < 5000; k++) {
        make_random(&f, 1 + random_below(4), 1 + random_below(3), 1 + random_below(6));
        written_and_read(&f);
    }
    for (k = 0; k < 500; k++) {
        make_random(&f, 1 + random_below(16), 1 + random_below(16), 1 + random_below(64));
        written_and_read(&f);
    }
    end_group();
}
