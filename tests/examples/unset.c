/* For valgrind's memcheck: the calls on lent buffers whose bytes have no value. Every byte that a call has written is looked at, and must
   have a value. With an argument the first byte past those of a table is looked at too, which memcheck has to notice. */
#include "coders.h"
#include "lowhenita.h"

#include <stdio.h>
#include <stdlib.h>
#include <string.h>

enum { STRING = 100, ROOM = 3000 };

static uint8_t *bytes, *result;
static unsigned long zeros, nones;

/* New buffers for one call. */
static void lend(void)
{
    free(bytes);
    free(result);
    bytes = (uint8_t *)malloc(ROOM);
    result = (uint8_t *)malloc(LOWHENITA_RESULT_BYTES);
    if (bytes == NULL || result == NULL)
        exit(1);
}

/* Looks at what a call has written: these bytes and these fields. */
static void look(size_t refusal, size_t written, size_t fields)
{
    size_t k;

    if (refusal != 0)
        exit(1);
    for (k = 0; k < written; k++)
        if (bytes[k] == 0)
            zeros++;
    for (k = 0; k < fields; k++)
        if (lowhenita_field(result, k) == 0)
            zeros++;
}

/* The coder with one of a single state, which puts out what goes in, ahead of it and, where it has few enough letters, behind it. */
static void joins(const uint8_t *file, size_t len)
{
    coder_file copier;
    size_t ahead, n, k;

    for (ahead = 0; ahead < 2; ahead++) {
        n = file[ahead ? 4 : 5];
        if (n > LOWHENITA_MAX_INPUTS)
            continue;
        begin_file(&copier, 1, n, n);
        for (k = 0; k < n; k++)
            copier.bytes[7 + 2 * k] = (uint8_t)k;
        lend();
        if (ahead)
            look(lowhenita_join(copier.bytes, copier.len, file, len, bytes, ROOM, result, LOWHENITA_RESULT_BYTES), len, 1);
        else
            look(lowhenita_join(file, len, copier.bytes, copier.len, bytes, ROOM, result, LOWHENITA_RESULT_BYTES), len, 1);
    }
}

static void all_calls(const uint8_t *file, size_t len, size_t settle, size_t past)
{
    static const uint8_t letters[STRING], kinds[LOWHENITA_MAX_INPUTS] = {0, 0, 1, 1, 2, 2, 3, 3, 4, 4, 5, 5, 6, 6, 7, 7};
    uint8_t last[8];
    size_t refusal, n = 0, k;

    memset(last, file[5] - 1, sizeof last);
    lend();
    look(lowhenita_run(file, len, 0, letters, STRING, bytes, ROOM, result, LOWHENITA_RESULT_BYTES), STRING, 2);
    lend();
    refusal = lowhenita_search(file, len, settle, bytes, ROOM, result, LOWHENITA_RESULT_BYTES);
    if (lowhenita_field(result, 0) == LOWHENITA_LOOPED_PAIR)
        for (n = 2, k = 3; k < 7; k++)
            n += 2 * (size_t)lowhenita_field(result, k);
    look(refusal, n, n == 0 ? 3 : 7);
    lend();
    look(lowhenita_decode(file, len, 3, 4, settle, letters, STRING, bytes, ROOM, result, LOWHENITA_RESULT_BYTES), STRING - 7, 1);
    lend();
    look(lowhenita_check(file, len, 0, 0, 1, 0, 0, 1, letters, 6, result, LOWHENITA_RESULT_BYTES), 0, 1);
    lend();
    look(lowhenita_window(file, len, 3, 4, settle, letters, 8, result, LOWHENITA_RESULT_BYTES), 0, 1);
    lend();
    refusal = lowhenita_window(file, len, 3, 4, settle, last, 8, result, LOWHENITA_RESULT_BYTES);
    look(refusal, 0, lowhenita_field(result, 0) == LOWHENITA_NONE ? 2 : 1);
    nones += lowhenita_field(result, 0) == LOWHENITA_NONE;
    lend();
    refusal = lowhenita_search_kinds(file, len, kinds, file[4], result, LOWHENITA_RESULT_BYTES);
    look(refusal, 0, lowhenita_field(result, 0) == LOWHENITA_KINDS_TOLD ? 4 : 1);
    lend();
    refusal = lowhenita_window_kinds(file, len, kinds, file[4], 3, 4, letters, 8, result, LOWHENITA_RESULT_BYTES);
    look(refusal, 0, lowhenita_field(result, 0) <= LOWHENITA_KINDS_KIND ? 2 : 1);
    lend();
    refusal = lowhenita_table(file, len, 1, 0, settle, bytes, ROOM, result, LOWHENITA_RESULT_BYTES);
    look(refusal, (size_t)lowhenita_field(result, 0) + past, 1);
    lend();
    look(lowhenita_write(file[3], file[4], file[5], file + 6, len - 6, bytes, ROOM, result, LOWHENITA_RESULT_BYTES), len, 1);
    joins(file, len);
}

int main(int argc, char **argv)
{
    coder_file f;
    example e;
    size_t k;

    (void)argv;
    for (k = 0; k < EXAMPLES; k++) {
        make_example(k, &e);
        all_calls(e.file.bytes, e.file.len, 0, argc > 1);
        all_calls(e.file.bytes, e.file.len, 2, argc > 1);
    }
    make_backward_chain(&f, 16, 14);
    all_calls(f.bytes, f.len, 0, argc > 1);
    make_closed_both(&f, 16, 13);
    all_calls(f.bytes, f.len, 0, argc > 1);
    make_line_like_g(&f, 14);
    all_calls(f.bytes, f.len, LOWHENITA_MAX_SETTLE, argc > 1);
    free(bytes);
    free(result);
    if (nones == 0)
        return 1;
    printf("%lu\n", zeros);
    return 0;
}
