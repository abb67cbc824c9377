/* The examples of docs/c-interface.md, in its order: the calls as they stand there, and what it says of each.
   The last line is 'N passed, M failed'. */
#include "lowhenita.h"

#include <stdio.h>
#include <string.h>

static const uint8_t a[] = {1, 0, 11, 2, 2, 2, 0, 0, 1, 1, 1, 1, 0, 0};
static const uint8_t c[] = {1, 0, 7, 1, 2, 1, 0, 0, 0, 0};
static const uint8_t g[] = {1, 0, 19, 4, 2, 6, 1, 4, 1, 5, 2, 0, 3, 0, 2, 0, 2, 1, 3, 2, 3, 3};
static const uint8_t h[] = {1, 0, 11, 2, 2, 2, 0, 0, 0, 1, 1, 0, 1, 0};
static const uint8_t k[] = {1, 0, 19, 2, 4, 3, 0, 0, 1, 1, 0, 2, 0, 2, 1, 1, 0, 0, 0, 2, 0, 2};
static uint8_t result[64], other[64], letters[1026], out[4];
static unsigned passed, failed;

#define HOLDS(claim) ((claim) ? (void)passed++ : (void)(failed++, printf("docs/c-interface.md: not so: %s\n", #claim)))

/* Whether a call that was accepted has left these bytes in `out`, the bytes past its own still 9. */
static int wrote(uint8_t w, uint8_t x, uint8_t y, uint8_t z)
{
    return out[0] == w && out[1] == x && out[2] == y && out[3] == z;
}

static void run(void)
{
    static const uint8_t input[] = {1, 1, 0};
    static const uint8_t begins[16] = {0, 0, 0, 0, 0, 0, 0, 3};

    memset(out, 9, sizeof out);
    HOLDS(lowhenita_run(a, sizeof a, 0, input, 3, out, 4, result, 64) == 0);
    HOLDS(wrote(1, 0, 0, 9));
    HOLDS(lowhenita_field(result, 0) == 3);
    HOLDS(lowhenita_field(result, 1) == 0);
    HOLDS(memcmp(result, begins, 16) == 0);
    HOLDS(lowhenita_run(a, sizeof a, 0, input, 3, out, 4, result, 63) == LOWHENITA_REFUSED_SHORT_BUFFER);
    HOLDS(lowhenita_run(a, sizeof a, 2, input, 3, out, 4, result, 63) == LOWHENITA_REFUSED_START_STATE);
}

static void search(void)
{
    static uint8_t shown[36];
    size_t pair[6], n = 1, k;

    memset(letters, 9, sizeof letters);
    HOLDS(lowhenita_search(a, sizeof a, 0, letters, 1026, result, 64) == 0);
    HOLDS(lowhenita_field(result, 0) == LOWHENITA_WINDOW);
    HOLDS(lowhenita_field(result, 1) == 1);
    HOLDS(lowhenita_field(result, 2) == 0);
    for (k = 0; k < sizeof letters && letters[k] == 9; k++)
        ;
    HOLDS(k == sizeof letters);

    HOLDS(lowhenita_search(g, sizeof g, 0, letters, 1026, result, 64) == 0);
    HOLDS(lowhenita_field(result, 0) == LOWHENITA_WINDOW);
    HOLDS(lowhenita_field(result, 1) == 2);
    HOLDS(lowhenita_field(result, 2) == 0);
    HOLDS(lowhenita_table(g, sizeof g, 0, 1, 0, shown, sizeof shown, other, 64) == 0);
    HOLDS(memchr(shown, LOWHENITA_SEVERAL, sizeof shown) == NULL);
    HOLDS(lowhenita_search(g, sizeof g, 2, letters, 1026, result, 64) == 0);
    HOLDS(lowhenita_field(result, 0) == LOWHENITA_WINDOW);
    HOLDS(lowhenita_field(result, 1) == 0);
    HOLDS(lowhenita_field(result, 2) == 0);
    HOLDS(lowhenita_search(g, sizeof g, 65, letters, 1026, result, 64) == LOWHENITA_REFUSED_SETTLE_COUNT);

    HOLDS(lowhenita_search(c, sizeof c, 0, letters, 1026, result, 64) == 0);
    HOLDS(lowhenita_field(result, 0) == LOWHENITA_LOOPED_PAIR);
    for (k = 0; k < 6; k++) {
        pair[k] = (size_t)lowhenita_field(result, k + 1);
        n += k < 2 ? 0 : pair[k];
    }
    HOLDS(lowhenita_check(c, sizeof c, pair[0], pair[1], pair[2], pair[3], pair[4], pair[5], letters, 2 * n, other, 64) == 0);
    HOLDS(lowhenita_field(other, 0) == 1);
}

static void decode(void)
{
    static const uint8_t received[] = {1, 0, 0}, letters_sent[] = {0, 1, 0, 1};
    uint8_t sent[4];

    memset(out, 9, sizeof out);
    HOLDS(lowhenita_decode(a, sizeof a, 1, 0, 0, received, 3, out, 4, result, 64) == 0);
    HOLDS(wrote(1, 0, 9, 9));
    HOLDS(lowhenita_field(result, 0) == 2);
    HOLDS(lowhenita_run(g, sizeof g, 0, letters_sent, 4, sent, 4, result, 64) == 0);
    HOLDS(lowhenita_decode(g, sizeof g, 0, 0, 2, sent, 4, out, 4, result, 64) == 0);
    HOLDS(wrote(LOWHENITA_NONE, 0, 0, 1));
    HOLDS(lowhenita_field(result, 0) == 4);
}

static void check(void)
{
    static const uint8_t pair[] = {0, 0, 0, 1, 0, 0};

    HOLDS(lowhenita_check(c, sizeof c, 0, 0, 1, 0, 0, 1, pair, 6, result, 64) == 0);
    HOLDS(lowhenita_field(result, 0) == 1);
    HOLDS(lowhenita_check(a, sizeof a, 0, 0, 1, 0, 0, 1, pair, 6, result, 64) == 0);
    HOLDS(lowhenita_field(result, 0) == 0);
    HOLDS(lowhenita_check(h, sizeof h, 1, 1, 1, 0, 0, 1, pair, 6, result, 64) == 0);
    HOLDS(lowhenita_field(result, 0) == 0);
    HOLDS(lowhenita_check(h, sizeof h, 1, 2, 1, 0, 0, 1, pair, 6, result, 64) == LOWHENITA_REFUSED_START_STATE);
    HOLDS(lowhenita_search(h, sizeof h, 0, letters, 1026, result, 64) == 0);
    HOLDS(lowhenita_field(result, 0) == LOWHENITA_WINDOW);
    HOLDS(lowhenita_field(result, 1) == 0);
    HOLDS(lowhenita_field(result, 2) == 0);
    HOLDS(lowhenita_run(h, sizeof h, 1, pair, 3, out, 4, result, 64) == 0);
    HOLDS(lowhenita_field(result, 1) == 1);
}

static void window(void)
{
    static const uint8_t received[] = {0, 1}, one_two[] = {1, 2}, four[] = {4};
    static const uint8_t long_window[] = {4, 0, 1, 2};
    uint8_t before_call[64];

    HOLDS(lowhenita_window(a, sizeof a, 1, 0, 0, received, 2, result, 64) == 0);
    HOLDS(lowhenita_field(result, 0) == 1);
    HOLDS(lowhenita_window(g, sizeof g, 0, 0, 0, received, 1, result, 64) == 0);
    HOLDS(lowhenita_field(result, 0) == LOWHENITA_SEVERAL);
    HOLDS(lowhenita_window(g, sizeof g, 0, 0, 2, received, 1, result, 64) == 0);
    HOLDS(lowhenita_field(result, 0) == 0);

    HOLDS(lowhenita_window(g, sizeof g, 0, 1, 0, one_two, 2, result, 64) == 0);
    HOLDS(lowhenita_field(result, 0) == LOWHENITA_NONE && lowhenita_field(result, 1) == 1);
    HOLDS(lowhenita_window(g, sizeof g, 1, 2, 0, long_window, 4, result, 64) == 0);
    HOLDS(lowhenita_field(result, 0) == LOWHENITA_NONE && lowhenita_field(result, 1) == 3);
    HOLDS(lowhenita_window(g, sizeof g, 0, 0, 2, four, 1, result, 64) == 0);
    HOLDS(lowhenita_field(result, 0) == LOWHENITA_NONE && lowhenita_field(result, 1) == 0);
    memset(result, 7, sizeof result);
    memcpy(before_call, result, sizeof result);
    HOLDS(lowhenita_window(g, sizeof g, 0, 0, 0, four, 1, result, 64) == 0);
    HOLDS(lowhenita_field(result, 0) == 0 && memcmp(result + 8, before_call + 8, 56) == 0);
}

static void kinds(void)
{
    static const uint8_t data_and_filler[] = {0, 0, 1, 1}, one_kind[] = {0, 0, 0, 0}, each[] = {0, 1, 2, 3}, high[] = {0, 0, 4, 1};
    static const uint8_t received[] = {2, 1, 2, 3};

    HOLDS(lowhenita_search(k, sizeof k, 0, letters, 1026, result, 64) == 0);
    HOLDS(lowhenita_field(result, 0) == LOWHENITA_LOOPED_PAIR);
    HOLDS(lowhenita_search_kinds(k, sizeof k, data_and_filler, 4, result, 64) == 0);
    HOLDS(lowhenita_field(result, 0) == LOWHENITA_KINDS_TOLD);
    HOLDS(lowhenita_field(result, 1) == 1);
    HOLDS(lowhenita_field(result, 2) == 0);
    HOLDS(lowhenita_field(result, 3) == 13);
    HOLDS(lowhenita_search_kinds(k, sizeof k, one_kind, 4, result, 64) == 0);
    HOLDS(lowhenita_field(result, 0) == LOWHENITA_KINDS_TOLD);
    HOLDS(lowhenita_field(result, 1) == 0);
    HOLDS(lowhenita_field(result, 2) == 0);
    HOLDS(lowhenita_field(result, 3) == 14);
    HOLDS(lowhenita_search_kinds(k, sizeof k, each, 4, result, 64) == 0);
    HOLDS(lowhenita_field(result, 0) == LOWHENITA_KINDS_CANNOT);
    HOLDS(lowhenita_field(result, 3) == 14);
    HOLDS(lowhenita_search_kinds(k, sizeof k, high, 4, result, 64) == LOWHENITA_REFUSED_KINDS);
    HOLDS(lowhenita_search_kinds(k, sizeof k, each, 3, result, 64) == LOWHENITA_REFUSED_KINDS);

    HOLDS(lowhenita_window_kinds(k, sizeof k, data_and_filler, 4, 1, 0, received, 2, result, 64) == 0);
    HOLDS(lowhenita_field(result, 0) == LOWHENITA_KINDS_LETTER);
    HOLDS(lowhenita_field(result, 1) == 1);
    HOLDS(lowhenita_window_kinds(k, sizeof k, data_and_filler, 4, 1, 0, received + 1, 2, result, 64) == 0);
    HOLDS(lowhenita_field(result, 0) == LOWHENITA_KINDS_KIND);
    HOLDS(lowhenita_field(result, 1) == 1);
    HOLDS(lowhenita_window_kinds(k, sizeof k, each, 4, 1, 0, received + 1, 2, result, 64) == 0);
    HOLDS(lowhenita_field(result, 0) == LOWHENITA_KINDS_SEVERAL);
    HOLDS(lowhenita_window_kinds(k, sizeof k, each, 4, 1, 0, received + 2, 2, result, 64) == LOWHENITA_REFUSED_RECEIVED_LETTER);
}

static void table(void)
{
    memset(out, 9, sizeof out);
    HOLDS(lowhenita_table(a, sizeof a, 1, 0, 0, out, 4, result, 64) == 0);
    HOLDS(wrote(0, 1, 1, 0));
    HOLDS(lowhenita_field(result, 0) == 4);
    HOLDS(lowhenita_table(a, sizeof a, 1, 0, 0, out, 3, result, 64) == LOWHENITA_REFUSED_SHORT_BUFFER);
    HOLDS(lowhenita_table(a, sizeof a, 8, 8, 0, out, 4, result, 64) == LOWHENITA_REFUSED_TABLE_SIZE);
    HOLDS(lowhenita_table(a, sizeof a, 8, 8, 0, out, 0, result, 0) == LOWHENITA_REFUSED_TABLE_SIZE);
    HOLDS(lowhenita_table(a, sizeof a, 8, 7, 0, out, 4, result, 64) == LOWHENITA_REFUSED_SHORT_BUFFER);
}

static void writing(void)
{
    static const uint8_t entries[] = {0, 0, 1, 1, 1, 1, 0, 0};
    static uint8_t file[LOWHENITA_MAX_FILE_BYTES];

    memset(file, 9, sizeof file);
    HOLDS(lowhenita_write(2, 2, 2, entries, 8, file, sizeof file, result, 64) == 0);
    HOLDS(memcmp(file, a, sizeof a) == 0);
    HOLDS(file[sizeof a] == 9);
    HOLDS(lowhenita_field(result, 0) == 14);
    HOLDS(lowhenita_write(2, 2, 2, entries, 8, file, 13, result, 64) == LOWHENITA_REFUSED_SHORT_BUFFER);
    HOLDS(lowhenita_write(2, 2, 2, entries, 7, file, 13, result, 64) == LOWHENITA_REFUSED_COUNT_FIELD);
    HOLDS(lowhenita_write(2, 2, 3, entries, 8, file, sizeof file, result, 64) == LOWHENITA_REFUSED_UNUSED_OUTPUT);
    HOLDS(lowhenita_write(2, 2, 3, entries, 8, file, 0, result, 0) == LOWHENITA_REFUSED_UNUSED_OUTPUT);
    HOLDS(lowhenita_write(2, 2, 65, entries, 8, file, sizeof file, result, 64) == LOWHENITA_REFUSED_COUNTS);
    HOLDS(lowhenita_write(g[3], g[4], g[5], g + 6, sizeof g - 6, file, sizeof file, result, 64) == 0);
    HOLDS(lowhenita_field(result, 0) == sizeof g && memcmp(file, g, sizeof g) == 0);
}

static void join(void)
{
    static const uint8_t joined[] = {1, 0, 19, 4, 2, 2, 0, 0, 3, 1, 1, 1, 2, 0, 3, 1, 0, 0, 2, 0, 1, 1};
    static const uint8_t input[] = {1, 1, 0};
    static uint8_t file[LOWHENITA_MAX_FILE_BYTES];
    uint8_t between[3], sent[3];
    uint64_t e1, e2;

    memset(file, 9, sizeof file);
    HOLDS(lowhenita_join(a, sizeof a, a, sizeof a, file, sizeof file, result, 64) == 0);
    HOLDS(lowhenita_field(result, 0) == 22);
    HOLDS(sizeof joined == 22 && memcmp(file, joined, 22) == 0);
    HOLDS(file[22] == 9);
    HOLDS(lowhenita_search(file, 22, 0, letters, 1026, result, 64) == 0);
    HOLDS(lowhenita_field(result, 0) == LOWHENITA_WINDOW);
    HOLDS(lowhenita_field(result, 1) == 2);
    HOLDS(lowhenita_field(result, 2) == 0);

    memset(between, 9, sizeof between);
    memset(sent, 9, sizeof sent);
    memset(out, 9, sizeof out);
    HOLDS(lowhenita_run(a, sizeof a, 0, input, 3, between, 3, result, 64) == 0);
    e1 = lowhenita_field(result, 1);
    HOLDS(lowhenita_run(a, sizeof a, 1, between, 3, sent, 3, result, 64) == 0);
    e2 = lowhenita_field(result, 1);
    HOLDS(lowhenita_run(file, 22, 0 * 2 + 1, input, 3, out, 4, result, 64) == 0);
    HOLDS(wrote(0, 0, 0, 9));
    HOLDS(memcmp(out, sent, 3) == 0);
    HOLDS(lowhenita_field(result, 1) == e1 * 2 + e2);
    HOLDS(lowhenita_run(file, 22, 1, input, 1, out, 4, result, 64) == 0);
    HOLDS(lowhenita_field(result, 1) == 1 * 2 + 0);

    HOLDS(lowhenita_join(c, sizeof c, a, sizeof a, file, sizeof file, result, 64) == LOWHENITA_REFUSED_ROW);
    HOLDS(lowhenita_join(a, sizeof a, c, sizeof c, file, sizeof file, result, 64) == 0);
    HOLDS(lowhenita_field(result, 0) == 14);
    HOLDS(file[3] == 2 && file[4] == 2 && file[5] == 1);
    HOLDS(file[14] == joined[14] && file[21] == joined[21]);
    HOLDS(lowhenita_join(a, sizeof a, a, sizeof a, file, 21, result, 64) == LOWHENITA_REFUSED_SHORT_BUFFER);
    HOLDS(lowhenita_join(a, sizeof a, a, sizeof a, file, sizeof file, result, 63) == LOWHENITA_REFUSED_SHORT_BUFFER);
    HOLDS(lowhenita_join(c, sizeof c, a, sizeof a, file, 0, result, 64) == LOWHENITA_REFUSED_ROW);
}

int main(void)
{
    run();
    search();
    decode();
    check();
    window();
    kinds();
    table();
    writing();
    join();
    printf("%u passed, %u failed\n", passed, failed);
    return failed == 0 && passed > 0 ? 0 : 1;
}
