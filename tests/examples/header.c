/* The header: fields of known bytes; a sentence of its own for each refusal; and each refusal's name against the number that the library
   returns for a call with that one fault, of the calls that write and join files too. C99 and C++. The last line is 'N passed, M failed'.
   With an argument: number, sentence and name of each refusal, as rows of the first table of docs/refusals.md. */
#include "lowhenita.h"

#include <stdio.h>
#include <string.h>

enum { REFUSALS = 17 };

/* Running parity: 2 states, 2 input letters, 2 output letters. */
static const uint8_t parity[] = {1, 0, 11, 2, 2, 2, 0, 0, 1, 1, 1, 1, 0, 0};
/* One state, one input letter, one output letter. */
static const uint8_t one[] = {1, 0, 5, 1, 1, 1, 0, 0};
static uint8_t file[sizeof parity], written[sizeof parity], letters[LOWHENITA_SEARCH_BYTES], bytes[LOWHENITA_MAX_TABLE_BYTES + 1];
static uint8_t result[LOWHENITA_RESULT_BYTES];
static unsigned long passed, failed;

static void expect(int holds, const char *what, size_t number)
{
    if (holds) {
        passed++;
    } else {
        failed++;
        printf("header: %s %lu\n", what, (unsigned long)number);
    }
}

static void expect_refusal(size_t returned, size_t number)
{
    expect(returned == number, "the library does not return", number);
}

static void fields(void)
{
    static const uint8_t known[16] = {0, 0, 0, 0, 0, 0, 1, 2, 255, 254, 253, 252, 251, 250, 249, 248};
    static const uint8_t input[] = {1, 1, 0, 1};

    expect(lowhenita_field(known, 0) == 258, "field", 0);
    expect(lowhenita_field(known, 1) == UINT64_C(0xfffefdfcfbfaf9f8), "field", 1);
    expect_refusal(lowhenita_run(parity, sizeof parity, 0, input, 4, bytes, 4, result, sizeof result), 0);
    expect(lowhenita_field(result, 0) == 4, "letters written", 4);
    expect(lowhenita_field(result, 1) == 1, "end state", 1);
    memset(result, 9, sizeof result);
    expect(lowhenita_field(result, 7) == UINT64_C(0x0909090909090909), "field", 7);
}

static void texts(void)
{
    size_t k, j;

    for (k = 0; k <= REFUSALS + 1; k++) {
        const char *text = lowhenita_refusal_text(k);

        expect(strlen(text) > 10 && text[strlen(text) - 1] == '.', "no sentence for", k);
        for (j = 0; j < k; j++)
            expect(strcmp(text, lowhenita_refusal_text(j)) != 0, "no sentence of its own for", k);
    }
    expect(strcmp(lowhenita_refusal_text(SIZE_MAX), lowhenita_refusal_text(REFUSALS + 1)) == 0, "sentence for", SIZE_MAX);
}

/* The search on the parity coder's file with one byte changed. */
static size_t search_changed(size_t place, uint8_t byte, size_t len)
{
    memcpy(file, parity, sizeof file);
    file[place] = byte;
    return lowhenita_search(file, len, 0, letters, sizeof letters, result, sizeof result);
}

/* The writer on the parity coder's counts and entries, with another number of states, of entry bytes and of bytes for the file. */
static size_t write_changed(size_t states, size_t entries, size_t room)
{
    return lowhenita_write(states, 2, 2, parity + 6, entries, written, room, result, sizeof result);
}

static void writing(void)
{
    const size_t n = sizeof parity;

    expect_refusal(write_changed(2, n - 6, n), 0);
    expect(lowhenita_field(result, 0) == n, "bytes written", n);
    expect(memcmp(written, parity, n) == 0, "the file of", n);
    expect_refusal(write_changed(17, n - 6, n), LOWHENITA_REFUSED_COUNTS);
    expect_refusal(write_changed(2 + ((size_t)1 << 32), n - 6, n), LOWHENITA_REFUSED_COUNTS);
    expect_refusal(write_changed(2, n - 7, n), LOWHENITA_REFUSED_COUNT_FIELD);
    expect_refusal(lowhenita_write(2, 2, 1, parity + 6, n - 6, written, n, result, sizeof result), LOWHENITA_REFUSED_ENTRY);
    expect_refusal(lowhenita_write(2, 2, 3, parity + 6, n - 6, written, n, result, sizeof result), LOWHENITA_REFUSED_UNUSED_OUTPUT);
    expect_refusal(write_changed(2, n - 6, n - 1), LOWHENITA_REFUSED_SHORT_BUFFER);
}

/* A coder with so many states, two letters in and two out: every entry leads to state 0 and puts out its letter. */
static void make_copier(uint8_t copier[6 + 4 * LOWHENITA_MAX_STATES], size_t states)
{
    size_t k;

    memset(copier, 0, 6 + 4 * LOWHENITA_MAX_STATES);
    copier[0] = 1;
    copier[2] = (uint8_t)(3 + 4 * states);
    copier[3] = (uint8_t)states;
    copier[4] = copier[5] = 2;
    for (k = 0; k < states; k++)
        copier[9 + 4 * k] = 1;
}

/* The two coders joined, from files of the length that their count fields say, with so many bytes for the file and for the result. */
static size_t join(const uint8_t *first, const uint8_t *second, size_t room, size_t result_len)
{
    return lowhenita_join(first, 3 + (size_t)first[2], second, 3 + (size_t)second[2], bytes, room, result, result_len);
}

/* Number 17 by letters, by states and by both, and the most states that there may be; it comes before short buffers. */
static void joining(void)
{
    static const uint8_t two[] = {1, 0, 7, 2, 1, 1, 0, 0, 0, 0};
    static uint8_t copier[6 + 4 * LOWHENITA_MAX_STATES];
    const size_t n = sizeof bytes, m = sizeof result;

    expect_refusal(join(parity, parity, 22, m), 0);
    expect(lowhenita_field(result, 0) == 22, "bytes written", 22);
    expect_refusal(join(parity, parity, 21, m), LOWHENITA_REFUSED_SHORT_BUFFER);
    expect_refusal(join(parity, parity, 22, m - 1), LOWHENITA_REFUSED_SHORT_BUFFER);
    expect_refusal(join(parity, one, n, m), LOWHENITA_REFUSED_ROW);
    expect_refusal(join(one, parity, n, m), LOWHENITA_REFUSED_ROW);
    expect_refusal(join(one, parity, 0, m), LOWHENITA_REFUSED_ROW);
    expect_refusal(join(one, parity, n, 0), LOWHENITA_REFUSED_ROW);
    make_copier(copier, 8);
    expect_refusal(join(copier, parity, n, m), 0);
    expect_refusal(join(parity, copier, n, m), 0);
    expect(lowhenita_field(result, 0) == 70, "bytes written", 70);
    make_copier(copier, 9);
    expect_refusal(join(copier, parity, n, m), LOWHENITA_REFUSED_ROW);
    expect_refusal(join(parity, copier, n, m), LOWHENITA_REFUSED_ROW);
    make_copier(copier, 16);
    expect_refusal(join(copier, copier, n, m), LOWHENITA_REFUSED_ROW);
    expect_refusal(join(copier, copier, 0, 0), LOWHENITA_REFUSED_ROW);
    expect_refusal(join(copier, two, n, m), LOWHENITA_REFUSED_ROW);
    expect_refusal(join(two, copier, 0, 0), LOWHENITA_REFUSED_ROW);
}

/* A fault of either file comes before 17 and short buffers, and any fault of the first before any of the second. */
static void faulty_rows(void)
{
    static const struct {
        size_t place;
        uint8_t byte;
        size_t len, number;
    } faults[] = {{0, 1, 5, 1}, {0, 2, 14, 2}, {0, 1, 13, 3}, {3, 17, 14, 4}, {3, 1, 14, 5}, {13, 2, 14, 6}, {5, 3, 14, 15}};
    size_t k, j;

    for (k = 0; k < sizeof faults / sizeof *faults; k++) {
        size_t len = faults[k].len, number = search_changed(faults[k].place, faults[k].byte, len);

        expect(number == faults[k].number, "the file has not the fault", faults[k].number);
        expect_refusal(lowhenita_join(file, len, one, sizeof one, bytes, 0, result, 0), number);
        expect_refusal(lowhenita_join(one, sizeof one, file, len, bytes, 0, result, 0), number);
        memcpy(written, file, sizeof written);
        for (j = 0; j < sizeof faults / sizeof *faults; j++) {
            search_changed(faults[j].place, faults[j].byte, faults[j].len);
            expect_refusal(lowhenita_join(written, len, file, faults[j].len, bytes, 0, result, 0), number);
        }
    }
}

static void refusals(void)
{
    static const uint8_t two[] = {0, 2};
    const size_t n = sizeof parity;

    expect_refusal(search_changed(0, 1, n), 0);
    expect_refusal(search_changed(0, 1, 5), LOWHENITA_REFUSED_SHORT_FILE);
    expect_refusal(search_changed(0, 2, n), LOWHENITA_REFUSED_VERSION);
    expect_refusal(search_changed(0, 1, n - 1), LOWHENITA_REFUSED_FILE_LENGTH);
    expect_refusal(search_changed(3, 17, n), LOWHENITA_REFUSED_COUNTS);
    expect_refusal(search_changed(3, 1, n), LOWHENITA_REFUSED_COUNT_FIELD);
    expect_refusal(search_changed(6, 2, n), LOWHENITA_REFUSED_ENTRY);
    expect_refusal(search_changed(13, 2, n), LOWHENITA_REFUSED_ENTRY);
    expect_refusal(lowhenita_run(parity, n, 2, two, 1, bytes, 1, result, sizeof result), LOWHENITA_REFUSED_START_STATE);
    expect_refusal(lowhenita_decode(parity, n, 0, 137, 0, two, 1, bytes, 1, result, sizeof result), LOWHENITA_REFUSED_WINDOW_SIDE);
    expect_refusal(lowhenita_window(parity, n, 1, 0, 0, two, 1, result, sizeof result), LOWHENITA_REFUSED_NUMBER_OF_LETTERS);
    expect_refusal(lowhenita_check(parity, n, 0, 0, 1, 0, 0, 1, two, 2, result, sizeof result), LOWHENITA_REFUSED_NUMBER_OF_LETTERS);
    expect_refusal(lowhenita_table(parity, n, 8, 8, 0, bytes, sizeof bytes, result, sizeof result), LOWHENITA_REFUSED_TABLE_SIZE);
    expect_refusal(lowhenita_search(parity, n, 0, letters, sizeof letters - 1, result, sizeof result), LOWHENITA_REFUSED_SHORT_BUFFER);
    expect_refusal(lowhenita_search(parity, n, 0, letters, sizeof letters, result, sizeof result - 1), LOWHENITA_REFUSED_SHORT_BUFFER);
    expect_refusal(lowhenita_run(parity, n, 0, two, 2, bytes, 2, result, sizeof result), LOWHENITA_REFUSED_INPUT_LETTER);
    expect_refusal(lowhenita_decode(parity, n, 0, 0, 0, two, 2, bytes, 2, result, sizeof result), LOWHENITA_REFUSED_RECEIVED_LETTER);
}

/* A letter more than the entries put out, in the calls that take a file; it comes before all that concerns the other arguments. */
static void unused_outputs(void)
{
    static const uint8_t two[] = {2, 2};
    const size_t n = sizeof parity;

    expect_refusal(search_changed(5, 3, n), LOWHENITA_REFUSED_UNUSED_OUTPUT);
    expect_refusal(search_changed(5, LOWHENITA_MAX_OUTPUTS, n), LOWHENITA_REFUSED_UNUSED_OUTPUT);
    expect_refusal(search_changed(5, LOWHENITA_MAX_OUTPUTS + 1, n), LOWHENITA_REFUSED_COUNTS);
    search_changed(5, 3, n);
    expect_refusal(lowhenita_run(file, n, 2, two, 2, bytes, 0, result, 0), LOWHENITA_REFUSED_UNUSED_OUTPUT);
    expect_refusal(lowhenita_search(file, n, 65, letters, 0, result, 0), LOWHENITA_REFUSED_UNUSED_OUTPUT);
    expect_refusal(lowhenita_decode(file, n, 137, 0, 65, two, 2, bytes, 0, result, 0), LOWHENITA_REFUSED_UNUSED_OUTPUT);
    expect_refusal(lowhenita_check(file, n, 2, 2, 1, 0, 0, 1, two, 2, result, 0), LOWHENITA_REFUSED_UNUSED_OUTPUT);
    expect_refusal(lowhenita_window(file, n, 137, 0, 65, two, 2, result, 0), LOWHENITA_REFUSED_UNUSED_OUTPUT);
    expect_refusal(lowhenita_table(file, n, 137, 0, 65, bytes, 0, result, 0), LOWHENITA_REFUSED_UNUSED_OUTPUT);
}

/* The two calls that take a kind list: a byte too few and too many, a kind that there is not, at either end; it comes before what concerns
   a window. */
static void kind_lists(void)
{
    static const uint8_t kinds[] = {1, 0, 0}, high[] = {2, 0}, last[] = {0, 255}, two[] = {2, 2};
    const size_t n = sizeof parity;

    expect_refusal(lowhenita_search_kinds(parity, n, kinds, 2, result, sizeof result), 0);
    expect_refusal(lowhenita_search_kinds(parity, n, kinds, 1, result, sizeof result), LOWHENITA_REFUSED_KINDS);
    expect_refusal(lowhenita_search_kinds(parity, n, kinds, 3, result, sizeof result), LOWHENITA_REFUSED_KINDS);
    expect_refusal(lowhenita_search_kinds(parity, n, NULL, 0, result, sizeof result), LOWHENITA_REFUSED_KINDS);
    expect_refusal(lowhenita_search_kinds(parity, n, high, 2, result, sizeof result), LOWHENITA_REFUSED_KINDS);
    expect_refusal(lowhenita_search_kinds(parity, n, last, 2, result, sizeof result), LOWHENITA_REFUSED_KINDS);
    expect_refusal(lowhenita_search_kinds(parity, n, kinds, 1, result, 0), LOWHENITA_REFUSED_KINDS);
    expect_refusal(lowhenita_search_kinds(parity, n, kinds, 2, result, sizeof result - 1), LOWHENITA_REFUSED_SHORT_BUFFER);
    expect_refusal(lowhenita_window_kinds(parity, n, kinds, 2, 1, 0, kinds, 2, result, sizeof result), 0);
    expect_refusal(lowhenita_window_kinds(parity, n, kinds, 3, 137, 0, two, 1, result, 0), LOWHENITA_REFUSED_KINDS);
    expect_refusal(lowhenita_window_kinds(parity, n, high, 2, 0, 137, two, 1, result, 0), LOWHENITA_REFUSED_KINDS);
    expect_refusal(lowhenita_window_kinds(parity, n, kinds, 2, 137, 0, two, 1, result, 0), LOWHENITA_REFUSED_WINDOW_SIDE);
    expect_refusal(lowhenita_window_kinds(parity, n, kinds, 2, 1, 0, two, 1, result, 0), LOWHENITA_REFUSED_NUMBER_OF_LETTERS);
    expect_refusal(lowhenita_window_kinds(parity, n, kinds, 2, 1, 0, two, 2, result, 63), LOWHENITA_REFUSED_SHORT_BUFFER);
    expect_refusal(lowhenita_window_kinds(parity, n, kinds, 2, 1, 0, two, 2, result, 64), LOWHENITA_REFUSED_RECEIVED_LETTER);
    search_changed(5, 3, n);
    expect_refusal(lowhenita_search_kinds(file, n, high, 2, result, 0), LOWHENITA_REFUSED_UNUSED_OUTPUT);
    expect_refusal(lowhenita_window_kinds(file, n, high, 2, 137, 0, two, 1, result, 0), LOWHENITA_REFUSED_UNUSED_OUTPUT);
}

/* The four calls that take a settle count: the largest, and one above it, which comes before a wrong number of letters and short buffers
   and after a side that is too large. */
static void settle_counts(void)
{
    static const uint8_t zeros[] = {0, 0};
    const size_t n = sizeof parity, most = LOWHENITA_MAX_SETTLE, above = most + 1;

    expect_refusal(lowhenita_search(parity, n, most, letters, sizeof letters, result, sizeof result), 0);
    expect_refusal(lowhenita_decode(parity, n, 1, 0, most, zeros, 2, bytes, 1, result, sizeof result), 0);
    expect_refusal(lowhenita_window(parity, n, 1, 0, most, zeros, 2, result, sizeof result), 0);
    expect_refusal(lowhenita_table(parity, n, 1, 0, most, bytes, 4, result, sizeof result), 0);
    expect_refusal(lowhenita_search(parity, n, above, letters, sizeof letters, result, sizeof result), LOWHENITA_REFUSED_SETTLE_COUNT);
    expect_refusal(lowhenita_decode(parity, n, 1, 0, above, zeros, 2, bytes, 1, result, sizeof result), LOWHENITA_REFUSED_SETTLE_COUNT);
    expect_refusal(lowhenita_window(parity, n, 1, 0, above, zeros, 2, result, sizeof result), LOWHENITA_REFUSED_SETTLE_COUNT);
    expect_refusal(lowhenita_table(parity, n, 1, 0, above, bytes, 4, result, sizeof result), LOWHENITA_REFUSED_SETTLE_COUNT);
    expect_refusal(lowhenita_search(parity, n, (size_t)1 << 32, letters, 0, result, 0), LOWHENITA_REFUSED_SETTLE_COUNT);
    expect_refusal(lowhenita_window(parity, n, 1, 0, above, zeros, 1, result, 0), LOWHENITA_REFUSED_SETTLE_COUNT);
    expect_refusal(lowhenita_table(parity, n, 8, 8, 256, bytes, 0, result, 0), LOWHENITA_REFUSED_SETTLE_COUNT);
    expect_refusal(lowhenita_decode(parity, n, 137, 0, above, zeros, 2, bytes, 1, result, sizeof result), LOWHENITA_REFUSED_WINDOW_SIDE);
}

#define ROW(name) printf("| %d | %s | `%s` |\n", LOWHENITA_REFUSED_##name, lowhenita_refusal_text(LOWHENITA_REFUSED_##name), #name)

static void rows(void)
{
    ROW(SHORT_FILE);
    ROW(VERSION);
    ROW(FILE_LENGTH);
    ROW(COUNTS);
    ROW(COUNT_FIELD);
    ROW(ENTRY);
    ROW(UNUSED_OUTPUT);
    ROW(START_STATE);
    ROW(KINDS);
    ROW(WINDOW_SIDE);
    ROW(SETTLE_COUNT);
    ROW(NUMBER_OF_LETTERS);
    ROW(TABLE_SIZE);
    ROW(ROW);
    ROW(SHORT_BUFFER);
    ROW(INPUT_LETTER);
    ROW(RECEIVED_LETTER);
}

int main(int argc, char **argv)
{
    (void)argv;
    if (argc > 1) {
        rows();
        return 0;
    }
    fields();
    texts();
    refusals();
    unused_outputs();
    kind_lists();
    settle_counts();
    writing();
    joining();
    faulty_rows();
    printf("%lu passed, %lu failed\n", passed, failed);
    return failed == 0 && passed > 0 ? 0 : 1;
}
