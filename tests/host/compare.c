/* One comparison: the library is called on guarded buffers, and what it returns and every byte of
   the buffers are held against what is wanted. */
#include "compare.h"

#include "coders.h"
#include "lent.h"
#include "lowhenita.h"

#include <string.h>

static lent file_buffer, second_buffer, kinds_buffer, bytes_buffer, lent_buffer, result_buffer;
static int again; /* the call under way is made by write_again */
static uint8_t wanted_lent[LENT_ROOM], wanted_result[LENT_ROOM];

void open_buffers(void)
{
    lent_open(&file_buffer);
    lent_open(&second_buffer);
    lent_open(&kinds_buffer);
    lent_open(&bytes_buffer);
    lent_open(&lent_buffer);
    lent_open(&result_buffer);
}

static size_t call_library(const arguments *a, const uint8_t *file, const uint8_t *second,
                           const uint8_t *kinds, const uint8_t *bytes, uint8_t *lent,
                           uint8_t *result)
{
    switch (a->call) {
    case CALL_RUN:
        return lowhenita_run(file, a->file_len, a->start, bytes, a->bytes_len, lent, a->lent_len,
                             result, a->result_len);
    case CALL_SEARCH:
        return lowhenita_search(file, a->file_len, a->settle, lent, a->lent_len, result,
                                a->result_len);
    case CALL_DECODE:
        return lowhenita_decode(file, a->file_len, a->before, a->after, a->settle, bytes,
                                a->bytes_len, lent, a->lent_len, result, a->result_len);
    case CALL_CHECK:
        return lowhenita_check(file, a->file_len, a->pair.s, a->pair.t, a->pair.back_loop,
                               a->pair.lead_in, a->pair.lead_out, a->pair.forward_loop, bytes,
                               a->bytes_len, result, a->result_len);
    case CALL_WINDOW:
        return lowhenita_window(file, a->file_len, a->before, a->after, a->settle, bytes,
                                a->bytes_len, result, a->result_len);
    case CALL_WRITE:
        return lowhenita_write(a->counts[0], a->counts[1], a->counts[2], bytes, a->bytes_len, lent,
                               a->lent_len, result, a->result_len);
    case CALL_SEARCH_KINDS:
        return lowhenita_search_kinds(file, a->file_len, kinds, a->kinds_len, result,
                                      a->result_len);
    case CALL_WINDOW_KINDS:
        return lowhenita_window_kinds(file, a->file_len, kinds, a->kinds_len, a->before, a->after,
                                      bytes, a->bytes_len, result, a->result_len);
    case CALL_JOIN:
        return lowhenita_join(file, a->file_len, second, a->second_len, lent, a->lent_len, result,
                              a->result_len);
    default:
        return lowhenita_table(file, a->file_len, a->before, a->after, a->settle, lent, a->lent_len,
                               result, a->result_len);
    }
}

/* An empty buffer is NULL about every other time, else the address of the page without access. */
static uint8_t *or_null(uint8_t *buffer, size_t len)
{
    static uint32_t empty;

    if (len > 0)
        return buffer;
    empty = empty * 1664525u + 1013904223u;
    return empty >> 31 ? NULL : buffer;
}

static void same_bytes(const char *name, const lent *b, const uint8_t *wanted, size_t len)
{
    const uint8_t *bytes = b->end - len;

    if (!lent_guard_kept(b, len))
        differ("bytes in front of %s were changed", name);
    if (len > 0 && memcmp(bytes, wanted, len) != 0) {
        size_t k = 0;

        while (bytes[k] == wanted[k])
            k++;
        differ("%s at byte %zu is %u, wanted %u", name, k, bytes[k], wanted[k]);
    }
}

static int fits_in_buffers(const arguments *a)
{
    return a->file_len <= LENT_ROOM && a->second_len <= LENT_ROOM && a->kinds_len <= LENT_ROOM
        && a->bytes_len <= LENT_ROOM && a->lent_len <= LENT_ROOM && a->result_len <= LENT_ROOM;
}

/* The lent buffers hold patterns before the call, and so do the wanted ones. */
static void fill_wanted(const arguments *a, size_t seed)
{
    memcpy(wanted_lent, lent_pattern(seed), a->lent_len);
    memcpy(wanted_result, lent_pattern(seed + 1), a->result_len);
}

/* Calls the library, the wanted buffers as they should be after it; a search is judged instead. */
static reply call_and_compare(const arguments *a, size_t wanted, size_t seed)
{
    uint8_t *file, *second, *kinds, *bytes, *lent, *result;
    reply got;

    now.comparisons++;
    if (!again)
        now.wanted[a->call][wanted]++;
    file = or_null(lent_copy(&file_buffer, a->file, a->file_len), a->file_len);
    second = or_null(lent_copy(&second_buffer, a->second, a->second_len), a->second_len);
    if (a->second_len > 0 && a->second == a->file && a->second_len == a->file_len)
        second = file; /* one file for both */
    kinds = or_null(lent_copy(&kinds_buffer, a->kinds, a->kinds_len), a->kinds_len);
    bytes = or_null(lent_copy(&bytes_buffer, a->bytes, a->bytes_len), a->bytes_len);
    lent = or_null(lent_fill(&lent_buffer, a->lent_len, seed), a->lent_len);
    result = or_null(lent_fill(&result_buffer, a->result_len, seed + 1), a->result_len);
    got.returned = call_library(a, file, second, kinds, bytes, lent, result);
    got.lent = lent_buffer.end - a->lent_len;
    got.result = result_buffer.end - a->result_len;
    if (got.returned != wanted)
        differ("returned %zu, wanted %zu", got.returned, wanted);
    else if (wanted == 0 && a->call == CALL_SEARCH)
        judge_search(a, got.lent, got.result, wanted_lent, wanted_result);
    same_bytes("the file", &file_buffer, a->file, a->file_len);
    same_bytes("the second file", &second_buffer, a->second, a->second_len);
    same_bytes("the kinds", &kinds_buffer, a->kinds, a->kinds_len);
    same_bytes("the letters or entries", &bytes_buffer, a->bytes, a->bytes_len);
    same_bytes("the lent buffer", &lent_buffer, wanted_lent, a->lent_len);
    same_bytes("the result", &result_buffer, wanted_result, a->result_len);
    return got;
}

/* The latest file that was written again, by its place among the arguments: first or only, second. */
typedef struct latest_file {
    uint8_t bytes[LENT_ROOM];
    size_t len;
} latest_file;

/* A file of a call is written again from its parts: bytes 3 to 5 and those from byte 6 on. An
   accepted file has to come out as it is; of any other the enumerator says what is wanted. Equal
   files that follow each other are written once. */
static void write_again(latest_file *latest, const uint8_t *file, size_t len)
{
    arguments w;
    size_t k;

    if (len < 6 || (len == latest->len && memcmp(file, latest->bytes, len) == 0))
        return;
    latest->len = len;
    memcpy(latest->bytes, file, len);
    memset(&w, 0, sizeof w);
    w.call = CALL_WRITE;
    for (k = 0; k < 3; k++)
        w.counts[k] = latest->bytes[3 + k];
    w.bytes = latest->bytes + 6;
    w.bytes_len = len - 6;
    w.lent_len = len + len % 3;
    w.result_len = RESULT_BYTES;
    again = 1;
    if (refusal_of_file(file, len) == 0)
        compare_known(&w, latest->bytes, len);
    else
        compare(&w);
    again = 0;
}

static void write_files_again(const arguments *a)
{
    static latest_file first, second;

    if (a->call == CALL_WRITE)
        return;
    write_again(&first, a->file, a->file_len);
    if (a->call == CALL_JOIN)
        write_again(&second, a->second, a->second_len);
}

reply compare(const arguments *a)
{
    const reply left_out = {SIZE_MAX, lent_pattern(0), lent_pattern(0)};
    size_t wanted = refusal_of_call(a), seed = random_below(LENT_SEEDS);

    if (!fits_in_buffers(a)) {
        show_call(a);
        differ("arguments too long for the buffers");
        return left_out;
    }
    write_files_again(a);
    show_call(a);
    fill_wanted(a, seed);
    if (wanted == 0 && a->call != CALL_SEARCH) {
        allow_steps(ANSWER_STEPS);
        if (!expected_answer(a, wanted_lent, wanted_result)) {
            now.answers_left++;
            return left_out;
        }
    }
    return call_and_compare(a, wanted, seed);
}

reply compare_known(const arguments *a, const uint8_t *bytes, size_t count)
{
    show_call(a);
    fill_wanted(a, 0);
    memcpy(wanted_lent, bytes, count);
    put_field(wanted_result, 0, count);
    return call_and_compare(a, 0, 0);
}

reply compare_none(const arguments *a, size_t possible)
{
    show_call(a);
    fill_wanted(a, 0);
    put_field(wanted_result, 0, BYTE_NONE);
    put_field(wanted_result, 1, possible);
    return call_and_compare(a, 0, 0);
}
