/* Writes texts of cases, each at most as long as the program cases reads. */
#include "case_texts.h"

#include "compare.h"

#include <stdarg.h>
#include <stdio.h>
#include <string.h>

enum { MOST_TEXT = 65535, MOST_BLOCK = 16384, MOST_TEXTS = 999, BEFORE_CALL = 238 };

static const char *texts_folder;
static char text[MOST_TEXT], block[MOST_BLOCK];
static size_t text_len, text_cases, block_len, block_cases;
static size_t texts, cases_of[MOST_TEXTS + 1];

void open_texts(const char *folder)
{
    texts_folder = folder;
}

static void write_file(const char *name, const char *bytes, size_t len)
{
    char path[4096];
    FILE *to;
    int kept;

    snprintf(path, sizeof path, "%s/%s", texts_folder, name);
    to = fopen(path, "w");
    kept = to && fwrite(bytes, 1, len, to) == len;
    if (!to || fclose(to) != 0 || !kept)
        differ("%s could not be written", path);
}

static void name_text(char name[32], size_t k)
{
    snprintf(name, 32, "%03zu", k);
}

static void end_text(void)
{
    char name[32];

    if (text_len == 0)
        return;
    if (texts == MOST_TEXTS) {
        differ("more than %d texts of cases", MOST_TEXTS);
        return;
    }
    cases_of[++texts] = text_cases;
    name_text(name, texts);
    write_file(name, text, text_len);
    text_len = text_cases = 0;
}

/* A coder file and its cases go into the text, or into the next one. */
static void end_block(void)
{
    if (text_len + block_len > MOST_TEXT)
        end_text();
    memcpy(text + text_len, block, block_len);
    text_len += block_len;
    text_cases += block_cases;
    block_len = block_cases = 0;
}

static void put(const char *what, ...)
{
    va_list list;
    int len;

    va_start(list, what);
    len = vsnprintf(block + block_len, MOST_BLOCK - block_len, what, list);
    va_end(list);
    if (len < 0 || (size_t)len >= MOST_BLOCK - block_len)
        differ("too many cases for one coder file");
    else
        block_len += (size_t)len;
}

void text_file(const uint8_t *file, size_t len)
{
    size_t k;

    end_block();
    put(len > 0 ? "file" : "file -");
    for (k = 0; k < len; k++)
        put(" %u", file[k]);
    put("\n");
}

static void count_case(void)
{
    block_cases++;
    now.cases++;
}

static void put_call(enum order order, size_t settle, size_t lent)
{
    put("%s %zu into %zu = ", order == LEAST_LOOKAHEAD ? "least_lookahead" : "fewest_letters",
        settle, lent);
    count_case();
}

static void put_run(unsigned byte, size_t n)
{
    if (n == 1)
        put(" %u", byte);
    if (n > 1)
        put(" %u*%zu", byte, n);
}

static void put_bytes(const uint8_t *bytes, size_t len)
{
    size_t k, n;

    for (k = 0; k < len; k += n) {
        n = 1;
        while (k + n < len && bytes[k + n] == bytes[k])
            n++;
        put_run(bytes[k], n);
    }
}

/* The lent buffer: these bytes at its front, none of them the byte before a call, and the rest as it
   was before the call. */
static void put_buffer(size_t lent, const uint8_t *bytes, size_t len)
{
    put(lent > 0 ? ", buffer" : ", buffer -");
    put_bytes(bytes, len);
    put_run(BEFORE_CALL, lent - len);
    put("\n");
}

void text_refusal(enum order order, size_t settle, size_t lent, size_t number)
{
    put_call(order, settle, lent);
    put("refused %zu", number);
    put_buffer(lent, NULL, 0);
}

static void put_pair(size_t lent, const pair *p)
{
    put("no decoder %zu %zu %zu %zu %zu %zu", p->s, p->t, p->back_loop, p->lead_in, p->lead_out,
        p->forward_loop);
    put_buffer(lent, p->letters, 2 * pair_letters(p));
}

void text_answer(enum order order, size_t settle, size_t lent, const least *window,
                 const first_pair *first)
{
    known_value("whether there is a looped pair", first->exists, window->works == NO ? YES : NO);
    put_call(order, settle, lent);
    if (first->exists == YES) {
        put_pair(lent, &first->pair);
        return;
    }
    put("window %zu %zu %zu", window->before, window->after, settle);
    put_buffer(lent, NULL, 0);
}

void text_reader(const size_t counts[3], const uint8_t *entries, size_t len)
{
    put("counts = coder %zu %zu %zu\n", counts[0], counts[1], counts[2]);
    count_case();
    put("entries = bytes");
    put_bytes(entries, len);
    put("\n");
    count_case();
}

void text_reader_refused(size_t number)
{
    put("counts = refused %zu\n", number);
    count_case();
    put("entries = bytes -\n");
    count_case();
}

static void put_list(const uint8_t *bytes, size_t len)
{
    put(len > 0 ? "" : " -");
    put_bytes(bytes, len);
}

/* What a call gives that writes so many bytes into its buffer of `lent` bytes, or is refused. */
static void put_count(size_t lent, const uint8_t *bytes, size_t count)
{
    put("count %zu", count);
    put_buffer(lent, bytes, count);
}

static void put_refused(size_t lent, size_t number)
{
    put("refused %zu", number);
    put_buffer(lent, NULL, 0);
}

static void put_writer(const size_t counts[3], const uint8_t *entries, size_t len, size_t lent)
{
    put("write %zu %zu %zu on", counts[0], counts[1], counts[2]);
    put_list(entries, len);
    put(" into %zu = ", lent);
    count_case();
}

void text_writer(const size_t counts[3], const uint8_t *entries, size_t len, size_t lent,
                 const uint8_t *file, size_t file_len)
{
    put_writer(counts, entries, len, lent);
    put_count(lent, file, file_len);
}

void text_writer_refused(const size_t counts[3], const uint8_t *entries, size_t len, size_t lent,
                         size_t number)
{
    put_writer(counts, entries, len, lent);
    put_refused(lent, number);
}

static void put_string(const arguments *a)
{
    put("string %zu %zu %zu on", a->before, a->after, a->settle);
    put_list(a->bytes, a->bytes_len);
    put(" into %zu = ", a->lent_len);
    count_case();
}

void text_string(const arguments *a, const uint8_t *bytes, size_t count)
{
    put_string(a);
    put_count(a->lent_len, bytes, count);
}

void text_string_refused(const arguments *a, size_t number)
{
    put_string(a);
    put_refused(a->lent_len, number);
}

static void put_join(const arguments *a)
{
    put("join on");
    put_list(a->second, a->second_len);
    put(" into %zu = ", a->lent_len);
    count_case();
}

void text_join(const arguments *a, const uint8_t *file, size_t len)
{
    put_join(a);
    put_count(a->lent_len, file, len);
}

void text_join_refused(const arguments *a, size_t number)
{
    put_join(a);
    put_refused(a->lent_len, number);
}

/* ---- calls that are lent no buffer ---- */

static void put_call_on(const arguments *a)
{
    switch (a->call) {
    case CALL_SEARCH_KINDS:
        put("kinds on");
        put_list(a->kinds, a->kinds_len);
        break;
    case CALL_WINDOW_KINDS:
        put("decode_kinds %zu %zu by", a->before, a->after);
        put_list(a->kinds, a->kinds_len);
        put(" on");
        put_list(a->bytes, a->bytes_len);
        break;
    default:
        put("window %zu %zu %zu on", a->before, a->after, a->settle);
        put_list(a->bytes, a->bytes_len);
    }
    put(" = ");
    count_case();
}

static void put_kinds_told(const uint8_t *result)
{
    if (get_field(result, 0) == 0)
        put("told %zu %zu %zu\n", (size_t)get_field(result, 1), (size_t)get_field(result, 2),
            (size_t)get_field(result, 3));
    else
        put("cannot\n");
}

static void put_window(size_t byte, size_t possible)
{
    if (byte == BYTE_NONE)
        put("none %zu\n", possible);
    else if (byte == BYTE_SEVERAL)
        put("several\n");
    else
        put("letter %zu\n", byte);
}

static void put_answer(enum call call, const uint8_t *result)
{
    static const char *const words[KINDS_ANSWERS] = {"letter %zu\n", "kind %zu\n", "none\n",
                                                     "several\n"};
    size_t first = get_field(result, 0), number = get_field(result, 1);

    if (call == CALL_SEARCH_KINDS)
        put_kinds_told(result);
    else if (call == CALL_WINDOW_KINDS)
        put(words[first], number);
    else
        put_window(first, number);
}

void text_call(const arguments *a)
{
    uint8_t result[RESULT_BYTES] = {0};
    arguments b = *a;
    size_t number;

    b.result_len = RESULT_BYTES;
    number = refusal_of_call(&b);
    allow_steps(ANSWER_STEPS);
    if (number == 0 && !expected_answer(&b, NULL, result)) {
        now.cases_left++;
        return;
    }
    put_call_on(a);
    if (number != 0)
        put("refused %zu\n", number);
    else
        put_answer(a->call, result);
}

void close_texts(void)
{
    static char list[32 * MOST_TEXTS];
    char name[32];
    size_t len = 0, k;

    end_block();
    end_text();
    for (k = 1; k <= texts; k++) {
        name_text(name, k);
        len += (size_t)snprintf(list + len, sizeof list - len, "%s %zu\n", name, cases_of[k]);
    }
    write_file("list", list, len);
}
