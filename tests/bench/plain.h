/* The same work as the library's calls, in plain C as a programmer would write it: what the benchmark
   measures the library against. */
#ifndef PLAIN_H
#define PLAIN_H

#include <stddef.h>
#include <stdint.h>

/* Each returns 0 or the refusal's number, as the call of the library with the same name. */
size_t plain_run(const uint8_t *file, size_t file_len, size_t start, const uint8_t *input,
                 size_t input_len, uint8_t *output, size_t output_len, size_t *count, size_t *end);
size_t plain_decode(const uint8_t *file, size_t file_len, size_t before, size_t after, size_t settle,
                    const uint8_t *received, size_t received_len, uint8_t *output,
                    size_t output_len, size_t *count);
/* *answer becomes the letter, 254 or 255; with 254 *far becomes the letters that were possible. */
size_t plain_window(const uint8_t *file, size_t file_len, size_t before, size_t after, size_t settle,
                    const uint8_t *received, size_t received_len, size_t *answer, size_t *far);
size_t plain_table(const uint8_t *file, size_t file_len, size_t before, size_t after, size_t settle,
                   uint8_t *table, size_t table_len, size_t *count);

size_t plain_write(size_t states, size_t inputs, size_t outputs, const uint8_t *entries,
                   size_t entries_len, uint8_t *file, size_t file_len, size_t *count);
size_t plain_join(const uint8_t *first, size_t first_len, const uint8_t *second, size_t second_len, uint8_t *file,
                  size_t file_len, size_t *count);

/* The verdict: a window, or the first looped pair with its letters in the lent buffer. */
typedef struct plain_verdict {
    int is_pair;
    size_t before, after;
    size_t s, t, back_loop, lead_in, lead_out, forward_loop;
} plain_verdict;

size_t plain_search(const uint8_t *file, size_t file_len, size_t settle, uint8_t *letters,
                    size_t letters_len, plain_verdict *verdict);

/* The search for kinds: whether they can be told; then the window, and the carried kinds, bit k for kind k. */
typedef struct plain_kinds {
    int told;
    size_t before, after, carried;
} plain_kinds;

size_t plain_search_kinds(const uint8_t *file, size_t file_len, const uint8_t *kinds, size_t kinds_len,
                          plain_kinds *verdict);

/* *answer becomes 0 for a letter, 1 for a kind, 2 for none, 3 for several; for the first two, *number the letter or
   the kind. */
size_t plain_window_kinds(const uint8_t *file, size_t file_len, const uint8_t *kinds, size_t kinds_len, size_t before,
                          size_t after, const uint8_t *received, size_t received_len, size_t *answer, size_t *number);

#endif
