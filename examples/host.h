/* What the example hosts have in common: messages, a coder file and a number read, letters printed, a coder file written, the end of the
   output. A host defines HOST, its name in messages, before it includes this file. */
#ifndef EXAMPLES_HOST_H
#define EXAMPLES_HOST_H

#include "lowhenita.h"

#include <ctype.h>
#include <errno.h>
#include <stdio.h>
#include <string.h>

/* Letters or kinds that a host has room for, and the digits of one. */
enum { MOST = 10000, DIGITS = 3 };

/* Room for a coder file, and a byte more, so that a longer one is seen. */
enum { FILE_ROOM = LOWHENITA_MAX_FILE_BYTES + 1 };

static inline int fail(int status, const char *what, const char *why)
{
    fprintf(stderr, HOST ": %s: %s\n", what, why);
    return status;
}

static inline int refused(const char *call, size_t number)
{
    if (number != 0)
        fprintf(stderr, HOST ": %s: refused %lu: %s\n", call, (unsigned long)number, lowhenita_refusal_text(number));
    return number != 0;
}

static inline int read_file(const char *name, uint8_t file[FILE_ROOM], size_t *len)
{
    FILE *f = fopen(name, "rb");
    int error;

    if (f == NULL)
        return fail(2, name, strerror(errno));
    *len = fread(file, 1, FILE_ROOM, f);
    error = ferror(f) ? errno : 0;
    fclose(f);
    if (error != 0)
        return fail(2, name, strerror(error));
    if (*len > LOWHENITA_MAX_FILE_BYTES)
        return fail(2, name, "longer than a coder file can be");
    return 0;
}

/* Reads a number up to a limit; the place after its digits, or NULL where there is none. */
static inline const char *read_number(const char *word, size_t limit, size_t *x)
{
    const char *at;

    *x = 0;
    for (at = word; isdigit((unsigned char)*at); at++) {
        size_t digit = (size_t)(*at - '0');

        if (digit > limit || *x > (limit - digit) / 10)
            return NULL;
        *x = 10 * *x + digit;
    }
    return at == word ? NULL : at;
}

/* Reads a word that is a number. */
static inline int read_count(const char *word, size_t *x)
{
    const char *at = read_number(word, SIZE_MAX, x);

    return at != NULL && *at == '\0';
}

/* Appends the letter or kind that a word stands for: 1 to 3 digits, at most 255. */
static inline int add_byte(const char *what, const char *word, size_t len, uint8_t to[MOST], size_t *n)
{
    unsigned x = 0;
    size_t k;

    for (k = 0; k < len && k < DIGITS && isdigit((unsigned char)word[k]); k++)
        x = 10 * x + (unsigned)(word[k] - '0');
    if (len == 0 || k < len || x > 255)
        return fail(2, what, "not a number from 0 to 255");
    if (*n == MOST)
        return fail(2, what, "more than there is room for");
    to[(*n)++] = (uint8_t)x;
    return 0;
}

/* The letters given, or a few made up for a coder with these inputs; how many. */
static inline size_t make_up(uint8_t *letters, size_t n, unsigned inputs)
{
    if (n == 0)
        for (; n < 12; n++)
            letters[n] = (uint8_t)(n * n / 3 % inputs);
    return n;
}

/* Letters, - for 254 and ? for 255, which decoders write. */
static inline void print_letters(const uint8_t *from, size_t n)
{
    size_t k;

    for (k = 0; k < n; k++) {
        if (k > 0)
            putchar(' ');
        if (from[k] == LOWHENITA_NONE)
            putchar('-');
        else if (from[k] == LOWHENITA_SEVERAL)
            putchar('?');
        else
            printf("%d", from[k]);
    }
    putchar('\n');
}

/* The exit status: 2 where standard output could not be written. */
static inline int finish(int status)
{
    if ((fflush(stdout) != 0 || ferror(stdout)) && status == 0)
        return fail(2, "standard output", strerror(errno));
    return status;
}

/* Writes the coder file that a call has made to standard output, as many bytes as field 0 says; or says that it was refused. The exit
   status. */
static inline int write_file(size_t refusal, const uint8_t *file, const uint8_t *result)
{
    size_t len;

    if (refusal != 0) {
        fprintf(stderr, HOST ": refused %lu: %s\n", (unsigned long)refusal, lowhenita_refusal_text(refusal));
        return 1;
    }
    len = (size_t)lowhenita_field(result, 0);
    if (fwrite(file, 1, len, stdout) != len)
        return fail(2, "standard output", strerror(errno));
    return finish(0);
}

#endif
