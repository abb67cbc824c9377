/* A host in C99 or C++: finds the window of a coder, the one with least lookahead, and decodes with it.

   decode [-s SETTLE] CODER-FILE [LETTER ...]
       runs the coder from state 0 on the letters, decodes what it sends and says whether the letters came back; without letters, a few
       are made up. For a coder without a decoder it says so.

   decode [-s SETTLE] -r CODER-FILE < RECEIVED
       decodes the received letters of standard input, decimal numbers with white space between them, and prints one line: for each
       place that has a full window the letter, - where no run gives that window, ? where several letters fit.

   decode [-s SETTLE] -f CODER-FILE < RECEIVED
       the same, and then a line for each place where no run gives the window: how many letters of the window, from its first on, some
       run can produce.

   SETTLE is the settle count of the window, 0 to 64, 0 where none is given. The first SETTLE letters decoded are printed like the others,
   but need not be those that were sent.

   A message about an error goes to standard error. The exit status is 0; or 1 where a call refuses, where letters are to be decoded and
   there is no decoder, or where letters did not come back; or 2 where the command line, a file or a letter is wrong. */
#define HOST "decode"
#include "host.h"

/* What is lent to the calls. Static, so that every byte is 0 before the first call. */
static uint8_t file[FILE_ROOM];
static uint8_t pair[LOWHENITA_SEARCH_BYTES];
static uint8_t result[LOWHENITA_RESULT_BYTES];
static uint8_t letters[MOST], sent[MOST], decoded[MOST];

static int read_letters(FILE *f, size_t *n)
{
    char word[DIGITS + 1];
    size_t len = 0;
    int c, status = 0;

    do {
        c = getc(f);
        if (c != EOF && !isspace(c)) {
            if (len < sizeof word)
                word[len++] = (char)c;
        } else if (len > 0) {
            status = add_byte("letters", word, len, letters, n);
            len = 0;
        }
    } while (c != EOF && status == 0);
    if (status == 0 && ferror(f))
        return fail(2, "standard input", strerror(errno));
    return status;
}

/* For each of the decoded places where no run gives the window, how far it was possible. */
static int print_far(size_t file_len, size_t before, size_t after, size_t settle, size_t count)
{
    size_t size = before + 1 + after, k;

    for (k = 0; k < count; k++) {
        if (decoded[k] != LOWHENITA_NONE)
            continue;
        if (refused("window", lowhenita_window(file, file_len, before, after, settle, letters + k, size, result, sizeof result)))
            return 1;
        printf("place %lu: %lu of %lu letters possible\n", (unsigned long)(before + k), (unsigned long)lowhenita_field(result, 1),
               (unsigned long)size);
    }
    return 0;
}

static int decode_received(int far, size_t file_len, size_t before, size_t after, size_t settle, size_t n)
{
    size_t refusal = lowhenita_decode(file, file_len, before, after, settle, letters, n, decoded, sizeof decoded, result, sizeof result);
    size_t count = (size_t)lowhenita_field(result, 0);

    if (refused("decode", refusal))
        return 1;
    print_letters(decoded, count);
    return far ? print_far(file_len, before, after, settle, count) : 0;
}

static int run_and_decode(size_t file_len, size_t before, size_t after, size_t settle, size_t n)
{
    size_t refusal, count;

    if (settle > 0)
        printf("settle    %lu\n", (unsigned long)settle);
    printf("window    %lu %lu\n", (unsigned long)before, (unsigned long)after);
    n = make_up(letters, n, file[4]);
    if (refused("run", lowhenita_run(file, file_len, 0, letters, n, sent, sizeof sent, result, sizeof result)))
        return 1;
    printf("input     ");
    print_letters(letters, n);
    printf("sent      ");
    print_letters(sent, n);

    refusal = lowhenita_decode(file, file_len, before, after, settle, sent, n, decoded, sizeof decoded, result, sizeof result);
    if (refused("decode", refusal))
        return 1;
    count = (size_t)lowhenita_field(result, 0);
    printf("decoded   ");
    print_letters(decoded, count);
    if (count <= settle)
        return 0;
    if (memcmp(decoded + settle, letters + before + settle, count - settle) != 0)
        return fail(1, "decode", "the letters did not come back");
    printf("the letters at places %lu to %lu came back\n", (unsigned long)(before + settle), (unsigned long)(before + count - 1));
    return 0;
}

static int search_and_decode(int receiving, int far, size_t file_len, size_t settle, size_t n)
{
    size_t before, after;

    if (refused("search", lowhenita_search(file, file_len, settle, pair, sizeof pair, result, sizeof result)))
        return 1;
    if (lowhenita_field(result, 0) == LOWHENITA_LOOPED_PAIR) {
        if (receiving)
            return fail(1, "search", "no decoder");
        printf("no decoder: two runs, from states %lu and %lu, have equal outputs for as long as one likes on\n"
               "both sides of a place at which their inputs differ\n",
               (unsigned long)lowhenita_field(result, 1), (unsigned long)lowhenita_field(result, 2));
        return 0;
    }
    before = (size_t)lowhenita_field(result, 1);
    after = (size_t)lowhenita_field(result, 2);
    return receiving ? decode_received(far, file_len, before, after, settle, n) : run_and_decode(file_len, before, after, settle, n);
}

int main(int argc, char **argv)
{
    int settling = argc > 1 && strcmp(argv[1], "-s") == 0, first = settling ? 3 : 1; /* the first word after -s SETTLE */
    int far = argc > first && strcmp(argv[first], "-f") == 0, receiving = far || (argc > first && strcmp(argv[first], "-r") == 0);
    size_t file_len = 0, settle = 0, n = 0;
    int status = 0, k;

    if (receiving ? argc != first + 2 : argc <= first) {
        fprintf(stderr, "usage: decode [-s SETTLE] CODER-FILE [LETTER ...]\n       decode [-s SETTLE] -r CODER-FILE < RECEIVED\n"
                        "       decode [-s SETTLE] -f CODER-FILE < RECEIVED\n");
        return 2;
    }
    if (settling && !read_count(argv[2], &settle))
        status = fail(2, "settle count", "not a number, or too large a one");
    if (status == 0)
        status = read_file(argv[first + receiving], file, &file_len);
    if (receiving && status == 0)
        status = read_letters(stdin, &n);
    for (k = first + 1; !receiving && k < argc && status == 0; k++)
        status = add_byte("letters", argv[k], strlen(argv[k]), letters, &n);
    if (status == 0)
        status = search_and_decode(receiving, far, file_len, settle, n);
    return finish(status);
}
