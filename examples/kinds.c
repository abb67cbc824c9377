/* A host in C99 or C++: finds the window of a coder by which kinds of letter are told, and decodes with it.

   kinds CODER-FILE KINDS [LETTER ...]
       runs the coder from state 0 on the letters, decodes what it sends and says whether the letters or their kinds came back; without
       letters, a few are made up. Where no window tells the kinds, it says so.

   KINDS has the kind of each input letter in turn, decimal numbers with commas between them. A decoded kind is printed with k before its
   number, a decoded letter as its number alone, - where no run gives the window, ? where letters of several kinds fit. The last two do
   not occur with the window that the search finds.

   A message about an error goes to standard error. The exit status is 0; or 1 where a call refuses, or where letters or kinds did not
   come back; or 2 where the command line, a file, a kind or a letter is wrong. */
#define HOST "kinds"
#include "host.h"

/* What the search has found: the sides of the window, and the carried kinds, bit k for kind k. */
typedef struct {
    size_t before, after;
    uint64_t carried;
} found;

/* What is lent to the calls. Static, so that every byte is 0 before the first call. */
static uint8_t file[FILE_ROOM];
static uint8_t result[LOWHENITA_RESULT_BYTES];
static uint8_t kinds[MOST], letters[MOST], sent[MOST];

/* Fields 0 and 1 for each window decoded. */
static uint64_t answers[MOST], values[MOST];

static int read_kinds(const char *list, size_t *n)
{
    for (;;) {
        size_t len = strcspn(list, ",");
        int status = add_byte("kinds", list, len, kinds, n);

        if (status != 0 || list[len] == '\0')
            return status;
        list += len + 1;
    }
}

static void print_carried(uint64_t carried)
{
    const char *space = "";
    int kind;

    if (carried == 0)
        putchar('-');
    for (kind = 0; kind < LOWHENITA_MAX_INPUTS; kind++)
        if (carried >> kind & 1) {
            printf("%s%d", space, kind);
            space = " ";
        }
    putchar('\n');
}

static void print_decoded(size_t n)
{
    size_t k;

    for (k = 0; k < n; k++) {
        if (k > 0)
            putchar(' ');
        if (answers[k] == LOWHENITA_KINDS_NONE)
            putchar('-');
        else if (answers[k] == LOWHENITA_KINDS_SEVERAL)
            putchar('?');
        else
            printf("%s%lu", answers[k] == LOWHENITA_KINDS_KIND ? "k" : "", (unsigned long)values[k]);
    }
    putchar('\n');
}

/* Decodes the first n windows of what was sent. */
static int decode_sent(size_t file_len, size_t kinds_len, const found *w, size_t n)
{
    size_t len = w->before + 1 + w->after, k;

    for (k = 0; k < n; k++) {
        if (refused("window_kinds", lowhenita_window_kinds(file, file_len, kinds, kinds_len, w->before, w->after, sent + k, len,
                                                           result, sizeof result)))
            return 1;
        answers[k] = lowhenita_field(result, 0);
        values[k] = lowhenita_field(result, 1);
    }
    return 0;
}

/* Whether window k has given the letter that went in, or its kind where that is not carried. */
static int came_back(const found *w, size_t k)
{
    uint8_t letter = letters[w->before + k], kind = kinds[letter];

    if (answers[k] == LOWHENITA_KINDS_LETTER)
        return values[k] == letter;
    return answers[k] == LOWHENITA_KINDS_KIND && values[k] == kind && (w->carried >> kind & 1) == 0;
}

static int run_and_decode(size_t file_len, size_t kinds_len, const found *w, size_t n)
{
    size_t count, k;

    printf("window    %lu %lu\n", (unsigned long)w->before, (unsigned long)w->after);
    printf("carried   ");
    print_carried(w->carried);
    n = make_up(letters, n, file[4]);
    if (refused("run", lowhenita_run(file, file_len, 0, letters, n, sent, sizeof sent, result, sizeof result)))
        return 1;
    printf("input     ");
    print_letters(letters, n);
    printf("sent      ");
    print_letters(sent, n);

    count = n > w->before + w->after ? n - w->before - w->after : 0;
    if (decode_sent(file_len, kinds_len, w, count) != 0)
        return 1;
    printf("decoded   ");
    print_decoded(count);
    if (count == 0)
        return 0;
    for (k = 0; k < count; k++)
        if (!came_back(w, k))
            return fail(1, "window_kinds", "the letters or kinds did not come back");
    printf("the letters or kinds at places %lu to %lu came back\n", (unsigned long)w->before, (unsigned long)(w->before + count - 1));
    return 0;
}

static int search_and_decode(size_t file_len, size_t kinds_len, size_t n)
{
    found w;

    if (refused("search_kinds", lowhenita_search_kinds(file, file_len, kinds, kinds_len, result, sizeof result)))
        return 1;
    if (lowhenita_field(result, 0) == LOWHENITA_KINDS_CANNOT) {
        printf("kinds cannot be told by any window\n");
        return 0;
    }
    w.before = (size_t)lowhenita_field(result, 1);
    w.after = (size_t)lowhenita_field(result, 2);
    w.carried = lowhenita_field(result, 3);
    return run_and_decode(file_len, kinds_len, &w, n);
}

int main(int argc, char **argv)
{
    size_t file_len = 0, kinds_len = 0, n = 0;
    int status, k;

    if (argc < 3) {
        fprintf(stderr, "usage: kinds CODER-FILE KINDS [LETTER ...]\n");
        return 2;
    }
    status = read_file(argv[1], file, &file_len);
    if (status == 0)
        status = read_kinds(argv[2], &kinds_len);
    for (k = 3; k < argc && status == 0; k++)
        status = add_byte("letters", argv[k], strlen(argv[k]), letters, &n);
    if (status == 0)
        status = search_and_decode(file_len, kinds_len, n);
    return finish(status);
}
