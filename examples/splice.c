/* A host in C99 or C++: shows what damage to the letters on a cable does to the letters decoded from them, and what it does not.

   splice [-s SETTLE] CODER-FILE CHANGES [LETTER ...]
       runs the coder from state 0 on the letters, changes what it sends, decodes the string as it was sent and as it is received, both
       with the window that the search finds, and prints them below one another; without letters, a few are made up.

   CHANGES has, in the order of places and with commas between them (none where it is empty),

       PLACE=LETTER   the letter sent at PLACE is altered to LETTER
       PLACE-         it is lost
       PLACE+LETTER   LETTER is added in front of it; with the number of letters sent as PLACE, behind the last

   A column is a letter that was sent, with what is received for it, or a letter that was added. Below it stand the letters decoded with it
   as the present one, from the string sent and from the string received: - where no run gives the window, ? where several letters fit,
   nothing where the window is not full. A column with a letter both sent and received is marked with * where the two differ.

   Every window whose letters were all kept, one after the other, has to decode as before, and with as many letters sent ahead of it as the
   settle count says to the letter that went in.

   SETTLE is the settle count of the window, 0 to 64, 0 where none is given. A message about an error goes to standard error. The exit
   status is 0; or 1 where a call refuses, where there is no decoder, or where such a window does not decode so; or 2 where the command
   line, a file, a change or a letter is wrong. */
#define HOST "splice"
#include "host.h"

/* The place of a letter in the string sent and in the string received. */
typedef struct {
    long sent, received;
} column;

static const long NOWHERE = -1;

/* What a row has in a column besides letters. */
static const int NOTHING = -1, MARK = -2;

/* What is lent to the calls. Static, so that every byte is 0 before the first call. */
static uint8_t file[FILE_ROOM];
static uint8_t pair[LOWHENITA_SEARCH_BYTES];
static uint8_t result[LOWHENITA_RESULT_BYTES];
static uint8_t letters[MOST], sent[MOST], received[MOST], before_damage[MOST], after_damage[MOST];

static column columns[2 * MOST];
static int row[2 * MOST];
static size_t width;

/* The window, and the numbers of letters and of decoded letters of both strings. */
typedef struct {
    size_t before, after, settle, sent, received, decoded_sent, decoded_received;
} strings;

static void add_column(long in_sent, long in_received)
{
    columns[width].sent = in_sent;
    columns[width].received = in_received;
    width++;
}

static int receive(const char *word, size_t len, size_t *n)
{
    return add_byte("changes", word, len, received, n);
}

/* The letters sent from place `from` on to place `to`, kept. */
static int keep(size_t from, size_t to, size_t *n)
{
    for (; from < to; from++) {
        if (*n == MOST)
            return fail(2, "changes", "more than there is room for");
        add_column((long)from, (long)*n);
        received[(*n)++] = sent[from];
    }
    return 0;
}

/* One change at a place: what stands between its number and the next comma. */
static int change(const char *word, size_t len, size_t place, size_t *n)
{
    if (len == 1 && word[0] == '-') {
        add_column((long)place, NOWHERE);
        return 0;
    }
    if (len > 1 && (word[0] == '=' || word[0] == '+')) {
        add_column(word[0] == '=' ? (long)place : NOWHERE, (long)*n);
        return receive(word + 1, len - 1, n);
    }
    return fail(2, "changes", "not a place with =LETTER, - or +LETTER");
}

/* Makes the columns and the string received from the string sent. */
static int damage(const char *list, strings *s)
{
    size_t next = 0, place, len;
    int status = 0, more = *list != '\0';

    while (more && status == 0) {
        const char *word = read_number(list, s->sent, &place);

        if (word == NULL)
            return fail(2, "changes", "not a place, or past the last one");
        len = strcspn(word, ",");
        if (place < next || (place == s->sent && *word != '+'))
            return fail(2, "changes", "not in the order of places, or past the last one");
        status = keep(next, place, &s->received);
        if (status == 0)
            status = change(word, len, place, &s->received);
        next = *word == '+' ? place : place + 1;
        more = word[len] == ',';
        list = word + len + 1;
    }
    return status != 0 ? status : keep(next, s->sent, &s->received);
}

/* ---- rows */

static void print_row(const char *name)
{
    size_t last = 0, c;

    for (c = 0; c < width; c++)
        if (row[c] != NOTHING)
            last = c + 1;
    printf(last > 0 ? "%-9s" : "%s", name);
    for (c = 0; c < last; c++)
        if (row[c] == NOTHING)
            printf("   ");
        else if (row[c] == MARK)
            printf("  *");
        else if (row[c] == LOWHENITA_NONE || row[c] == LOWHENITA_SEVERAL)
            printf("  %c", row[c] == LOWHENITA_NONE ? '-' : '?');
        else
            printf(" %2d", row[c]);
    putchar('\n');
}

static void print_sent(const char *name, const uint8_t *of)
{
    size_t c;

    for (c = 0; c < width; c++)
        row[c] = columns[c].sent == NOWHERE ? NOTHING : of[columns[c].sent];
    print_row(name);
}

static void print_received(void)
{
    size_t c;

    for (c = 0; c < width; c++)
        row[c] = columns[c].received == NOWHERE ? NOTHING : received[columns[c].received];
    print_row("received");
}

/* The decoded letter with the letter at this place as the present one. */
static int decoded_at(const uint8_t *decoded, size_t count, size_t before, long place)
{
    return place == NOWHERE || (size_t)place < before || (size_t)place - before >= count ? NOTHING : decoded[(size_t)place - before];
}

static int as_sent(const strings *s, size_t c)
{
    return decoded_at(before_damage, s->decoded_sent, s->before, columns[c].sent);
}

static int as_received(const strings *s, size_t c)
{
    return decoded_at(after_damage, s->decoded_received, s->before, columns[c].received);
}

static void print_decoded(const strings *s)
{
    size_t c;

    for (c = 0; c < width; c++)
        row[c] = as_sent(s, c);
    print_row("undamaged");
    for (c = 0; c < width; c++)
        row[c] = as_received(s, c);
    print_row("damaged");
    for (c = 0; c < width; c++)
        row[c] = columns[c].sent != NOWHERE && columns[c].received != NOWHERE && as_sent(s, c) != as_received(s, c) ? MARK : NOTHING;
    print_row("differ");
}

/* ---- windows whose letters were all kept */

static int kept(size_t c)
{
    return columns[c].sent != NOWHERE && columns[c].received != NOWHERE && sent[columns[c].sent] == received[columns[c].received];
}

/* Whether the window of column c decodes as before, and where it has to, to the letter that went in. */
static int decodes(const strings *s, size_t c)
{
    size_t k = (size_t)columns[c].sent;

    if (before_damage[k] != after_damage[columns[c].received])
        return 0;
    return k < s->settle || before_damage[k] == letters[k + s->before];
}

static int compare_windows(const strings *s)
{
    size_t size = s->before + 1 + s->after, together = 0, windows = 0, c;

    for (c = 0; c < width; c++) {
        together = kept(c) ? together + 1 : 0;
        if (together < size)
            continue;
        windows++;
        if (!decodes(s, c + 1 - size))
            return fail(1, "decode", "a window of letters that were kept is decoded to another letter");
    }
    printf("windows whose letters were all kept: %lu, each decoded as before\n", (unsigned long)windows);
    return 0;
}

/* ---- calls */

static int decode(size_t file_len, const strings *s, const uint8_t *from, size_t n, uint8_t *to, size_t *count)
{
    size_t refusal = lowhenita_decode(file, file_len, s->before, s->after, s->settle, from, n, to, MOST, result, sizeof result);

    *count = (size_t)lowhenita_field(result, 0);
    return refused("decode", refusal);
}

static int show(size_t file_len, const char *changes, strings *s)
{
    int status;

    if (refused("run", lowhenita_run(file, file_len, 0, letters, s->sent, sent, sizeof sent, result, sizeof result)))
        return 1;
    status = damage(changes, s);
    if (status != 0)
        return status;
    if (decode(file_len, s, sent, s->sent, before_damage, &s->decoded_sent)
        || decode(file_len, s, received, s->received, after_damage, &s->decoded_received))
        return 1;
    if (s->settle > 0)
        printf("settle    %lu\n", (unsigned long)s->settle);
    printf("window    %lu %lu\n", (unsigned long)s->before, (unsigned long)s->after);
    print_sent("input", letters);
    print_sent("sent", sent);
    print_received();
    print_decoded(s);
    return compare_windows(s);
}

static int search_and_show(size_t file_len, const char *changes, strings *s)
{
    if (refused("search", lowhenita_search(file, file_len, s->settle, pair, sizeof pair, result, sizeof result)))
        return 1;
    if (lowhenita_field(result, 0) == LOWHENITA_LOOPED_PAIR)
        return fail(1, "search", "no decoder");
    s->before = (size_t)lowhenita_field(result, 1);
    s->after = (size_t)lowhenita_field(result, 2);
    s->sent = make_up(letters, s->sent, file[4]);
    return show(file_len, changes, s);
}

int main(int argc, char **argv)
{
    int first = argc > 1 && strcmp(argv[1], "-s") == 0 ? 3 : 1; /* the first word after -s SETTLE */
    strings s = {0, 0, 0, 0, 0, 0, 0};
    size_t file_len = 0;
    int status = 0, k;

    if (argc < first + 2) {
        fprintf(stderr, "usage: splice [-s SETTLE] CODER-FILE CHANGES [LETTER ...]\n");
        return 2;
    }
    if (first > 1 && !read_count(argv[2], &s.settle))
        status = fail(2, "settle count", "not a number, or too large a one");
    if (status == 0)
        status = read_file(argv[first], file, &file_len);
    for (k = first + 2; k < argc && status == 0; k++)
        status = add_byte("letters", argv[k], strlen(argv[k]), letters, &s.sent);
    if (status == 0)
        status = search_and_show(file_len, argv[first + 1], &s);
    return finish(status);
}
