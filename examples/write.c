/* A host in C99 or C++: writes a coder file.

   write STATES INPUTS OUTPUTS [NEXT/OUTPUT ...] > CODER-FILE
       writes the file of these counts and entries. An entry is a next state and an output letter; the entries stand in the file's
       order, those of state 0 first, one for each input letter.

   All numbers are decimal. A message about an error goes to standard error, and nothing to standard output. The exit status is 0; or 1
   where the library refuses the coder; or 2 where the command line or standard output is wrong. */
#define HOST "write"
#include "host.h"

enum { ENTRIES = 1000 };

/* What is lent to the call. Static, so that every byte is 0 before it. */
static uint8_t entries[2 * ENTRIES];
static uint8_t file[LOWHENITA_MAX_FILE_BYTES];
static uint8_t result[LOWHENITA_RESULT_BYTES];

static int read_entry(const char *word, uint8_t *entry)
{
    size_t next, output;
    const char *at = read_number(word, 255, &next);

    if (at == NULL || *at != '/')
        return 0;
    at = read_number(at + 1, 255, &output);
    entry[0] = (uint8_t)next;
    entry[1] = (uint8_t)output;
    return at != NULL && *at == '\0';
}

int main(int argc, char **argv)
{
    size_t counts[3], n, k, refusal;

    if (argc < 4) {
        fprintf(stderr, "usage: write STATES INPUTS OUTPUTS [NEXT/OUTPUT ...] > CODER-FILE\n");
        return 2;
    }
    for (k = 0; k < 3; k++)
        if (!read_count(argv[1 + k], &counts[k]))
            return fail(2, argv[1 + k], "not a number, or too large a one");
    n = (size_t)argc - 4;
    if (n > ENTRIES)
        return fail(2, "entries", "more than there is room for");
    for (k = 0; k < n; k++)
        if (!read_entry(argv[4 + k], entries + 2 * k))
            return fail(2, argv[4 + k], "not two numbers from 0 to 255 with / between them");
    refusal = lowhenita_write(counts[0], counts[1], counts[2], entries, 2 * n, file, sizeof file, result, sizeof result);
    return write_file(refusal, file, result);
}
