/* A host in C99 or C++: writes the file of two coders in a row, the joined coder.

   join FIRST-CODER SECOND-CODER > CODER-FILE
       reads two coder files, which may be the same, and writes the file of the joined coder: the output letters of the first coder are
       the input letters of the second, and state s of the first with state t of the second is s times the states of the second, plus t.

   A message about an error goes to standard error, and nothing to standard output. The exit status is 0; or 1 where the library refuses
   the two files; or 2 where the command line, a file or standard output is wrong. */
#define HOST "join"
#include "host.h"

/* What is lent to the call. Static, so that every byte is 0 before it. */
static uint8_t first[FILE_ROOM], second[FILE_ROOM];
static uint8_t file[LOWHENITA_MAX_FILE_BYTES];
static uint8_t result[LOWHENITA_RESULT_BYTES];

int main(int argc, char **argv)
{
    size_t first_len, second_len, refusal;

    if (argc != 3) {
        fprintf(stderr, "usage: join FIRST-CODER SECOND-CODER > CODER-FILE\n");
        return 2;
    }
    if (read_file(argv[1], first, &first_len) != 0 || read_file(argv[2], second, &second_len) != 0)
        return 2;
    refusal = lowhenita_join(first, first_len, second, second_len, file, sizeof file, result, sizeof result);
    return write_file(refusal, file, result);
}
