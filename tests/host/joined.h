/* Coders in a row (document 02, 11/13): two coders and the one that the library joins them to. What is
   tried of them, and the counts. */
#ifndef JOINED_H
#define JOINED_H

#include "coders.h"
#include "compare.h"

/* The coders of a row, and the joined one as the library has written it. */
typedef struct row {
    coder_file first, second, joined;
} row;

/* Numbers of refusal of one file, none included: 0, 1 to 6, 15. */
enum { FILE_NUMBERS = 8 };

/* Joins that were accepted, of two small coders, and with no two counts the same but for those that have to
   be; joined coders that have spare states, and that do not reach a state of two reachable ones. Runs of
   joined coders, and those from spare states.
   Sums of reported windows and of small ones that work, sums that take too many steps, and sums above 136;
   whether a window with a letter less than the sum of the reported ones, on either side, works too. Letters
   that came back. By whether the first, the second and the joined coder have a decoder. Rows of three.
   Joins refused for their letters alone, their states alone and both; with a buffer too short; and by the
   numbers of the two files. */
typedef struct row_counts {
    unsigned long joins, small, uneven, spare, unreached, runs, spare_runs;
    unsigned long reported, tried, left_out, large, less, least, came_back;
    unsigned long decoders[2][2][2];
    unsigned long threes;
    unsigned long letters_alone, states_alone, letters_and_states, short_buffers;
    unsigned long pairs[FILE_NUMBERS][FILE_NUMBERS];
} row_counts;

extern row_counts of_rows;

/* ---- joined.c ---- */

/* Joins the two coders of the row by the library; a case of it where asked. Returns whether they were
   accepted, and the joined file is then one that the enumerator accepts, with N of both, I of the first
   and O of the second. */
int join_row(row *r, int written);

/* n random letters from every state of the joined coder, spare or not: what it puts out, and the state in
   which it ends, are those of the second coder run on what the first one put out. */
void try_runs(const row *r, size_t n);

/* Document 02, 11/13: windows with settle count 0 that work for the two, put together, work for the joined
   coder. Those that the searches report, and all with sides up to `most` that the enumerator says work;
   the letters come back with the sum of the reported ones. */
void try_windows(const row *r, size_t most);

/* What is sent from a reachable state of the coder comes back with this window. */
void letters_back(const coder_file *f, size_t before, size_t after);

/* ---- known_joined.c ---- */

/* Joined coders whose files, and windows, are known. */
void known_joined(void);

/* ---- joined_refusals.c ---- */

/* 17 on both sides, the numbers of two files with each other and with 17 and 11, and the buffers. */
void joined_refusals(void);

#endif
