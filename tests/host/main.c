/* The comparison of the library with the enumerator: all ten calls, every byte of every buffer.
   One line for each group of comparisons; the last line counts the groups. Argument: the folder for
   the texts of cases.

   verdict.c says how the verdict of a search is judged, and what can be tried besides. All of that
   is tried for the examples, all small coders and the small random ones; for the large random
   coders the windows that come before the one found, the cut pair of every 40th, and the first pair
   with a smaller allowance; for the spare states the windows before and the first pair, with a
   smaller allowance still; for the chains, as much as their number of states allows; for the edges
   and the coders with ties, the first pair; for the lines of the settle counts, the windows before;
   for the other groups nothing. That is for settle count 0. Of the second searches, with a larger
   settle count, those of the small random coders try all of it, and those of the other small coders
   and of the large random ones the windows before. Of a search for kinds the enumerator tries every
   window that comes before the one wanted, in every group.

   Cases in named orders (named_orders.c) are written for the examples, padded ones too, all small
   coders, the small random ones, the chains, the changed chains of up to 6 states, and the lines of
   the settle counts; cases of the reader and of the writer for the examples and for random coders
   (group_writer.c), and for files with output letters that no entry names (group_unused.c); cases of
   the calls for kinds at the edges, for small coders and for random ones (group_kinds.c); cases of the
   single window for the examples, lines, small coders and random ones (group_how_far.c); cases of
   strings for the same (group_damaged_strings.c); cases of joins for known pairs, refused ones, the
   examples, small coders and random ones (group_joined.c). */
#include "case_texts.h"
#include "coders.h"
#include "compare.h"
#include "groups.h"

#include <stdio.h>

enum { SEED = 20250917 };

int main(int count, char **words)
{
    if (count != 2) {
        fprintf(stderr, "one argument: the folder for the texts of cases\n");
        return 2;
    }
    open_texts(words[1]);
    catch_signals();
    open_buffers();
    random_seed(SEED);
    printf("seed %d\n", SEED);
    group_examples();
    group_edges();
    group_tiny();
    group_three_states();
    group_random();
    group_random_large();
    group_chains();
    group_changed_chains();
    group_arguments(CALL_RUN, "runs with random arguments", 20000);
    group_arguments(CALL_DECODE, "strings with random arguments", 20000);
    group_arguments(CALL_WINDOW, "single windows with random arguments", 20000);
    group_arguments(CALL_TABLE, "tables with random arguments", 5000);
    group_arguments(CALL_WRITE, "files written with random arguments", 10000);
    group_arguments(CALL_SEARCH_KINDS, "searches for kinds with random arguments", 10000);
    group_arguments(CALL_WINDOW_KINDS, "windows of kinds with random arguments", 20000);
    group_arguments(CALL_JOIN, "joins with random arguments", 10000);
    group_damaged("damaged arguments, one fault", 1, 150000);
    group_damaged("damaged arguments, two faults", 2, 150000);
    group_damaged("damaged arguments, three faults", 3, 50000);
    group_ties();
    group_writer();
    group_table_limit();
    group_spare();
    group_settle_limit();
    group_settle();
    group_unused();
    group_kinds();
    group_how_far();
    group_damaged_strings();
    group_joined();
    group_orders();
    return end_groups();
}
