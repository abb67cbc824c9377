/* What is tried of one coder with one kind list, and the coders of which it is known. */
#ifndef KINDS_TRIED_H
#define KINDS_TRIED_H

#include "coders.h"
#include "enumerator.h"

/* How many searches there were. How many of them said that kinds cannot be told, and how many left a
   kind out of the set; of the latter, how many gave a window of more than one letter, in how many a
   letter less on one side would do for kinds alone, and the letters of the longest window. How many
   windows had each answer. */
typedef struct kinds_counts {
    unsigned long searches, cannot, not_carried, longer, wider, longest;
    unsigned long answers[KINDS_ANSWERS];
} kinds_counts;

extern kinds_counts of_kinds;

/* The search for letters with settle count 0, whose verdict the searches for kinds of the same coder
   are held against. */
void begin_coder(const coder_file *f);

/* The search for these kinds. With what it says: windows tried, all of them where asked; the letters
   of a run sent and decoded; random windows. The verdict that the library gave. */
enum { SOME_WINDOWS, ALL_WINDOWS };
kinds_verdict try_kinds(const coder_file *f, const uint8_t *kinds, int windows);

/* The search, with what is known of it. */
void known_kinds(const coder_file *f, const uint8_t *kinds, const kinds_verdict *known);

/* A window decoded by kinds, with what is known of it. */
void known_answer(const coder_file *f, const uint8_t *kinds, size_t before, size_t after,
                  const uint8_t *received, size_t answer, size_t number);

/* The enumerator's two ways to know which letters a window tells apart agree, for windows of at most
   so many letters. */
void compare_ways_to_tell(const coder_file *f, size_t most);

/* ---- known_kinds.c ---- */

/* The examples and two coders more, whose verdicts are known. */
void known_coders_of_kinds(void);

#endif
