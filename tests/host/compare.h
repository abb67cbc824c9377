/* What the groups of comparisons share: their counts and differences, one comparison of a call with
   the enumerator, and the verdict of the latest search. */
#ifndef COMPARE_H
#define COMPARE_H

#include "enumerator.h"

enum {
    NUMBERS = 18,          /* what a call returns: 0 and the refusals 1 to 17 */
    MOST_RUNS = 30000,     /* runs grouped by output string for one length of window */
    PAIR_STEPS = 20000,    /* steps for one window by pairs of runs */
    FIRST_STEPS = 100000,  /* steps for one first pair of a small coder by trying */
    ANSWER_STEPS = 400000  /* steps for one expected answer */
};

/* ---- counts.c ---- */

typedef struct counts {
    unsigned long coders, searches, comparisons;
    unsigned long decoders, longest_window, pairs, longest_pair;
    unsigned long windows, windows_left, refuted, answers_left;
    unsigned long firsts, firsts_left;
    unsigned long cases, cases_left, two_windows;
    unsigned long wanted[CALLS][NUMBERS];
} counts;

/* The counts of the group under way. */
extern counts now;

void begin_group(const char *name);

/* Prints the group's line. */
void end_group(void);

/* Prints the last line; the program's status. */
int end_groups(void);

/* The call that a difference is shown with from now on, until the group ends; NULL for none. */
void show_call(const arguments *a);

/* A difference, printed in detail if it is one of the group's first. */
void differ(const char *what, ...);

/* A comparison with a value known beforehand. */
void known_value(const char *what, size_t got, size_t wanted);

/* A library that reads or writes past a buffer, or ends the program, is a difference too. */
void catch_signals(void);

const char *call_name(enum call call);

/* ---- compare.c ---- */

/* What the library returned, and its two buffers as they are until the next comparison. */
typedef struct reply {
    size_t returned;
    const uint8_t *lent, *result;
} reply;

void open_buffers(void);

/* A call held against the enumerator; before it, its files are written again from their parts. Where the
   enumeration is too long the call is left out; the reply is then one that no call gives. */
reply compare(const arguments *a);

/* A call whose answer is known without the enumerator: it writes these bytes to the front of the
   lent buffer, and their count in field 0. */
reply compare_known(const arguments *a, const uint8_t *bytes, size_t count);

/* A single window of which it is known without the enumerator that no run gives it, and how many
   letters from its first on some run does. */
reply compare_none(const arguments *a, size_t possible);

/* ---- trying.c ---- */

/* Whether the window fails, with the coder's settle count. */
enum answer window_fails(const coder *c, size_t before, size_t after);

/* ---- first_pairs.c ---- */

/* The first looped pair of a coder, by exact numbers of letters; no settle count is in it. */
const first_pair *first_pair_of(const coder *c);

/* The same by trying, within so many steps, compared with it. */
void try_first_pair(const coder *c, long steps);

/* Whether two pairs have the same s, t and lengths; and with these the same letters. */
int same_numbers(const pair *one, const pair *other);
int same_letters(const pair *one, const pair *other);

/* ---- verdict.c ---- */

typedef struct verdict {
    int known, is_pair;
    size_t before, after, settle;
    pair pair;
    size_t letters;
    uint8_t bytes[SEARCH_BYTES];
} verdict;

/* The verdict of the latest search. */
extern const verdict *const found;
void forget_verdict(void);

/* What is tried besides the verdict itself: where there is a window, the windows that come before
   it; where there is none, all windows up to the bound, the same by following the pair, and the
   first pair by trying, within so many steps. */
void try_verdicts(int smaller, int all, int refute, long first);

/* Judges the verdict and puts what it has to write into the wanted buffers. */
void judge_search(const arguments *a, const uint8_t *lent, const uint8_t *result,
                  uint8_t *wanted_lent, uint8_t *wanted_result);

#endif
