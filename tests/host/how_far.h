/* What is tried of received letters: as a single window, and how many of them, from the first on, some
   run puts out (document 02, 9/13). */
#ifndef HOW_FAR_H
#define HOW_FAR_H

#include "coders.h"
#include "compare.h"

/* Received letters, and the coder and the settle count with which they are decoded. */
typedef struct received {
    const coder_file *file;
    size_t settle, n;
    const uint8_t *letters;
} received;

/* How many windows no run gave, by the number of possible letters: 0; b + a, which is not 0; and of
   the others below b, b, above b. How many had a letter, and how many several. The largest number of
   possible letters of a window that no run gave. How often fewer of the same letters were possible with
   a larger settle count. */
enum { STOP_FIRST, STOP_BEFORE, STOP_PRESENT, STOP_AFTER, STOP_LAST, STOPS };

typedef struct how_far_counts {
    unsigned long stops[STOPS], letter, several, most, settles;
} how_far_counts;

extern how_far_counts of_how_far;

/* Writes n letters that a run puts out, the first of them so many letters after it started in a
   reachable state. */
void send_letters(const coder_file *f, size_t settle, size_t n, uint8_t *letters);

/* So many of the letters are possible, n where some run gives them all: with the present letter at
   each place that the sides allow. As a string, in a table and by kinds there is a plain none. A case
   where there are at most 8 letters, and at times where there are more. */
void known_how_far(const received *r, size_t possible);

/* Fewer than n are, with the present letter at any place; without the enumerator. */
void known_none(const received *r, size_t possible);

/* The enumerator says how many are possible, in two ways where there are not too many runs; at least
   so many are. With the present letter at two places or at each; the letters that the library has
   called possible alone, and these with one letter more. Returns how many the library said, n + 1
   where a call was left out. */
enum { TWO_PLACES, EACH_PLACE };
size_t try_how_far(const received *r, size_t at_least, int places);

/* A case of the letters, the present one at any place. */
void case_of(const received *r);

/* ---- known_how_far.c ---- */

/* Coders of which it is known how far letters are possible. */
void known_coders_of_how_far(void);

#endif
