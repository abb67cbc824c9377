/* What is tried of a coded string and its damage: both strings decoded, and the bytes that have to be
   the same held against each other (document 02, 10/13). */
#ifndef DAMAGED_STRINGS_H
#define DAMAGED_STRINGS_H

#include "coders.h"
#include "compare.h"
#include "damage.h"

/* What a run from a reachable state has made of input letters, and what the library decodes it to.
   works: whether the window is known to work with its settle count. */
typedef struct coded {
    const coder_file *file;
    window window;
    int works;
    size_t n, count;
    uint8_t input[MOST_STRING], letters[MOST_STRING], bytes[MOST_STRING];
} coded;

/* Damaged strings by the kind of change, those with several kinds in place of KEPT; those that had bytes
   and have none left.
   Places that are the same: by the first sentence; by the second, with settle count 0, 1 to 15 and above;
   by neither, though the window was kept: ahead of the first loss or addition, between two, and after
   the last, where the settle count takes in others. Input letters that came back at these.
   Places with damage in the window whose letter was sent: with the same byte; with another one, of these
   where all letters of the window but its first or but its last were kept together, first with none lost
   or added; with none, where it was not so before; with a letter that did not go in. */
enum { SETTLE_RANGES = 3 };

typedef struct damage_counts {
    unsigned long strings[CHANGE_KINDS], no_byte;
    unsigned long unaltered, after_last[SETTLE_RANGES], ahead, between, not_settled, came_back;
    unsigned long same, other, but_first[2], but_last[2], none, wrong;
} damage_counts;

extern damage_counts of_damage;

/* A call of the string decoder on these letters, with buffers that have at times some bytes more. */
arguments string_call(const coded *s, const uint8_t *letters, size_t n);

/* n random letters run from a state drawn among the reachable ones, as lowhenita_run writes them, and
   decoded with this window. Returns 0 where the enumeration was too long. */
int send_string(coded *s, const coder_file *f, const window *w, int works, size_t n);

/* The string with this damage is decoded as the enumerator says, and what it has in common with the one
   that was sent is held against that. A case of it where it is asked for and the string is short. */
void try_damage(const coded *s, const damage *d, int written);

/* The same of bytes that are known: what both strings have in common, and the counts. */
void hold_places(const coded *s, const damage *d, const uint8_t *bytes, size_t count);

/* ---- damages_tried.c ---- */

/* One letter changed, or added, at each place that is so far from the one before, from one of the first
   on: in this way, and in each of the three. Which windows it leaves as they were is known by their
   places besides. */
void one_letter(const coded *s, size_t every, enum change_kind kind);
void each_letter(const coded *s, size_t every);

/* Letters changed at random, one in so many, once in each of the three ways alone and in any of them
   together. The one of this number, 1 to 7, is written as a case. */
void try_ways(const coded *s, size_t every, size_t written);

/* So many letters lost at the front and at the end, others added in place of the first, and one in so
   many of those between altered, none with 0. */
void lose_ends(const coded *s, size_t front, size_t end, size_t added, size_t altered);

/* What is left, or added, has one letter less than a window, exactly one, or one more. */
void cut_to_window(const coded *s);

/* All letters lost, others added for all of them, some lost at either end and others added. */
void ends(const coded *s);

/* ---- known_damage.c ---- */

/* Strings whose bytes are known before and after their damage. */
void known_damaged_strings(void);

#endif
