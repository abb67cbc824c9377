/* Arguments of the calls, and the comparisons made on one coder with them. */
#ifndef CALLS_H
#define CALLS_H

#include "coders.h"
#include "compare.h"
#include "lent.h"

/* ---- arguments.c ---- */

/* The letters of all arguments made here. */
extern uint8_t letters_room[LENT_ROOM];

/* The kinds of all arguments made here. */
enum { KINDS_ROOM = 512 };
extern uint8_t kinds_room[KINDS_ROOM];

/* The second file of all joins made here. */
extern coder_file second_room;

/* Arguments with this coder, its counts, no letters or entries and the least result; all else 0, the
   kinds of its letters too. The second file of a join is that of a coder that repeats letters, as many
   as this one puts out, or 16 where it puts out more. */
arguments plain(enum call call, const coder_file *f);

/* The join of two coders, each from its own place, with just the room it needs. */
arguments join_of(const coder_file *first, const coder_file *second);

/* A random coder that fits before this one, or after it: their states have a product of at most 16.
   None fits after one with more than 16 output letters. */
void random_first(coder_file *f, const coder_file *second);
void random_second(coder_file *f, const coder_file *first);

void random_letters(size_t n, size_t limit);

/* Kinds for n letters: some of the numbers below n, few or many, and each letter has one of them. */
void random_kinds(size_t n);
size_t power(size_t base, size_t n);
size_t smaller_of(size_t one, size_t other);

/* The number to base `base` with n digits, lowest first. */
void put_digits(uint8_t *bytes, size_t n, size_t base, size_t number);

/* A settle count that a call takes: mostly a small one, at times 0, 15, 64 or any. */
size_t random_settle(void);

/* Random arguments, accepted for this coder unless the latest verdict is another coder's: the pairs
   to check come from it, some of them with small changes. In a join it is the first or the second; at
   times the other does not fit. */
arguments random_arguments(enum call call, const coder_file *f);

/* ---- calls.c ---- */

void search(const coder_file *f, size_t settle);
void known_search(const coder_file *f, size_t settle, int is_pair, size_t before, size_t after);

/* Of the pair of the latest search s, t and the four lengths; the first bytes of its letters. */
void known_pair(const size_t numbers[6]);
void known_letters(const uint8_t *letters, size_t len);

/* A run from a reachable state, decoded with the window found and its settle count p, gives its own
   letters back at the places with a full window and p letters ahead of it; only for the p bytes
   before these is the enumerator asked. At times one from a spare state too, and then it is. */
void round_trip(const coder_file *f);

/* The enumerator's two ways to try a window agree, for windows of at most so many letters. */
void compare_both_ways(const coder_file *f, size_t settle, size_t most);

/* A call that has to return this number. */
void known_refusal(const arguments *a, size_t number);

/* The call with each of the file's faults, the first so many of them: each is handed over with its
   number. */
void with_file_faults(const arguments *a, const coder_file *f, size_t faults,
                      void (*visit)(const arguments *a, size_t number));

/* The same with each fault of the join's second file, which is this one without it. */
void with_second_faults(const arguments *a, const coder_file *second, size_t faults,
                        void (*visit)(const arguments *a, size_t number));

/* Two calls with the same letters and as long buffers: the number returned, field 0 and, of a string
   or table, the bytes that it counts are the same; of a single window that no run gives, field 1. */
void same_reply(const arguments *a, const arguments *b);

void compare_random(enum call call, const coder_file *f);
void compare_some_of_each(const coder_file *f);

/* All inputs, received windows, received strings (of at most `most` letters, for windows of at most
   `window`), tables and pairs with at most so many letters. */
void all_runs(const coder_file *f, size_t most);
void all_windows(const coder_file *f, size_t settle, size_t most);
void all_strings(const coder_file *f, size_t settle, size_t window, size_t most);
void all_tables(const coder_file *f, size_t settle, size_t most);
void all_pairs(const coder_file *f, size_t most);

/* A table of at most MOST_TABLE bytes, each with an allowance of its own, in a buffer with a byte to
   spare. */
void whole_table(const coder_file *f, size_t before, size_t after, size_t settle);

#endif
