/* Coder files for the comparison: the examples, numbered and random coders, chains with long
   windows, and the random numbers they come from. Every coder that is made names all its output
   letters; what may not is said to. */
#ifndef CODERS_H
#define CODERS_H

#include <stddef.h>
#include <stdint.h>

enum { MOST_FILE = 518 };

typedef struct coder_file {
    uint8_t bytes[MOST_FILE];
    size_t len;
} coder_file;

/* Random numbers, the same for the same seed. */
void random_seed(uint64_t seed);
size_t random_below(size_t limit);

/* An example coder with what is known of it. Pair 0: the window with least lookahead, and the one
   with fewest letters. Pair 1: no decoder; of the first looped pair s, t, the lengths of back loop,
   lead-in, lead-out and forward loop, and the letters. */
typedef struct example {
    char name;
    coder_file file;
    int pair;
    size_t before, after, fewest_before, fewest_after;
    size_t first[6];
    uint8_t letters[6];
} example;

enum { EXAMPLES = 8 };
void make_example(size_t k, example *e);

/* A file with these counts and entries of 0. */
void begin_file(coder_file *f, size_t states, size_t inputs, size_t outputs);

/* The output letters that entries name become 0, 1, 2 and so on in the same order, and O their number:
   the same coder with other names for its letters, and none that no entry names. */
void renumber_letters(coder_file *f);

/* How many tables of entries these counts have, and the one of a number below that; there may be
   letters that it does not name. */
size_t coders_with(size_t states, size_t inputs, size_t outputs);
void number_entries(coder_file *f, size_t states, size_t inputs, size_t outputs, size_t number);

/* Random entries, of one of several kinds; there may be letters that they do not name. */
void draw_entries(coder_file *f, size_t states, size_t inputs, size_t outputs);

/* The coders of such entries, their letters renumbered: O may be less than it is given here. */
void make_numbered(coder_file *f, size_t states, size_t inputs, size_t outputs, size_t number);
void make_random(coder_file *f, size_t states, size_t inputs, size_t outputs);

/* The same with exactly so many output letters: to those that no entry names an entry is given whose
   letter another one names too. At most as many letters as entries. */
void make_random_with_all(coder_file *f, size_t states, size_t inputs, size_t outputs);

/* Every next state and every output letter in turn, the letters from the last on; a letter may be left
   over where there are fewer entries. */
void make_in_turn(coder_file *f, size_t states, size_t inputs, size_t outputs);

/* One state, and each input letter is put out as it is. */
void make_repeater(coder_file *f, size_t letters);

/* The coder with so many input letters: letter k has the entries of letter of[k] of the coder in
   every state. Each letter of the coder is among them. */
void make_filled(coder_file *f, const coder_file *base, size_t inputs, const uint8_t *of);

/* The bytes in any order. */
void shuffle(uint8_t *bytes, size_t n);

/* A line of states, each entered from the one before it alone and whatever the letter, that ends in
   state 0 of a coder: its states come after the line's. The states of the line put out one letter
   that the coder has not. */
void make_constant_line(coder_file *f, size_t line, const coder_file *end);

/* The same, but the last state of the line leads to one of two states by its letter, puts out letter
   0 for both, and the states before it put out 4 or 5 by their letters. The two states at the end
   stay: one puts out 0 or 1 by its letter, the other 2 or 3. With two states it is coder G. */
void make_line_like_g(coder_file *f, size_t line);

/* The coder with a state more, its last, which no input string reaches, and an output letter more, its
   last, which that state alone puts out. At most 15 states and 63 output letters before. */
void make_with_spare_letter(coder_file *f, const coder_file *base);

/* The file with one fault, the faults in checking order of their numbers; returns the number. The
   coder has more than one input letter. */
enum { FILE_FAULTS = 8, FAULTS_BEFORE_15 = 7 };
size_t make_faulty(const coder_file *f, size_t fault, coder_file *g);

/* One entry of the file made anew at random, and the letters renumbered. */
void change_entry(coder_file *f);

/* The pairs of states on the chain {0, 1}, {1, 2}, ... that turns at the last state as long as the
   two are at most turns + 1 apart. */
size_t chain_pairs(size_t states, size_t turns);

/* Window 0 p and window p 0 for a chain of p pairs; turns at most states - 2. */
void make_forward_chain(coder_file *f, size_t states, size_t turns);
void make_backward_chain(coder_file *f, size_t states, size_t turns);

/* The chain of all pairs cut in two: window p q, p pairs up to the cut and q after it; turns at
   most states - 3. */
void make_split_chain(coder_file *f, size_t states, size_t turns);

/* The chain of p pairs, whose end is told by p letters before it or by `after` letters after it.
   Besides, every window needs `back` letters before and `ahead` letters after. So window b a works
   where b >= p or a >= after, and b >= back, and a >= ahead. turns at most states - 3 and 12; after
   from 1 to states - 2 - turns; back below states; ahead below after. */
void make_either_chain(coder_file *f, size_t states, size_t turns, size_t after, size_t back,
                       size_t ahead);

/* The chain of p pairs closed to a loop of 2p letters: no decoder. The back loop, the forward loop
   (turns at most states - 3) or both have to go round it. */
void make_closed_back(coder_file *f, size_t states, size_t turns);
void make_closed_forward(coder_file *f, size_t states, size_t turns);
void make_closed_both(coder_file *f, size_t states, size_t turns);

#endif
