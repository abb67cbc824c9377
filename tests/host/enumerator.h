/* The brute-force enumerator: runs, windows, pairs and refusals judged by enumeration from their
   definitions. It shares no code with the library it is compared with, and no method but two: the
   cases of the table limit, and start states found letter by letter where there are many strings. */
#ifndef ENUMERATOR_H
#define ENUMERATOR_H

#include <stddef.h>
#include <stdint.h>

enum {
    MOST_STATES = 16,
    MOST_INPUTS = 16,
    MOST_OUTPUTS = 64,
    MOST_SIDE = 136,
    MOST_WINDOW = 2 * MOST_SIDE + 1,
    MOST_SETTLE = 64,
    MOST_TABLE = 65536,
    SEARCH_BYTES = 1026,
    MOST_PAIR = SEARCH_BYTES / 2,
    RESULT_BYTES = 64
};

/* Some states, in the order of their numbers. */
typedef struct state_list {
    size_t count, state[MOST_STATES];
} state_list;

/* The coder of an accepted file: its three counts and its entries, two bytes each; and the states
   that some input string reaches from state 0 (document 02, 5/13), in which a run starts. Besides,
   the settle count of the windows that are looked at (document 02, 6/13), and their start states:
   a window's run is in one of them at the window's first letter, so many letters after it started
   in a reachable state. With settle count 0 these are the reachable states. */
typedef struct coder {
    size_t states, inputs, outputs;
    const uint8_t *entries;
    state_list reachable;
    size_t settle;
    state_list starts;
} coder;

/* Two runs in step; the letters are two bytes each, first run, second run. */
typedef struct pair {
    size_t s, t, back_loop, lead_in, lead_out, forward_loop;
    const uint8_t *letters;
} pair;

enum call {
    CALL_RUN, CALL_SEARCH, CALL_DECODE, CALL_CHECK, CALL_WINDOW, CALL_TABLE, CALL_WRITE,
    CALL_SEARCH_KINDS, CALL_WINDOW_KINDS, CALL_JOIN, CALLS
};

/* The arguments of any of the ten calls; a call looks only at those it is given. */
typedef struct arguments {
    enum call call;
    const uint8_t *file;    /* all but write; of the join, the first file */
    size_t file_len;
    const uint8_t *second;  /* join: the second file */
    size_t second_len;
    size_t start;           /* run */
    size_t before, after;   /* decode, window, table, window of kinds */
    size_t settle;          /* search, decode, window, table */
    pair pair;              /* check, without its letters */
    size_t counts[3];       /* write: states, inputs, outputs */
    const uint8_t *kinds;   /* search and window of kinds */
    size_t kinds_len;
    const uint8_t *bytes;   /* input of the run, letters of the check, received letters, entries */
    size_t bytes_len;
    size_t lent_len;        /* output of run and decode, letters of the search, table, file that
                               is written */
    size_t result_len;
} arguments;

/* ---- enumerator_refusals.c ---- */

/* 0 or the first number that applies; that of a file alone. */
size_t refusal_of_call(const arguments *a);
size_t refusal_of_file(const uint8_t *file, size_t len);

/* The bytes of a table, or one more than the most where there would be more. */
size_t table_bytes(size_t outputs, size_t letters);

/* The letters of the longest window that may have a table. */
size_t longest_window(size_t outputs);

/* The places of the received letters that have a full window. */
size_t full_windows(const arguments *a);

/* ---- enumerator.c ---- */

/* The coder of a file that is not refused, with settle count 0 and with any; one entry of it. */
coder coder_of_file(const uint8_t *file);
coder settled_coder(const uint8_t *file, size_t settle);
size_t next_state(const coder *c, size_t state, size_t input);
size_t output_letter(const coder *c, size_t state, size_t input);

/* A coder that is kept, without a settle count, to know whether another one comes. */
typedef struct kept_coder {
    size_t states, inputs, outputs;
    uint8_t entries[2 * MOST_STATES * MOST_INPUTS];
} kept_coder;

/* Whether the coder is another than the one kept; it is kept then. */
int another_coder(kept_coder *kept, const coder *c);

/* The bound of a side of a window that is reported: N (N + 1) / 2. */
size_t side_bound(const coder *c);

/* The run from a state: writes n output letters, returns the end state. */
size_t follow_run(const coder *c, size_t start, const uint8_t *input, size_t n, uint8_t *output);

/* The file of counts and entries; returns its length. */
size_t put_file(const size_t counts[3], const uint8_t *entries, size_t len, uint8_t *file);

/* The byte of a table at an index, whose digits to base O are the letters, the first the highest. */
uint8_t table_byte(const coder *c, size_t before, size_t after, size_t index);

/* What an accepted call other than the search for letters writes, into copies of its lent buffers.
   Returns 0 where the allowance did not suffice. */
int expected_answer(const arguments *a, uint8_t *lent, uint8_t *result);

/* Field k of a result: 8 bytes, big-endian. */
void put_field(uint8_t *result, size_t k, uint64_t value);
uint64_t get_field(const uint8_t *result, size_t k);

/* ---- enumerator_row.c ---- */

/* Document 02, 11/13: state s of the first coder with state t of the second, as a state of the joined
   coder. */
size_t joined_state(const coder *second, size_t s, size_t t);

/* The second coder runs on what the first one puts out, the first from state s and the second from
   state t: writes n output letters, returns the end states as a state of the joined coder. */
size_t follow_row(const coder *first, const coder *second, size_t s, size_t t, const uint8_t *input,
                  size_t n, uint8_t *output);

/* The file of the joined coder; returns its length. */
size_t put_joined(const coder *first, const coder *second, uint8_t *file);

/* ---- enumerator_starts.c ---- */

/* Whether the state is in the list. */
int in_list(const state_list *l, size_t state);

/* Fills in the reachable states; the settle count and, once these are known, the start states. */
void list_reachable(coder *c);
void list_starts(coder *c, size_t settle);

/* The states that the strings of up to so many letters reach, every string tried: reached[s] becomes
   1 for these. Returns 0, with nothing said, where there are more strings than given. */
int reached_by_strings(const coder *c, size_t letters, size_t most, uint8_t *reached);

/* The states in which runs of exactly so many letters from reachable states end: ended[s] becomes 1
   for these. By every string, 0 being returned where there are more than given; and letter by
   letter. */
int ended_by_strings(const coder *c, size_t letters, size_t most, uint8_t *ended);
void ended_by_letters(const coder *c, size_t letters, uint8_t *ended);

/* ---- enumerator_windows.c ---- */

/* Three answers: the enumeration may end at its allowance before it knows. */
enum answer { NO, YES, UNKNOWN };

/* The allowance of steps for the enumerations that follow, and whether it was used up. */
void allow_steps(long steps);
int steps_used_up(void);

/* Takes one step; 0 where none is left. */
int take_step(void);

/* All runs of a window of n letters grouped by output string: fails[b] becomes 1 where two runs have
   equal outputs and different letters at place b. Returns 0, with nothing said, where there are more
   runs than given or more than 131,072 strings. */
int fails_by_groups(const coder *c, size_t n, size_t most, uint8_t *fails);

/* Whether the window works, by all pairs of runs around the present letter. */
enum answer works_by_pairs(const coder *c, size_t before, size_t after);

/* The letters that fit a received window, in the order of their numbers; returns how many. */
size_t fitting_letters(const coder *c, size_t before, size_t after, const uint8_t *received,
                       uint8_t letters[MOST_INPUTS]);

/* The byte of a received window: the letter that alone fits, none or several. */
enum { BYTE_NONE = 254, BYTE_SEVERAL = 255 };
uint8_t window_byte(const coder *c, size_t before, size_t after, const uint8_t *received);

/* The entries that a run can follow, out of each state or into it: the state at the other end, the
   output. A run that starts in a reachable state stays in such states. last[s]: whether what is
   followed may come to its end in s; against the run's direction that is the window's first letter,
   and s a start state. */
typedef struct entry_ends {
    uint8_t last[MOST_STATES];
    size_t count[MOST_STATES];
    uint8_t other[MOST_STATES][MOST_STATES * MOST_INPUTS];
    uint8_t output[MOST_STATES][MOST_STATES * MOST_INPUTS];
} entry_ends;

void list_entries(const coder *c, entry_ends *out, entry_ends *in);

/* ---- enumerator_how_far.c ---- */

/* Document 02, 9/13: how many of n received letters, from the first on, some run puts out, in a start
   state at the first; n where some run puts out all. By trying runs; nothing is said where the
   allowance did not suffice. */
size_t possible_letters(const coder *c, const uint8_t *received, size_t n);

/* The same by every run from a reachable state outright, with the letters ahead of the window.
   Returns 0, with nothing said, where there are more runs than given. */
int possible_outright(const coder *c, const uint8_t *received, size_t n, size_t most,
                      size_t *possible);

/* ---- enumerator_apart.c ---- */

/* Pairs of different input letters: bit j of with[i] and bit i of with[j] stand for i and j. */
typedef struct letter_pairs {
    uint16_t with[MOST_INPUTS];
} letter_pairs;

int pairs_meet(const letter_pairs *one, const letter_pairs *other);

/* Document 02, 8/13: a window with settle count 0 tells letters apart if no two runs with equal
   outputs have one and the other in the present place.

   All runs of a window of n letters grouped by output string: confused[b] becomes the pairs that
   the window with b letters before the present one does not tell apart. Returns 0, with nothing
   said, where there are too many runs. */
enum { MOST_GROUPED = 24 };
int confused_by_groups(const coder *c, size_t n, letter_pairs confused[MOST_GROUPED]);

/* Whether the window tells all of these pairs apart, by following pairs of runs; no side above the
   bound. */
int tells_by_following(const coder *c, const letter_pairs *pairs, size_t before, size_t after);

/* The same by all runs where there are not too many of them, else by pairs of runs. */
int window_tells(const coder *c, const letter_pairs *pairs, size_t before, size_t after);

/* The pairs that no window of any size tells apart. */
const letter_pairs *never_apart(const coder *c);

/* ---- enumerator_kinds.c ---- */

/* The pairs of letters of different kinds, and of letters of one kind where that is in a set; bit k
   of the set stands for kind k. */
letter_pairs pairs_of_kinds(const coder *c, const uint8_t *kinds, size_t carried);

/* The pairs of letters of this kind alone. */
letter_pairs pairs_within(const coder *c, const uint8_t *kinds, size_t kind);

/* What the search for kinds gives: whether kinds can be told; the carried kinds and the first window
   in the order of least lookahead. */
typedef struct kinds_verdict {
    int told;
    size_t before, after, carried;
} kinds_verdict;

kinds_verdict search_kinds(const coder *c, const uint8_t *kinds);

/* What a received window gives: 0 a letter, 1 a kind, 2 none, 3 several; for the first two *number
   becomes the letter or the kind. */
enum { KINDS_LETTER, KINDS_KIND, KINDS_NONE, KINDS_SEVERAL, KINDS_ANSWERS };
size_t window_kinds(const coder *c, const uint8_t *kinds, size_t before, size_t after,
                    const uint8_t *received, size_t *number);

/* ---- enumerator_pairs.c ---- */

/* The four lengths and the differing letter. */
size_t pair_letters(const pair *p);

int pair_valid(const coder *c, const pair *p);

/* Back loop and lead-in have together at most N * N letters, and so have lead-out and forward
   loop. */
int pair_keeps_bounds(const coder *c, const pair *p);

/* Turned: equal outputs everywhere and different letters at the marked place. */
int turned_pair_confuses(const coder *c, const pair *p, size_t back, size_t forward);

/* Cut from the turned pair: two runs of before + 1 + after letters that the window confuses, with
   the letters ahead of it that the settle count asks for. */
int pair_refutes_window(const coder *c, const pair *p, size_t before, size_t after);

/* ---- enumerator_first.c ---- */

/* The first of all valid pairs of a coder, of any length (document 02, 2/13). The number of all letters
   decides; then s; t; the four lengths as they stand in the struct; then byte after byte. exists:
   UNKNOWN where the allowance did not suffice. */
typedef struct first_pair {
    enum answer exists;
    pair pair; /* its letters are the bytes */
    uint8_t bytes[SEARCH_BYTES];
} first_pair;

/* Hands over all valid pairs with so many letters, in the order of comparison, until one is taken.
   Returns whether one was; none after it, and none once the allowance is used up, is tried. */
int each_valid_pair(const coder *c, size_t letters, int (*take)(const pair *p, void *to), void *to);

/* By trying all pairs with 3 letters, with 4 letters and so on. Ends only where there is a pair, or
   with the allowance. */
void first_by_trying(const coder *c, first_pair *f);

/* ---- enumerator_lengths.c ---- */

/* By sets of pairs of states, for pairs of any length; takes no steps of the allowance. */
void first_by_lengths(const coder *c, first_pair *f);

#endif
