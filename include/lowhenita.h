/*
 * lowhenita.h: coders (Mealy machines), their windows and looped pairs, for a host in C99 or C++.
 *
 * Link with liblowhenita.a, which `make lib` writes to target/staticlib/. docs/c-interface.md has the layout and an example for
 * each call.
 *
 * A byte string is a pointer and a length. A coder is given as the bytes of its coder file (docs/coder-file.md); lowhenita_write makes the
 * file of counts and entries, lowhenita_join that of two coders in a row. Each call returns 0, or the number of the first refusal that
 * applies (docs/refusals.md). A refused call leaves every buffer as it was. A call that returns 0 writes its results into `result`, in
 * fields of 8 bytes, big-endian: field k is bytes 8 k to 8 k + 7. `result` has at least LOWHENITA_RESULT_BYTES bytes, or the call is
 * refused with 11. Bytes past what a call writes, in `result` and in any other buffer, stay as they were.
 *
 * The entries of a coder, those of spare states included, put out every letter below O: one with a letter left over is refused with 15.
 *
 * State 0 is the power-on state. The runs that windows, tables, decoded letters and looped pairs go by start in the states that some
 * input string reaches from state 0, the empty string included; the other states are spare and do not count. lowhenita_run starts in any
 * state.
 *
 * A window is three numbers: the letters `before` the present one, the letters `after` it, and the settle count `settle`, 0 to
 * LOWHENITA_MAX_SETTLE. Its runs start in a reachable state `settle` letters ahead of the window's first letter, and what they put out on
 * those letters is not seen: a window is decoded from its own letters alone. With settle count 0 they start at the first letter. Whether
 * some window works does not depend on the settle count; with a larger one the search finds the same window or an earlier one in its
 * order; from 15 on every answer is the same.
 *
 * The host owes:
 *   - each pointer is valid for its length: readable where it points to const, readable and writable otherwise;
 *   - a buffer that is written (not const) overlaps nothing else that is passed to the same call;
 *   - a pointer is NULL only where its length is 0;
 *   - while a call runs, no other thread changes a byte that is passed to it, or reads a byte of a buffer that it writes;
 *   - every byte that is passed has been given a value, those of a buffer that is written too: the contracts speak of the bytes that
 *     a buffer holds at the call. What a call returns and writes does not depend on them, any value will do;
 *   - the thread has LOWHENITA_STACK_BYTES bytes of stack left, which is more than any call was measured to take.
 * All else is checked. The calls keep no state, allocate nothing and may run in several threads at once, also on the same const bytes.
 */
#ifndef LOWHENITA_H
#define LOWHENITA_H

#include <stddef.h>
#include <stdint.h>

#ifdef __cplusplus
extern "C" {
#endif

/* The version of this header and of the library; make and pkg-config take it from here. */
#define LOWHENITA_VERSION "1.11"

/* Limits of a coder: states, input letters, output letters; the bytes of its file. */
#define LOWHENITA_MAX_STATES 16
#define LOWHENITA_MAX_INPUTS 16
#define LOWHENITA_MAX_OUTPUTS 64
#define LOWHENITA_MAX_FILE_BYTES 518

/* Limits of a call: a side of the window, its settle count, the bytes of a table. */
#define LOWHENITA_MAX_SIDE 136
#define LOWHENITA_MAX_SETTLE 64
#define LOWHENITA_MAX_TABLE_BYTES 65536

/* What each call wants of `result`, and the search of `letters`, whatever its verdict. */
#define LOWHENITA_RESULT_BYTES 64
#define LOWHENITA_SEARCH_BYTES 1026

/* The bytes of a decoded place: a letter (below 16), none, several. */
#define LOWHENITA_NONE 254
#define LOWHENITA_SEVERAL 255

/* Field 0 of a search. */
#define LOWHENITA_WINDOW 0
#define LOWHENITA_LOOPED_PAIR 1

/* Field 0 of a search for kinds. */
#define LOWHENITA_KINDS_TOLD 0
#define LOWHENITA_KINDS_CANNOT 1

/* Field 0 of a window decoded by kinds. */
#define LOWHENITA_KINDS_LETTER 0
#define LOWHENITA_KINDS_KIND 1
#define LOWHENITA_KINDS_NONE 2
#define LOWHENITA_KINDS_SEVERAL 3

/* The stack that is enough for every call. docs/c-interface.md has what was measured, and how. */
#define LOWHENITA_STACK_BYTES 65536

/* The refusals: the numbers that the calls return, in checking order. */
#define LOWHENITA_REFUSED_SHORT_FILE 1
#define LOWHENITA_REFUSED_VERSION 2
#define LOWHENITA_REFUSED_FILE_LENGTH 3
#define LOWHENITA_REFUSED_COUNTS 4
#define LOWHENITA_REFUSED_COUNT_FIELD 5
#define LOWHENITA_REFUSED_ENTRY 6
#define LOWHENITA_REFUSED_UNUSED_OUTPUT 15
#define LOWHENITA_REFUSED_START_STATE 7
#define LOWHENITA_REFUSED_KINDS 16
#define LOWHENITA_REFUSED_WINDOW_SIDE 8
#define LOWHENITA_REFUSED_SETTLE_COUNT 14
#define LOWHENITA_REFUSED_NUMBER_OF_LETTERS 9
#define LOWHENITA_REFUSED_TABLE_SIZE 10
#define LOWHENITA_REFUSED_ROW 17
#define LOWHENITA_REFUSED_SHORT_BUFFER 11
#define LOWHENITA_REFUSED_INPUT_LETTER 12
#define LOWHENITA_REFUSED_RECEIVED_LETTER 13

/* A sentence for the number that a call has returned; there is one for every number. */
static inline const char *lowhenita_refusal_text(size_t number)
{
    switch (number) {
    case 0:
        return "Not refused.";
    case LOWHENITA_REFUSED_SHORT_FILE:
        return "The file is too short to have the six bytes before the entries.";
    case LOWHENITA_REFUSED_VERSION:
        return "The version is not 1.";
    case LOWHENITA_REFUSED_FILE_LENGTH:
        return "The count field does not say how many bytes follow it.";
    case LOWHENITA_REFUSED_COUNTS:
        return "N or I is not 1 to 16, or O is not 1 to 64.";
    case LOWHENITA_REFUSED_COUNT_FIELD:
        return "The count field is not 3 + 2 * N * I, or there are not 2 * N * I entry bytes to be written.";
    case LOWHENITA_REFUSED_ENTRY:
        return "An entry leads to a state that there is not, or puts out a letter that there is not.";
    case LOWHENITA_REFUSED_UNUSED_OUTPUT:
        return "Some letter below O is put out by no entry.";
    case LOWHENITA_REFUSED_START_STATE:
        return "There is no such start state.";
    case LOWHENITA_REFUSED_KINDS:
        return "The kind list is not I bytes, or has a kind that is I or above.";
    case LOWHENITA_REFUSED_WINDOW_SIDE:
        return "A window has more than 136 letters on one side.";
    case LOWHENITA_REFUSED_SETTLE_COUNT:
        return "A settle count is above 64.";
    case LOWHENITA_REFUSED_NUMBER_OF_LETTERS:
        return "There are more or fewer letters than the window or the looped pair has.";
    case LOWHENITA_REFUSED_TABLE_SIZE:
        return "The table is larger than 65,536 bytes.";
    case LOWHENITA_REFUSED_ROW:
        return "The first O is not the second I, or the product of the two N is above 16.";
    case LOWHENITA_REFUSED_SHORT_BUFFER:
        return "A lent buffer is too short.";
    case LOWHENITA_REFUSED_INPUT_LETTER:
        return "An input letter is I or above.";
    case LOWHENITA_REFUSED_RECEIVED_LETTER:
        return "A received letter is O or above.";
    default:
        return "There is no refusal with this number.";
    }
}

/* Field k of a result, k from 0 to 7. */
static inline uint64_t lowhenita_field(const uint8_t *result, size_t k)
{
    uint64_t x = 0;
    size_t i;

    for (i = 8 * k; i < 8 * k + 8; i++)
        x = x << 8 | result[i];
    return x;
}

/*
 * Runs the coder from state `start`, reachable or not, on the letters of `input`: one output letter for each input letter, at the front
 * of `output`.
 * Field 0: the number of letters written. Field 1: the state in which the run ends.
 * Refusals, in checking order: 1 to 6, 15, 7, 11 (output shorter than input, or result), 12.
 */
size_t lowhenita_run(const uint8_t *file, size_t file_len,
                     size_t start,
                     const uint8_t *input, size_t input_len,
                     uint8_t *output, size_t output_len,
                     uint8_t *result, size_t result_len);

/*
 * Finds of all windows with this settle count that work the least in the order of least lookahead: the one with fewest letters after the
 * present one and, of several with as many, with fewest before it. Or, where no window works, the first looped pair, which shows it and is
 * the same for every settle count.
 * Field 0: LOWHENITA_WINDOW; then field 1: letters before the present one, field 2: letters after it; `letters` stays as it was. The
 * window is to be used with the settle count that was given.
 * Field 0: LOWHENITA_LOOPED_PAIR; then fields 1 to 6: the start states s and t, the lengths of back loop, lead-in, lead-out and
 * forward loop; the pair's letters stand at the front of `letters`, two bytes each (first run, second run), the differing letter
 * between lead-in and lead-out. Of all valid pairs, of any length, it is the one with fewest letters; of several with as few the first by
 * s, t, the four lengths in this order, and the bytes of the letters. It is valid (lowhenita_check says 1).
 * Refusals, in checking order: 1 to 6, 15, 14, 11 (letters shorter than LOWHENITA_SEARCH_BYTES, or result).
 */
size_t lowhenita_search(const uint8_t *file, size_t file_len,
                        size_t settle,
                        uint8_t *letters, size_t letters_len,
                        uint8_t *result, size_t result_len);

/*
 * Decodes each place of `received` that has a full window of `before` letters before it and `after` letters after it: one byte for
 * each, at the front of `output`: the letter that alone fits, LOWHENITA_NONE or LOWHENITA_SEVERAL. Byte k belongs to place
 * k + before and is decoded from the window's own letters alone, not from those ahead of it. With a window that works, the letters
 * that a run from a reachable state was given come back at the places that have a full window and `settle` letters ahead of it: bytes
 * settle and on. The bytes before these are decoded in the same way, and nothing more is promised of them.
 * Damage does not travel: of two strings decoded with the same file and the same three numbers, a window whose letters stand in both has
 * the same byte in both, each at the index at which the window begins there.
 * Field 0: the number of bytes written, received_len - before - after, or 0 where the string is shorter than one window.
 * Refusals, in checking order: 1 to 6, 15, 8, 14, 11 (output too short, or result), 13.
 */
size_t lowhenita_decode(const uint8_t *file, size_t file_len,
                        size_t before, size_t after, size_t settle,
                        const uint8_t *received, size_t received_len,
                        uint8_t *output, size_t output_len,
                        uint8_t *result, size_t result_len);

/*
 * Judges a looped pair from anyone: start states s and t, four lengths, and in `letters` two bytes for each letter.
 * Field 0: 1 for a valid pair, 0 for any other. A pair of which s or t is a spare state is not valid. A pair has no settle count.
 * Refusals, in checking order: 1 to 6, 15, 7, 9 (letters_len is not twice the letters), 11 (result), 12.
 */
size_t lowhenita_check(const uint8_t *file, size_t file_len,
                       size_t s, size_t t,
                       size_t back_loop, size_t lead_in,
                       size_t lead_out, size_t forward_loop,
                       const uint8_t *letters, size_t letters_len,
                       uint8_t *result, size_t result_len);

/*
 * Decodes one window of before + 1 + after received letters; the `settle` letters ahead of it are not given.
 * Field 0: the letter that alone fits, LOWHENITA_NONE where no run gives these letters, or LOWHENITA_SEVERAL.
 * Field 1, with LOWHENITA_NONE alone: how many of the letters, from the first on, some run can produce, 0 to before + after, whichever of
 * them is the present one. With any other answer field 1 stays as it was.
 * Refusals, in checking order: 1 to 6, 15, 8, 14, 9 (received_len is not before + 1 + after), 11 (result), 13.
 */
size_t lowhenita_window(const uint8_t *file, size_t file_len,
                        size_t before, size_t after, size_t settle,
                        const uint8_t *received, size_t received_len,
                        uint8_t *result, size_t result_len);

/*
 * Finds the window by which kinds of letter are told. `kinds` has one byte for each input letter, its kind, a number below I. A window
 * tells two letters apart if no two runs from reachable states with equal outputs at every place have one and the other as their present
 * letter; it need not work for letters. All windows here have settle count 0. A kind is carried if some window, each kind its own, tells
 * its letters apart; so is a kind below I that no letter has, and one that a single letter has.
 * Field 0: LOWHENITA_KINDS_TOLD; then fields 1 and 2: the letters before and after the present one, of the least window in the order of
 * least lookahead that tells apart letters of different kinds and different letters of each carried kind; field 3: the carried kinds, bit
 * k for kind k.
 * Field 0: LOWHENITA_KINDS_CANNOT: no window of any size tells letters of different kinds apart; no other field is written.
 * Refusals, in checking order: 1 to 6, 15, 16 (kinds_len is not I, or a kind is not below I), 11 (result).
 */
size_t lowhenita_search_kinds(const uint8_t *file, size_t file_len,
                              const uint8_t *kinds, size_t kinds_len,
                              uint8_t *result, size_t result_len);

/*
 * Decodes one window of before + 1 + after received letters, with settle count 0, to a letter or to a kind. Any window will do. With the
 * one that lowhenita_search_kinds gives for these kinds, what a run from a reachable state has sent gives the letter or its kind at every
 * place with a full window, and the letter where its kind is carried.
 * Field 0: LOWHENITA_KINDS_LETTER where one letter alone fits, whatever its kind; then field 1: the letter.
 * Field 0: LOWHENITA_KINDS_KIND where several fit and are of one kind; then field 1: the kind.
 * Field 0: LOWHENITA_KINDS_NONE where no letter fits, LOWHENITA_KINDS_SEVERAL where letters of several kinds fit; no other field is
 * written.
 * Refusals, in checking order: 1 to 6, 15, 16 (kinds_len is not I, or a kind is not below I), 8, 9 (received_len is not
 * before + 1 + after), 11 (result), 13.
 */
size_t lowhenita_window_kinds(const uint8_t *file, size_t file_len,
                              const uint8_t *kinds, size_t kinds_len,
                              size_t before, size_t after,
                              const uint8_t *received, size_t received_len,
                              uint8_t *result, size_t result_len);

/*
 * Fills the decoder table of a window: one byte for each window of before + 1 + after letters, at its index, whose highest digit to
 * base O is the window's first letter.
 * Field 0: the table's size, O to the power before + 1 + after, whatever the settle count.
 * Refusals, in checking order: 1 to 6, 15, 8, 14, 10 (more than LOWHENITA_MAX_TABLE_BYTES), 11 (table too short, or result).
 * Number 10 by cases: the longest window has any number of letters for O = 1; 16 for 2; 10 for 3; 8 for 4; 6 for 5 and 6; 5 for 7 to 9;
 * 4 for 10 to 16; 3 for 17 to 40; 2 for 41 to 64.
 */
size_t lowhenita_table(const uint8_t *file, size_t file_len,
                       size_t before, size_t after, size_t settle,
                       uint8_t *table, size_t table_len,
                       uint8_t *result, size_t result_len);

/*
 * Writes the coder file of N = `states`, I = `inputs`, O = `outputs` and `entries`: two bytes for each (next state, output letter), those
 * of state 0 first, in the order of the input letters. The file goes to the front of `file`; LOWHENITA_MAX_FILE_BYTES are enough for
 * any. It is the one file of these counts and entries: of any accepted file, bytes 3 to 5 and those from byte 6 on give that file.
 * Field 0: the number of bytes written, 6 + entries_len.
 * Refusals, in checking order: 4, 5 (entries_len is not 2 * states * inputs), 6, 15, 11 (file too short, or result).
 */
size_t lowhenita_write(size_t states, size_t inputs, size_t outputs,
                       const uint8_t *entries, size_t entries_len,
                       uint8_t *file, size_t file_len,
                       uint8_t *result, size_t result_len);

/*
 * Writes the coder file of two coders in a row, the joined coder: the output letters of the first are the input letters of the second. It
 * has N1 * N2 states, the I of the first and the O of the second; state s of the first with state t of the second is s * N2 + t. The file
 * goes to the front of `file`; LOWHENITA_MAX_FILE_BYTES are enough for any. Both files may be the same bytes.
 * The file is accepted by every call. From s * N2 + t, for any s and t, reachable or not, its run writes what the second, from t, makes of
 * what the first writes from s, and ends in e1 * N2 + e2 where they end in e1 and e2. If the windows b a and c d work for the two with
 * settle count 0, so does b + c with a + d for the joined coder. Others may work that are smaller, and some may where one of the two has
 * none. Sums above LOWHENITA_MAX_SIDE are windows that no call takes; the one that lowhenita_search reports is never above it.
 * Field 0: the number of bytes written, 6 + 2 * N1 * N2 * I.
 * Refusals, in checking order: 1 to 6 and 15 of `first`, then 1 to 6 and 15 of `second`, 17 (the O of the first is not the I of the second,
 * or N1 * N2 is above LOWHENITA_MAX_STATES), 11 (file too short, or result).
 */
size_t lowhenita_join(const uint8_t *first, size_t first_len,
                      const uint8_t *second, size_t second_len,
                      uint8_t *file, size_t file_len,
                      uint8_t *result, size_t result_len);

#ifdef __cplusplus
}
#endif

#endif
