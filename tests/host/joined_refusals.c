/* Joins that are refused: 17 on both sides of each of its edges, every number of the first file with every
   number of the second, with and without 17 and 11. What is wanted is known without the enumerator. */
#include "joined.h"

#include "calls.h"
#include "case_texts.h"

/* From C, and in a case by the library's own call, which has no result buffer; the first file is that of
   the cases. */
static void both(const arguments *a, size_t number)
{
    reply got = compare(a);

    known_value("the number returned", got.returned, number);
    if (number != 0)
        text_join_refused(a, number);
    else
        text_join(a, got.lent, 6 + 2u * a->file[3] * a->second[3] * a->file[4]);
}

/* ---- 17 ---- */

/* Counts of two coders that differ from each other wherever they need not be equal, and whether they fit:
   N, I, O of the first, of the second. */
typedef struct counts_row {
    size_t first[3], second[3], number;
} counts_row;

static const counts_row counts_rows[] = {
    /* The first's O is the second's I, and one less and one more. */
    {{2, 2, 3}, {3, 3, 5}, 0},
    {{2, 2, 4}, {3, 3, 5}, 17},
    {{2, 2, 2}, {3, 3, 5}, 17},
    /* O and O are the same, O and I are not. */
    {{2, 2, 3}, {3, 2, 3}, 17},
    {{2, 4, 3}, {3, 4, 3}, 17},
    {{2, 5, 3}, {3, 2, 3}, 17},
    /* I and I are the same, O and I are not; the first's I is the second's O. */
    {{2, 3, 4}, {3, 3, 5}, 17},
    {{2, 4, 3}, {3, 5, 4}, 17},
    /* O and O are not the same, nor I and I, but O and I are. */
    {{2, 4, 3}, {3, 3, 4}, 0},
    {{2, 16, 16}, {8, 16, 64}, 0},
    {{2, 16, 15}, {8, 16, 64}, 17},
    {{2, 16, 17}, {8, 16, 64}, 17},
    {{2, 16, 32}, {8, 16, 64}, 17},
    {{2, 1, 1}, {3, 1, 2}, 0},
    {{2, 1, 2}, {3, 1, 2}, 17},
    {{2, 1, 1}, {3, 2, 2}, 17},
    /* 16 states in each way; 18 and 20, with N and N together far below 16; 17 together. */
    {{1, 3, 2}, {16, 2, 5}, 0},
    {{2, 3, 4}, {8, 4, 5}, 0},
    {{4, 3, 2}, {4, 2, 5}, 0},
    {{8, 3, 4}, {2, 4, 5}, 0},
    {{16, 3, 4}, {1, 4, 3}, 0},
    {{3, 4, 2}, {5, 2, 3}, 0},
    {{5, 4, 2}, {3, 2, 3}, 0},
    {{2, 3, 2}, {9, 2, 5}, 17},
    {{9, 3, 2}, {2, 2, 3}, 17},
    {{3, 3, 2}, {6, 2, 5}, 17},
    {{6, 3, 2}, {3, 2, 5}, 17},
    {{5, 3, 2}, {4, 2, 5}, 17},
    {{4, 3, 2}, {5, 2, 5}, 17},
    {{8, 3, 2}, {8, 2, 5}, 17},
    {{16, 3, 2}, {2, 2, 3}, 17},
    {{2, 3, 2}, {16, 2, 5}, 17},
    /* 256 states, which are none in one byte. */
    {{16, 3, 2}, {16, 2, 5}, 17},
    /* Letters and states. */
    {{3, 3, 4}, {6, 5, 2}, 17},
    {{16, 3, 4}, {16, 5, 2}, 17}
};

static void known_counts(const counts_row *c)
{
    coder_file first, second;
    arguments a;

    make_in_turn(&first, c->first[0], c->first[1], c->first[2]);
    make_in_turn(&second, c->second[0], c->second[1], c->second[2]);
    a = join_of(&first, &second);
    text_file(first.bytes, first.len);
    both(&a, c->number);
    a.lent_len -= 1;
    both(&a, c->number == 0 ? 11 : 17);
    a.lent_len = 0;
    both(&a, c->number == 0 ? 11 : 17);
    a.result_len = 0;
    known_refusal(&a, c->number == 0 ? 11 : 17);
}

static void count_17(int letters, int states)
{
    if (letters && states)
        of_rows.letters_and_states++;
    else if (letters)
        of_rows.letters_alone++;
    else if (states)
        of_rows.states_alone++;
}

/* Every O of the first with every I of the second, O at times that of the second too. */
static void all_letters(size_t outputs, size_t inputs)
{
    coder_file first, second;
    arguments a;

    make_in_turn(&first, 4, 16, outputs);
    make_in_turn(&second, 3, inputs, outputs <= 3 * inputs ? outputs : 3 * inputs);
    a = join_of(&first, &second);
    known_refusal(&a, outputs == inputs ? 0 : 17);
    count_17(outputs != inputs, 0);
}

/* Every N of the first with every N of the second; with another letter besides. most: the largest N of
   the second, by that of the first. */
static void all_states(size_t one, size_t other)
{
    static const size_t most[MOST_STATES + 1] = {0, 16, 8, 5, 4, 3, 2, 2, 2, 1, 1, 1, 1, 1, 1, 1, 1};
    coder_file first, second;
    arguments a;

    make_in_turn(&first, one, 3, 2);
    make_in_turn(&second, other, 2, other < 5 ? other : 5);
    a = join_of(&first, &second);
    known_refusal(&a, other <= most[one] ? 0 : 17);
    count_17(0, other > most[one]);
    make_in_turn(&second, other, 3, 2);
    a = join_of(&first, &second);
    known_refusal(&a, 17);
    count_17(1, other > most[one]);
}

/* ---- numbers of two files ---- */

/* The place of a number among those of a file. */
static size_t place_of(size_t number)
{
    return number == 15 ? FILE_NUMBERS - 1 : number;
}

/* The file as it is, and with each fault. Returns its number. */
static size_t with_fault(const coder_file *f, size_t k, coder_file *g)
{
    *g = *f;
    return k == 0 ? 0 : make_faulty(f, k - 1, g);
}

/* Which of the two comes first, and after both 17; 11 last. */
static size_t first_of(size_t one, size_t other, size_t row_number, size_t buffer)
{
    const size_t numbers[4] = {one, other, row_number, buffer};
    size_t k;

    for (k = 0; k < 4; k++)
        if (numbers[k] != 0)
            return numbers[k];
    return 0;
}

/* With both buffers as long as they have to be, the file a byte too short, the result, and both empty. */
static void with_buffers(arguments a, size_t need, size_t one, size_t other, size_t row_number)
{
    a.lent_len = need;
    both(&a, first_of(one, other, row_number, 0));
    a.lent_len = need - 1;
    both(&a, first_of(one, other, row_number, 11));
    a.lent_len = need;
    a.result_len = RESULT_BYTES - 1;
    known_refusal(&a, first_of(one, other, row_number, 11));
    a.lent_len = a.result_len = 0;
    known_refusal(&a, first_of(one, other, row_number, 11));
    of_rows.short_buffers += 3;
    of_rows.pairs[place_of(one)][place_of(other)]++;
}

/* Each fault of the one with each of the other, none included. */
static void pairs_of_numbers(const coder_file *first, const coder_file *second, size_t row_number)
{
    size_t need = join_of(first, second).lent_len, j, k, one, other;
    coder_file f, g;

    for (j = 0; j <= FILE_FAULTS; j++) {
        one = with_fault(first, j, &f);
        text_file(f.bytes, f.len);
        for (k = 0; k <= FILE_FAULTS; k++) {
            other = with_fault(second, k, &g);
            with_buffers(join_of(&f, &g), need, one, other, row_number);
        }
    }
}

/* Two that fit; that have another number of letters between them, a letter less and a letter more, so
   that with a letter more in the first, which is 15, its O is the second's I; too many states; both. */
static void numbers_and_17(size_t states, size_t inputs, size_t outputs, size_t second_states)
{
    size_t too_many = MOST_STATES / states + 1;
    coder_file first, second;

    make_in_turn(&first, states, inputs, outputs);
    make_in_turn(&second, second_states, outputs, 5);
    pairs_of_numbers(&first, &second, 0);
    make_in_turn(&second, second_states, outputs - 1, 4);
    pairs_of_numbers(&first, &second, 17);
    make_in_turn(&second, second_states, outputs + 1, 5);
    pairs_of_numbers(&first, &second, 17);
    make_in_turn(&second, too_many, outputs, 5);
    pairs_of_numbers(&first, &second, 17);
    make_in_turn(&second, too_many, outputs + 1, 5);
    pairs_of_numbers(&first, &second, 17);
}

/* No byte at all, of the first file, of the second and of both, with all else as it has to be and with
   empty buffers. */
static void empty_files(void)
{
    static const uint8_t none[1];
    coder_file f;
    arguments a;
    size_t k;

    make_in_turn(&f, 3, 4, 4);
    for (k = 1; k < 8; k++) {
        a = join_of(&f, &f);
        if (k & 1) {
            a.file = none;
            a.file_len = 0;
        }
        if (k & 2) {
            a.second = none;
            a.second_len = 0;
        }
        if (k & 4)
            a.lent_len = a.result_len = 0;
        text_file(a.file, a.file_len);
        both(&a, k == 4 ? 11 : 1);
    }
}

void joined_refusals(void)
{
    size_t k, j;

    for (k = 0; k < sizeof counts_rows / sizeof *counts_rows; k++)
        known_counts(&counts_rows[k]);
    for (k = 1; k <= MOST_OUTPUTS; k++)
        for (j = 1; j <= MOST_INPUTS; j++)
            all_letters(k, j);
    for (k = 1; k <= MOST_STATES; k++)
        for (j = 1; j <= MOST_STATES; j++)
            all_states(k, j);
    numbers_and_17(2, 3, 4, 3);
    numbers_and_17(5, 2, 3, 2);
    empty_files();
}
