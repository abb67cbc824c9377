/* Coders whose verdicts on kinds and whose answers are known beforehand, with the reason. */
#include "case_texts.h"
#include "kinds_tried.h"

#include <string.h>

/* Lists of two letters. Coders C and E have no window for letters: with one kind for both letters
   there is nothing to tell, and that kind is not carried; with two kinds they cannot be told. */
static void known_example(const example *e)
{
    static const uint8_t lists[4][2] = {{0, 0}, {1, 1}, {0, 1}, {1, 0}};
    static const kinds_verdict without[4] = {{1, 0, 0, 2}, {1, 0, 0, 1}, {0, 0, 0, 0},
                                             {0, 0, 0, 0}};
    const kinds_verdict with = {1, e->before, e->after, 3};
    size_t k;

    begin_coder(&e->file);
    text_file(e->file.bytes, e->file.len);
    for (k = 0; k < 4; k++)
        known_kinds(&e->file, lists[k], e->pair ? &without[k] : &with);
}

/* Running parity with two letters more that have equal entries: the letters 0 and 1 are told by a
   letter before, 2 and 3 by no window, and the two from the others by the present one. */
static void parity_with_filler(void)
{
    static const uint8_t entries[16] = {0, 0, 1, 1, 0, 2, 0, 2, 1, 1, 0, 0, 0, 2, 0, 2};
    static const struct {
        uint8_t kinds[4];
        kinds_verdict known;
    } rows[] = {
        {{0, 0, 1, 1}, {1, 1, 0, 13}}, {{2, 2, 0, 0}, {1, 1, 0, 14}}, {{0, 0, 0, 0}, {1, 0, 0, 14}},
        {{3, 3, 3, 3}, {1, 0, 0, 7}},  {{0, 1, 2, 2}, {1, 1, 0, 11}}, {{1, 0, 3, 3}, {1, 1, 0, 7}},
        {{0, 1, 2, 3}, {0, 0, 0, 0}},  {{0, 0, 1, 2}, {0, 0, 0, 0}},  {{3, 3, 3, 0}, {0, 0, 0, 0}}
    };
    static const uint8_t received[2][2] = {{1, 0}, {0, 2}};
    coder_file f;
    size_t k;

    begin_file(&f, 2, 4, 3);
    memcpy(f.bytes + 6, entries, sizeof entries);
    begin_coder(&f);
    text_file(f.bytes, f.len);
    for (k = 0; k < sizeof rows / sizeof *rows; k++)
        known_kinds(&f, rows[k].kinds, &rows[k].known);
    known_answer(&f, rows[0].kinds, 1, 0, received[0], KINDS_LETTER, 1);
    known_answer(&f, rows[0].kinds, 1, 0, received[1], KINDS_KIND, 1);
    known_answer(&f, rows[1].kinds, 1, 0, received[1], KINDS_KIND, 0);
    known_answer(&f, rows[0].kinds, 0, 0, received[0] + 1, KINDS_KIND, 0);
    known_answer(&f, rows[1].kinds, 0, 0, received[0] + 1, KINDS_KIND, 2);
    known_answer(&f, rows[4].kinds, 0, 0, received[0] + 1, KINDS_SEVERAL, 0);
    known_answer(&f, rows[6].kinds, 0, 0, received[1] + 1, KINDS_SEVERAL, 0);
    known_answer(&f, rows[2].kinds, 1, 0, received[0], KINDS_LETTER, 1);
}

/* State p + 2 d. Letters 0 and 1 add to p, letters 2 and 3 set d, letters 4 and 5 do nothing; the
   output says which of the three it was, p after it and d before it. So 0 and 1 are told by a letter
   before, 2 and 3 by a letter after, 4 and 5 by no window. */
static void make_three_sorts(coder_file *f)
{
    size_t s, i;

    begin_file(f, 4, 6, 12);
    for (s = 0; s < 4; s++)
        for (i = 0; i < 6; i++) {
            size_t p = i < 2 ? (s + i) % 2 : s % 2, d = s / 2;

            f->bytes[6 + 2 * (6 * s + i)] = (uint8_t)(p + 2 * (i / 2 == 1 ? i - 2 : d));
            f->bytes[7 + 2 * (6 * s + i)] = (uint8_t)(4 * (i / 2) + p + 2 * d);
        }
}

static void three_sorts(void)
{
    static const struct {
        uint8_t kinds[6];
        kinds_verdict known;
    } rows[] = {
        {{4, 4, 1, 1, 0, 0}, {1, 1, 1, 62}}, {{4, 4, 1, 1, 1, 1}, {1, 1, 0, 61}},
        {{1, 1, 1, 1, 1, 1}, {1, 0, 0, 61}}, {{0, 0, 2, 3, 5, 5}, {1, 1, 1, 31}},
        {{0, 0, 0, 0, 3, 3}, {1, 1, 1, 55}}, {{2, 2, 5, 4, 2, 2}, {1, 0, 1, 59}},
        {{3, 0, 5, 5, 5, 5}, {1, 1, 0, 31}}, {{5, 5, 5, 5, 5, 1}, {0, 0, 0, 0}},
        {{0, 1, 2, 3, 4, 5}, {0, 0, 0, 0}}
    };
    static const uint8_t received[2] = {0, 1};
    coder_file f;
    size_t k;

    make_three_sorts(&f);
    begin_coder(&f);
    text_file(f.bytes, f.len);
    for (k = 0; k < sizeof rows / sizeof *rows; k++)
        known_kinds(&f, rows[k].kinds, &rows[k].known);
    known_answer(&f, rows[2].kinds, 1, 0, received, KINDS_LETTER, 1);
    known_answer(&f, rows[2].kinds, 0, 1, received, KINDS_KIND, 1);
    known_answer(&f, rows[6].kinds, 0, 1, received, KINDS_SEVERAL, 0);
}

/* Coder G: with window 0 1 the letters 1 2 fit none; with window 0 0 both letters fit 0. */
static void answers_of_g(void)
{
    static const uint8_t received[3][2] = {{0, 0}, {0, 2}, {1, 2}}, lists[2][2] = {{1, 1}, {1, 0}};
    example e;
    size_t k;

    make_example(6, &e);
    text_file(e.file.bytes, e.file.len);
    for (k = 0; k < 2; k++) {
        known_answer(&e.file, lists[k], 0, 1, received[0], KINDS_LETTER, 0);
        known_answer(&e.file, lists[k], 0, 1, received[1], KINDS_LETTER, 1);
        known_answer(&e.file, lists[k], 0, 1, received[2], KINDS_NONE, 0);
        known_answer(&e.file, lists[k], 0, 0, received[0], k ? KINDS_SEVERAL : KINDS_KIND, 1);
    }
}

void known_coders_of_kinds(void)
{
    example e;
    size_t k;

    for (k = 0; k < EXAMPLES; k++) {
        make_example(k, &e);
        known_example(&e);
    }
    parity_with_filler();
    three_sorts();
    answers_of_g();
}
