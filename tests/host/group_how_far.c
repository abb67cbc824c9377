/* How far a window was possible (document 02, 9/13): coders of which it is known; all letters on all
   small coders; on random coders letters of runs with one of them altered, with a letter that no run
   has, and all of them alike. */
#include "calls.h"
#include "case_texts.h"
#include "groups.h"
#include "how_far.h"

#include <stdio.h>
#include <string.h>

/* ---- small coders ---- */

/* All letters up to so many, with the settle counts 0, 1 and 2; cases of one of the three. */
static void all_letters(const coder_file *f, size_t most, size_t written)
{
    received r = {f, 0, 0, letters_room};
    size_t outputs = f->bytes[5], k;

    now.coders++;
    text_file(f->bytes, f->len);
    for (r.settle = 0; r.settle < 3; r.settle++)
        for (r.n = 1; r.n <= most; r.n++)
            for (k = 0; k < power(outputs, r.n); k++) {
                put_digits(letters_room, r.n, outputs, k);
                try_how_far(&r, 0, EACH_PLACE);
                if (r.settle == written)
                    case_of(&r);
            }
}

static void all_small(size_t states, size_t inputs, size_t outputs, size_t step, size_t most)
{
    coder_file f;
    size_t k;

    for (k = 0; k < coders_with(states, inputs, outputs); k += step) {
        make_numbered(&f, states, inputs, outputs, k);
        all_letters(&f, most, k / step % 3);
    }
}

/* ---- random coders ---- */

/* Mostly few letters, at times up to so many. */
static size_t random_length(size_t most)
{
    return 1 + random_below(random_below(16) ? 12 : most);
}

/* What a run has sent: as it is; with one letter altered, so that at least the letters before that
   place are possible. */
static void sent_and_altered(const coder_file *f)
{
    received r = {f, random_settle(), random_length(40), letters_room};
    size_t outputs = f->bytes[5], k = random_below(r.n);

    send_letters(f, r.settle, r.n, letters_room);
    try_how_far(&r, r.n, TWO_PLACES);
    if (outputs == 1)
        return;
    letters_room[k] = (uint8_t)((letters_room[k] + 1 + random_below(outputs - 1)) % outputs);
    if (try_how_far(&r, k, TWO_PLACES) <= r.n && r.n <= 8)
        case_of(&r);
}

/* The same letter throughout. */
static void all_alike(const coder_file *f)
{
    received r = {f, random_settle(), random_length(40), letters_room};

    memset(letters_room, (int)random_below(f->bytes[5]), r.n);
    try_how_far(&r, 0, TWO_PLACES);
}

/* What a run has sent, with a letter that no run has: just the letters before that place are possible.
   The enumerator is asked where there are not many. */
static void with_spare_letter(const coder_file *base)
{
    coder_file f;
    received r = {&f, random_settle(), random_length(MOST_WINDOW), letters_room};
    size_t k = random_below(r.n);

    make_with_spare_letter(&f, base);
    send_letters(&f, r.settle, r.n, letters_room);
    letters_room[k] = (uint8_t)(f.bytes[5] - 1);
    known_none(&r, k);
    if (r.n <= 12)
        try_how_far(&r, k, TWO_PLACES);
}

/* Letters of a run that is at the first of them in any reachable state, one of them drawn anew: with a
   larger settle count no more of them are possible, and with 64 as many as with 15. */
static void growing_settles(const coder_file *f)
{
    static const size_t settles[5] = {0, 1, 3, 15, MOST_SETTLE};
    received r = {f, 0, 1 + random_below(12), letters_room};
    size_t possible, earlier = r.n, k;

    send_letters(f, 0, r.n, letters_room);
    letters_room[random_below(r.n)] = (uint8_t)random_below(f->bytes[5]);
    for (k = 0; k < 5; k++, earlier = possible) {
        r.settle = settles[k];
        possible = try_how_far(&r, 0, TWO_PLACES);
        if (possible > r.n)
            return; /* a long enumeration, or a difference and counted as one */
        if (possible > earlier || (k == 4 && possible < earlier))
            differ("%zu letters possible, and %zu with settle count %zu", possible, earlier,
                   settles[k - 1]);
        of_how_far.settles += k > 0 && possible != earlier;
    }
}

/* A random coder behind a line of states, or alone: with the line, settle counts change the start
   states. At most 15 states and 63 output letters in all. */
static void random_coder(size_t states, size_t inputs, size_t outputs)
{
    coder_file f, end;
    size_t k;

    now.coders++;
    make_random(&end, states, inputs, outputs);
    make_constant_line(&f, random_below(2) * random_below(16 - states), &end);
    text_file(f.bytes, f.len);
    for (k = 0; k < 4; k++) {
        sent_and_altered(&f);
        with_spare_letter(&f);
    }
    all_alike(&f);
    growing_settles(&f);
}

/* ---- the group ---- */

static void print_counts(void)
{
    static const char *const names[STOPS] = {"0", "below b", "b", "above b", "b + a"};
    size_t k;

    show_call(NULL);
    printf("windows that no run gives, by the number of possible letters:");
    for (k = 0; k < STOPS; k++)
        printf("%s %s %lu", k ? "," : "", names[k], of_how_far.stops[k]);
    printf(" (up to %lu letters); windows that some run gives: letter %lu, several %lu; fewer letters "
           "possible with a larger settle count %lu\n", of_how_far.most, of_how_far.letter,
           of_how_far.several, of_how_far.settles);
    for (k = 0; k < STOPS; k++)
        if (of_how_far.stops[k] == 0)
            differ("no window had the count %s", names[k]);
    if (of_how_far.letter == 0 || of_how_far.several == 0 || of_how_far.settles == 0)
        differ("no window had a letter, or none several, or none another count with a larger settle "
               "count");
}

void group_how_far(void)
{
    size_t k;

    begin_group("how far a window was possible");
    try_verdicts(0, 0, 0, 0);
    known_coders_of_how_far();
    for (k = 0; k < 8; k++)
        all_small(1 + k / 4, 1 + k / 2 % 2, 1 + k % 2, 1, 4);
    all_small(3, 1, 3, 5, 3);
    all_small(2, 2, 3, 7, 3);
    all_small(3, 2, 2, 127, 4);
    for (k = 0; k < 2000; k++)
        random_coder(1 + random_below(6), 1 + random_below(4), 1 + random_below(8));
    for (k = 0; k < 300; k++)
        random_coder(1 + random_below(14), 1 + random_below(16), 1 + random_below(60));
    print_counts();
    end_group();
}
