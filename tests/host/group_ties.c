/* Ties: random coders that have several valid pairs with the fewest letters. For each the
   enumerator tries all pairs with as many letters, and marks the places of the comparison at which
   another valid pair first differs from the first one: there a tie is decided.

   At three places none is. A back loop: with s and t given, a longer one makes more letters in all.
   A forward loop: it has the letters that the other lengths leave. The second run's letter in the
   lead-in: two different letters there would be the differing letter of a pair with a shorter
   lead-in, so the two letters are equal in the first pair and in any other with its lengths. */
#include "calls.h"
#include "groups.h"

#include <stdio.h>
#include <string.h>

/* s, t and the four lengths; then the parts of the first run's letters, then of the second's. */
enum { FIELDS = 6, PARTS = 5, PLACES = FIELDS + 2 * PARTS };

static const struct {
    const char *name;
    int decides;
} places[PLACES] = {
    {"s", 1}, {"t", 1}, {"back loop", 0}, {"lead-in", 1}, {"lead-out", 1}, {"forward loop", 0},
    {"the first run's letters in the back loop", 1}, {"lead-in", 1}, {"differing letter", 1},
    {"lead-out", 1}, {"forward loop", 1},
    {"the second run's letters in the back loop", 1}, {"lead-in", 0}, {"differing letter", 1},
    {"lead-out", 1}, {"forward loop", 1}
};

typedef struct ties {
    const pair *first;
    uint8_t at[PLACES];
} ties;

static void list_numbers(const pair *p, size_t numbers[FIELDS])
{
    numbers[0] = p->s;
    numbers[1] = p->t;
    numbers[2] = p->back_loop;
    numbers[3] = p->lead_in;
    numbers[4] = p->lead_out;
    numbers[5] = p->forward_loop;
}

/* The part in which letter k lies. */
static size_t part_of(const pair *p, size_t k)
{
    const size_t lengths[PARTS] = {p->back_loop, p->lead_in, 1, p->lead_out, p->forward_loop};
    size_t part = 0;

    while (k >= lengths[part])
        k -= lengths[part++];
    return part;
}

/* The place at which two pairs with as many letters first differ; PLACES where they are equal. */
static size_t first_difference(const pair *one, const pair *other)
{
    size_t a[FIELDS], b[FIELDS], k;

    list_numbers(one, a);
    list_numbers(other, b);
    for (k = 0; k < FIELDS; k++)
        if (a[k] != b[k])
            return k;
    for (k = 0; k < 2 * pair_letters(one); k++)
        if (one->letters[k] != other->letters[k])
            return FIELDS + PARTS * (k % 2) + part_of(one, k / 2);
    return PLACES;
}

/* Marks, and takes none: all pairs are tried. */
static int mark_tie(const pair *p, void *to)
{
    ties *marked = to;
    size_t place = first_difference(marked->first, p);

    if (place < PLACES)
        marked->at[place] = 1;
    return 0;
}

/* Adds the places at which the ties of a coder are decided. Returns whether all pairs were tried. */
static int count_ties(const coder_file *f, unsigned long decided[PLACES])
{
    coder c = coder_of_file(f->bytes);
    const first_pair *first = first_pair_of(&c);
    ties marked = {NULL, {0}};
    size_t k;

    if (first->exists != YES)
        return 1;
    marked.first = &first->pair;
    allow_steps(FIRST_STEPS);
    each_valid_pair(&c, pair_letters(&first->pair), mark_tie, &marked);
    for (k = 0; k < PLACES; k++)
        decided[k] += marked.at[k];
    return !steps_used_up();
}

/* Prints how many coders had a tie decided at each place. Each place that can decide has some. */
static void judge_ties(const unsigned long decided[PLACES], unsigned long unfinished)
{
    size_t k;

    show_call(NULL);
    printf("coders with a tie decided at");
    for (k = 0; k < PLACES; k++)
        printf("%s %s %lu", k ? "," : "", places[k].name, decided[k]);
    printf("; %lu coders not tried to the end\n", unfinished);
    for (k = 0; k < PLACES; k++)
        if ((decided[k] > 0) != places[k].decides)
            differ("%lu coders with a tie decided at %s", decided[k], places[k].name);
}

void group_ties(void)
{
    unsigned long decided[PLACES] = {0}, unfinished = 0;
    coder_file f;
    size_t k;

    begin_group("random coders with N from 3 to 5, I and O 2 or 3, and their ties");
    try_verdicts(0, 0, 0, FIRST_STEPS);
    for (k = 0; k < 12000; k++) {
        make_random(&f, 3 + random_below(3), 2 + random_below(2), 2 + random_below(2));
        search(&f, random_settle());
        unfinished += !count_ties(&f, decided);
    }
    judge_ties(decided, unfinished);
    end_group();
}
