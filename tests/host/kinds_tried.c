/* One coder with one kind list: the search for kinds and what follows from its verdict. The
   enumerator tries every window that comes before the one wanted; what is here does not rest on what
   it wants, but on the verdict that the library gave. */
#include "kinds_tried.h"

#include "calls.h"
#include "case_texts.h"

#include <string.h>

kinds_counts of_kinds;

void begin_coder(const coder_file *f)
{
    now.coders++;
    search(f, 0);
}

static arguments call_with(enum call call, const coder_file *f, const uint8_t *kinds)
{
    arguments a = plain(call, f);

    a.kinds = kinds;
    return a;
}

/* ---- the verdict ---- */

static kinds_verdict read_verdict(const uint8_t *result)
{
    kinds_verdict v = {get_field(result, 0) == 0, 0, 0, 0};

    if (v.told) {
        v.before = get_field(result, 1);
        v.after = get_field(result, 2);
        v.carried = get_field(result, 3);
    }
    return v;
}

/* Whether a window with a letter less on one side tells letters of different kinds apart. */
static int kinds_need_less(const coder *c, const uint8_t *kinds, const kinds_verdict *v)
{
    letter_pairs different = pairs_of_kinds(c, kinds, 0);

    return (v->before > 0 && window_tells(c, &different, v->before - 1, v->after))
        || (v->after > 0 && window_tells(c, &different, v->before, v->after - 1));
}

static void count_verdict(const coder *c, const uint8_t *kinds, const kinds_verdict *v)
{
    size_t letters = v->before + 1 + v->after;

    of_kinds.searches++;
    of_kinds.cannot += !v->told;
    if (!v->told || v->carried + 1 >= (size_t)1 << c->inputs || letters > MOST_WINDOW)
        return;
    of_kinds.not_carried++;
    of_kinds.longer += letters > 1;
    of_kinds.wider += (unsigned long)kinds_need_less(c, kinds, v);
    if (of_kinds.longest < letters)
        of_kinds.longest = letters;
}

/* Where letters have a window: whatever the kinds, that window, and every kind carried. */
static void same_as_letters(const coder *c, const kinds_verdict *v)
{
    if (!found->known || found->is_pair)
        return;
    known_value("whether kinds are told where letters are", (size_t)v->told, 1);
    known_value("before, as for letters", v->before, found->before);
    known_value("after, as for letters", v->after, found->after);
    known_value("the carried kinds where letters have a window", v->carried,
                ((size_t)1 << c->inputs) - 1);
}

/* ---- windows ---- */

/* No window up to the bound a side tells these letters apart. */
static void none_tells(const coder *c, const letter_pairs *pairs, const char *what)
{
    size_t side = side_bound(c), b, a;

    for (b = 0; b <= side; b++)
        for (a = 0; a <= side; a++, now.windows++)
            if (window_tells(c, pairs, b, a)) {
                differ("%s, but window %zu %zu tells them apart", what, b, a);
                return;
            }
}

/* Kinds that cannot be told, and kinds that are not carried: every window fails. */
static void try_every_window(const coder *c, const uint8_t *kinds, const kinds_verdict *v)
{
    letter_pairs pairs = pairs_of_kinds(c, kinds, 0);
    size_t kind;

    if (!v->told) {
        none_tells(c, &pairs, "kinds cannot be told");
        return;
    }
    for (kind = 0; kind < c->inputs; kind++)
        if (!(v->carried >> kind & 1)) {
            pairs = pairs_within(c, kinds, kind);
            none_tells(c, &pairs, "a kind is not carried");
        }
}

/* The window reported tells the kind always and the letter in every carried kind, by following pairs
   of runs too; with a letter before less it does not. */
static void try_reported(const coder *c, const uint8_t *kinds, const kinds_verdict *v)
{
    letter_pairs pairs = pairs_of_kinds(c, kinds, v->carried);

    if (!v->told || v->before > side_bound(c) || v->after > side_bound(c))
        return;
    now.windows++;
    known_value("whether the window reported tells them apart",
                (size_t)tells_by_following(c, &pairs, v->before, v->after), 1);
    if (v->before > 0)
        known_value("whether one with a letter before less does",
                    (size_t)window_tells(c, &pairs, v->before - 1, v->after), 0);
}

/* ---- decoding ---- */

static void count_answer(const reply *got)
{
    size_t answer = got->returned == 0 ? get_field(got->result, 0) : KINDS_ANSWERS;

    if (answer < KINDS_ANSWERS)
        of_kinds.answers[answer]++;
}

/* A run from a reachable state, decoded with the window reported: at each place the letter, or the
   kind where it is not carried. */
static void round_trip_of_kinds(const coder *c, const coder_file *f, const uint8_t *kinds,
                                const kinds_verdict *v)
{
    static uint8_t input[MOST_WINDOW + 8], sent[MOST_WINDOW + 8];
    arguments a = call_with(CALL_WINDOW_KINDS, f, kinds);
    size_t places = 1 + random_below(6), n, k;

    if (!v->told || v->before > MOST_SIDE || v->after > MOST_SIDE)
        return;
    a.before = v->before;
    a.after = v->after;
    a.bytes_len = a.before + 1 + a.after;
    n = a.bytes_len - 1 + places;
    random_letters(n, c->inputs);
    memcpy(input, letters_room, n);
    follow_run(c, c->reachable.state[random_below(c->reachable.count)], input, n, sent);
    for (k = 0; k < places; k++) {
        size_t letter = input[a.before + k], answer, number;
        reply got;

        a.bytes = sent + k;
        got = compare(&a);
        if (got.returned != 0)
            continue; /* a long enumeration, or a difference and counted as one */
        count_answer(&got);
        answer = get_field(got.result, 0);
        number = get_field(got.result, 1);
        if (answer == KINDS_LETTER)
            known_value("the letter sent", number, letter);
        else if (answer != KINDS_KIND || v->carried >> kinds[letter] & 1)
            differ("letter %zu of kind %u was sent, carried kinds %zu, and the answer is %zu",
                   letter, kinds[letter], v->carried, answer);
        else
            known_value("the kind of the letter sent", number, kinds[letter]);
    }
}

static void random_windows(const coder_file *f, const uint8_t *kinds, size_t count)
{
    for (; count > 0; count--) {
        arguments a = random_arguments(CALL_WINDOW_KINDS, f);
        reply got;

        a.kinds = kinds;
        got = compare(&a);
        count_answer(&got);
    }
}

/* ---- all of it ---- */

kinds_verdict try_kinds(const coder_file *f, const uint8_t *kinds, int windows)
{
    coder c = coder_of_file(f->bytes);
    arguments a = call_with(CALL_SEARCH_KINDS, f, kinds);
    reply got = compare(&a);
    kinds_verdict v = read_verdict(got.result);

    if (got.returned != 0)
        return v;
    count_verdict(&c, kinds, &v);
    same_as_letters(&c, &v);
    try_reported(&c, kinds, &v);
    if (windows == ALL_WINDOWS)
        try_every_window(&c, kinds, &v);
    round_trip_of_kinds(&c, f, kinds, &v);
    random_windows(f, kinds, 2);
    return v;
}

void known_kinds(const coder_file *f, const uint8_t *kinds, const kinds_verdict *known)
{
    arguments a = call_with(CALL_SEARCH_KINDS, f, kinds);
    kinds_verdict v = try_kinds(f, kinds, ALL_WINDOWS);

    text_call(&a);
    known_value("whether kinds are told", (size_t)v.told, (size_t)known->told);
    if (!known->told)
        return;
    known_value("the window's before", v.before, known->before);
    known_value("the window's after", v.after, known->after);
    known_value("the carried kinds", v.carried, known->carried);
}

void known_answer(const coder_file *f, const uint8_t *kinds, size_t before, size_t after,
                  const uint8_t *received, size_t answer, size_t number)
{
    arguments a = call_with(CALL_WINDOW_KINDS, f, kinds);
    reply got;

    a.before = before;
    a.after = after;
    a.bytes = received;
    a.bytes_len = before + 1 + after;
    got = compare(&a);
    known_value("the answer of the window", get_field(got.result, 0), answer);
    if (answer == KINDS_LETTER || answer == KINDS_KIND)
        known_value("the letter or kind of the window", get_field(got.result, 1), number);
    text_call(&a);
}

void compare_ways_to_tell(const coder_file *f, size_t most)
{
    coder c = coder_of_file(f->bytes);
    letter_pairs confused[MOST_GROUPED], one;
    size_t n, b, i, j;

    for (n = 1; n <= most && confused_by_groups(&c, n, confused); n++)
        for (b = 0; b < n; b++)
            for (i = 0; i < c.inputs; i++)
                for (j = 0; j < i; j++) {
                    memset(&one, 0, sizeof one);
                    one.with[i] = (uint16_t)(1u << j);
                    one.with[j] = (uint16_t)(1u << i);
                    known_value("whether a window tells two letters apart, by pairs of runs",
                                (size_t)tells_by_following(&c, &one, b, n - 1 - b),
                                !(confused[b].with[i] >> j & 1));
                }
}
