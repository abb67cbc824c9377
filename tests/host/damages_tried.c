/* The damage that is tried of one coded string: one letter altered, lost or added at each place; letters
   changed at random; letters lost at either end. */
#include "damaged_strings.h"

/* ---- letters ---- */

static uint8_t another_letter(const coded *s, uint8_t letter)
{
    size_t outputs = s->file->bytes[5];

    return (uint8_t)((letter + 1 + random_below(outputs - 1)) % outputs);
}

static uint8_t any_letter(const coded *s)
{
    return (uint8_t)random_below(s->file->bytes[5]);
}

/* The letters from one place up to another, kept or lost. */
static void keep_letters(damage *d, const coded *s, size_t from, size_t to)
{
    for (; from < to; from++)
        keep(d, s->letters[from]);
}

static void lose_letters(damage *d, const coded *s, size_t from, size_t to)
{
    for (; from < to; from++)
        lose(d, s->letters[from]);
}

static void add_letters(damage *d, const coded *s, size_t count)
{
    for (; count > 0; count--)
        add(d, any_letter(s));
}

/* ---- one letter at each place ---- */

/* A letter of the string altered or lost, or one added ahead of it. */
static void change_letter(damage *d, const coded *s, size_t place, enum change_kind kind)
{
    size_t rest = place;

    d->count = 0;
    keep_letters(d, s, 0, place);
    if (kind == ADDED)
        add(d, any_letter(s));
    else if (kind == LOST)
        lose(d, s->letters[rest++]);
    else {
        alter(d, s->letters[rest], another_letter(s, s->letters[rest]));
        rest++;
    }
    keep_letters(d, s, rest, s->n);
}

/* Windows that end ahead of that place are as they were, and so are those that begin after it. Which
   byte of the sent string a byte has to be. */
static size_t byte_beside(size_t byte, size_t letters, size_t place, enum change_kind kind)
{
    if (byte + letters <= place)
        return byte;
    if (kind == LOST)
        return byte >= place ? byte + 1 : (size_t)NO_BYTE;
    if (byte <= place)
        return NO_BYTE;
    return kind == ADDED ? byte - 1 : byte;
}

/* How many windows lie after the place, with the settle count's letters ahead of them. */
static size_t places_behind(const coded *s, size_t place, enum change_kind kind)
{
    size_t rest = s->n - place - (kind == LOST), needed = s->window.settle + window_letters(&s->window);

    return rest < needed ? 0 : rest + 1 - needed;
}

static void known_edges(const coded *s, const damage *d, size_t place, enum change_kind kind)
{
    static size_t from[MOST_STRING];
    static origins o;
    const window *w = &s->window;
    size_t k;

    list_origins(d, &o);
    places_kept(&o, w, from);
    for (k = 0; k < decoded_bytes(w, o.n); k++)
        known_value("the byte of the string that was sent", from[k],
                    byte_beside(k, window_letters(w), place, kind));
    if (kind != ALTERED)
        known_value("the places after the loss or addition", places_after_last(d, w, from),
                    places_behind(s, place, kind));
}

void one_letter(const coded *s, size_t every, enum change_kind kind)
{
    static damage d;
    size_t places = kind == ADDED ? s->n + 1 : s->n, place;

    if (kind == ALTERED && s->file->bytes[5] == 1)
        return;
    for (place = random_below(every); place < places; place += every) {
        change_letter(&d, s, place, kind);
        known_edges(s, &d, place, kind);
        try_damage(s, &d, random_below(64) == 0);
    }
}

void each_letter(const coded *s, size_t every)
{
    one_letter(s, every, ALTERED);
    one_letter(s, every, LOST);
    one_letter(s, every, ADDED);
}

/* ---- letters at random ---- */

/* Bit k - 1 of the ways stands for the kind of change k. */
enum { ALL_WAYS = 8 };

static enum change_kind random_kind(const coded *s, size_t ways)
{
    enum change_kind kind;

    do
        kind = (enum change_kind)(ALTERED + random_below(3));
    while (!(ways >> (kind - 1) & 1));
    return kind == ALTERED && s->file->bytes[5] == 1 ? KEPT : kind;
}

/* Returns how many letters of the string the change takes: one altered, up to three lost, none and up
   to five added. */
static size_t change_some(damage *d, const coded *s, size_t place, enum change_kind kind)
{
    size_t count = 1 + random_below(3);

    switch (kind) {
    case ALTERED:
        alter(d, s->letters[place], another_letter(s, s->letters[place]));
        return 1;
    case LOST:
        if (count > s->n - place)
            count = s->n - place;
        lose_letters(d, s, place, place + count);
        return count;
    case ADDED:
        add_letters(d, s, 1 + random_below(5));
        return 0;
    default:
        return 0;
    }
}

/* In these ways, on average at every so many-th letter. */
static void random_changes(damage *d, const coded *s, size_t ways, size_t every)
{
    size_t place = 0;

    d->count = 0;
    while (place < s->n)
        if (random_below(every) == 0)
            place += change_some(d, s, place, random_kind(s, ways));
        else
            keep(d, s->letters[place++]);
    if ((ways >> (ADDED - 1) & 1) && random_below(4) == 0)
        add_letters(d, s, 1 + random_below(5));
}

void try_ways(const coded *s, size_t every, size_t written)
{
    static damage d;
    size_t ways;

    for (ways = 1; ways < ALL_WAYS; ways++) {
        random_changes(&d, s, ways, every);
        try_damage(s, &d, ways == written);
    }
}

/* ---- at either end ---- */

void lose_ends(const coded *s, size_t front, size_t end, size_t added, size_t altered)
{
    static damage d;
    size_t k;

    d.count = 0;
    lose_letters(&d, s, 0, front);
    add_letters(&d, s, added);
    for (k = front; k < s->n - end; k++)
        if (altered > 0 && s->file->bytes[5] > 1 && random_below(altered) == 0)
            alter(&d, s->letters[k], another_letter(s, s->letters[k]));
        else
            keep(&d, s->letters[k]);
    lose_letters(&d, s, s->n - end, s->n);
    try_damage(s, &d, random_below(32) == 0);
}

void cut_to_window(const coded *s)
{
    size_t letters = window_letters(&s->window), left, front;

    for (left = letters - 1; left <= letters + 1; left++) {
        if (left > s->n)
            return;
        front = random_below(s->n - left + 1);
        lose_ends(s, front, s->n - left - front, 0, 0);
        lose_ends(s, s->n - left, 0, 0, 0);
        lose_ends(s, 0, s->n - left, 0, 0);
        lose_ends(s, s->n, 0, left, 0);
    }
}

void ends(const coded *s)
{
    size_t letters = window_letters(&s->window);

    lose_ends(s, s->n, 0, 0, 0);
    lose_ends(s, s->n, 0, letters + random_below(6), 0);
    lose_ends(s, random_below(s->n + 1), 0, random_below(letters + 2), 2 * letters);
    lose_ends(s, random_below(s->n / 2 + 1), random_below(s->n / 2 + 1), 0, 0);
    lose_ends(s, 0, 0, 1 + random_below(letters + 2), 0);
}
