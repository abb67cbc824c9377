/* Lists of changes, their two strings, and which places have to decode alike. */
#include "damage.h"

#include "compare.h"

/* ---- lists ---- */

static void put_change(damage *d, enum change_kind kind, uint8_t sent, uint8_t received)
{
    const change c = {kind, sent, received};

    if (d->count == MOST_STRING)
        differ("more than %d changes in a string", MOST_STRING);
    else
        d->list[d->count++] = c;
}

void keep(damage *d, uint8_t letter)
{
    put_change(d, KEPT, letter, letter);
}

void alter(damage *d, uint8_t letter, uint8_t to)
{
    if (letter == to)
        differ("letter %u is altered to itself", letter);
    put_change(d, ALTERED, letter, to);
}

void lose(damage *d, uint8_t letter)
{
    put_change(d, LOST, letter, 0);
}

void add(damage *d, uint8_t letter)
{
    put_change(d, ADDED, 0, letter);
}

size_t changes_of(const damage *d, enum change_kind kind)
{
    size_t count = 0, i;

    for (i = 0; i < d->count; i++)
        count += d->list[i].kind == kind;
    return count;
}

size_t sent_letters(const damage *d, uint8_t *letters)
{
    size_t n = 0, i;

    for (i = 0; i < d->count; i++)
        if (d->list[i].kind != ADDED)
            letters[n++] = d->list[i].sent;
    return n;
}

size_t received_letters(const damage *d, uint8_t *letters)
{
    size_t n = 0, i;

    for (i = 0; i < d->count; i++)
        if (d->list[i].kind != LOST)
            letters[n++] = d->list[i].received;
    return n;
}

/* ---- windows ---- */

size_t window_letters(const window *w)
{
    return w->before + 1 + w->after;
}

size_t decoded_bytes(const window *w, size_t n)
{
    return n < window_letters(w) ? 0 : n + 1 - window_letters(w);
}

static void say_nothing(size_t from[MOST_STRING])
{
    size_t k;

    for (k = 0; k < MOST_STRING; k++)
        from[k] = NO_BYTE;
}

/* ---- the two sentences ---- */

static int all_kept(const damage *d, size_t first, size_t changes)
{
    size_t i;

    for (i = first; i < first + changes; i++)
        if (d->list[i].kind != KEPT)
            return 0;
    return 1;
}

/* With letters kept and altered alone, change k is letter k of both strings. */
size_t places_unaltered(const damage *d, const window *w, size_t from[MOST_STRING])
{
    size_t letters = window_letters(w), count = 0, k;

    say_nothing(from);
    for (k = 0; k + letters <= d->count; k++)
        if (all_kept(d, k, letters)) {
            from[k] = k;
            count++;
        }
    return count;
}

size_t shifts(const damage *d, size_t from, size_t to)
{
    size_t count = 0, i;

    for (i = from; i < to; i++)
        count += d->list[i].kind == LOST || d->list[i].kind == ADDED;
    return count;
}

/* The changes after the last loss or addition. */
static size_t changes_after_last(const damage *d)
{
    size_t rest = 0;

    while (rest < d->count && shifts(d, d->count - 1 - rest, d->count - rest) == 0)
        rest++;
    return rest;
}

/* These changes are the last letters of both strings, as many of each. */
size_t places_after_last(const damage *d, const window *w, size_t from[MOST_STRING])
{
    size_t letters = window_letters(w), rest = changes_after_last(d), first = d->count - rest;
    size_t sent = d->count - changes_of(d, ADDED) - rest;
    size_t received = d->count - changes_of(d, LOST) - rest;
    size_t count = 0, k;

    say_nothing(from);
    for (k = w->settle; k + letters <= rest; k++)
        if (all_kept(d, first + k - w->settle, w->settle + letters)) {
            from[received + k] = sent + k;
            count++;
        }
    return count;
}

/* ---- where a received letter comes from ---- */

void list_origins(const damage *d, origins *o)
{
    size_t place = 0, i;

    o->n = 0;
    for (i = 0; i < d->count; i++) {
        enum change_kind kind = d->list[i].kind;

        if (kind != LOST) {
            o->of[o->n].change = i;
            o->of[o->n].place = kind == ADDED ? NO_BYTE : place;
            o->of[o->n].kept = kind == KEPT;
            o->n++;
        }
        place += kind != ADDED;
    }
}

int kept_together(const origins *o, size_t place, size_t letters)
{
    size_t i;

    for (i = 0; i < letters; i++)
        if (!o->of[place + i].kept || o->of[place + i].place != o->of[place].place + i)
            return 0;
    return 1;
}

size_t places_kept(const origins *o, const window *w, size_t from[MOST_STRING])
{
    size_t count = 0, k;

    say_nothing(from);
    for (k = 0; k < decoded_bytes(w, o->n); k++)
        if (kept_together(o, k, window_letters(w))) {
            from[k] = o->of[k].place;
            count++;
        }
    return count;
}

size_t byte_of_letter(const origins *o, const window *w, size_t sent, size_t byte)
{
    size_t place = o->of[byte + w->before].place;

    if (place == NO_BYTE || place < w->before || place - w->before >= sent)
        return NO_BYTE;
    return place - w->before;
}
