/* A coded string and what its damage leaves of it: both calls, and the bytes that are the same. */
#include "damaged_strings.h"

#include "calls.h"
#include "case_texts.h"

#include <string.h>

enum { MOST_WRITTEN = 40 };

damage_counts of_damage;

/* ---- calls ---- */

arguments string_call(const coded *s, const uint8_t *letters, size_t n)
{
    arguments a = plain(CALL_DECODE, s->file);

    a.before = s->window.before;
    a.after = s->window.after;
    a.settle = s->window.settle;
    a.bytes = letters;
    a.bytes_len = n;
    a.lent_len = decoded_bytes(&s->window, n) + random_below(3);
    a.result_len += random_below(3) ? 0 : random_below(65);
    return a;
}

/* Decodes the letters as the enumerator says. Returns how many bytes there are, NO_BYTE where the
   enumeration was too long. */
static size_t decode(const coded *s, const uint8_t *letters, size_t n, uint8_t *bytes)
{
    arguments a = string_call(s, letters, n);
    reply got = compare(&a);
    size_t count;

    if (got.returned != 0)
        return NO_BYTE;
    count = get_field(got.result, 0);
    if (count > a.lent_len)
        return NO_BYTE; /* a difference, and counted as one */
    memcpy(bytes, got.lent, count);
    return count;
}

static void run_letters(coded *s)
{
    coder c = coder_of_file(s->file->bytes);
    arguments a = plain(CALL_RUN, s->file);
    reply got;

    a.start = c.reachable.state[random_below(c.reachable.count)];
    random_letters(s->n, c.inputs);
    memcpy(s->input, letters_room, s->n);
    a.bytes_len = a.lent_len = s->n;
    got = compare(&a);
    memcpy(s->letters, got.lent, s->n);
}

int send_string(coded *s, const coder_file *f, const window *w, int works, size_t n)
{
    s->file = f;
    s->window = *w;
    s->works = works;
    s->n = n;
    run_letters(s);
    s->count = decode(s, s->letters, n, s->bytes);
    return s->count != NO_BYTE;
}

/* ---- what both strings have in common ---- */

static int shifted(const damage *d)
{
    return shifts(d, 0, d->count) > 0;
}

static void same_bytes(const char *by, const coded *s, const uint8_t *bytes, const size_t *from,
                       size_t count)
{
    size_t k;

    for (k = 0; k < count; k++)
        if (from[k] != NO_BYTE) {
            now.comparisons++;
            if (from[k] >= s->count || bytes[k] != s->bytes[from[k]])
                differ("%s: byte %zu is %u, and byte %zu of the sent string is %u", by, k, bytes[k],
                       from[k], s->bytes[from[k]]);
        }
}

/* Every place of a sentence is one whose window was kept; without a loss or addition they are the
   same. */
static void among_kept(const damage *d, const size_t *from, const size_t *kept)
{
    size_t k;

    for (k = 0; k < MOST_STRING; k++)
        if (from[k] != kept[k] && (from[k] != NO_BYTE || !shifted(d)))
            differ("byte %zu is to be byte %zu by a sentence, and %zu by its window", k, from[k],
                   kept[k]);
}

/* With a window that works and settle count p, byte p and those after it are input letters. */
static void letters_back(const coded *s, const uint8_t *bytes, const size_t *from, size_t count)
{
    size_t k;

    for (k = 0; k < count; k++)
        if (s->works && from[k] != NO_BYTE && from[k] >= s->window.settle) {
            known_value("the letter that went in", bytes[k], s->input[from[k] + s->window.before]);
            of_damage.came_back++;
        }
}

/* ---- counts ---- */

/* A place that is the same by its kept window and by no sentence. */
static void count_kept_alone(const damage *d, size_t first, size_t letters)
{
    if (shifts(d, first, d->count) == 0)
        of_damage.not_settled++;
    else if (shifts(d, 0, first + letters) == 0)
        of_damage.ahead++;
    else
        of_damage.between++;
}

static void count_same(const coded *s, const damage *d, const origins *o, const size_t *from,
                       const size_t *kept, size_t count)
{
    size_t settle = s->window.settle, k;

    for (k = 0; k < count; k++)
        if (from[k] != NO_BYTE && shifted(d))
            of_damage.after_last[settle == 0 ? 0 : settle <= 15 ? 1 : 2]++;
        else if (from[k] != NO_BYTE)
            of_damage.unaltered++;
        else if (kept[k] != NO_BYTE)
            count_kept_alone(d, o->of[k].change, window_letters(&s->window));
}

/* The byte of a place whose window holds damage, and the byte of the same letter in the sent string. */
static void count_damaged(const coded *s, const origins *o, int shift, size_t k, uint8_t byte,
                          size_t sent)
{
    size_t letters = window_letters(&s->window);

    of_damage.none += byte == BYTE_NONE && s->bytes[sent] != BYTE_NONE;
    if (byte == s->bytes[sent]) {
        of_damage.same++;
        return;
    }
    of_damage.other++;
    of_damage.but_first[shift] += letters > 1 && kept_together(o, k + 1, letters - 1);
    of_damage.but_last[shift] += letters > 1 && kept_together(o, k, letters - 1);
    of_damage.wrong += s->works && sent >= s->window.settle && byte < BYTE_NONE;
}

static void count_with_damage(const coded *s, const origins *o, int shift, const uint8_t *bytes,
                              const size_t *kept, size_t count)
{
    size_t k, sent;

    for (k = 0; k < count; k++) {
        sent = byte_of_letter(o, &s->window, s->count, k);
        if (kept[k] == NO_BYTE && sent != NO_BYTE)
            count_damaged(s, o, shift, k, bytes[k], sent);
    }
}

static void count_string(const coded *s, const damage *d, size_t count)
{
    size_t ways = 0, only = KEPT, kind;

    for (kind = ALTERED; kind < CHANGE_KINDS; kind++)
        if (changes_of(d, (enum change_kind)kind) > 0) {
            ways++;
            only = kind;
        }
    if (ways > 0)
        of_damage.strings[ways > 1 ? 0 : only]++;
    of_damage.no_byte += s->count > 0 && count == 0;
}

/* ---- one damage ---- */

void hold_places(const coded *s, const damage *d, const uint8_t *bytes, size_t count)
{
    static size_t from[MOST_STRING], kept[MOST_STRING];
    static origins o;

    list_origins(d, &o);
    places_kept(&o, &s->window, kept);
    if (shifted(d)) {
        places_after_last(d, &s->window, from);
        same_bytes("after the last loss or addition", s, bytes, from, count);
    } else {
        places_unaltered(d, &s->window, from);
        same_bytes("no altered letter in the window", s, bytes, from, count);
        known_value("the number of bytes", count, s->count);
    }
    among_kept(d, from, kept);
    same_bytes("every letter of the window kept", s, bytes, kept, count);
    letters_back(s, bytes, kept, count);
    count_same(s, d, &o, from, kept, count);
    count_with_damage(s, &o, shifted(d), bytes, kept, count);
    count_string(s, d, count);
}

void try_damage(const coded *s, const damage *d, int written)
{
    static uint8_t sent[MOST_STRING], received[MOST_STRING], bytes[MOST_STRING];
    size_t n = received_letters(d, received), count = decode(s, received, n, bytes);

    known_value("the number of letters of the list", sent_letters(d, sent), s->n);
    known_value("the letters of the list", (size_t)memcmp(sent, s->letters, s->n), 0);
    if (count == NO_BYTE)
        return;
    known_value("the number of bytes of the received string", count, decoded_bytes(&s->window, n));
    hold_places(s, d, bytes, count);
    if (written && n <= MOST_WRITTEN) {
        arguments a = string_call(s, received, n);

        text_string(&a, bytes, count);
    }
}
