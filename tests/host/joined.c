/* Two coders in a row and the coder that the library joins them to: the file, runs and windows. */
#include "joined.h"

#include "calls.h"
#include "case_texts.h"

#include <string.h>

enum { MOST_RUN = 64, MOST_SMALL = 3 };

row_counts of_rows;

/* ---- the joined file ---- */

/* By the enumerator. That the library takes it as well the calls on it say. */
static int accepted_file(const row *r, size_t written)
{
    const uint8_t *first = r->first.bytes, *second = r->second.bytes, *joined = r->joined.bytes;
    size_t number = refusal_of_file(joined, r->joined.len);

    known_value("the number of the joined file", number, 0);
    known_value("its length", written, r->joined.len);
    known_value("its states", joined[3], (size_t)first[3] * second[3]);
    known_value("its input letters", joined[4], first[4]);
    known_value("its output letters", joined[5], second[5]);
    return number == 0;
}

/* States that the joined coder does not reach, though the two coders reach theirs. */
static void count_spare(const row *r)
{
    coder first = coder_of_file(r->first.bytes), second = coder_of_file(r->second.bytes);
    coder joined = coder_of_file(r->joined.bytes);

    of_rows.spare += joined.reachable.count < joined.states;
    of_rows.unreached += joined.reachable.count < first.reachable.count * second.reachable.count;
}

/* Whether no two counts are the same but for those that have to be. */
static int uneven(const uint8_t *first, const uint8_t *second)
{
    return first[3] != second[3] && first[4] != first[5] && first[5] != second[5]
        && first[4] != second[5];
}

int join_row(row *r, int written)
{
    arguments a = join_of(&r->first, &r->second);
    size_t need = a.lent_len;
    reply got;

    a.lent_len += random_below(3);
    a.result_len += random_below(3);
    got = compare(&a);
    if (written) {
        text_file(a.file, a.file_len);
        if (got.returned != 0)
            text_join_refused(&a, got.returned);
        else
            text_join(&a, got.lent, need);
    }
    if (got.returned != 0 || need > MOST_FILE)
        return 0;
    r->joined.len = need;
    memcpy(r->joined.bytes, got.lent, need);
    of_rows.joins++;
    if (!accepted_file(r, get_field(got.result, 0)))
        return 0; /* a difference, and counted as one */
    count_spare(r);
    of_rows.uneven += (unsigned long)uneven(r->first.bytes, r->second.bytes);
    return 1;
}

/* ---- runs ---- */

/* What the library's run writes, and its end state. */
static size_t run_of(const coder_file *f, size_t start, const uint8_t *input, size_t n,
                     uint8_t *output)
{
    arguments a = plain(CALL_RUN, f);
    reply got;

    a.start = start;
    a.bytes = input;
    a.bytes_len = a.lent_len = n;
    got = compare(&a);
    memcpy(output, got.lent, n);
    return get_field(got.result, 1);
}

static void same_run(const uint8_t *got, const uint8_t *wanted, size_t n, size_t end,
                     size_t wanted_end)
{
    known_value("the letters of the joined coder", (size_t)memcmp(got, wanted, n), 0);
    known_value("the end state of the joined coder", end, wanted_end);
}

void try_runs(const row *r, size_t n)
{
    static uint8_t input[MOST_RUN], between[MOST_STATES][MOST_RUN], output[MOST_STATES][MOST_RUN];
    coder first = coder_of_file(r->first.bytes), second = coder_of_file(r->second.bytes);
    coder joined = coder_of_file(r->joined.bytes);
    size_t between_end[MOST_STATES], end[MOST_STATES], s, t, q;
    uint8_t got[MOST_RUN], row_output[MOST_RUN];

    random_letters(n, first.inputs);
    memcpy(input, letters_room, n);
    for (s = 0; s < first.states; s++)
        between_end[s] = run_of(&r->first, s, input, n, between[s]);
    for (q = 0; q < joined.states; q++)
        end[q] = run_of(&r->second, q % second.states, between[q / second.states], n, output[q]);
    for (s = 0, q = 0; s < first.states; s++)
        for (t = 0; t < second.states; t++, q++) {
            size_t got_end = run_of(&r->joined, q, input, n, got);

            same_run(got, output[q], n, got_end, between_end[s] * second.states + end[q]);
            end[q] = follow_row(&first, &second, s, t, input, n, row_output);
            same_run(got, row_output, n, got_end, end[q]);
            of_rows.runs++;
            of_rows.spare_runs += !in_list(&joined.reachable, q);
        }
}

/* ---- windows ---- */

void letters_back(const coder_file *f, size_t before, size_t after)
{
    static uint8_t input[1024], output[1024];
    coder c = coder_of_file(f->bytes);
    arguments a = plain(CALL_DECODE, f);
    size_t n = before + after + 1 + random_below(60);

    random_letters(n, c.inputs);
    memcpy(input, letters_room, n);
    run_of(f, c.reachable.state[random_below(c.reachable.count)], input, n, output);
    a.before = before;
    a.after = after;
    a.bytes = output;
    a.bytes_len = n;
    a.lent_len = n - before - after;
    compare_known(&a, input + before, a.lent_len);
    of_rows.came_back += a.lent_len;
}

/* The sum has to work; returns whether it is known to. */
static int sum_works(const coder *joined, size_t before, size_t after)
{
    enum answer fails = window_fails(joined, before, after);

    show_call(NULL);
    if (fails == YES)
        differ("the joined coder's window %zu %zu fails, the sum of two that work", before, after);
    of_rows.left_out += fails == UNKNOWN;
    return fails == NO;
}

/* Whether the window of this size but for one letter on a side works: nothing is claimed of it. */
static void count_less(const coder *joined, size_t before, size_t after)
{
    enum answer one = before > 0 ? window_fails(joined, before - 1, after) : YES;
    enum answer other = after > 0 ? window_fails(joined, before, after - 1) : YES;

    if (one == NO || other == NO)
        of_rows.less++;
    else if (one == YES && other == YES)
        of_rows.least++;
}

/* The window that the search reports has no more lookahead than the sum and, with as much, no more
   letters before. */
static void not_past_sum(const verdict *joined, size_t before, size_t after)
{
    if (!joined->known)
        return; /* a difference, and counted as one */
    known_value("whether the joined coder has no decoder", (size_t)joined->is_pair, 0);
    known_value("whether the reported window comes after the sum",
                joined->after > after || (joined->after == after && joined->before > before), 0);
}

static verdict verdict_of(const coder_file *f)
{
    search(f, 0);
    return *found;
}

static void try_reported(const row *r)
{
    verdict first = verdict_of(&r->first), second = verdict_of(&r->second);
    verdict joined = verdict_of(&r->joined);
    coder c = coder_of_file(r->joined.bytes);
    size_t before = first.before + second.before, after = first.after + second.after;

    if (!first.known || !second.known || !joined.known)
        return; /* a difference, and counted as one */
    of_rows.decoders[!first.is_pair][!second.is_pair][!joined.is_pair]++;
    if (first.is_pair || second.is_pair)
        return;
    not_past_sum(&joined, before, after);
    of_rows.reported += (unsigned long)sum_works(&c, before, after);
    count_less(&c, before, after);
    letters_back(&r->joined, before, after);
}

/* Which windows with sides up to `most` work, by enumeration. */
typedef struct small_windows {
    uint8_t work[2 * MOST_SMALL][2 * MOST_SMALL];
} small_windows;

static void list_small(const coder_file *f, size_t most, small_windows *w)
{
    coder c = coder_of_file(f->bytes);
    size_t b, a;

    for (b = 0; b <= most; b++)
        for (a = 0; a <= most; a++)
            w->work[b][a] = window_fails(&c, b, a) == NO;
}

static void list_sums(const small_windows *one, const small_windows *other, size_t most,
                      small_windows *sums)
{
    size_t b, a, c, d;

    memset(sums, 0, sizeof *sums);
    for (b = 0; b <= most; b++)
        for (a = 0; a <= most; a++)
            for (c = 0; c <= most; c++)
                for (d = 0; d <= most; d++)
                    sums->work[b + c][a + d] |= one->work[b][a] & other->work[c][d];
}

void try_windows(const row *r, size_t most)
{
    static small_windows first, second, sums;
    coder joined = coder_of_file(r->joined.bytes);
    size_t b, a;

    try_reported(r);
    list_small(&r->first, most, &first);
    list_small(&r->second, most, &second);
    list_sums(&first, &second, most, &sums);
    for (b = 0; b <= 2 * most; b++)
        for (a = 0; a <= 2 * most; a++)
            if (sums.work[b][a])
                of_rows.tried += (unsigned long)sum_works(&joined, b, a);
}
