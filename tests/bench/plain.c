/* Plain C versions of run, search, string decoder, table, writer and coders in a row, and of the search and the decoder for
   kinds.
   Sets of states and of letters are machine words, sets of pairs of states 16 of them. */
#include "plain.h"

#include <string.h>

typedef struct coder {
    size_t states, inputs, outputs;
    uint16_t reachable, starts; /* the reachable states, the start states of a window, once they are found */
    uint8_t next[256], out[256]; /* state * 16 + input */
} coder;

/* Whether a set of letters is all those below `outputs`. */
static int all_letters(uint64_t named, size_t outputs)
{
    return named == UINT64_MAX >> (64 - outputs);
}

static size_t read_coder(const uint8_t *f, size_t len, coder *c)
{
    size_t s, i, n;
    uint64_t named = 0;

    if (len < 6)
        return 1;
    if (f[0] != 1)
        return 2;
    n = (size_t)f[1] << 8 | f[2];
    if (n != len - 3)
        return 3;
    if (f[3] < 1 || f[3] > 16 || f[4] < 1 || f[4] > 16 || f[5] < 1 || f[5] > 64)
        return 4;
    if (n != 3 + 2 * (size_t)f[3] * f[4])
        return 5;
    c->states = f[3];
    c->inputs = f[4];
    c->outputs = f[5];
    f += 6;
    for (s = 0; s < c->states; s++)
        for (i = 0; i < c->inputs; i++, f += 2) {
            if (f[0] >= c->states || f[1] >= c->outputs)
                return 6;
            c->next[16 * s + i] = f[0];
            c->out[16 * s + i] = f[1];
            named |= (uint64_t)1 << f[1];
        }
    return all_letters(named, c->outputs) ? 0 : 15;
}

static int below(const uint8_t *bytes, size_t n, size_t limit)
{
    size_t k;

    for (k = 0; k < n; k++)
        if (bytes[k] >= limit)
            return 0;
    return 1;
}

size_t plain_run(const uint8_t *file, size_t file_len, size_t start, const uint8_t *input,
                 size_t input_len, uint8_t *output, size_t output_len, size_t *count, size_t *end)
{
    coder c;
    size_t k, s = start, r = read_coder(file, file_len, &c);

    if (r)
        return r;
    if (start >= c.states)
        return 7;
    if (output_len < input_len)
        return 11;
    if (!below(input, input_len, c.inputs))
        return 12;
    for (k = 0; k < input_len; k++) {
        size_t e = 16 * s + input[k];

        output[k] = c.out[e];
        s = c.next[e];
    }
    *count = input_len;
    *end = s;
    return 0;
}

/* The six bytes before the entries. */
static void put_counts(uint8_t *file, size_t states, size_t inputs, size_t outputs, size_t entries_len)
{
    file[0] = 1;
    file[1] = (uint8_t)((3 + entries_len) >> 8);
    file[2] = (uint8_t)(3 + entries_len);
    file[3] = (uint8_t)states;
    file[4] = (uint8_t)inputs;
    file[5] = (uint8_t)outputs;
}

size_t plain_write(size_t states, size_t inputs, size_t outputs, const uint8_t *entries,
                   size_t entries_len, uint8_t *file, size_t file_len, size_t *count)
{
    size_t k;
    uint64_t named = 0;

    if (states < 1 || states > 16 || inputs < 1 || inputs > 16 || outputs < 1 || outputs > 64)
        return 4;
    if (entries_len != 2 * states * inputs)
        return 5;
    for (k = 0; k < entries_len; k += 2) {
        if (entries[k] >= states || entries[k + 1] >= outputs)
            return 6;
        named |= (uint64_t)1 << entries[k + 1];
    }
    if (!all_letters(named, outputs))
        return 15;
    if (file_len < 6 + entries_len)
        return 11;
    put_counts(file, states, inputs, outputs, entries_len);
    memcpy(file + 6, entries, entries_len);
    *count = 6 + entries_len;
    return 0;
}

size_t plain_join(const uint8_t *first, size_t first_len, const uint8_t *second, size_t second_len, uint8_t *file,
                  size_t file_len, size_t *count)
{
    coder c, d;
    size_t s, t, i, n, r = read_coder(first, first_len, &c);

    if (r)
        return r;
    r = read_coder(second, second_len, &d);
    if (r)
        return r;
    if (c.outputs != d.inputs || c.states * d.states > 16)
        return 17;
    n = 2 * c.states * d.states * c.inputs;
    if (file_len < 6 + n)
        return 11;
    put_counts(file, c.states * d.states, c.inputs, d.outputs, n);
    *count = 6 + n;
    file += 6;
    for (s = 0; s < c.states; s++)
        for (t = 0; t < d.states; t++)
            for (i = 0; i < c.inputs; i++, file += 2) {
                size_t e = 16 * s + i, o = 16 * t + c.out[e];

                file[0] = (uint8_t)(c.next[e] * d.states + d.next[o]);
                file[1] = d.out[o];
            }
    return 0;
}

/* ---- decoding ---- */

/* The states to which one letter leads from those of a set. */
static unsigned one_letter(const coder *c, unsigned set)
{
    unsigned next = 0;
    size_t i;

    for (; set; set &= set - 1)
        for (i = 0; i < c->inputs; i++)
            next |= 1u << c->next[16 * __builtin_ctz(set) + i];
    return next;
}

/* Finds the reachable states, those to which some input string leads from state 0, and of them the start states
   of a window: those to which `settle` letters lead from a reachable one. A letter takes states away or leaves the
   set as it is, for good. */
static void find_starts(coder *c, size_t settle)
{
    unsigned reached = 1, rest = 1, starts, next;

    while (rest) {
        next = one_letter(c, rest & -rest);
        rest = (rest & (rest - 1)) | (next & ~reached);
        reached |= next;
    }
    for (starts = reached; settle > 0; settle--, starts = next) {
        next = one_letter(c, starts);
        if (next == starts)
            break;
    }
    c->reachable = (uint16_t)reached;
    c->starts = (uint16_t)starts;
}

/* For each output letter and state, of the entries with that output: the states to which those of the state
   lead, the states from which they lead to it, and the input letters of those of the state. */
typedef struct sets {
    uint16_t to[64][16], from[64][16], letters[64][16];
    uint16_t all;
} sets;

static void make_sets(const coder *c, sets *d)
{
    size_t s, i;

    memset(d, 0, sizeof *d);
    d->all = (uint16_t)((1u << c->states) - 1);
    for (s = 0; s < c->states; s++)
        for (i = 0; i < c->inputs; i++) {
            size_t t = c->next[16 * s + i], o = c->out[16 * s + i];

            d->to[o][s] |= (uint16_t)(1u << t);
            d->from[o][t] |= (uint16_t)(1u << s);
            d->letters[o][s] |= (uint16_t)(1u << i);
        }
}

static unsigned image(const uint16_t *row, unsigned set)
{
    unsigned r = 0;

    for (; set; set &= set - 1)
        r |= row[__builtin_ctz(set)];
    return r;
}

static uint8_t answer(unsigned letters)
{
    if (!letters)
        return 254;
    return letters & (letters - 1) ? 255 : (uint8_t)__builtin_ctz(letters);
}

/* The numbers of a window: 8, 14, or 0. */
static size_t limits(size_t before, size_t after, size_t settle)
{
    if (before > 136 || after > 136)
        return 8;
    return settle > 64 ? 14 : 0;
}

/* The letters that fit one window: forward to the present letter, backward from the end, and the entries between the
   two. */
static unsigned fitting(const coder *c, const sets *d, const uint8_t *w, size_t before, size_t after)
{
    unsigned f = c->starts, g = d->all, found = 0;
    const uint16_t *letters = d->letters[w[before]];
    size_t k;

    for (k = 0; k < before && f; k++)
        f = image(d->to[w[k]], f);
    if (!f)
        return 0;
    for (k = before + after; k > before && g; k--)
        g = image(d->from[w[k]], g);
    for (; f; f &= f - 1) {
        size_t s = (size_t)__builtin_ctz(f);
        unsigned x = letters[s];

        for (; x; x &= x - 1)
            if (g >> c->next[16 * s + (size_t)__builtin_ctz(x)] & 1)
                found |= x & -x;
    }
    return found;
}

static uint8_t decode_window(const coder *c, const sets *d, const uint8_t *w, size_t before, size_t after)
{
    return answer(fitting(c, d, w, before, after));
}

size_t plain_decode(const uint8_t *file, size_t file_len, size_t before, size_t after, size_t settle,
                    const uint8_t *received, size_t received_len, uint8_t *output,
                    size_t output_len, size_t *count)
{
    coder c;
    sets d;
    size_t k, n, r = read_coder(file, file_len, &c);

    if (r)
        return r;
    if ((r = limits(before, after, settle)) != 0)
        return r;
    n = received_len < before + 1 + after ? 0 : received_len - before - after;
    if (output_len < n)
        return 11;
    if (!below(received, received_len, c.outputs))
        return 13;
    find_starts(&c, settle);
    make_sets(&c, &d);
    for (k = 0; k < n; k++)
        output[k] = decode_window(&c, &d, received + k, before, after);
    *count = n;
    return 0;
}

/* How many letters, from the first on, lead to some state from the start states. */
static size_t how_far(const coder *c, const sets *d, const uint8_t *w, size_t n)
{
    unsigned f = c->starts;
    size_t k;

    for (k = 0; k < n; k++) {
        f = image(d->to[w[k]], f);
        if (!f)
            break;
    }
    return k;
}

size_t plain_window(const uint8_t *file, size_t file_len, size_t before, size_t after, size_t settle,
                    const uint8_t *received, size_t received_len, size_t *result, size_t *far)
{
    coder c;
    sets d;
    size_t r = read_coder(file, file_len, &c);

    if (r)
        return r;
    if ((r = limits(before, after, settle)) != 0)
        return r;
    if (received_len != before + 1 + after)
        return 9;
    if (!below(received, received_len, c.outputs))
        return 13;
    find_starts(&c, settle);
    make_sets(&c, &d);
    *result = decode_window(&c, &d, received, before, after);
    if (*result == 254)
        *far = how_far(&c, &d, received, received_len);
    return 0;
}

/* The table, letter by letter, so that windows that begin alike share the work: one set of states before the
   present letter; after it, for each state of a set, the letters at the present place of the runs that end there.
   A part that no run gives is filled at once. */
static uint8_t *fill_after(const coder *c, const sets *d, size_t size, const uint16_t *m, unsigned states,
                           uint8_t *table)
{
    unsigned s, t, all;
    size_t o;

    if (!states) {
        memset(table, 254, size);
        return table + size;
    }
    if (size == 1) {
        for (all = 0; states; states &= states - 1)
            all |= m[__builtin_ctz(states)];
        *table = answer(all);
        return table + 1;
    }
    for (o = 0; o < c->outputs; o++) {
        uint16_t n[16];

        memset(n, 0, sizeof n);
        for (all = 0, s = states; s; s &= s - 1) {
            unsigned x = m[__builtin_ctz(s)];

            t = d->to[o][__builtin_ctz(s)];
            all |= t;
            for (; t; t &= t - 1)
                n[__builtin_ctz(t)] |= (uint16_t)x;
        }
        table = fill_after(c, d, size / c->outputs, n, all, table);
    }
    return table;
}

static uint8_t *fill(const coder *c, const sets *d, size_t before, size_t size, unsigned states, uint8_t *table)
{
    unsigned s, x, all;
    size_t o;

    if (!states) {
        memset(table, 254, size);
        return table + size;
    }
    for (o = 0; o < c->outputs; o++) {
        uint16_t n[16];

        all = image(d->to[o], states);
        if (before) {
            table = fill(c, d, before - 1, size / c->outputs, all, table);
            continue;
        }
        memset(n, 0, sizeof n);
        for (s = states; s; s &= s - 1)
            for (x = d->letters[o][__builtin_ctz(s)]; x; x &= x - 1)
                n[c->next[16 * __builtin_ctz(s) + __builtin_ctz(x)]] |= (uint16_t)(x & -x);
        table = fill_after(c, d, size / c->outputs, n, all, table);
    }
    return table;
}

size_t plain_table(const uint8_t *file, size_t file_len, size_t before, size_t after, size_t settle,
                   uint8_t *table, size_t table_len, size_t *count)
{
    coder c;
    sets d;
    size_t k, size = 1, r = read_coder(file, file_len, &c);

    if (r)
        return r;
    if ((r = limits(before, after, settle)) != 0)
        return r;
    for (k = 0; k < before + 1 + after && size <= 65536; k++)
        size *= c.outputs;
    if (size > 65536)
        return 10;
    if (table_len < size)
        return 11;
    find_starts(&c, settle);
    make_sets(&c, &d);
    if (c.outputs == 1) {
        uint8_t w[273] = {0};

        *table = decode_window(&c, &d, w, before, after);
    } else {
        fill(&c, &d, before, size, c.starts, table);
    }
    *count = size;
    return 0;
}

/* ---- the search ---- */

enum { ENDLESS = 255 };

/* depth[s][t]: the number of levels in which the pair stands, or ENDLESS; in the first stand the pairs of these
   states. near and far are the ends of each entry; to[o][u] has the near ends of the entries with output o and far
   end u. */
static void depths(const coder *c, uint16_t first, const uint8_t *near, const uint8_t *far, uint8_t depth[16][16])
{
    static uint16_t to[64][16];
    uint16_t rows[16], fresh[16];
    size_t s, t, e, i, level = 1;
    int changed = 1;

    memset(to, 0, sizeof to);
    memset(depth, 0, 256);
    for (s = 0; s < c->states; s++) {
        rows[s] = first >> s & 1 ? first : 0;
        for (i = 0; i < c->inputs; i++) {
            e = 16 * s + i;
            to[c->out[e]][far[e]] |= (uint16_t)(1u << near[e]);
        }
    }
    for (; changed; level++) {
        changed = 0;
        memset(fresh, 0, sizeof fresh);
        for (s = 0; s < c->states; s++)
            for (i = 0; i < c->inputs; i++) {
                unsigned row = rows[far[16 * s + i]];
                const uint16_t *o = to[c->out[16 * s + i]];
                unsigned found = 0;

                for (; row; row &= row - 1)
                    found |= o[__builtin_ctz(row)];
                fresh[near[16 * s + i]] |= (uint16_t)found;
            }
        for (s = 0; s < c->states; s++) {
            unsigned fell = rows[s] & ~fresh[s];

            changed |= fell != 0;
            for (; fell; fell &= fell - 1)
                depth[s][__builtin_ctz(fell)] = (uint8_t)level;
            rows[s] &= fresh[s];
        }
    }
    for (s = 0; s < c->states; s++)
        for (t = 0; t < c->states; t++)
            if (rows[s] >> t & 1)
                depth[s][t] = ENDLESS;
}

/* ---- the first looped pair ---- */

/* Pair (u, v) of states has the number 16 u + v. A cost is LETTER for each letter, and besides LEAD_IN for
   each of the lead-in and LEAD_OUT for each of the lead-out: the least cost has the fewest letters, of those the
   shortest lead-in, of those the shortest lead-out. No loop has TOO_LONG letters. */
enum { LEAD_OUT = 1, LEAD_IN = 1 << 10, LETTER = 1 << 20, TOO_LONG = 1 << 10 };

/* next[p][x]: the states y to which equal outputs lead from pair p while they lead to x. */
typedef struct product {
    const coder *c;
    sets d;
    uint16_t next[256][16];
} product;

static void make_product(const coder *c, product *m)
{
    size_t u, v, i;

    m->c = c;
    make_sets(c, &m->d);
    memset(m->next, 0, sizeof m->next);
    for (u = 0; u < c->states; u++)
        for (i = 0; i < c->inputs; i++)
            for (v = 0; v < c->states; v++)
                m->next[16 * u + v][c->next[16 * u + i]] |= m->d.to[c->out[16 * u + i]][v];
}

/* Joins to b all pairs to which the pairs of a lead. */
static void lead_on(const product *m, const uint16_t a[16], uint16_t b[16])
{
    size_t x, y;
    unsigned r;

    for (x = 0; x < m->c->states; x++)
        for (r = a[x]; r; r &= r - 1) {
            const uint16_t *next = m->next[16 * x + (size_t)__builtin_ctz(r)];

            for (y = 0; y < 16; y++)
                b[y] |= next[y];
        }
}

/* The letters of the shortest way from a pair back to it. */
static size_t loop_length(const product *m, size_t u, size_t v)
{
    uint16_t front[16], seen[16], fresh[16];
    size_t n, y;
    unsigned some = 1;

    memcpy(front, m->next[16 * u + v], sizeof front);
    memcpy(seen, front, sizeof seen);
    for (n = 1; some; n++) {
        if (front[u] >> v & 1)
            return n;
        memset(fresh, 0, sizeof fresh);
        lead_on(m, front, fresh);
        for (y = 0, some = 0; y < 16; y++) {
            front[y] = (uint16_t)(fresh[y] & ~seen[y]);
            seen[y] |= fresh[y];
            some |= front[y];
        }
    }
    return TOO_LONG;
}

/* The loops of (u, v) and (v, u) are as long. */
static void loop_lengths(const product *m, uint32_t length[256])
{
    size_t u, v;

    for (u = 0; u < 256; u++)
        length[u] = TOO_LONG;
    for (u = 0; u < m->c->states; u++)
        for (v = 0; v <= u; v++)
            length[16 * u + v] = length[16 * v + u] = (uint32_t)loop_length(m, u, v);
}

/* The least cost among the pairs to which a pair leads. */
static uint32_t least_next(const product *m, const uint32_t cost[256], size_t p)
{
    uint32_t least = TOO_LONG * LETTER;
    size_t x;
    unsigned r;

    for (x = 0; x < m->c->states; x++)
        for (r = m->next[p][x]; r; r &= r - 1) {
            uint32_t q = cost[16 * x + (size_t)__builtin_ctz(r)];

            if (q < least)
                least = q;
        }
    return least;
}

/* Lowers the costs until no pair costs more than a pair to which it leads and the letter between. A cost that
   is at most that of the cheapest pair and a letter cannot be lowered. */
static void lower_costs(const product *m, uint32_t letter, uint32_t cost[256])
{
    uint32_t low = cost[0], q;
    size_t p;
    int changed = 1;

    for (p = 1; p < 256; p++)
        if (cost[p] < low)
            low = cost[p];
    while (changed)
        for (p = 16 * m->c->states, changed = 0; p-- > 0;)
            if (cost[p] > low + letter) {
                q = least_next(m, cost, p) + letter;
                if (q < cost[p]) {
                    cost[p] = q;
                    changed = 1;
                }
            }
}

/* The least cost of a differing letter and what comes after it. */
static void differing_costs(const product *m, const uint32_t after[256], uint32_t cost[256])
{
    const coder *c = m->c;
    size_t u, v, i;
    unsigned r;

    for (u = 0; u < 256; u++)
        cost[u] = TOO_LONG * LETTER;
    for (u = 0; u < c->states; u++)
        for (i = 0; i < c->inputs; i++)
            for (v = 0; v < c->states; v++)
                for (r = m->d.letters[c->out[16 * u + i]][v] & ~(1u << i); r; r &= r - 1) {
                    size_t j = (size_t)__builtin_ctz(r);
                    uint32_t q = after[16 * c->next[16 * u + i] + c->next[16 * v + j]] + LETTER;

                    if (q < cost[16 * u + v])
                        cost[16 * u + v] = q;
                }
}

/* The lowest two letters that lead from pair p to one of this cost, different where asked; the pair there. */
static size_t lowest_letters(const product *m, const uint32_t cost[256], uint32_t wanted, int different,
                             size_t p, uint8_t *letters)
{
    const coder *c = m->c;
    size_t i, u = p / 16, v = p % 16;
    unsigned r;

    for (i = 0; i < c->inputs; i++) {
        r = m->d.letters[c->out[16 * u + i]][v];
        for (r &= different ? ~(1u << i) : ~0u; r; r &= r - 1) {
            size_t j = (size_t)__builtin_ctz(r);
            size_t q = 16 * (size_t)c->next[16 * u + i] + c->next[16 * v + j];

            if (cost[q] == wanted) {
                letters[0] = (uint8_t)i;
                letters[1] = (uint8_t)j;
                return q;
            }
        }
    }
    return p;
}

/* The lowest n letters along least costs. */
static size_t lowest_way(const product *m, const uint32_t cost[256], uint32_t letter, size_t n, size_t p,
                         uint8_t *letters)
{
    size_t k;

    for (k = 0; k < n; k++)
        p = lowest_letters(m, cost, cost[p] - letter, 0, p, letters + 2 * k);
    return p;
}

/* The lowest letters of a shortest loop: the costs are the letters from each pair to its start. */
static void lowest_loop(const product *m, size_t start, size_t n, uint8_t *letters)
{
    uint32_t cost[256];
    size_t p;

    for (p = 0; p < 256; p++)
        cost[p] = TOO_LONG;
    cost[start] = 0;
    lower_costs(m, 1, cost);
    p = lowest_letters(m, cost, (uint32_t)n - 1, 0, start, letters);
    lowest_way(m, cost, 1, n - 1, p, letters + 2);
}

/* The costs from each pair on: from the lead-out, with the differing letter next, from the lead-in. */
static void find_pair(const coder *c, uint8_t *letters, plain_verdict *v)
{
    product m;
    uint32_t loop[256], after[256], whole[256];
    size_t p, start = 0;

    make_product(c, &m);
    loop_lengths(&m, loop);
    for (p = 0; p < 256; p++)
        after[p] = loop[p] * LETTER;
    lower_costs(&m, LETTER + LEAD_OUT, after);
    differing_costs(&m, after, whole);
    lower_costs(&m, LETTER + LEAD_IN, whole);
    for (p = 1; p < 16 * c->states; p++)
        if ((c->reachable >> p / 16 & c->reachable >> p % 16 & 1)
            && loop[p] + whole[p] / LETTER < loop[start] + whole[start] / LETTER)
            start = p;
    v->is_pair = 1;
    v->s = start / 16;
    v->t = start % 16;
    v->back_loop = loop[start];
    v->lead_in = whole[start] % LETTER / LEAD_IN;
    v->lead_out = whole[start] % LEAD_IN;
    v->forward_loop = whole[start] / LETTER - v->lead_in - 1 - v->lead_out;
    lowest_loop(&m, start, v->back_loop, letters);
    letters += 2 * v->back_loop;
    p = lowest_way(&m, whole, LETTER + LEAD_IN, v->lead_in, start, letters);
    letters += 2 * v->lead_in;
    p = lowest_letters(&m, after, whole[p] - LETTER, 1, p, letters);
    p = lowest_way(&m, after, LETTER + LEAD_OUT, v->lead_out, p, letters + 2);
    letters += 2 + 2 * v->lead_out;
    lowest_loop(&m, p, v->forward_loop, letters);
}

/* ---- window or pair ---- */

/* worst[f]: the greatest back depth of the entries in the way whose forward depth is f. With lookahead a, an entry stands
   in the way up to its back depth while a is below its forward depth. */
static void least_window(const uint8_t worst[256], size_t *before, size_t *after)
{
    size_t a, r = 0;

    for (a = 255; a-- > 0;) {
        if (r < worst[a + 1])
            r = worst[a + 1];
        if (r < ENDLESS && a <= 136) { /* the last one has least lookahead */
            *before = r;
            *after = a;
        }
    }
}

/* Depths of the pairs of states, back and forward, for the start states of the settle count. */
static void both_depths(coder *c, size_t settle, uint8_t back[16][16], uint8_t forward[16][16])
{
    uint8_t source[256];
    size_t x;

    for (x = 0; x < 256; x++)
        source[x] = (uint8_t)(x / 16);
    find_starts(c, settle);
    depths(c, c->starts, c->next, source, back);
    depths(c, c->reachable, source, c->next, forward);
}

/* Goes over the entries in the way: two of equal outputs and different letters, those of a kind that is not carried left out.
   Those of letters of different kinds are counted in row 0 of worst, those of kind k in row 1 + k; without kinds, all in row 0.
   Says whether two of row 0 are endless on both sides; a kind with two such is not carried. Compiled once with kinds and once
   without, so that the search for letters has no test for them. */
static inline __attribute__((always_inline)) int in_the_way(const coder *c, uint8_t back[16][16], uint8_t forward[16][16],
                                                            const uint8_t *kinds, uint8_t worst[][256], size_t *carried)
{
    unsigned of[16] = {0};
    size_t x, y, i, j, s, t, row;

    for (i = 0; kinds && i < c->inputs; i++)
        of[kinds[i]] |= 1u << i;
    for (s = 0; s < c->states; s++)
        for (i = 0; i < c->inputs; i++) {
            unsigned others = 0xffff & ~(1u << i);

            if (kinds && !(*carried >> kinds[i] & 1))
                others &= ~of[kinds[i]];
            x = 16 * s + i;
            for (t = 0; t < c->states && others; t++) {
                uint8_t b = back[s][t];

                for (j = 0; j < c->inputs; j++) {
                    uint8_t f;

                    y = 16 * t + j;
                    if (!(others >> j & 1) || c->out[x] != c->out[y])
                        continue;
                    f = forward[c->next[x]][c->next[y]];
                    row = kinds && kinds[i] == kinds[j] ? 1 + (size_t)kinds[i] : 0;
                    if (b == ENDLESS && f == ENDLESS) {
                        if (!row)
                            return 1;
                        *carried &= ~((size_t)1 << kinds[i]);
                    }
                    if (worst[row][f] < b)
                        worst[row][f] = b;
                }
            }
        }
    return 0;
}

size_t plain_search(const uint8_t *file, size_t file_len, size_t settle, uint8_t *letters, size_t letters_len,
                    plain_verdict *v)
{
    coder c;
    uint8_t back[16][16], forward[16][16], worst[1][256] = {{0}};
    size_t r = read_coder(file, file_len, &c);

    if (r)
        return r;
    if (settle > 64)
        return 14;
    if (letters_len < 1026)
        return 11;
    both_depths(&c, settle, back, forward);
    if (in_the_way(&c, back, forward, NULL, worst, NULL)) {
        find_pair(&c, letters, v);
        return 0;
    }
    v->is_pair = 0;
    least_window(worst[0], &v->before, &v->after);
    return 0;
}

/* ---- kinds ---- */

size_t plain_search_kinds(const uint8_t *file, size_t file_len, const uint8_t *kinds, size_t kinds_len, plain_kinds *v)
{
    coder c;
    uint8_t back[16][16], forward[16][16], worst[17][256] = {{0}};
    size_t x, k, r = read_coder(file, file_len, &c);

    if (r)
        return r;
    if (kinds_len != c.inputs || !below(kinds, kinds_len, c.inputs))
        return 16;
    both_depths(&c, 0, back, forward);
    v->carried = ((size_t)1 << c.inputs) - 1;
    v->told = !in_the_way(&c, back, forward, kinds, worst, &v->carried);
    if (!v->told)
        return 0;
    for (k = 0; k < 16; k++)
        for (x = 0; x < 256 && v->carried >> k & 1; x++)
            if (worst[0][x] < worst[1 + k][x])
                worst[0][x] = worst[1 + k][x];
    least_window(worst[0], &v->before, &v->after);
    return 0;
}

size_t plain_window_kinds(const uint8_t *file, size_t file_len, const uint8_t *kinds, size_t kinds_len, size_t before,
                          size_t after, const uint8_t *received, size_t received_len, size_t *result, size_t *number)
{
    coder c;
    sets d;
    unsigned letters, of = 0, x;
    size_t r = read_coder(file, file_len, &c);

    if (r)
        return r;
    if (kinds_len != c.inputs || !below(kinds, kinds_len, c.inputs))
        return 16;
    if (before > 136 || after > 136)
        return 8;
    if (received_len != before + 1 + after)
        return 9;
    if (!below(received, received_len, c.outputs))
        return 13;
    find_starts(&c, 0);
    make_sets(&c, &d);
    letters = fitting(&c, &d, received, before, after);
    for (x = letters; x; x &= x - 1)
        of |= 1u << kinds[__builtin_ctz(x)];
    if (!letters) {
        *result = 2;
    } else if (!(letters & (letters - 1))) {
        *result = 0;
        *number = (size_t)__builtin_ctz(letters);
    } else if (!(of & (of - 1))) {
        *result = 1;
        *number = (size_t)__builtin_ctz(of);
    } else {
        *result = 3;
    }
    return 0;
}
