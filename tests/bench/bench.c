/* The benchmark: each call of the library beside the same work in plain C (plain.c), the two in turn, the
   least of several timings of each. Before the timings the two must give equal results. Buffers are cleared
   once before all timings, not between them. */
#define _POSIX_C_SOURCE 199309L
#include "coders.h"
#include "lowhenita.h"
#include "plain.h"

#include <stdio.h>
#include <stdlib.h>
#include <string.h>
#include <time.h>

enum { TURNS = 15, LETTERS = 20000, TABLE = 65536, CODERS = 200 };

static coder_file file;
static uint8_t input[LETTERS], sent[LETTERS], mine[TABLE], theirs[TABLE];
static uint8_t my_letters[1026], their_letters[1026], result[64];
static uint8_t kinds[16];
static size_t before, after, settle, letters; /* the settle count is 0 but in bench_settle */

static uint64_t field(int k)
{
    uint64_t x = 0;
    int i;

    for (i = 0; i < 8; i++)
        x = x << 8 | result[8 * k + i];
    return x;
}

static double now(void)
{
    struct timespec t;

    clock_gettime(CLOCK_MONOTONIC, &t);
    return t.tv_sec + t.tv_nsec * 1e-9;
}

static void unequal(const char *what)
{
    printf("%s: the library and the plain program differ\n", what);
    exit(1);
}

/* ---- the work ---- */

static size_t do_search(void)
{
    return lowhenita_search(file.bytes, file.len, settle, my_letters, sizeof my_letters, result, sizeof result);
}

static plain_verdict verdict;

static size_t do_plain_search(void)
{
    return plain_search(file.bytes, file.len, settle, their_letters, sizeof their_letters, &verdict);
}

static size_t do_run(void)
{
    return lowhenita_run(file.bytes, file.len, 0, input, letters, mine, sizeof mine, result, sizeof result);
}

static size_t plain_count, plain_end;

static size_t do_plain_run(void)
{
    return plain_run(file.bytes, file.len, 0, input, letters, theirs, sizeof theirs, &plain_count, &plain_end);
}

static size_t do_decode(void)
{
    return lowhenita_decode(file.bytes, file.len, before, after, settle, sent, letters, mine, sizeof mine, result,
                            sizeof result);
}

static size_t do_plain_decode(void)
{
    return plain_decode(file.bytes, file.len, before, after, settle, sent, letters, theirs, sizeof theirs,
                        &plain_count);
}

static size_t do_window(void)
{
    return lowhenita_window(file.bytes, file.len, before, after, settle, sent, before + 1 + after, result, sizeof result);
}

static size_t plain_letter, plain_far;

static size_t do_plain_window(void)
{
    return plain_window(file.bytes, file.len, before, after, settle, sent, before + 1 + after, &plain_letter, &plain_far);
}

static size_t do_table(void)
{
    return lowhenita_table(file.bytes, file.len, before, after, settle, mine, sizeof mine, result, sizeof result);
}

static size_t do_plain_table(void)
{
    return plain_table(file.bytes, file.len, before, after, settle, theirs, sizeof theirs, &plain_count);
}

static size_t do_write(void)
{
    return lowhenita_write(file.bytes[3], file.bytes[4], file.bytes[5], file.bytes + 6, file.len - 6, mine, sizeof mine,
                           result, sizeof result);
}

static size_t do_plain_write(void)
{
    return plain_write(file.bytes[3], file.bytes[4], file.bytes[5], file.bytes + 6, file.len - 6, theirs, sizeof theirs,
                       &plain_count);
}

static coder_file second; /* what stands behind the coder in a row */

static size_t do_join(void)
{
    return lowhenita_join(file.bytes, file.len, second.bytes, second.len, mine, sizeof mine, result, sizeof result);
}

static size_t do_plain_join(void)
{
    return plain_join(file.bytes, file.len, second.bytes, second.len, theirs, sizeof theirs, &plain_count);
}

static size_t do_search_kinds(void)
{
    return lowhenita_search_kinds(file.bytes, file.len, kinds, file.bytes[4], result, sizeof result);
}

static plain_kinds of_kinds;

static size_t do_plain_search_kinds(void)
{
    return plain_search_kinds(file.bytes, file.len, kinds, file.bytes[4], &of_kinds);
}

static size_t do_window_kinds(void)
{
    return lowhenita_window_kinds(file.bytes, file.len, kinds, file.bytes[4], before, after, sent, before + 1 + after,
                                  result, sizeof result);
}

static size_t plain_answer, plain_number;

static size_t do_plain_window_kinds(void)
{
    return plain_window_kinds(file.bytes, file.len, kinds, file.bytes[4], before, after, sent, before + 1 + after,
                              &plain_answer, &plain_number);
}

/* Seconds for `times` calls. */
static double timed(size_t (*work)(void), int times)
{
    double from = now();
    int k;

    for (k = 0; k < times; k++)
        if (work() != 0)
            unequal("a call was refused");
    return now() - from;
}

/* The two in turn; prints the time of a call, or the letters a second, and the ratio. */
static void compare(const char *name, size_t (*library)(void), size_t (*plain)(void), size_t of)
{
    double l = 1e9, p = 1e9, x;
    int turn, times;

    for (times = 1; timed(library, times) < 0.004;)
        times *= 2;
    for (turn = 0; turn < TURNS; turn++) {
        x = timed(library, times);
        l = x < l ? x : l;
        x = timed(plain, times);
        p = x < p ? x : p;
    }
    printf(l / times < 1e-6 ? "%-58s %10.3f us %10.3f us" : "%-58s %10.2f us %10.2f us", name, l / times * 1e6, p / times * 1e6);
    if (of)
        printf(" %8.1f M/s", of * (double)times / l * 1e-6);
    else
        printf(" %12s", "");
    printf("   ratio %.2f\n", l / p);
    fflush(stdout);
}

static size_t pair_letters(void)
{
    return verdict.back_loop + verdict.lead_in + 1 + verdict.lead_out + verdict.forward_loop;
}

/* Both find the same window, or the same looped pair with the same letters. */
static void same_search(const char *name)
{
    size_t k;

    if (do_search() != 0 || do_plain_search() != 0 || field(0) != (uint64_t)verdict.is_pair)
        unequal(name);
    if (verdict.is_pair) {
        const size_t numbers[6] = {verdict.s, verdict.t, verdict.back_loop, verdict.lead_in,
                                   verdict.lead_out, verdict.forward_loop};

        for (k = 0; k < 6; k++)
            if (field((int)k + 1) != numbers[k])
                unequal(name);
        if (memcmp(my_letters, their_letters, 2 * pair_letters()) != 0)
            unequal(name);
    } else if (field(1) != verdict.before || field(2) != verdict.after) {
        unequal(name);
    }
}

static void bench_search(const char *name)
{
    same_search(name);
    if (verdict.is_pair)
        printf("  (pair of %lu letters)\n", (unsigned long)pair_letters());
    else
        printf("  (window %lu %lu)\n", (unsigned long)verdict.before, (unsigned long)verdict.after);
    compare(name, do_search, do_plain_search, 0);
}

/* What the coder sends on n random letters. */
static void send(const char *name, size_t n)
{
    size_t k;

    letters = n;
    for (k = 0; k < n; k++)
        input[k] = (uint8_t)random_below(file.bytes[4]);
    if (do_run() != 0 || do_plain_run() != 0 || memcmp(mine, theirs, n) != 0 || field(1) != plain_end)
        unequal(name);
    memcpy(sent, mine, n);
}

/* Every so many letters one is drawn anew; 0: none. */
static void bench_damaged(const char *name, size_t b, size_t a, size_t n, size_t every)
{
    size_t k;

    before = b;
    after = a;
    send(name, n);
    for (k = 0; every > 0 && k < n; k += every)
        sent[k] = (uint8_t)random_below(file.bytes[5]);
    if (do_decode() != 0 || do_plain_decode() != 0 || field(0) != plain_count ||
        memcmp(mine, theirs, plain_count) != 0)
        unequal(name);
    compare(name, do_decode, do_plain_decode, n);
}

static void bench_string(const char *name, size_t b, size_t a, size_t n)
{
    bench_damaged(name, b, a, n, 0);
}

static const size_t sides[][2] = {{1, 0}, {2, 0}, {8, 0}, {60, 0}, {2, 2}, {8, 8}, {0, 60}};

/* A coded string with windows of each shape; every so many letters one is drawn anew, 0: none. */
static void bench_strings(const char *coder, size_t every)
{
    char name[100];
    size_t k;

    for (k = 0; k < sizeof sides / sizeof *sides; k++) {
        sprintf(name, "string: %s, window %lu %lu", coder, (unsigned long)sides[k][0], (unsigned long)sides[k][1]);
        bench_damaged(name, sides[k][0], sides[k][1], LETTERS, every);
    }
}

/* One window of a coded string, and one whose letter at a place no run gives after those before it: a letter is looked
   for, and where there is none the last one tried stays. */
static void bench_window(const char *name, size_t b, size_t a, size_t place)
{
    size_t n = b + 1 + a, o = 0;

    before = b;
    after = a;
    send(name, n);
    do {
        if (place < n)
            sent[place] = (uint8_t)o;
        if (do_window() != 0 || do_plain_window() != 0 || field(0) != plain_letter ||
            (plain_letter == 254 && field(1) != plain_far))
            unequal(name);
    } while (place < n && (plain_letter != 254 || plain_far != place) && ++o < file.bytes[5]);
    if (plain_letter == 254)
        printf("  (none with %lu)\n", (unsigned long)plain_far);
    compare(name, do_window, do_plain_window, 0);
}

static void bench_windows(void)
{
    bench_window("window: 16 states, 64 outputs, 3 2", 3, 2, 6);
    bench_window("window: the same, 3 2, first letters", 3, 2, 2);
    bench_window("window: the same, 3 2, all letters but the last", 3, 2, 5);
    bench_window("window: 16 states, 64 outputs, 136 136", 136, 136, 273);
    bench_window("window: the same, 136 136, first letters", 136, 136, 2);
    bench_window("window: the same, 136 136, all letters but the last", 136, 136, 272);
}

static void bench_run(const char *name)
{
    size_t k;

    letters = LETTERS;
    for (k = 0; k < letters; k++)
        input[k] = (uint8_t)random_below(file.bytes[4]);
    if (do_run() != 0 || do_plain_run() != 0 || memcmp(mine, theirs, letters) != 0 || field(1) != plain_end)
        unequal(name);
    compare(name, do_run, do_plain_run, letters);
}

static void bench_table(const char *name, size_t b, size_t a)
{
    before = b;
    after = a;
    if (do_table() != 0 || do_plain_table() != 0 || field(0) != plain_count ||
        memcmp(mine, theirs, plain_count) != 0)
        unequal(name);
    compare(name, do_table, do_plain_table, plain_count);
}

/* The coder's own file, written from its counts and entries. */
static void bench_write(const char *name)
{
    if (do_write() != 0 || do_plain_write() != 0 || field(0) != plain_count || plain_count != file.len
        || memcmp(mine, theirs, plain_count) != 0 || memcmp(mine, file.bytes, plain_count) != 0)
        unequal(name);
    compare(name, do_write, do_plain_write, 0);
}

/* Entries at random: next states and output letters all equally likely. The letters are then renumbered: O is how many
   of those `outputs` the entries name. */
static void drawn_coder(size_t states, size_t inputs, size_t outputs)
{
    size_t k;

    begin_file(&file, states, inputs, outputs);
    for (k = 6; k < file.len; k += 2) {
        file.bytes[k] = (uint8_t)random_below(states);
        file.bytes[k + 1] = (uint8_t)random_below(outputs);
    }
    renumber_letters(&file);
}

/* The same, until the entries name all letters. */
static void any_coder(size_t states, size_t inputs, size_t outputs)
{
    do
        drawn_coder(states, inputs, outputs);
    while (file.bytes[5] < outputs);
}

/* Random coders without a decoder: the mean time of a search, each the least of several, and the longest
   search of the library. */
static void bench_pairs(size_t states, size_t inputs, size_t outputs)
{
    double l, p, x, library = 0, plain = 0, longest = 0;
    char name[80];
    int k, turn;

    sprintf(name, "search: %d coders without a decoder, %lu %lu %lu", CODERS, (unsigned long)states,
            (unsigned long)inputs, (unsigned long)outputs);
    for (k = 0; k < CODERS; k++) {
        do {
            any_coder(states, inputs, outputs);
            same_search(name);
        } while (!verdict.is_pair);
        for (turn = 0, l = p = 1e9; turn < TURNS; turn++) {
            x = timed(do_search, 1);
            l = x < l ? x : l;
            x = timed(do_plain_search, 1);
            p = x < p ? x : p;
        }
        library += l;
        plain += p;
        longest = l > longest ? l : longest;
    }
    printf("%-58s %10.2f us %10.2f us %12s   ratio %.2f   longest %.2f us\n", name, library / CODERS * 1e6,
           plain / CODERS * 1e6, "", library / plain, longest * 1e6);
    fflush(stdout);
}

static void bench_all_pairs(void)
{
    static const size_t counts[][3] = {{4, 4, 2}, {8, 8, 4}, {12, 16, 8}, {16, 16, 1}, {16, 16, 4}, {16, 4, 2},
                                       {16, 16, 32}};
    size_t k;

    for (k = 0; k < sizeof counts / sizeof *counts; k++)
        bench_pairs(counts[k][0], counts[k][1], counts[k][2]);
}

/* ---- kinds ---- */

static void same_search_kinds(const char *name)
{
    if (do_search_kinds() != 0 || do_plain_search_kinds() != 0 || field(0) != (uint64_t)!of_kinds.told)
        unequal(name);
    if (of_kinds.told
        && (field(1) != of_kinds.before || field(2) != of_kinds.after || field(3) != of_kinds.carried))
        unequal(name);
}

/* The least of several timings of one call, a short one 16 times in a row. */
static double least_time(size_t (*work)(void))
{
    int times = timed(work, 1) < 2e-5 ? 16 : 1, turn;
    double least = 1e9, x;

    for (turn = 0; turn < TURNS; turn++) {
        x = timed(work, times) / times;
        least = x < least ? x : least;
    }
    return least;
}

/* Each letter of `many` kinds, which kinds they are and which letter has which at random. */
static void draw_kinds(size_t many)
{
    uint8_t of[16];
    size_t inputs = file.bytes[4], k;

    for (k = 0; k < inputs; k++)
        of[k] = (uint8_t)k;
    shuffle(of, inputs);
    for (k = 0; k < inputs; k++)
        kinds[k] = of[k % many];
    shuffle(kinds, inputs);
}

/* A random coder with half of its letters in their places twice, and `many` kinds of the half. */
static void draw_filled(size_t states, size_t inputs, size_t outputs, size_t many)
{
    uint8_t of[16];
    coder_file base;
    size_t k;

    drawn_coder(states, inputs / 2, outputs);
    base = file;
    for (k = 0; k < inputs; k++)
        of[k] = (uint8_t)(k % (inputs / 2));
    shuffle(of, inputs);
    make_filled(&file, &base, inputs, of);
    for (k = 0; k < inputs; k++)
        kinds[k] = (uint8_t)(of[k] % many);
}

/* Any random coder; one with a window for letters; one with filler. */
enum { ANY, WITH_WINDOW, WITH_FILLER };

static void draw_with_kinds(int which, size_t states, size_t inputs, size_t outputs, size_t many)
{
    if (which == WITH_FILLER) {
        draw_filled(states, inputs, outputs, many);
        return;
    }
    do
        drawn_coder(states, inputs, outputs);
    while (which == WITH_WINDOW && (do_plain_search() != 0 || verdict.is_pair));
    draw_kinds(many);
}

/* The times of searches for kinds, beside plain C and beside the search for letters on the same coders. */
typedef struct kinds_times {
    unsigned coders, told, lacking;
    double library, plain, letters, highest;
} kinds_times;

static kinds_times all_kinds;

static void add_times(kinds_times *sum, double library, double plain, double of_letters)
{
    sum->coders++;
    sum->told += of_kinds.told != 0;
    sum->lacking += of_kinds.told && of_kinds.carried + 1 < (size_t)1 << file.bytes[4];
    sum->library += library;
    sum->plain += plain;
    sum->letters += of_letters;
    sum->highest = library / of_letters > sum->highest ? library / of_letters : sum->highest;
}

static void time_kinds(const char *name, kinds_times *sum)
{
    double l, p, s;

    same_search_kinds(name);
    l = least_time(do_search_kinds);
    p = least_time(do_plain_search_kinds);
    s = least_time(do_search);
    add_times(sum, l, p, s);
    add_times(&all_kinds, l, p, s);
}

static void print_times(const char *name, const kinds_times *sum)
{
    printf("  (%u told, %u with a kind not carried)\n", sum->told, sum->lacking);
    printf("%-58s %10.2f us %10.2f us %12s   ratio %.2f   letters %.2f us, ratio of sums %.2f, highest %.2f\n", name,
           sum->library / sum->coders * 1e6, sum->plain / sum->coders * 1e6, "", sum->library / sum->plain,
           sum->letters / sum->coders * 1e6, sum->library / sum->letters, sum->highest);
    fflush(stdout);
}

/* Random coders, of up to `outputs` letters, with random kinds. */
static void bench_kinds(int which, const size_t row[4])
{
    static const char *const names[3] = {"", " with window", " with filler"};
    kinds_times sum;
    char name[100];
    int k;

    memset(&sum, 0, sizeof sum);
    sprintf(name, "kinds: %d coders%s, %lu %lu %lu, %lu kinds", CODERS / 4, names[which], (unsigned long)row[0],
            (unsigned long)row[1], (unsigned long)row[2], (unsigned long)row[3]);
    for (k = 0; k < CODERS / 4; k++) {
        draw_with_kinds(which, row[0], row[1], row[2], row[3]);
        time_kinds(name, &sum);
    }
    print_times(name, &sum);
}

/* Chains, whose windows are long, with one kind and with as many as there are letters. */
static void bench_chain_kinds(const char *name)
{
    size_t many[3] = {1, 8, 16}, k;
    kinds_times sum;

    memset(&sum, 0, sizeof sum);
    for (k = 0; k < 3; k++) {
        draw_kinds(many[k] < file.bytes[4] ? many[k] : file.bytes[4]);
        time_kinds(name, &sum);
    }
    print_times(name, &sum);
}

static void bench_window_kinds(const char *name, size_t b, size_t a)
{
    size_t k;

    before = b;
    after = a;
    letters = b + 1 + a;
    for (k = 0; k < letters; k++)
        input[k] = (uint8_t)random_below(file.bytes[4]);
    if (do_run() != 0)
        unequal(name);
    memcpy(sent, mine, letters);
    if (do_window_kinds() != 0 || do_plain_window_kinds() != 0 || field(0) != plain_answer
        || (plain_answer < 2 && field(1) != plain_number))
        unequal(name);
    compare(name, do_window_kinds, do_plain_window_kinds, 0);
}

static void bench_all_kinds(void)
{
    static const struct {
        int which;
        size_t row[4];
    } rows[] = {
        {ANY, {2, 4, 3, 2}},           {ANY, {4, 16, 1, 1}},          {ANY, {8, 8, 4, 3}},
        {ANY, {16, 16, 1, 1}},         {ANY, {16, 16, 1, 8}},         {ANY, {16, 16, 4, 1}},
        {ANY, {16, 16, 4, 8}},         {ANY, {16, 16, 4, 16}},        {ANY, {16, 16, 64, 1}},
        {ANY, {16, 16, 64, 8}},        {ANY, {16, 16, 64, 16}},       {ANY, {16, 4, 2, 1}},
        {WITH_WINDOW, {1, 2, 2, 2}},   {WITH_WINDOW, {1, 8, 64, 8}},  {WITH_WINDOW, {2, 6, 64, 1}},
        {WITH_WINDOW, {2, 4, 8, 2}},   {WITH_WINDOW, {4, 4, 16, 1}},  {WITH_WINDOW, {8, 4, 32, 4}},
        {WITH_WINDOW, {8, 6, 64, 1}},  {WITH_WINDOW, {16, 4, 64, 1}}, {WITH_WINDOW, {16, 4, 64, 4}},
        {WITH_FILLER, {4, 4, 8, 2}},   {WITH_FILLER, {8, 8, 32, 3}},  {WITH_FILLER, {16, 16, 64, 1}},
        {WITH_FILLER, {16, 16, 64, 8}}, {WITH_FILLER, {16, 8, 64, 4}}
    };
    size_t k;

    for (k = 0; k < sizeof rows / sizeof *rows; k++)
        bench_kinds(rows[k].which, rows[k].row);
    make_forward_chain(&file, 16, 14);
    bench_chain_kinds("kinds: chain, 16 states, long lookahead");
    make_backward_chain(&file, 16, 14);
    bench_chain_kinds("kinds: chain, 16 states, many letters before");
    make_closed_both(&file, 16, 14);
    bench_chain_kinds("kinds: closed chain, 16 states");
    print_times("kinds: all of these", &all_kinds);
    draw_filled(16, 16, 64, 8);
    bench_window_kinds("window of kinds: 16 states, 16 inputs, 64 outputs, 3 2", 3, 2);
    bench_window_kinds("window of kinds: 16 states, 16 inputs, 64 outputs, 136 136", 136, 136);
}

/* The largest settle count: a line of states that the letters ahead of the window leave one by one, and a coder in
   which they leave none. */
static void bench_settle(void)
{
    settle = LOWHENITA_MAX_SETTLE;
    make_line_like_g(&file, 14);
    bench_search("search: line, 16 states, settle count 64");
    bench_string("string: line, 16 states, window 0 0, settle count 64", 0, 0, LETTERS);
    bench_table("table: line, 16 states, 46,656 bytes, settle count 64", 3, 2);
    any_coder(16, 16, 64);
    bench_search("search: random, 16 states, 64 outputs, settle count 64");
    bench_string("string: random, 16 states, window 1 0, settle count 64", 1, 0, LETTERS);
    settle = 0;
}

static void example_a(void)
{
    example e;

    make_example(0, &e);
    file = e.file;
}

static void bench_join(const char *name, size_t len)
{
    if (do_join() != 0 || do_plain_join() != 0 || field(0) != plain_count || plain_count != len
        || memcmp(mine, theirs, plain_count) != 0)
        unequal(name);
    compare(name, do_join, do_plain_join, 0);
}

/* A small row, and one with the largest file: each entry of the second coder puts out a letter of its own. */
static void bench_joins(void)
{
    uint8_t all[64];
    size_t k;

    example_a();
    second = file;
    bench_join("join: A and A, 22 bytes", 22);
    any_coder(4, 16, 16);
    for (k = 0; k < sizeof all; k++)
        all[k] = (uint8_t)k;
    shuffle(all, sizeof all);
    begin_file(&second, 4, 16, sizeof all);
    for (k = 0; k < sizeof all; k++) {
        second.bytes[6 + 2 * k] = (uint8_t)random_below(4);
        second.bytes[7 + 2 * k] = all[k];
    }
    bench_join("join: 4 and 4 states, 16 inputs, 64 outputs, 518 bytes", LOWHENITA_MAX_FILE_BYTES);
}

int main(void)
{
    size_t n;
    char name[80];

    random_seed(20261115);
    printf("%-58s %13s %13s\n", "", "library", "plain C");
    example_a();
    bench_search("search: A");
    for (n = 4; n <= 16; n += 4) {
        any_coder(n, 16, 4);
        sprintf(name, "search: random, %lu states, 16 inputs, 4 outputs", (unsigned long)n);
        bench_search(name);
    }
    for (n = 4; n <= 16; n += 4) {
        drawn_coder(16, n, 64);
        sprintf(name, "search: random, 16 states, %lu inputs, %d outputs", (unsigned long)n, file.bytes[5]);
        bench_search(name);
    }
    make_forward_chain(&file, 16, 14);
    bench_search("search: chain, 16 states, long lookahead");
    make_backward_chain(&file, 16, 14);
    bench_search("search: chain, 16 states, many letters before");
    make_either_chain(&file, 16, 12, 1, 0, 0);
    bench_search("search: chain, 16 states, the orders differ");
    make_closed_both(&file, 16, 13);
    bench_search("search: closed chain, 16 states, long looped pair");
    make_closed_both(&file, 16, 14);
    bench_search("search: closed chain, 16 states, longest looped pair");

    example_a();
    bench_run("run: A, 20,000 letters");
    bench_strings("A", 0);
    bench_table("table: A, 65,536 bytes", 8, 7);
    bench_write("write: A, 14 bytes");
    any_coder(16, 16, 64);
    bench_run("run: 16 states, 16 inputs, 64 outputs, 20,000 letters");
    bench_strings("16 states, 16 inputs, 64 outputs", 0);
    bench_write("write: 16 states, 16 inputs, 64 outputs, 518 bytes");
    any_coder(16, 16, 16);
    bench_table("table: 16 states, 16 inputs, 16 outputs, 65,536 bytes", 2, 1);
    any_coder(16, 16, 4);
    bench_strings("16 states, 16 inputs, 4 outputs", 0);
    bench_table("table: 16 states, 16 inputs, 4 outputs, 65,536 bytes", 4, 3);
    bench_all_pairs();
    bench_settle();
    bench_all_kinds();
    any_coder(16, 16, 64);
    bench_strings("16 states, one letter of 16 anew", 16);
    bench_strings("16 states, every letter anew", 1);
    bench_windows();
    bench_joins();
    return 0;
}
