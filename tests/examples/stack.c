/* The stack that each call takes: on a stack of its own, painted before the call, the distance from the caller's frame to the lowest byte
   that has changed. Prints the greatest distance for each call over the coders and windows below, and fails where one is not below
   LOWHENITA_STACK_BYTES. */
#define _DEFAULT_SOURCE
#include "coders.h"
#include "lowhenita.h"

#include <pthread.h>
#include <stdio.h>
#include <sys/mman.h>

/* OWN: the bytes below its mark that the measuring function may use itself, and leaves unpainted. */
enum { ROOM = 1 << 18, OWN = 256, PAINT = 0xA5, STRING = 1000, WINDOWS = 9 };
enum { RUN, SEARCH, DECODE, CHECK, WINDOW, SEARCH_KINDS, WINDOW_KINDS, TABLE, WRITE, JOIN, CALLS };

static const char *const names[CALLS] = {"run",          "search",       "decode", "check", "window",
                                         "search_kinds", "window_kinds", "table",  "write", "join"};
static uint8_t *stack;
static uint8_t letters[LOWHENITA_SEARCH_BYTES], bytes[LOWHENITA_MAX_TABLE_BYTES], result[LOWHENITA_RESULT_BYTES];
static uint8_t zeros[STRING], kinds[LOWHENITA_MAX_INPUTS];
static const coder_file *coder;
static coder_file copier; /* what the coder is joined with */
static size_t before, after, settle, most[CALLS], accepted[CALLS];
static int call, ahead;

/* Every received letter is 0, an output letter of every coder; the pair to be checked is the one that the last search has found. Letters
   2 k and 2 k + 1 have the kind k. */
static size_t one_call(void)
{
    static size_t pair[6], n;
    const uint8_t *f = coder->bytes;
    size_t len = coder->len, refusal, k;

    switch (call) {
    case RUN:
        return lowhenita_run(f, len, 0, zeros, STRING, bytes, sizeof bytes, result, sizeof result);
    case SEARCH:
        refusal = lowhenita_search(f, len, settle, letters, sizeof letters, result, sizeof result);
        for (n = 1, k = 0; k < 6; k++) {
            pair[k] = (size_t)lowhenita_field(result, 0) == LOWHENITA_LOOPED_PAIR ? (size_t)lowhenita_field(result, k + 1) : 0;
            n += k < 2 ? 0 : pair[k];
        }
        return refusal;
    case DECODE:
        return lowhenita_decode(f, len, before, after, settle, zeros, STRING, bytes, sizeof bytes, result, sizeof result);
    case CHECK:
        return lowhenita_check(f, len, pair[0], pair[1], pair[2], pair[3], pair[4], pair[5], letters, 2 * n, result, sizeof result);
    case WINDOW:
        return lowhenita_window(f, len, before, after, settle, zeros, before + 1 + after, result, sizeof result);
    case SEARCH_KINDS:
        return lowhenita_search_kinds(f, len, kinds, f[4], result, sizeof result);
    case WINDOW_KINDS:
        return lowhenita_window_kinds(f, len, kinds, f[4], before, after, zeros, before + 1 + after, result, sizeof result);
    case WRITE:
        return lowhenita_write(f[3], f[4], f[5], f + 6, len - 6, bytes, sizeof bytes, result, sizeof result);
    case JOIN:
        return ahead ? lowhenita_join(copier.bytes, copier.len, f, len, bytes, sizeof bytes, result, sizeof result)
                     : lowhenita_join(f, len, copier.bytes, copier.len, bytes, sizeof bytes, result, sizeof result);
    default:
        return lowhenita_table(f, len, before, after, settle, bytes, sizeof bytes, result, sizeof result);
    }
}

static void *measured(void *none)
{
    volatile uint8_t here = 0;
    volatile uint8_t *top = &here, *low;

    for (low = stack; low < top - OWN; low++)
        *low = PAINT;
    accepted[call] += one_call() == 0;
    low = stack;
    while (low < top && *low == PAINT)
        low++;
    if ((size_t)(top - low) > most[call])
        most[call] = (size_t)(top - low);
    return none;
}

static int on_own_stack(void)
{
    pthread_attr_t attributes;
    pthread_t thread;

    return pthread_attr_init(&attributes) == 0 && pthread_attr_setstack(&attributes, stack, ROOM) == 0
           && pthread_create(&thread, &attributes, measured, NULL) == 0 && pthread_join(thread, NULL) == 0;
}

static int takes_window(int c)
{
    return c == DECODE || c == WINDOW || c == WINDOW_KINDS || c == TABLE;
}

/* What the coder is joined with puts out what goes in: ahead of it and behind it, with one state, which is accepted where there are no more
   letters than inputs may be, and with 16. */
static void make_copier(int k)
{
    size_t n, e;

    ahead = k % 2 == 0;
    n = coder->bytes[ahead ? 4 : 5];
    if (n > LOWHENITA_MAX_INPUTS)
        n = LOWHENITA_MAX_INPUTS;
    begin_file(&copier, k < 2 ? 1 : LOWHENITA_MAX_STATES, n, n);
    for (e = 0; 6 + 2 * e < copier.len; e++)
        copier.bytes[7 + 2 * e] = (uint8_t)(e % n);
}

static int tries(int c)
{
    return c == SEARCH ? 2 : c == JOIN ? 4 : takes_window(c) ? WINDOWS : 1;
}

static int all_calls(const coder_file *f)
{
    static const size_t windows[WINDOWS][3] = {{0, 0, 0},   {1, 0, 64},   {0, 1, 1},    {7, 8, 0},     {15, 0, 2},
                                               {0, 15, 64}, {136, 0, 15}, {0, 136, 64}, {136, 136, 64}};
    int k;

    coder = f;
    for (call = 0; call < CALLS; call++)
        for (k = 0; k < tries(call); k++) {
            make_copier(k);
            before = windows[k][0];
            after = windows[k][1];
            settle = windows[k][2];
            if (!on_own_stack())
                return 0;
        }
    return 1;
}

int main(void)
{
    static const size_t counts[][3] = {{1, 1, 1}, {16, 16, 1}, {16, 16, 2}, {16, 16, 4}, {16, 16, 64}, {16, 2, 64}};
    coder_file f;
    example e;
    size_t k, j;
    int fine = 1;

    stack = (uint8_t *)mmap(NULL, ROOM, PROT_READ | PROT_WRITE, MAP_PRIVATE | MAP_ANONYMOUS, -1, 0);
    if (stack == MAP_FAILED)
        return 1;
    random_seed(1);
    for (k = 0; k < LOWHENITA_MAX_INPUTS; k++)
        kinds[k] = (uint8_t)(k / 2);
    for (k = 0; k < EXAMPLES; k++) {
        make_example(k, &e);
        fine = fine && all_calls(&e.file);
    }
    for (k = 0; k < sizeof counts / sizeof *counts; k++)
        for (j = 0; j < 20; j++) {
            make_random(&f, counts[k][0], counts[k][1], counts[k][2]);
            fine = fine && all_calls(&f);
        }
    make_forward_chain(&f, 16, 14);
    fine = fine && all_calls(&f);
    make_backward_chain(&f, 16, 14);
    fine = fine && all_calls(&f);
    make_closed_both(&f, 16, 13);
    fine = fine && all_calls(&f);
    for (k = 0; k < CALLS; k++) {
        printf("%-12s %5lu bytes of stack, %lu calls accepted\n", names[k], (unsigned long)most[k], (unsigned long)accepted[k]);
        fine = fine && accepted[k] > 0 && most[k] < LOWHENITA_STACK_BYTES;
    }
    return fine ? 0 : 1;
}
