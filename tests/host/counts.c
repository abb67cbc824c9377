/* The counts of a group of comparisons, its line, and its differences in detail. */
#define _DEFAULT_SOURCE
#include "compare.h"

#include <signal.h>
#include <stdarg.h>
#include <stdio.h>
#include <string.h>
#include <unistd.h>

enum { SHOWN = 3 /* differences shown in detail for each group */ };

counts now;
static const char *group_name;
static unsigned long differences;
static unsigned groups_passed, groups_failed;

/* The call to show: a copy, with its kinds and its second file, since the arguments may be gone when a
   known value differs. */
static arguments shown;
static uint8_t shown_kinds[512], shown_second[1024];
static int call_shown;

/* ---- groups ---- */

void begin_group(const char *name)
{
    memset(&now, 0, sizeof now);
    group_name = name;
    differences = 0;
    call_shown = 0;
}

void end_group(void)
{
    printf("%s: %lu comparisons", group_name, now.comparisons);
    if (now.coders)
        printf(", %lu coders", now.coders);
    if (now.searches)
        printf(", %lu searches", now.searches);
    if (now.decoders)
        printf(", %lu windows found (up to %lu letters)", now.decoders, now.longest_window);
    if (now.pairs)
        printf(", %lu pairs found (up to %lu letters)", now.pairs, now.longest_pair);
    if (now.windows)
        printf(", %lu windows tried, %lu left out", now.windows, now.windows_left);
    if (now.firsts || now.firsts_left)
        printf(", %lu first pairs found by trying too, %lu left out", now.firsts, now.firsts_left);
    if (now.refuted)
        printf(", %lu windows refuted by following pairs", now.refuted);
    if (now.answers_left)
        printf(", %lu long enumerations left out", now.answers_left);
    if (now.cases)
        printf(", %lu cases written, %lu left out", now.cases, now.cases_left);
    if (now.two_windows)
        printf(", %lu coders with two least windows", now.two_windows);
    printf("%s\n", differences ? ", DIFFERENT" : "");
    fflush(stdout);
    if (differences)
        groups_failed++;
    else
        groups_passed++;
}

int end_groups(void)
{
    printf("groups: %u passed, %u failed\n", groups_passed, groups_failed);
    return groups_failed > 0;
}

/* ---- differences ---- */

const char *call_name(enum call call)
{
    static const char *const names[CALLS] = {"run", "search", "decode", "check", "window",
                                              "table", "write", "search_kinds",
                                              "window_kinds", "join"};

    return names[call];
}

static void print_bytes(const char *name, const uint8_t *bytes, size_t len)
{
    size_t k;

    printf("  %s, %zu bytes:", name, len);
    for (k = 0; k < len && k < 1100; k++)
        printf(" %02x", bytes[k]);
    printf("%s\n", k < len ? " ..." : "");
}

static void print_call(const arguments *a)
{
    const pair *p = &a->pair;

    printf("  lowhenita_%s: start %zu, before %zu, after %zu, settle %zu, pair %zu %zu "
           "lengths %zu %zu %zu %zu, counts %zu %zu %zu, lent %zu, result %zu\n",
           call_name(a->call), a->start, a->before, a->after, a->settle, p->s, p->t, p->back_loop,
           p->lead_in, p->lead_out, p->forward_loop, a->counts[0], a->counts[1], a->counts[2],
           a->lent_len, a->result_len);
    print_bytes("file", a->file, a->file_len);
    if (a->call == CALL_JOIN)
        print_bytes("second file", a->second, a->second_len);
    print_bytes("kinds", a->kinds, a->kinds_len);
    print_bytes("letters or entries", a->bytes, a->bytes_len);
}

/* The bytes are copied, as many as there is room for. */
static void keep_shown(const uint8_t **bytes, size_t *len, uint8_t *room, size_t most)
{
    if (*len > most)
        *len = most;
    if (*len > 0)
        memcpy(room, *bytes, *len);
    *bytes = room;
}

void show_call(const arguments *a)
{
    call_shown = a != NULL;
    if (!a)
        return;
    shown = *a;
    keep_shown(&shown.kinds, &shown.kinds_len, shown_kinds, sizeof shown_kinds);
    keep_shown(&shown.second, &shown.second_len, shown_second, sizeof shown_second);
}

void differ(const char *what, ...)
{
    va_list list;

    if (++differences > SHOWN)
        return;
    printf("difference in %s: ", group_name);
    va_start(list, what);
    vprintf(what, list);
    va_end(list);
    printf("\n");
    if (call_shown)
        print_call(&shown);
}

void known_value(const char *what, size_t got, size_t wanted)
{
    now.comparisons++;
    if (got != wanted)
        differ("%s is %zu, known is %zu", what, got, wanted);
}

/* ---- signals ---- */

static void on_signal(int number)
{
    differ("the call raised signal %d", number);
    printf("groups: %u passed, %u failed\n", groups_passed, groups_failed + 1);
    fflush(stdout);
    _exit(1);
}

void catch_signals(void)
{
    static const int numbers[] = {SIGSEGV, SIGBUS, SIGILL, SIGFPE, SIGABRT};
    struct sigaction action;
    size_t k;

    memset(&action, 0, sizeof action);
    action.sa_handler = on_signal;
    for (k = 0; k < sizeof numbers / sizeof *numbers; k++)
        sigaction(numbers[k], &action, NULL);
}
