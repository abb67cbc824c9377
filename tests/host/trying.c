/* Windows tried by enumeration, within an allowance, and counted.

   A window is tried by all runs of its length, grouped by output string, as long as there are at
   most MOST_RUNS of them; beyond that by all pairs of runs around its present letter, with
   PAIR_STEPS steps at most. That a larger window works where a smaller one does is used nowhere.
   The windows of one coder and settle count are kept until another coder or settle count comes, and
   none is tried or counted twice. */
#include "compare.h"

#include <string.h>

enum way { NOT_YET, BY_GROUPS, BY_PAIRS };

static kept_coder kept;
static size_t kept_settle;

/* For each length the way, and by groups what they say of every window of it; for each window, by
   its letters and its letters before, whether it was tried and whether it fails. */
static enum way ways[MOST_WINDOW + 1];
static uint8_t marks[MOST_WINDOW + 1][MOST_WINDOW];
static uint8_t tried[MOST_WINDOW + 1][MOST_WINDOW];
static enum answer answers[MOST_WINDOW + 1][MOST_WINDOW];

static void forget_windows(void)
{
    memset(ways, 0, sizeof ways);
    memset(tried, 0, sizeof tried);
}

static enum answer try_window(const coder *c, size_t before, size_t after)
{
    size_t n = before + 1 + after;
    enum answer works;

    if (ways[n] == NOT_YET)
        ways[n] = fails_by_groups(c, n, MOST_RUNS, marks[n]) ? BY_GROUPS : BY_PAIRS;
    if (ways[n] == BY_GROUPS)
        return marks[n][before] ? YES : NO;
    allow_steps(PAIR_STEPS);
    works = works_by_pairs(c, before, after);
    return works == UNKNOWN ? UNKNOWN : works == YES ? NO : YES;
}

enum answer window_fails(const coder *c, size_t before, size_t after)
{
    size_t n = before + 1 + after;

    if (another_coder(&kept, c) || kept_settle != c->settle)
        forget_windows();
    kept_settle = c->settle;
    if (!tried[n][before]) {
        tried[n][before] = 1;
        answers[n][before] = try_window(c, before, after);
        if (answers[n][before] == UNKNOWN)
            now.windows_left++;
        else
            now.windows++;
    }
    return answers[n][before];
}
