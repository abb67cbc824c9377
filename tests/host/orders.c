/* The first window that works in each order, by trying windows in that order. */
#include "orders.h"

#include "compare.h"

/* Whether the window is the end of the search in an order: it works, or it is not known whether. */
static int ends_at(const coder *c, size_t before, size_t after, least *w)
{
    enum answer failing = window_fails(c, before, after);

    if (failing == YES)
        return 0;
    w->works = failing == NO ? YES : UNKNOWN;
    w->before = before;
    w->after = after;
    return 1;
}

static least with_least_lookahead(const coder *c)
{
    size_t side = side_bound(c), before, after;
    least w = {NO, 0, 0};

    for (after = 0; after <= side; after++)
        for (before = 0; before <= side; before++)
            if (ends_at(c, before, after, &w))
                return w;
    return w;
}

static least with_fewest_letters(const coder *c)
{
    size_t side = side_bound(c), letters, after;
    least w = {NO, 0, 0};

    for (letters = 1; letters <= 2 * side + 1; letters++)
        for (after = 0; after < letters && after <= side; after++)
            if (letters - 1 - after <= side && ends_at(c, letters - 1 - after, after, &w))
                return w;
    return w;
}

void least_windows(const coder *c, least in_order[ORDERS])
{
    in_order[LEAST_LOOKAHEAD] = with_least_lookahead(c);
    in_order[FEWEST_LETTERS] = with_fewest_letters(c);
}
