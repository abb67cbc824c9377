/* All small coders: with all arguments of small size up to two states, with random ones for three
   states. Each with settle count 0 and with others. */
#include "calls.h"
#include "groups.h"
#include "named_orders.h"
#include "settles.h"

/* Everything that takes a settle count; 0 comes first, and larger ones after it. */
static void tiny_with(const coder_file *f, size_t settle)
{
    if (settle == 0)
        search(f, settle);
    else
        search_further(f, settle);
    name_orders(f, settle);
    round_trip(f);
    compare_both_ways(f, settle, 7);
    all_windows(f, settle, 4);
    all_strings(f, settle, 3, 4);
    all_tables(f, settle, 5);
}

void group_tiny(void)
{
    coder_file f;
    size_t n, i, o, k;

    begin_group("all coders with N, I, O up to 2");
    try_verdicts(1, 1, 1, FIRST_STEPS);
    for (n = 1; n <= 2; n++)
        for (i = 1; i <= 2; i++)
            for (o = 1; o <= 2; o++)
                for (k = 0; k < coders_with(n, i, o); k++) {
                    make_numbered(&f, n, i, o, k);
                    tiny_with(&f, 0);
                    tiny_with(&f, 1);
                    tiny_with(&f, 2 + k % 63);
                    all_runs(&f, 4);
                    all_pairs(&f, 3);
                }
    end_group();
}

/* A second search, with a larger settle count. Where there is no decoder, every 16th time all
   windows are tried again; the pair is judged each time. */
static void search_again(const coder_file *f, size_t settle, size_t k)
{
    try_verdicts(1, 0, 0, 0);
    search_further(f, settle);
    round_trip(f);
    if (!found->is_pair || k % 16 == 0)
        name_orders(f, settle);
}

void group_three_states(void)
{
    static const size_t settles[5] = {1, 2, 3, 15, 64};
    coder_file f;
    size_t k;

    begin_group("all coders with N = 3, I = 2, O = 2");
    for (k = 0; k < coders_with(3, 2, 2); k++) {
        make_numbered(&f, 3, 2, 2, k);
        try_verdicts(1, 1, 1, FIRST_STEPS);
        search(&f, 0);
        name_orders(&f, 0);
        round_trip(&f);
        compare_some_of_each(&f);
        search_again(&f, settles[k % 5], k);
    }
    end_group();
}
