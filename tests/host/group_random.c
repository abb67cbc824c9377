/* Random coders, and random arguments of one call on random coders. */
#include "calls.h"
#include "groups.h"
#include "named_orders.h"
#include "settles.h"

void group_random(void)
{
    coder_file f;
    size_t k;

    begin_group("random coders with N up to 4, I up to 3, O up to 6");
    try_verdicts(1, 1, 1, FIRST_STEPS);
    for (k = 0; k < 20000; k++) {
        size_t settle = random_settle();

        make_random(&f, 1 + random_below(4), 1 + random_below(3), 1 + random_below(6));
        search(&f, 0);
        name_orders(&f, 0);
        round_trip(&f);
        compare_some_of_each(&f);
        search_further(&f, settle);
        name_orders(&f, settle);
        round_trip(&f);
    }
    end_group();
}

void group_random_large(void)
{
    coder_file f;
    size_t k;

    begin_group("random coders with N up to 16, I up to 16, O up to 64");
    for (k = 0; k < 4000; k++) {
        try_verdicts(1, 0, k % 40 == 0, FIRST_STEPS / 10);
        make_random(&f, 1 + random_below(16), 1 + random_below(16), 1 + random_below(64));
        search(&f, 0);
        round_trip(&f);
        try_verdicts(1, 0, 0, 0);
        search_further(&f, random_settle());
        round_trip(&f);
        compare_some_of_each(&f);
    }
    end_group();
}

void group_arguments(enum call call, const char *name, size_t count)
{
    coder_file f;
    example e;
    size_t k;

    begin_group(name);
    try_verdicts(0, 0, 0, 0);
    for (k = 0; k < count; k++) {
        forget_verdict();
        switch (random_below(4)) {
        case 0:
            make_example(random_below(EXAMPLES), &e);
            f = e.file;
            break;
        case 1:
            make_random(&f, 1 + random_below(16), 1 + random_below(16), 1 + random_below(64));
            break;
        default:
            make_random(&f, 1 + random_below(6), 1 + random_below(4), 1 + random_below(8));
        }
        compare_random(call, &f);
        compare_random(call, &f);
    }
    end_group();
}
