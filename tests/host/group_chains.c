/* Chains: coders with long windows or long loops, whose windows and loops are known; and chains
   with some entries changed. */
#include "calls.h"
#include "groups.h"
#include "known_chains.h"
#include "named_orders.h"

/* The most states for which the enumerator finds the least windows. */
enum { ENUMERATED = 6 };

/* What is known of a chain besides its verdict being judged. Every state of a chain is entered from
   one of its states, so each settle count gives the same windows; one is taken at random. */
static void chain_window(const coder_file *f, const least known[ORDERS])
{
    size_t settle = random_settle();

    known_search(f, settle, 0, known[LEAST_LOOKAHEAD].before, known[LEAST_LOOKAHEAD].after);
    name_known_orders(f, settle, known, f->bytes[3] <= ENUMERATED);
    round_trip(f);
    compare_some_of_each(f);
}

static void chain_loop(const coder_file *f)
{
    const least none[ORDERS] = {{NO, 0, 0}, {NO, 0, 0}};
    size_t settle = random_settle();

    known_search(f, settle, 1, 0, 0);
    name_known_orders(f, settle, none, f->bytes[3] <= ENUMERATED);
    compare_some_of_each(f);
}

/* A loop that has to go round the chain goes round once. Where both have to, the letters differ
   only where the chain is closed, at its last pair: the pair of runs starts there. At 16 states
   with all turns it has 481 letters in all. */
static void loops_of_chains(size_t states, size_t turns)
{
    size_t loop = 2 * chain_pairs(states, turns);
    const size_t both[6] = {states - 2 - turns, states - 1, loop, 0, 0, loop};
    coder_file f;

    make_closed_back(&f, states, turns);
    chain_loop(&f);
    known_value("the back loop", found->pair.back_loop, loop);
    make_closed_both(&f, states, turns);
    chain_loop(&f);
    known_pair(both);
    if (states == 16 && turns == 14)
        known_value("the letters in all", found->letters, 481);
    if (turns + 3 <= states) {
        make_closed_forward(&f, states, turns);
        chain_loop(&f);
        known_value("the forward loop", found->pair.forward_loop, loop);
    }
}

void group_chains(void)
{
    size_t n, turns;

    begin_group("chains with long windows and loops, N up to 16");
    for (n = 2; n <= 16; n++)
        for (turns = 0; turns + 2 <= n; turns++) {
            try_verdicts(n <= 8 || (n == 16 && turns % 7 == 0), n <= 6, n <= 8 || n == 16,
                         n <= 4 ? FIRST_STEPS : 0);
            each_known_chain(n, turns, chain_window);
            loops_of_chains(n, turns);
        }
    end_group();
}

static void random_either_chain(coder_file *f, size_t states)
{
    size_t turns = random_below(states - 2 < 13 ? states - 2 : 13);
    size_t after = 1 + random_below(states - 2 - turns);

    make_either_chain(f, states, turns, after, random_below(states), random_below(after));
}

void group_changed_chains(void)
{
    coder_file f;
    size_t k, n, turns, settle;

    begin_group("chains with some entries changed");
    for (k = 0; k < 2000; k++) {
        n = 3 + random_below(k % 10 == 0 ? 14 : 6);
        turns = random_below(n - 1);
        try_verdicts(n <= 8, n <= 6, n <= 8, n <= 4 ? FIRST_STEPS : 0);
        switch (k % 5) {
        case 0:
            make_forward_chain(&f, n, turns);
            break;
        case 1:
            make_backward_chain(&f, n, turns);
            break;
        case 2:
            make_split_chain(&f, n, random_below(n - 2));
            break;
        case 3:
            random_either_chain(&f, n);
            break;
        default:
            make_closed_both(&f, n, turns);
        }
        do
            change_entry(&f);
        while (random_below(2));
        settle = k % 2 ? random_settle() : 0;
        search(&f, settle);
        if (n <= ENUMERATED)
            name_orders(&f, settle);
        round_trip(&f);
        compare_some_of_each(&f);
    }
    end_group();
}
