/* Chains whose least windows are known in each order, with the reason.

   A window b a fails exactly where two runs pass some pair of entries with equal outputs and
   different letters, with equal outputs for b letters before it and for a letters after it. What
   lies before and what lies after depends on the pair of states alone. p is the number of pairs of
   the chain: the first of them has no letters before it, the last p - 1. */
#include "known_chains.h"

typedef void visitor(const coder_file *f, const least known[ORDERS]);

/* One window is the least in both orders. */
static void visit_one(visitor *visit, const coder_file *f, size_t before, size_t after)
{
    least known[ORDERS] = {{YES, before, after}, {YES, before, after}};

    visit(f, known);
}

/* Forward: the different letters lie in the padding, where both runs are in one state, with any
   number of letters before. After it they are in two states and go on for p - 1 letters at most,
   from the first pair. So the windows with a >= p work and no others: 0 p is least in both orders.

   Backward: the different letters lie at the last pair, with p - 1 letters before, and the runs
   join, with any number of letters after. So the windows with b >= p work and no others: p 0.

   Split: two such places, one with p - 1 letters before and any number after, one with any number
   before and q - 1 after. So the windows with b >= p and a >= q work and no others: p q. */
static void same_in_both(size_t states, size_t turns, visitor *visit)
{
    coder_file f;
    size_t pairs = chain_pairs(states, turns);

    make_forward_chain(&f, states, turns);
    visit_one(visit, &f, 0, pairs);
    make_backward_chain(&f, states, turns);
    visit_one(visit, &f, pairs, 0);
    if (turns + 3 <= states) {
        make_split_chain(&f, states, turns);
        visit_one(visit, &f, pairs, states * (states - 1) / 2 - pairs);
    }
}

/* Either: three places. One has p - 1 letters before and after - 1 after; one has back - 1 before
   and any number after; one has any number before and ahead - 1 after. So the windows work that
   have b >= p or a >= after, and b >= back, and a >= ahead; no others. Since ahead is below after
   and back at most p, the least lookahead is ahead, and that takes p letters before. The windows
   that work are those with b >= p and a >= ahead, and those with b >= back and a >= after: p ahead
   has fewest letters of the first, back after of the second; of equally many, p ahead has less
   lookahead. */
static void either(size_t states, size_t turns, size_t after, size_t back, size_t ahead,
                   visitor *visit)
{
    coder_file f;
    size_t pairs = chain_pairs(states, turns);
    least known[ORDERS] = {{YES, pairs, ahead}, {YES, pairs, ahead}};

    if (back + after < pairs + ahead) {
        known[FEWEST_LETTERS].before = back;
        known[FEWEST_LETTERS].after = after;
    }
    make_either_chain(&f, states, turns, after, back, ahead);
    visit(&f, known);
}

/* All of them up to 5 states; beyond, those at the ends of what is possible and one between. */
static void different(size_t states, size_t turns, visitor *visit)
{
    size_t most = states - 2 - turns, after, back, ahead;

    for (after = 1; after <= most; after++)
        for (back = 0; back < states; back++)
            for (ahead = 0; ahead < after; ahead++)
                if (states <= 5
                    || ((after == 1 || after == most)
                        && (back == 0 || back == states / 3 || back == states - 1)
                        && (ahead == 0 || ahead == after - 1)))
                    either(states, turns, after, back, ahead, visit);
}

void each_known_chain(size_t states, size_t turns, visitor *visit)
{
    same_in_both(states, turns, visit);
    if (turns + 3 <= states && turns <= 12)
        different(states, turns, visit);
}
