/* The first looped pair of the latest coder: by exact numbers of letters, kept until another coder
   comes; where asked, by trying too, within an allowance, and the two compared. */
#include "compare.h"

#include <string.h>

static kept_coder kept;
static first_pair latest;

const first_pair *first_pair_of(const coder *c)
{
    if (another_coder(&kept, c))
        first_by_lengths(c, &latest);
    return &latest;
}

int same_numbers(const pair *one, const pair *other)
{
    return one->s == other->s && one->t == other->t && one->back_loop == other->back_loop
        && one->lead_in == other->lead_in && one->lead_out == other->lead_out
        && one->forward_loop == other->forward_loop;
}

int same_letters(const pair *one, const pair *other)
{
    return memcmp(one->letters, other->letters, 2 * pair_letters(one)) == 0;
}

void try_first_pair(const coder *c, long steps)
{
    const pair *wanted = &first_pair_of(c)->pair;
    first_pair tried;

    allow_steps(steps);
    first_by_trying(c, &tried);
    if (tried.exists == UNKNOWN) {
        now.firsts_left++;
        return;
    }
    now.firsts++;
    if (!pair_valid(c, &tried.pair))
        differ("the first pair by trying is not valid");
    if (!same_numbers(&tried.pair, wanted) || !same_letters(&tried.pair, wanted))
        differ("the first pair by trying is not the one by numbers of letters");
}
