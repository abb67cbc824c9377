/* What holds for every coder as the settle count grows: verdicts, answers, and the enumerator's own
   least windows in both orders. */
#include "settles.h"

#include "calls.h"
#include "orders.h"

/* ---- verdicts ---- */

static void same_pair(const verdict *v)
{
    const pair *p = &v->pair;
    const size_t numbers[6] = {p->s, p->t, p->back_loop, p->lead_in, p->lead_out, p->forward_loop};

    known_pair(numbers);
    known_letters(v->bytes, 2 * v->letters);
}

static int not_later(enum order order, const least *w, const least *than)
{
    size_t letters = w->before + w->after, others = than->before + than->after;

    if (order == FEWEST_LETTERS)
        return letters < others || (letters == others && w->after <= than->after);
    return w->after < than->after || (w->after == than->after && w->before <= than->before);
}

static least window_of(const verdict *v)
{
    const least w = {YES, v->before, v->after};

    return w;
}

void search_further(const coder_file *f, size_t settle)
{
    const verdict earlier = *found;
    least w, than = window_of(&earlier);

    search(f, settle);
    if (!earlier.known || !found->known)
        return;
    known_value("whether there is no decoder, with a larger settle count", (size_t)found->is_pair,
                (size_t)earlier.is_pair);
    if (found->is_pair != earlier.is_pair)
        return;
    w = window_of(found);
    if (earlier.is_pair) {
        same_pair(&earlier);
    } else if (earlier.settle >= SETTLED) {
        known_value("before, with a larger settle count", w.before, than.before);
        known_value("after, with a larger settle count", w.after, than.after);
    } else if (!not_later(LEAST_LOOKAHEAD, &w, &than)) {
        differ("window %zu %zu found, but %zu %zu with settle count %zu", w.before, w.after,
               than.before, than.after, earlier.settle);
    }
}

/* ---- answers ---- */

void same_when_settled(const coder_file *f)
{
    static const enum call calls[3] = {CALL_DECODE, CALL_WINDOW, CALL_TABLE};
    arguments a, b;
    size_t k;

    for (k = 0; k < 3; k++) {
        a = b = random_arguments(calls[k], f);
        a.settle = SETTLED;
        b.settle = SETTLED + 1 + random_below(MOST_SETTLE - SETTLED);
        same_reply(&a, &b);
    }
}

/* ---- both orders, by enumeration ---- */

void least_windows_further(const coder_file *f, const size_t *settles, size_t count)
{
    least earlier[ORDERS], in_order[ORDERS];
    size_t k;
    int order;

    for (k = 0; k < count; k++) {
        coder c = settled_coder(f->bytes, settles[k]);

        least_windows(&c, in_order);
        for (order = 0; order < ORDERS; order++) {
            if (k > 0) {
                known_value("whether a window works", in_order[order].works, earlier[order].works);
                known_value("whether the least window is no later one",
                            (size_t)not_later((enum order)order, &in_order[order], &earlier[order]),
                            1);
            }
            earlier[order] = in_order[order];
        }
    }
}
