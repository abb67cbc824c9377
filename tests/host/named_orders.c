/* The search in a named order, on one coder. The calls from C name no order, so cases are written
   for the program cases, which calls the library by its own interface. Which windows and pairs
   come first is found with no help of the library. A window that is not known is written in no
   case. */
#include "named_orders.h"

#include "case_texts.h"
#include "compare.h"

static int two_windows(const least in_order[ORDERS])
{
    const least *one = &in_order[LEAST_LOOKAHEAD], *other = &in_order[FEWEST_LETTERS];

    return one->works == YES && other->works == YES
        && (one->before != other->before || one->after != other->after);
}

static void write_cases(const coder_file *f, size_t settle, const least in_order[ORDERS])
{
    coder c = coder_of_file(f->bytes);
    int order;

    now.two_windows += two_windows(in_order);
    text_file(f->bytes, f->len);
    for (order = 0; order < ORDERS; order++)
        if (in_order[order].works == UNKNOWN)
            now.cases_left++;
        else
            text_answer((enum order)order, settle, SEARCH_BYTES + 4, &in_order[order],
                        first_pair_of(&c));
}

static void same_window(const least *got, const least *wanted)
{
    known_value("whether a window works", got->works, wanted->works);
    known_value("the least window's before", got->before, wanted->before);
    known_value("the least window's after", got->after, wanted->after);
}

void known_windows(const example *e, least known[ORDERS])
{
    enum answer works = e->pair ? NO : YES;
    const least lookahead = {works, e->before, e->after};
    const least letters = {works, e->fewest_before, e->fewest_after};

    known[LEAST_LOOKAHEAD] = lookahead;
    known[FEWEST_LETTERS] = letters;
}

void name_orders(const coder_file *f, size_t settle)
{
    coder c = settled_coder(f->bytes, settle);
    least in_order[ORDERS], reported;

    least_windows(&c, in_order);
    write_cases(f, settle, in_order);
    reported.works = found->is_pair ? NO : YES;
    reported.before = found->before;
    reported.after = found->after;
    if (found->known && in_order[LEAST_LOOKAHEAD].works != UNKNOWN)
        same_window(&reported, &in_order[LEAST_LOOKAHEAD]);
}

void name_known_orders(const coder_file *f, size_t settle, const least known[ORDERS], int enumerate)
{
    coder c = settled_coder(f->bytes, settle);
    least in_order[ORDERS];
    int order;

    write_cases(f, settle, known);
    if (!enumerate)
        return;
    least_windows(&c, in_order);
    for (order = 0; order < ORDERS; order++)
        if (in_order[order].works == UNKNOWN)
            differ("the allowance does not suffice to find the least window");
        else
            same_window(&in_order[order], &known[order]);
}
