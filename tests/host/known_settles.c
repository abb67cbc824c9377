/* Coders whose least windows are known for every settle count, with the reason.

   In a line of m states each state is entered from the one before it alone, and state 0 from none. A
   run that has started in a reachable state is so after p letters in state p of the line or further
   on, and at place b of a window it is in state p + b or further on. The states from m on are the
   end. So the present letter is read in a state of the line by some run just where b is below
   m - p, and with b = m - p by none; from p = m on the line does not count at all. With m = 15 and
   one state at the end the start states are others for each p from 0 to 15. */
#include "known_settles.h"

#include "named_orders.h"

typedef void visitor(const coder_file *f, size_t settle, const least known[ORDERS]);

enum { A, B, D = 3 };

static size_t rest_of(size_t line, size_t settle)
{
    return line > settle ? line - settle : 0;
}

/* What a state of the line puts out and where it leads does not depend on the letter, so no
   lookahead helps there, and every window needs b >= m - p. Such a window works if it works for the
   end. Two runs with equal outputs are in the end from the window's first letter on both, or have
   both come there at one place, for the line's letter is none of the end's; then they came into one
   state, the end's first.

   B: the letter is its output. Window m - p 0.
   A: from one state equal outputs have equal letters; from any two states they do after a letter,
   and not before it, whatever comes after: two letters with one output lead from the two states to
   one state. So b >= 1 besides: m - p 0, or 1 0 where m - p is 0.
   D: the letter shows in the next output and in no other, so a >= 1 besides: window m - p 1.

   These windows work, and those with more letters on a side, and no others. */
static void constant(size_t line, size_t settle, size_t end, visitor *visit)
{
    size_t rest = rest_of(line, settle), before = end == A && rest == 0 ? 1 : rest;
    const least w = {YES, before, end == D};
    const least known[ORDERS] = {w, w};
    coder_file f;
    example e;

    make_example(end, &e);
    if (line + e.file.bytes[3] > 16)
        return;
    make_constant_line(&f, line, &e.file);
    visit(&f, settle, known);
}

/* As coder G, which has m = 2: the letter is told by the output in all states of the line but the
   last, and there by the next output, since the two states at the end have no output in common.
   With a = 0 two runs in the line's last state have one output under both letters, so b >= m - p is
   needed; then the present letter is read in the end, whose outputs tell it. With a >= 1 every
   window works: the last state's letters are told from each other by the next output, and so is its
   letter 1 from letter 0 of the first of the two states, which puts out the same. Least lookahead:
   m - p 0. Fewest letters: 0 1 has two, which is fewer where m - p is 2 or more. */
static void like_g(size_t line, size_t settle, visitor *visit)
{
    size_t rest = rest_of(line, settle);
    least known[ORDERS] = {{YES, rest, 0}, {YES, rest, 0}};
    coder_file f;

    if (rest >= 2) {
        known[FEWEST_LETTERS].before = 0;
        known[FEWEST_LETTERS].after = 1;
    }
    make_line_like_g(&f, line);
    visit(&f, settle, known);
}

void each_known_line(size_t line, size_t settle, visitor *visit)
{
    constant(line, settle, A, visit);
    constant(line, settle, B, visit);
    constant(line, settle, D, visit);
    if (line <= 14)
        like_g(line, settle, visit);
}

/* A to E and H: every reachable state is entered from one, so settle counts change nothing.

   F: state 0 is entered from none. From p = 1 on a window starts in state 1, which puts out 0 or 1 by
   its letter, or in state 2, which puts out 2 or 3 by its letter: 0 0.

   G: from p = 2 on a window starts in state 2 or 3, where it is as with F: 0 0. With p = 1 it starts
   in 1, 2 or 3. State 1 puts out 0 for both letters, so 0 0 fails. With b = 1 the present letter is
   read in 2 or 3, whose outputs tell it, so 1 0 works: the least lookahead there is, with fewest
   letters before. It has two letters, and one letter is too few, so it is the least in the other
   order too; 0 1 has as many and more lookahead. */
void known_settled(const example *e, size_t settle, least known[ORDERS])
{
    known_windows(e, known);
    if ((e->name == 'F' && settle >= 1) || (e->name == 'G' && settle >= 1)) {
        const least w = {YES, e->name == 'G' && settle == 1 ? 1 : 0, 0};

        known[LEAST_LOOKAHEAD] = known[FEWEST_LETTERS] = w;
    }
}
