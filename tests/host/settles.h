/* What holds for every coder as the settle count grows (document 02, 6/13). */
#ifndef SETTLES_H
#define SETTLES_H

#include "coders.h"

/* From this settle count on nothing changes any more. */
enum { SETTLED = 15 };

/* A search with a settle count not below that of the latest verdict, which is this coder's: a window
   or none, as before; the pair is the same; the window is no later one in the order, and the same
   one from SETTLED on. */
void search_further(const coder_file *f, size_t settle);

/* A string, a window and a table with SETTLED and with a larger settle count: the same answers. */
void same_when_settled(const coder_file *f);

/* The least windows in each order that the enumerator finds with these settle counts, in growing
   order: none is later than the one before it. */
void least_windows_further(const coder_file *f, const size_t *settles, size_t count);

#endif
