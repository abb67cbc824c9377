/* Coders whose least windows are known for every settle count. */
#ifndef KNOWN_SETTLES_H
#define KNOWN_SETTLES_H

#include "coders.h"
#include "orders.h"

/* Visits each such line of so many states, 1 to 15, with its least windows for the settle count. */
void each_known_line(size_t line, size_t settle,
                     void (*visit)(const coder_file *f, size_t settle, const least known[ORDERS]));

/* The least windows of an example for a settle count, or that none works. */
void known_settled(const example *e, size_t settle, least known[ORDERS]);

#endif
