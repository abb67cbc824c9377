/* The search in a named order, on one coder: cases for the program cases. */
#ifndef NAMED_ORDERS_H
#define NAMED_ORDERS_H

#include "coders.h"
#include "orders.h"

/* Cases with the windows that the enumerator finds for a settle count. The latest verdict, which is
   that of this coder and settle count, is held against them. */
void name_orders(const coder_file *f, size_t settle);

/* Cases with the windows known beforehand for a settle count; where asked, the enumerator has to
   find the same. */
void name_known_orders(const coder_file *f, size_t settle, const least known[ORDERS],
                       int enumerate);

/* What is known of an example with settle count 0: the least window in each order, or that none
   works. */
void known_windows(const example *e, least known[ORDERS]);

#endif
