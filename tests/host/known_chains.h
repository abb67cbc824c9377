/* Chains whose least windows are known in each order. */
#ifndef KNOWN_CHAINS_H
#define KNOWN_CHAINS_H

#include "coders.h"
#include "orders.h"

/* Visits each such chain with these states and turns; turns at most states - 2. */
void each_known_chain(size_t states, size_t turns,
                      void (*visit)(const coder_file *f, const least known[ORDERS]));

#endif
