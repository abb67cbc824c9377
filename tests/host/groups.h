/* The groups of comparisons, each with one line. */
#ifndef GROUPS_H
#define GROUPS_H

#include "enumerator.h"

void group_examples(void);
void group_edges(void);
void group_tiny(void);
void group_three_states(void);
void group_random(void);
void group_random_large(void);
void group_chains(void);
void group_changed_chains(void);
void group_arguments(enum call call, const char *name, size_t count);
void group_damaged(const char *name, size_t faults, size_t count);
void group_ties(void);
void group_writer(void);
void group_table_limit(void);
void group_spare(void);
void group_settle_limit(void);
void group_settle(void);
void group_unused(void);
void group_kinds(void);
void group_how_far(void);
void group_damaged_strings(void);
void group_joined(void);
void group_orders(void);

#endif
