/*
 * When 12 comes, as far as it can be told without grouping: it comes of totals
 * alone; and where the first stage is a group without grouping pairs, its one
 * class is the input.
 */
#ifndef TOTALS_H
#define TOTALS_H

#include <stddef.h>
#include <stdint.h>

/* How many groups of a query that tquery_check_query accepts have a total. */
int groups_with_total(const uint8_t *query, size_t length);

/* Whether such a query begins with a group that has a total and no grouping pairs. */
int begins_with_total(const uint8_t *query, size_t length);

/*
 * Whether the totals of that group fit a signed 64-bit integer, over an input
 * that tquery_check_array accepts.
 */
int totals_fit(const uint8_t *query, const uint8_t *input, size_t input_length);

#endif
