/*
 * What tquery_regroup is to answer, told by tquery_run: the same as of the
 * regrouping over the two arrays joined, both made here.
 */
#ifndef REGROUP_H
#define REGROUP_H

#include <stddef.h>
#include <stdint.h>

/* 12 pairs of two paths of one label, two lists, a group and a query. */
#define AGAIN_LONGEST 144

/*
 * Writes the regrouping of a query that tquery_check_query accepts. Answers its
 * length, or 0 if the query is not one group alone, without a total, whose
 * destinations are single labels, no two equal.
 */
size_t regrouping(uint8_t again[AGAIN_LONGEST], const uint8_t *query, size_t length);

/* The length of two arrays joined, which has one head. */
size_t join_length(size_t first, size_t second);

/* Writes two arrays joined, of up to 16,384 bytes. */
void join(uint8_t *both, const uint8_t *first, size_t first_length, const uint8_t *second,
          size_t second_length);

#endif
