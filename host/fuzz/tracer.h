/*
 * What tquery_tracer is to answer, told by its answers to other messages: a
 * message made of the array, which is to give the array again, and the message
 * itself with lines before it and behind it.
 */
#ifndef TRACER_H
#define TRACER_H

#include <stddef.h>
#include <stdint.h>

/* Lengthens a message by sound lines of another name, up to a length, where that has room for one. */
size_t with_other_lines(uint8_t *message, size_t length, size_t until);

/* Expects what follows from the answer to a message, and from its array, in an area of so many bytes. */
void check_traced(const uint8_t *message, size_t length, uint64_t answer, const uint8_t *array, size_t room);

#endif
