/*
 * An area that is lent to the engine, between two guard pages: a read or a
 * write of one byte outside of it, at the side where it touches a guard page,
 * faults.
 */
#ifndef AREA_H
#define AREA_H

#include <stddef.h>
#include <stdint.h>

/* Where in its room an area stands. */
enum place { AT_BEGIN, AT_END };

struct area {
    uint8_t *room; /* what may be read and written, whole pages */
    size_t room_length;
    uint8_t *bytes; /* the area, in the room */
    size_t length;
};

/* Maps the room of an area that is never longer than a length. */
void area_map(struct area *area, size_t longest);

/*
 * Gives an area its length: directly behind the guard page before the room, or
 * directly before the one behind it.
 */
void area_place(struct area *area, size_t length, enum place place);

/* While a room is shut, a write to it faults. */
void area_shut(const struct area *area);
void area_open(const struct area *area);

#endif
