/*
 * The case that fuzz data stand for. A length is two bytes, high byte first;
 * bytes that are missing are 0, and a length that passes the data ends with
 * them.
 *
 *  byte  says
 *  ----  -----------------------------------------------------------------
 *  0     bits 0 to 2: the work area's length, see case.c, but 3: the call is
 *        tquery_tracer, see below; bits 3, 4, 5: the query, the input, the
 *        joined array gets a head that spans it (else its bytes are the data's
 *        as they are); bit 6: the result area has 16,384 bytes (else bytes 1
 *        and 2 say how many); bit 7: the call is tquery_regroup, and the input
 *        and the joined array are its first and its second array (else it is
 *        tquery_run)
 *  1, 2  the result area's length, modulo 16,401
 *  3     bits 0 and 1, 2 and 3, 4 and 5: how the query, the input, the joined
 *        array is lengthened. 3: by zeros, to one byte past its limit. 2, of
 *        an array: what stands behind its head is repeated as often as the
 *        limit allows. Else not. Bits 6 and 7: the position area's length, in
 *        entries, see case.c; 3: bytes 1 and 2, modulo 2,730, too few
 *  4, 5  length of the query's bytes
 *  6, 7  length of the input's bytes
 *  8     the query's bytes, the input's, and the joined array's: all the rest
 *
 * Of tquery_tracer all bytes from 8 on are the message. Bits 0 and 1 of byte 3
 * say how it is lengthened by sound lines of another name. 3: to one byte past
 * its limit. 2: to its limit. Else not. The result area's length is said as
 * above, and all other bits say nothing.
 */
#ifndef CASE_H
#define CASE_H

#include <stddef.h>
#include <stdint.h>

#define CASE_HEAD 8
#define WORK_LONGEST 70000
#define RESULT_LONGEST 16400
#define POSITIONS_LONGEST 20000 /* in entries */
#define READ_LONGEST 20480 /* of the query, the input and the joined array; longer ones are cut */

/*
 * The areas that are only read; of a regrouping the last two are the first and the second array, and a message is
 * lent in the place of a query, alone.
 */
enum { QUERY, INPUT, JOINED, READ_AREAS, FIRST = INPUT, SECOND = JOINED, MESSAGE = QUERY };

enum call { RUN, REGROUP, TRACER, CALLS };

struct content {
    uint8_t bytes[READ_LONGEST];
    size_t length;
};

struct fuzz_case {
    struct content read[READ_AREAS];
    size_t work_length;
    size_t result_length;
    size_t positions_length; /* in entries; used of a run alone */
    enum call call;
};

void case_read(struct fuzz_case *all, const uint8_t *data, size_t size);

/* Whether data, of which there is a byte, stand for a call of tquery_tracer. */
int is_message(const uint8_t *data);

/* A length of two bytes, read and written. */
size_t length_at(const uint8_t *bytes);
void set_length(uint8_t *bytes, size_t length);

/* Where the bytes of the three areas begin in the data, and where the last one ends. */
void case_bounds(size_t bounds[READ_AREAS + 1], const uint8_t *data, size_t size);

#endif
