/*
 * tquery.h: Tumkwasa's query engine, libtquery.a, from C and C++.
 *
 * The idea
 * --------
 * A machine lends the engine six areas: a query, an input, a joined array, a
 * work area, a result area and a position area. The engine runs the query,
 * none to eight stages, over the input and leaves the result in the result
 * area, and in the position area where each of its trees came from; or it
 * refuses by a number. A second call joins the results of such runs: it is
 * lent a query, two arrays, a work area and a result area. A third makes an
 * input of what a tracer sent: it is lent a message and a result area. The
 * engine takes no heap, keeps no state between calls, starts no thread, and
 * calls one function that is not its own, memset. Calls with different areas
 * may run at the same time.
 *
 * Every area is the caller's, before, during and after a call. An area is a
 * pointer and a length: in bytes, but of the position area in entries, which
 * are numbers of 16 bits in the machine's own byte order. A length may be
 * anything from 0 up; a pointer is never null, also where the length is 0,
 * and that of the position area is aligned as uint16_t is. The work area, the
 * result area and the position area overlap no other area. Anything may stand
 * in any of them: no content makes a call do anything but answer.
 *
 * The query, the arrays and the message are only read. What the work area, the
 * result area and the position area hold after a call is fixed by the
 * arguments alone, and stands in the table below. That is proved of the
 * library's code, for all bytes and all lengths; docs/CERTIFICATE.md says how.
 * Every call ends, but the time of a run has no bound: unwinds multiply trees,
 * and a call cannot be cancelled.
 *
 * Byte forms
 * ----------
 * The input, the joined array and the result are arrays: one field each,
 * tag 1. The query is one field, tag 16. A field is a tag byte, a length of
 * two bytes, high byte first, and that many bytes of content. An array that
 * is not needed is 01 00 00, the empty one.
 *
 * Answers
 * -------
 * An answer is one number, 64 bits: the number of the table times 2 to the
 * power 32, plus the length of the result. The length is 0 unless the number
 * is 0. TQUERY_NUMBER and TQUERY_LENGTH take it apart.
 *
 *  number  cause, tested in this order                   result     work
 *                                                        and
 *                                                        positions
 *  ------  --------------------------------------------  ---------  ---------
 *   0      none: accepted                                see below  zero
 *   1      work area under 65,536 bytes                  as it was  as it was
 *  11      position area under 2,730 entries             as it was  as it was
 *   2      query over 4,096 bytes                        as it was  zero
 *   3      query malformed                               as it was  zero
 *   4      input over 16,384 bytes                       as it was  zero
 *   5      input malformed, or a tree in it too large    as it was  zero
 *   6      joined array over 16,384 bytes                as it was  zero
 *   7      joined array malformed, or a tree too large   as it was  zero
 *  12      a total does not fit a signed 64-bit integer  zero       zero
 *   8      a tree was too large in a stretch             zero       zero
 *   9      an array entering a group over 16,384 bytes   zero       zero
 *  13      a message over 4,096 bytes, a line out of     as it was  not lent
 *          form, or one of the seven names twice
 *  10      the last array over 16,384 bytes, or over     zero       zero
 *          the result area
 *
 * 12, 8, 9 and 10 come of the run itself, stretch by stretch: the stages before
 * the first group are a stretch, and so is each group with the stages up to the
 * next. The first stretch with a fault decides, and in it the table's order: 12
 * where its group begins, before any tree that the group makes is tested; 8;
 * and 9 of the array that it hands to the next group, or 10 of the last array.
 * So an array that enters a group is tested for 9 first, then for 12.
 *
 * For tquery_regroup 3 is also a query that is not one such group alone, 4 and
 * 5 are of the first array and then of the second, 6, 7, 11 and 12 do not come,
 * and 9 is the two arrays joined over 16,384 bytes, which is tested before 8.
 *
 * 13 comes of tquery_tracer alone, see Tracer messages, and of that call come
 * 13, then 10, and 0, and no other.
 *
 * After 0 the result stands at the start of the result area, and the bytes
 * beyond its length are as they were; the position area begins with one entry
 * for each tree of the result, and the entries beyond them are as they were.
 * "Zero" is the whole area, of whatever length.
 *
 * Positions
 * ---------
 * Entry n of the position area, from 0, says where tree n of the result came
 * from: the position, from 1, of a tree of the input. Match, unwind, project
 * and lookup hand on the position of the tree that they work on, so that all
 * that an unwind makes of one tree bear the same. The tree of a group bears
 * the position of the first member of its class, in the order in which the
 * members entered the group; behind an earlier group that need not be the
 * smallest of theirs. An array holds at most 2,730 trees, of six bytes each,
 * so TQUERY_POSITIONS_MIN entries are enough for every run.
 *
 * A maker prints the position beside the line, and whoever reads the list
 * finds the job that the line stems from: host/c/worklist.c is an example.
 * For that a query may leave out what it was grouped or chosen by.
 *
 * A query without a group treats each tree alone. Two accepted runs of it,
 * with one joined array and over inputs of as many trees each: if the trees at
 * a position are equal, the result trees that bear it are equal, and in equal
 * order, however the other trees differ. A job that did not change gives the
 * lines that it gave before.
 *
 * The other calls take no position area.
 *
 * Totals
 * ------
 * A pair in a group's list of aggregates, field 50, has tag 49 or 54, and in
 * both cases a source and a destination. By tag 49 it places all trees that the
 * source gives of the members of a class. By tag 54 it is a total, and places
 * one integer in their stead: the sum of the integer roots of these trees.
 * Other roots add nothing, nor do the roots of trees below them. If no tree has
 * an integer root, nothing is placed; a sum of 0 is. The sum is exact, so that
 * a partial one may leave 64 bits; if at the end the total of some class does
 * not fit a signed 64-bit integer, the run is refused by 12. In the list of
 * grouping pairs, field 51, a total is malformed.
 *
 * A workshop adds the lengths of the edges of a job so: host/c/totals.c is an
 * example.
 *
 * Trays
 * -----
 * A day's records may come in trays, each an array within the limits, and may
 * be too many for one array. The query is run over each tray, with one joined
 * array; where all runs are accepted, the results make the day's list:
 *
 * A query without a group: the results, one behind another, are what the
 * stages give of all the trays together. The list may be of any length.
 *
 * A query that ends in its only group, which has no total and whose
 * destinations, those of the aggregates and of the grouping pairs together, are
 * single labels, no two of them equal: tquery_regroup joins two results into
 * the result of both trays, and so, call by call, all results into the day's
 * list. Its query is the group alone. If all calls are accepted too, the list
 * is what the stages give of all the trays together, whichever results are
 * joined first, as long as they stay in order. host/c/day.c is an example.
 *
 * Tracer messages
 * ---------------
 * A tracer, which measures frames, sends lines in the manner of the Vision
 * Council's Data Communication Standard. tquery_tracer makes of such a message
 * an array of one tree, which is an input like any other: its tree may stand
 * with those of other messages in one array.
 *
 * A message has at most 4,096 bytes: lines, one behind another, or none. A line
 * is a name, an equals sign, one value or two that a semicolon parts, and the
 * bytes 0D 0A, which end the last line too. A name is 1 to 8 capital letters
 * or digits, the first a letter. A value is 0 to 80 printable bytes, 20 to 7E
 * hexadecimal, without the semicolon, 3B. The first equals sign ends the name,
 * and others may stand in the values.
 *
 * The tree has a void root. Seven names become its labels, each whole name:
 *
 *     JOB  DBL  HBOX  VBOX  FED  IPD  DO
 *       1    2     3     4    5    6   7
 *
 * A label holds one tree for each value of its line. Labels stand in rising
 * order, whatever the order of the lines; none of the seven may have two lines.
 * Lines of other names are checked like these, may come twice, and give
 * nothing. An empty message gives the bare void tree.
 *
 * The tree of a value is bare. Its root is void if the value is empty: "IPD=31"
 * has one value, "IPD=31;" two, the second empty. It is an integer, in
 * hundredths, if the value is an optional minus, 1 to 6 digits, and optionally
 * a point with 1 or 2 digits: 31.5 becomes 3150, 31.05 becomes 3105, and -0
 * becomes 0. All else is text, as 1. and .5 and +1 and 1.234 and 1234567 are;
 * and under JOB numbers are text too.
 *
 * A workshop makes its worklist of what tracers sent: host/c/tracer.c is an
 * example.
 *
 * What a machine must have
 * ------------------------
 * Processor. The library is code for x86-64-v2, called by the System V
 * convention: x86-64 with SSE3, SSSE3, SSE4.1, SSE4.2, POPCNT and CMPXCHG16B.
 * It does not test what it runs on. It uses the registers of SSE, and the 128
 * bytes below the stack pointer that the convention grants: an interrupt on the
 * same stack must pass over them.
 *
 * memset. It is the one symbol that the library leaves to the machine's C
 * runtime. tquery_run, tquery_regroup and tquery_tracer clear the areas that
 * they write by it, and what is said above of areas that are zero rests on it.
 * A machine without a C runtime provides a function of that name and meaning:
 *
 *     void *memset(void *area, int value, size_t length)
 *     {
 *         volatile unsigned char *bytes = area;
 *         while (length > 0) {
 *             bytes[--length] = (unsigned char)value;
 *         }
 *         return area;
 *     }
 *
 * Compilers turn such a loop into a call of memset, and the function would
 * call itself without end; "volatile" forbids that. Without "volatile" it can
 * become many times faster, and is compiled with -fno-builtin, by GCC also
 * with -fno-tree-loop-distribute-patterns.
 *
 * Stack. Every frame of the library has a fixed size, and the limits of the
 * byte forms bound how deep calls nest. How many bytes that makes is measured,
 * not proved. The most that was seen in cases made to go deep and in random
 * ones, with a return address and the arguments on the stack counted in, six
 * of tquery_run and four of tquery_regroup:
 *
 *     tquery_run          8,720 bytes
 *     tquery_regroup      2,800 bytes
 *     tquery_tracer         296 bytes
 *     tquery_check_query  2,400 bytes
 *     tquery_check_array  1,368 bytes
 *
 * The library's tests fail if a call uses more than TQUERY_STACK_MAX bytes.
 * The library does not clear its stack, and single bytes of records were seen
 * to stay there; of a group also places that depend on numbers made of the
 * keys, and of a group with totals whole integers of records and their sums.
 * A maker who must leave nothing of the records on the stack clears
 * TQUERY_STACK_MAX bytes below the stack pointer after a call.
 */

#ifndef TQUERY_H
#define TQUERY_H

#include <stddef.h>
#include <stdint.h>

#ifdef __cplusplus
extern "C" {
#endif

/* Limits, in bytes but where entries are said. */
#define TQUERY_WORK_MIN 65536     /* the least work area */
#define TQUERY_POSITIONS_MIN 2730 /* the least position area, in entries */
#define TQUERY_QUERY_MAX 4096     /* the largest query */
#define TQUERY_ARRAY_MAX 16384    /* the largest input, joined array, result */
#define TQUERY_TREE_MAX 2048      /* the largest tree */
#define TQUERY_MESSAGE_MAX 4096   /* the largest message of a tracer */
#define TQUERY_TRACED_MAX 1262    /* the largest array that a message becomes */

/* No call was measured to use more stack, in bytes. Tested, not proved. */
#define TQUERY_STACK_MAX 10240

/* The numbers of the table. */
#define TQUERY_ACCEPTED 0
#define TQUERY_WORK_SHORT 1
#define TQUERY_QUERY_LONG 2
#define TQUERY_QUERY_MALFORMED 3
#define TQUERY_INPUT_LONG 4
#define TQUERY_INPUT_MALFORMED 5
#define TQUERY_JOINED_LONG 6
#define TQUERY_JOINED_MALFORMED 7
#define TQUERY_TREE_LARGE 8
#define TQUERY_GROUP_LONG 9
#define TQUERY_RESULT_LONG 10
#define TQUERY_POSITIONS_SHORT 11   /* tested after 1 and before 2 */
#define TQUERY_TOTAL_LARGE 12       /* tested where a group begins, before 8 */
#define TQUERY_MESSAGE_MALFORMED 13 /* of tquery_tracer, tested before 10 */

/* An answer's number, and the length of its result. */
#define TQUERY_NUMBER(answer) ((unsigned)((answer) >> 32))
#define TQUERY_LENGTH(answer) ((size_t)((answer) & 0xFFFFFFFFu))

/*
 * Runs a query.
 *
 * query, input, joined: lent to be read; never changed.
 * work: 65,536 bytes or more, of any content; zero afterwards, over its whole
 *       length, unless the number is 1 or 11, and then it is as it was.
 * result: of any length; what it holds afterwards is said in the table.
 *         16,384 bytes hold every result.
 * positions: 2,730 entries or more, of any content; after 0 one for each tree
 *            of the result, see Positions; else what the table says.
 *            positions_length counts entries, not bytes.
 *
 * Returns the answer.
 */
uint64_t tquery_run(const uint8_t *query, size_t query_length,
                    const uint8_t *input, size_t input_length,
                    const uint8_t *joined, size_t joined_length,
                    uint8_t *work, size_t work_length,
                    uint8_t *result, size_t result_length,
                    uint16_t *positions, size_t positions_length);

/*
 * Groups two arrays again as one, by one group: see Trays.
 *
 * query: the group alone; lent to be read; never changed. Each destination
 *        becomes the source too, so the sources that it has play no part.
 * first, second: lent to be read; never changed. Any arrays will do: they need
 *                not be results of a run.
 * work: 65,536 bytes or more, of any content; zero afterwards, over its whole
 *       length, unless the number is 1, and then it is as it was.
 * result: of any length; what it holds afterwards is said in the table.
 *         16,384 bytes hold every result. It overlaps neither array, so a
 *         list that grows call by call has two areas in turn.
 *
 * Answers as tquery_run does of the query whose one stage is this group, with
 * the destination of each pair for its source, over the trees of the first
 * array and then those of the second. Tested in this order:
 *
 *  number  cause
 *  ------  ------------------------------------------------------------------
 *   1      work area under 65,536 bytes
 *   2      query over 4,096 bytes
 *   3      query malformed, or not one group alone, without a total, whose
 *          destinations are single labels, no two equal
 *   4      first array over 16,384 bytes
 *   5      first array malformed, or a tree in it too large
 *   4, 5   the same of the second array
 *   9      the arrays joined over 16,384 bytes: one head counted, not two
 *   8      a tree of the result too large
 *  10      the result over 16,384 bytes, or over the result area
 *
 * Returns the answer.
 */
uint64_t tquery_regroup(const uint8_t *query, size_t query_length,
                        const uint8_t *first, size_t first_length,
                        const uint8_t *second, size_t second_length,
                        uint8_t *work, size_t work_length,
                        uint8_t *result, size_t result_length);

/*
 * Makes the array of one tree that a tracer's message becomes: see Tracer
 * messages.
 *
 * message: lent to be read; never changed.
 * result: of any length; after 0 the array stands at its start, and the bytes
 *         beyond its length are as they were; after 13 it is as it was, over
 *         its whole length; after 10 it is zero, over its whole length.
 *         TQUERY_TRACED_MAX bytes hold every array, and no array is shorter
 *         than 9.
 *
 * It takes no work area and no position area. Tested in this order:
 *
 *  number  cause
 *  ------  ------------------------------------------------------------------
 *  13      message over 4,096 bytes, a line out of form, or one of the seven
 *          names twice
 *  10      the array over the result area
 *
 * Returns the answer.
 */
uint64_t tquery_tracer(const uint8_t *message, size_t message_length,
                       uint8_t *result, size_t result_length);

/*
 * Checks an array, by the tests that tquery_run makes of its input.
 *
 * bytes: lent to be read; never changed.
 *
 * Returns the answer: number 0, 4 or 5, length 0.
 */
uint64_t tquery_check_array(const uint8_t *bytes, size_t length);

/*
 * Checks a query, by the tests that tquery_run makes of it.
 *
 * bytes: lent to be read; never changed.
 *
 * Returns the answer: number 0, 2 or 3, length 0.
 */
uint64_t tquery_check_query(const uint8_t *bytes, size_t length);

#ifdef __cplusplus
}
#endif

#endif
