/*
 * The fuzz target: one case, two calls, and all that include/tquery.h says of
 * every call. Of a message more calls are made: see tracer.h.
 *
 * In the first call each area ends at a guard page, in the second it begins
 * behind one; the work, result and position areas hold other bytes in each. The
 * areas that are only read are shut while the engine runs.
 */
#define _DEFAULT_SOURCE
#include "area.h"
#include "case.h"
#include "expect.h"
#include "regroup.h"
#include "totals.h"
#include "tquery.h"
#include "tracer.h"

#include <setjmp.h>
#include <signal.h>
#include <stdio.h>
#include <stdlib.h>
#include <string.h>
#include <sys/time.h>

#define NUMBERS 14
#define ENTRY sizeof(uint16_t)
#define FIELD_HEAD 3
#define ROOM_LONGEST (WORK_LONGEST + 4096)

/*
 * Unwinds multiply trees, so a call may take hours. One that takes longer than
 * this, in microseconds of processor time, is left by a jump and counted: the
 * engine holds nothing that would stay behind. Its accesses were watched up to
 * then; its answer is not known.
 */
#define PATIENCE 200000

static struct area read_areas[READ_AREAS];
static struct area work;
static struct area result;
static struct area positions;

/* What the work, result and position areas hold before the first call and the second: no byte is the same in both. */
static uint8_t noises[2][ROOM_LONGEST];
static const uint8_t zeros[ROOM_LONGEST];

/* Cases by call and number. */
static unsigned long counts[CALLS][NUMBERS];
static unsigned long abandoned;
static sigjmp_buf out_of_patience;

struct outcome {
    uint64_t answer;
    uint64_t checks[READ_AREAS];
    uint8_t result[RESULT_LONGEST];
    uint16_t positions[POSITIONS_LONGEST];
};

static void print_counts(void)
{
    static const char *const calls[CALLS] = {"runs", "regroupings", "messages"};
    for (int call = 0; call < CALLS; call++) {
        fprintf(stderr, "%s by number:", calls[call]);
        for (int number = 0; number < NUMBERS; number++) {
            fprintf(stderr, " %d: %lu", number, counts[call][number]);
        }
        fprintf(stderr, "\n");
    }
    fprintf(stderr, "abandoned: %lu\n", abandoned);
}

static void leave(int signal)
{
    (void)signal;
    siglongjmp(out_of_patience, 1);
}

static void set_patience(long microseconds)
{
    struct itimerval timer = {{0, 0}, {0, microseconds}};
    setitimer(ITIMER_VIRTUAL, &timer, NULL);
}

int LLVMFuzzerInitialize(int *count, char ***words)
{
    (void)count, (void)words;
    for (int area = 0; area < READ_AREAS; area++) {
        area_map(&read_areas[area], READ_LONGEST);
    }
    area_map(&work, WORK_LONGEST);
    area_map(&result, RESULT_LONGEST);
    area_map(&positions, POSITIONS_LONGEST * ENTRY);
    uint32_t state = 1;
    for (size_t at = 0; at < ROOM_LONGEST; at++) {
        state = state * 1664525 + 1013904223;
        noises[0][at] = (uint8_t)(state >> 24);
        noises[1][at] = (uint8_t)~noises[0][at];
    }
    /* SA_NODEFER: the handler is left by a jump that restores no mask */
    struct sigaction action = {.sa_handler = leave, .sa_flags = SA_NODEFER};
    sigaction(SIGVTALRM, &action, NULL);
    atexit(print_counts);
    return 0;
}

static void lay(const struct fuzz_case *all, enum place place, const uint8_t *noise)
{
    for (int area = 0; area < READ_AREAS; area++) {
        const struct content *content = &all->read[area];
        area_open(&read_areas[area]);
        area_place(&read_areas[area], content->length, place);
        if (content->length > 0) {
            memcpy(read_areas[area].bytes, content->bytes, content->length);
        }
        area_shut(&read_areas[area]);
    }
    area_place(&work, all->work_length, place);
    area_place(&result, all->result_length, place);
    area_place(&positions, all->positions_length * ENTRY, place);
    memcpy(work.room, noise, work.room_length);
    memcpy(result.room, noise, result.room_length);
    memcpy(positions.room, noise, positions.room_length);
}

/* The engine's four answers to the case as it is laid. */
static void call(struct outcome *outcome, int regroups)
{
    const struct area *read = read_areas;
    outcome->answer = regroups
        ? tquery_regroup(read[QUERY].bytes, read[QUERY].length, read[FIRST].bytes, read[FIRST].length,
                         read[SECOND].bytes, read[SECOND].length, work.bytes, work.length,
                         result.bytes, result.length)
        : tquery_run(read[QUERY].bytes, read[QUERY].length, read[INPUT].bytes, read[INPUT].length,
                     read[JOINED].bytes, read[JOINED].length, work.bytes, work.length,
                     result.bytes, result.length, (uint16_t *)(void *)positions.bytes, positions.length / ENTRY);
    outcome->checks[QUERY] = tquery_check_query(read[QUERY].bytes, read[QUERY].length);
    outcome->checks[INPUT] = tquery_check_array(read[INPUT].bytes, read[INPUT].length);
    outcome->checks[JOINED] = tquery_check_array(read[JOINED].bytes, read[JOINED].length);
    memcpy(outcome->result, result.bytes, result.length);
    memcpy(outcome->positions, positions.bytes, positions.length);
}

/* Whether a room is as it was laid, but for the first bytes of its area, which are to be others. */
static int room_is(const struct area *area, const uint8_t *noise, const uint8_t *others, size_t length)
{
    size_t begin = (size_t)(area->bytes - area->room);
    size_t end = begin + length;
    return memcmp(area->room, noise, begin) == 0 && memcmp(area->room + begin, others, length) == 0 &&
           memcmp(area->room + end, noise + end, area->room_length - end) == 0;
}

static void check_work(unsigned number, const uint8_t *noise)
{
    size_t cleared = number == TQUERY_WORK_SHORT || number == TQUERY_POSITIONS_SHORT ? 0 : work.length;
    expect(room_is(&work, noise, zeros, cleared), "the work area is zero, or after 1 and 11 as it was");
}

/* Whether a number is of the run itself, and not of what it was lent. */
static int is_late(unsigned number)
{
    return (number >= TQUERY_TREE_LARGE && number <= TQUERY_RESULT_LONG) || number == TQUERY_TOTAL_LARGE;
}

static void check_result(unsigned number, size_t length, const uint8_t *noise)
{
    if (number == TQUERY_ACCEPTED) {
        expect(length <= result.length, "the result is no longer than its area");
        expect(room_is(&result, noise, result.bytes, length), "bytes beyond the result are as they were");
        expect(tquery_check_array(result.bytes, length) == 0, "the result is an array");
    } else if (is_late(number)) {
        expect(room_is(&result, noise, zeros, result.length), "after 8 to 10 and 12 the result area is zero");
    } else {
        expect(room_is(&result, noise, zeros, 0), "after 1 to 7, 11 and 13 the result area is as it was");
    }
}

/* How many trees an array has that tquery_check_array accepts. */
static size_t trees_in(const uint8_t *array, size_t length)
{
    size_t trees = 0;
    for (size_t at = FIELD_HEAD; at < length; at += FIELD_HEAD + length_at(array + at + 1)) {
        trees++;
    }
    return trees;
}

static void check_positions(const struct outcome *outcome, unsigned number, const uint8_t *noise)
{
    if (number == TQUERY_ACCEPTED) {
        size_t inputs = trees_in(read_areas[INPUT].bytes, read_areas[INPUT].length);
        size_t trees = trees_in(outcome->result, TQUERY_LENGTH(outcome->answer));
        for (size_t tree = 0; tree < trees; tree++) {
            unsigned position = outcome->positions[tree];
            expect(position >= 1 && position <= inputs, "a position is that of an input tree");
        }
        expect(room_is(&positions, noise, positions.bytes, trees * ENTRY),
               "entries beyond the result's trees are as they were");
    } else {
        size_t cleared = is_late(number) ? positions.length : 0;
        expect(room_is(&positions, noise, zeros, cleared),
               "the position area is as it was, or after 8 to 10 and 12 zero");
    }
}

/* What the calls that only check say of an area: 0, or one of the two numbers that begin at `first`. */
static unsigned check_number(const struct outcome *outcome, int area, unsigned first, size_t limit)
{
    unsigned number = TQUERY_NUMBER(outcome->checks[area]);
    int long_area = read_areas[area].length > limit;
    expect(TQUERY_LENGTH(outcome->checks[area]) == 0, "a check has length 0");
    expect(long_area ? number == first : number == 0 || number == first + 1,
           "a check has a number of its own");
    return number;
}

/* The number that the lengths and the checks already decide, or 0. */
static unsigned decided(const struct outcome *outcome, int regroups)
{
    uint8_t again[AGAIN_LONGEST];
    const struct area *read = read_areas;
    unsigned query = check_number(outcome, QUERY, TQUERY_QUERY_LONG, TQUERY_QUERY_MAX);
    unsigned input = check_number(outcome, INPUT, TQUERY_INPUT_LONG, TQUERY_ARRAY_MAX);
    unsigned joined = check_number(outcome, JOINED, TQUERY_INPUT_LONG, TQUERY_ARRAY_MAX);
    if (work.length < TQUERY_WORK_MIN) {
        return TQUERY_WORK_SHORT;
    }
    if (!regroups && positions.length / ENTRY < TQUERY_POSITIONS_MIN) {
        return TQUERY_POSITIONS_SHORT;
    }
    if (query == 0 && regroups && regrouping(again, read[QUERY].bytes, read[QUERY].length) == 0) {
        return TQUERY_QUERY_MALFORMED;
    }
    if (query != 0 || input != 0) {
        return query != 0 ? query : input;
    }
    if (joined != 0) {
        return regroups ? joined : joined - TQUERY_INPUT_LONG + TQUERY_JOINED_LONG;
    }
    int long_join = regroups && join_length(read[FIRST].length, read[SECOND].length) > TQUERY_ARRAY_MAX;
    return long_join ? TQUERY_GROUP_LONG : 0;
}

/* 12 comes of totals alone. Where the first stage makes one class of the input, it is told whether it does. */
static void check_totals(unsigned number)
{
    const struct area *query = &read_areas[QUERY], *input = &read_areas[INPUT];
    int refused = number == TQUERY_TOTAL_LARGE;
    int groups = groups_with_total(query->bytes, query->length);
    expect(!refused || groups > 0, "12 comes of a total");
    if (begins_with_total(query->bytes, query->length)) {
        int fit = totals_fit(query->bytes, input->bytes, input->length);
        expect(fit || refused, "12 comes where a total of the first stage does not fit");
        expect(!fit || !refused || groups > 1, "12 does not come where all totals fit");
    }
}

/* A regrouping answers as the run of the group made anew over the two arrays joined. */
static void check_regrouped(const struct outcome *outcome)
{
    static uint8_t again[AGAIN_LONGEST], both[TQUERY_ARRAY_MAX], own_work[TQUERY_WORK_MIN], own[RESULT_LONGEST];
    static uint16_t own_positions[TQUERY_POSITIONS_MIN];
    static const uint8_t none[] = {1, 0, 0};
    const struct area *read = read_areas;
    size_t length = regrouping(again, read[QUERY].bytes, read[QUERY].length);
    join(both, read[FIRST].bytes, read[FIRST].length, read[SECOND].bytes, read[SECOND].length);
    uint64_t answer = tquery_run(again, length, both, join_length(read[FIRST].length, read[SECOND].length),
                                 none, sizeof none, own_work, sizeof own_work, own, result.length,
                                 own_positions, TQUERY_POSITIONS_MIN);
    expect(answer == outcome->answer, "a regrouping answers as the run over the join");
    expect(memcmp(own, outcome->result, TQUERY_LENGTH(answer)) == 0, "a regrouping gives what the run gives");
}

static void check_outcome(const struct outcome *outcome, const uint8_t *noise, int regroups)
{
    unsigned number = TQUERY_NUMBER(outcome->answer);
    size_t length = TQUERY_LENGTH(outcome->answer);
    unsigned by_checks = decided(outcome, regroups);
    expect(number < NUMBERS, "the number is one of the table");
    expect(number == TQUERY_ACCEPTED || length == 0, "a refusal has length 0");
    expect(by_checks != 0 ? number == by_checks : number == 0 || is_late(number),
           "the call and the checks agree");
    expect(!regroups || number != TQUERY_TOTAL_LARGE, "12 does not come of a regrouping");
    check_work(number, noise);
    check_result(number, length, noise);
    if (!regroups) {
        check_positions(outcome, number, noise);
    }
    if (!regroups && by_checks == 0) {
        check_totals(number);
    }
    if (regroups && by_checks == 0) {
        check_regrouped(outcome);
    }
}

static void check_same(const struct outcome *one, const struct outcome *other, enum call asked)
{
    size_t trees = asked == RUN ? trees_in(one->result, TQUERY_LENGTH(one->answer)) : 0;
    expect(one->answer == other->answer, "the answer follows from the arguments");
    expect(asked == TRACER || memcmp(one->checks, other->checks, sizeof one->checks) == 0,
           "a check follows from its argument");
    /* after a refusal the length is 0, and what the area holds was compared before */
    expect(memcmp(one->result, other->result, TQUERY_LENGTH(one->answer)) == 0,
           "the result follows from the arguments");
    expect(memcmp(one->positions, other->positions, trees * ENTRY) == 0, "positions follow from the arguments");
}

/* The call of a message as it is laid, and what must be so after it. */
static void check_message(struct outcome *outcome, const uint8_t *noise)
{
    const struct area *message = &read_areas[MESSAGE];
    uint64_t answer = tquery_tracer(message->bytes, message->length, result.bytes, result.length);
    unsigned number = TQUERY_NUMBER(answer);
    size_t length = TQUERY_LENGTH(answer);
    expect(number == TQUERY_ACCEPTED || number == TQUERY_RESULT_LONG || number == TQUERY_MESSAGE_MALFORMED,
           "the number of a message is 0, 10 or 13");
    expect(number == TQUERY_ACCEPTED || length == 0, "a refusal has length 0");
    check_result(number, length, noise);
    outcome->answer = answer;
    memcpy(outcome->result, result.bytes, result.length);
    check_traced(message->bytes, message->length, answer, outcome->result, result.length);
}

/* The call of a case as it is laid, and what must be so after it. That of a message is short, and needs no patience. */
static void test(struct outcome *outcome, enum call asked, const uint8_t *noise)
{
    if (asked == TRACER) {
        check_message(outcome, noise);
        return;
    }
    set_patience(PATIENCE);
    call(outcome, asked == REGROUP);
    set_patience(0);
    check_outcome(outcome, noise, asked == REGROUP);
}

int LLVMFuzzerTestOneInput(const uint8_t *data, size_t size)
{
    static struct fuzz_case all;
    static struct outcome outcomes[2];
    static const enum place places[2] = {AT_END, AT_BEGIN};

    case_read(&all, data, size);
    if (sigsetjmp(out_of_patience, 0) != 0) {
        abandoned++;
        return 0;
    }
    for (int turn = 0; turn < 2; turn++) {
        lay(&all, places[turn], noises[turn]);
        test(&outcomes[turn], all.call, noises[turn]);
    }
    check_same(&outcomes[0], &outcomes[1], all.call);
    counts[all.call][TQUERY_NUMBER(outcomes[0].answer)]++;
    return 0;
}
