/*
 * Engines with a fault, to see that the fuzz target finds it. The linker puts
 * these calls (--wrap) between the target and the engine; the variable FAULT
 * of the environment says which fault the calls have, by its place in the
 * tables.
 */
#include "case.h"
#include "totals.h"
#include "tquery.h"

#include <stdio.h>
#include <stdlib.h>
#include <string.h>

#define FIELD_HEAD 3

enum { TAG_GROUP = 20, TAG_PAIR = 49 };

/*
 * What a run was lent, a byte of its work area and an entry of its position area before it, and the engine's
 * answer taken apart.
 */
struct run {
    const uint8_t *query, *input, *joined;
    size_t query_length, input_length, joined_length;
    uint8_t *work, *result;
    size_t work_length, result_length;
    uint16_t *positions;
    size_t positions_length;
    uint8_t work_before;
    uint16_t entry_before;
    unsigned number;
    size_t length;
};

static volatile uint8_t seen;

static void past_result(struct run *run) { run->result[run->result_length] = 0; }
static void before_result(struct run *run) { run->result[-1] = 0; }
static void past_work(struct run *run) { run->work[run->work_length] = 0; }
static void before_work(struct run *run) { run->work[-1] = 0; }
static void past_positions(struct run *run) { run->positions[run->positions_length] = 0; }
static void before_positions(struct run *run) { run->positions[-1] = 0; }
static void past_query(struct run *run) { seen = run->query[run->query_length]; }
static void before_joined(struct run *run) { seen = run->joined[-1]; }

static void writes_input(struct run *run)
{
    if (run->input_length > 20) {
        ((volatile uint8_t *)run->input)[20] = run->input[20];
    }
}

static void leaves_work(struct run *run)
{
    if (run->work_length > 65536) {
        run->work[65536] = 1;
    }
}

static void clears_short_work(struct run *run)
{
    if (run->number == 1 && run->work_length > 0) {
        run->work[run->work_length - 1] = 0;
    }
}

static void clears_work_at_11(struct run *run)
{
    if (run->number == 11) {
        run->work[run->work_length / 2] = 0;
    }
}

/* The query is tested before the position area. */
static void answers_2_for_11(struct run *run)
{
    run->number = run->number == 11 && run->query_length > TQUERY_QUERY_MAX ? 2 : run->number;
}

static void answers_14(struct run *run) { run->number = run->number == 8 ? 14 : run->number; }
static void answers_13(struct run *run) { run->number = run->number == 8 ? 13 : run->number; }
static void answers_12(struct run *run) { run->number = run->number == 8 ? 12 : run->number; }
static void answers_8_for_12(struct run *run) { run->number = run->number == 12 ? 8 : run->number; }
static void answers_11(struct run *run) { run->number = run->number == 8 ? 11 : run->number; }
static void refuses_with_length(struct run *run) { run->length += run->number == 9; }
static void refuses_total_with_length(struct run *run) { run->length += run->number == 12; }
static void answers_5_for_4(struct run *run) { run->number = run->number == 4 ? 5 : run->number; }
static void accepts_malformed(struct run *run) { run->number = run->number == 7 ? 10 : run->number; }
static void refuses_admitted(struct run *run) { run->number = run->number == 9 ? 7 : run->number; }

static void longer_than_area(struct run *run)
{
    if (run->number == 0 && run->length == run->result_length) {
        run->length++;
    }
}

static void touches_rest(struct run *run)
{
    if (run->number == 0 && run->length < run->result_length) {
        run->result[run->result_length - 1] = 0;
    }
}

static void no_array(struct run *run)
{
    if (run->number == 0 && run->length > 100) {
        run->result[0] = 2;
    }
}

static void touches_refused(struct run *run)
{
    if (run->number == 7 && run->result_length > 0) {
        run->result[run->result_length - 1] = 0;
    }
}

static void leaves_result(struct run *run)
{
    if (run->number == 9 && run->result_length > 0) {
        run->result[run->result_length / 2] = 1;
    }
}

/* A sum that fits is refused, with all areas as after 12. */
static void refuses_fitting_total(struct run *run)
{
    if (run->number == 0 && groups_with_total(run->query, run->query_length) > 0) {
        memset(run->result, 0, run->result_length);
        memset(run->positions, 0, run->positions_length * sizeof *run->positions);
        run->number = 12;
        run->length = 0;
    }
}

static void leaves_result_at_12(struct run *run)
{
    if (run->number == 12 && run->result_length > 0) {
        run->result[run->result_length - 1] = 1;
    }
}

static void leaves_entry_at_12(struct run *run)
{
    if (run->number == 12) {
        run->positions[run->positions_length / 2] = 1;
    }
}

static void leaves_work_at_12(struct run *run)
{
    if (run->number == 12) {
        run->work[run->work_length / 2] = 1;
    }
}

static void number_by_work(struct run *run)
{
    if (run->number == 8 && run->work_before > 100) {
        run->number = 10;
    }
}

/* The byte is the first of a text at the first tree's root: any value leaves an array. */
static void result_by_work(struct run *run)
{
    if (run->number == 0 && run->length > 20 && run->result[6] == 6 && run->result[8] > 0) {
        run->result[9] = run->work_before;
    }
}

/* Whether a run was accepted and gave a tree. */
static int gave_a_tree(const struct run *run) { return run->number == 0 && run->length > 3; }

static void counts_from_0(struct run *run) { run->positions[0] -= (uint16_t)gave_a_tree(run); }

static void past_inputs(struct run *run)
{
    if (gave_a_tree(run)) {
        run->positions[0] = (uint16_t)(run->input_length / 6 + 1);
    }
}

static void touches_later_entry(struct run *run)
{
    if (run->number == 0 && run->length < TQUERY_ARRAY_MAX / 2) {
        run->positions[run->positions_length - 1] = 0;
    }
}

static void touches_refused_entry(struct run *run)
{
    if (run->number == 5) {
        run->positions[run->positions_length / 2] = 0;
    }
}

static void leaves_entry(struct run *run)
{
    if (run->number == 10 && run->positions_length > TQUERY_POSITIONS_MIN) {
        run->positions[TQUERY_POSITIONS_MIN] = 1;
    }
}

/* Of two trees or more: either position is one that may be given. */
static void position_by_area(struct run *run)
{
    if (gave_a_tree(run) && run->length == run->input_length && run->positions[1] == 2) {
        run->positions[0] = (uint16_t)(1 + run->entry_before / 32 % 2);
    }
}

static const struct {
    const char *words;
    void (*fault)(struct run *run);
} of_run[] = {
    {"writes past the result area", past_result},
    {"writes before the result area", before_result},
    {"writes past the work area", past_work},
    {"writes before the work area", before_work},
    {"reads past the query", past_query},
    {"reads before the joined array", before_joined},
    {"writes the input, what stands there", writes_input},
    {"leaves a byte of a work area over 65,536", leaves_work},
    {"changes the work area at 1", clears_short_work},
    {"answers 14 for 8", answers_14},
    {"answers 13 for 8", answers_13},
    {"answers 12 for 8", answers_12},
    {"answers 11 for 8", answers_11},
    {"answers 9 with a length", refuses_with_length},
    {"answers 5 for 4", answers_5_for_4},
    {"answers 10 for 7", accepts_malformed},
    {"answers 7 for 9", refuses_admitted},
    {"answers a length over the result area", longer_than_area},
    {"changes a byte beyond the result", touches_rest},
    {"gives a result that is no array", no_array},
    {"changes the result area at 7", touches_refused},
    {"leaves a byte of the result area at 9", leaves_result},
    {"answers by what the work area held", number_by_work},
    {"gives a result by what the work area held", result_by_work},
    {"writes past the position area", past_positions},
    {"writes before the position area", before_positions},
    {"changes the work area at 11", clears_work_at_11},
    {"tests the query before the position area", answers_2_for_11},
    {"counts positions from 0", counts_from_0},
    {"gives a position past the input", past_inputs},
    {"changes an entry beyond the result's trees", touches_later_entry},
    {"changes the position area at 5", touches_refused_entry},
    {"leaves an entry beyond 2,730 at 10", leaves_entry},
    {"gives a position by what the area held", position_by_area},
    {"answers 8 for 12", answers_8_for_12},
    {"answers 12 where the totals fit", refuses_fitting_total},
    {"answers 12 with a length", refuses_total_with_length},
    {"leaves a byte of the result area at 12", leaves_result_at_12},
    {"leaves an entry of the position area at 12", leaves_entry_at_12},
    {"leaves a byte of the work area at 12", leaves_work_at_12},
};

#define OF_RUN (int)(sizeof of_run / sizeof *of_run)

static const char *const of_others[] = {
    "check_array reads past the array",
    "check_array answers with a length",
    "check_array answers 6",
    "check_array answers by the array's place",
    "check_query answers 2 for 3",
    "check_query accepts what is malformed",
    "regroup reads past the second array",
    "regroup tests the arrays before it asks for such a group",
    "regroup tests the second array before the first",
    "regroup joins the second array before the first",
    "regroup counts both heads of the join",
    "regroup leaves a byte of the result area at 9",
    "regroup takes a total",
    "regroup answers 12 for 8",
};

enum { READS_PAST = OF_RUN, WITH_LENGTH, ANSWERS_6, BY_PLACE, QUERY_2, QUERY_0,
       PAST_SECOND, GROUP_LATE, SECOND_FIRST, SWAPPED, TWO_HEADS, LEFT_AT_9, TAKES_TOTAL, REGROUP_12,
       TRACER_FIRST };

/* What a message was lent with, a byte of its result area before the call, and the engine's answer taken apart. */
struct tracing {
    const uint8_t *message;
    size_t message_length;
    uint8_t *result;
    size_t result_length;
    uint8_t before;
    unsigned number;
    size_t length;
};

uint64_t __real_tquery_tracer(const uint8_t *message, size_t message_length, uint8_t *result, size_t result_length);

static void past_message(struct tracing *all) { seen = all->message[all->message_length]; }
static void before_message(struct tracing *all) { seen = all->message[-1]; }
static void past_array(struct tracing *all) { all->result[all->result_length] = 0; }
static void before_array(struct tracing *all) { all->result[-1] = 0; }
static void one_short(struct tracing *all) { all->length -= all->number == 0; }
static void refuses_short_with_length(struct tracing *all) { all->length += all->number == 10; }
static void answers_12_for_13(struct tracing *all) { all->number = all->number == 13 ? 12 : all->number; }

static void writes_message(struct tracing *all)
{
    if (all->message_length > 20) {
        ((volatile uint8_t *)all->message)[20] = all->message[20];
    }
}

static void touches_at_13(struct tracing *all)
{
    if (all->number == 13 && all->result_length > 0) {
        all->result[all->result_length - 1] = 0;
    }
}

static void leaves_at_10(struct tracing *all)
{
    if (all->number == 10 && all->result_length > 0) {
        all->result[all->result_length - 1] = 1;
    }
}

static void touches_beyond(struct tracing *all)
{
    if (all->number == 0 && all->length < all->result_length) {
        all->result[all->length] = 0;
    }
}

/* The area is tested before the message, by the shortest array. */
static void answers_10_for_13(struct tracing *all)
{
    if (all->number == 13 && all->result_length < 9) {
        memset(all->result, 0, all->result_length);
        all->number = 10;
    }
}

static void gives_no_tree(struct tracing *all)
{
    if (all->number == 0 && all->length == 9) {
        memcpy(all->result, "\1\0\0", 3);
        all->length = 3;
    }
}

static void empty_text(struct tracing *all)
{
    if (all->number == 0 && all->length > 9 && memcmp(all->result + all->length - 3, "\3\0\0", 3) == 0) {
        all->result[all->length - 3] = 6;
    }
}

/* A text of one byte at the end: any printable byte leaves an array. */
static void array_by_area(struct tracing *all)
{
    if (all->number == 0 && all->length > 9 && memcmp(all->result + all->length - 4, "\6\0\1", 3) == 0) {
        all->result[all->length - 1] = 'A' + all->before % 26;
    }
}

/* The label of DO is 8. */
static void label_8(struct tracing *all)
{
    for (size_t at = 9; all->number == 0 && at < all->length; at += FIELD_HEAD + length_at(all->result + at + 1)) {
        all->result[at + FIELD_HEAD] += all->result[at + FIELD_HEAD] == 7;
    }
}

/* Answers as the engine does of another message. */
static void answer_of(struct tracing *all, const uint8_t *message, size_t length)
{
    uint64_t answer = __real_tquery_tracer(message, length, all->result, all->result_length);
    all->number = TQUERY_NUMBER(answer);
    all->length = TQUERY_LENGTH(answer);
}

/* Where the line at a place ends, or the message. */
static size_t line_end(const struct tracing *all, size_t at)
{
    while (at < all->message_length && all->message[at] != '\n') {
        at++;
    }
    return at < all->message_length ? at + 1 : at;
}

/* Without the first line the message is not over length. */
static void takes_4097(struct tracing *all)
{
    size_t end = line_end(all, 0);
    if (all->message_length == TQUERY_MESSAGE_MAX + 1) {
        answer_of(all, all->message + end, all->message_length - end);
    }
}

/* Only where no byte was written before: the area is as it was before the call. */
static void stops_at_second_line(struct tracing *all)
{
    if (all->number == 13) {
        answer_of(all, all->message, line_end(all, 0));
    }
}

/* What the first line says again in the second plays no part. */
static void takes_name_twice(struct tracing *all)
{
    size_t end = line_end(all, 0);
    if (all->number == 13 && all->message_length > end + 4 && memcmp(all->message, all->message + end, 4) == 0) {
        answer_of(all, all->message + end, all->message_length - end);
    }
}

/* Whether a byte ends a value. */
static int ends_value(uint8_t byte) { return byte == ';' || byte == '\r'; }

/* A message with a 0 before each single digit behind a point. */
static void tenths_as_hundredths(struct tracing *all)
{
    static uint8_t other[2 * TQUERY_MESSAGE_MAX];
    size_t length = 0;
    for (size_t at = 0; all->number == 0 && at < all->message_length; at++) {
        const uint8_t *byte = all->message + at;
        int single = at > 0 && at + 1 < all->message_length && byte[-1] == '.' && ends_value(byte[1]);
        if (single) {
            other[length++] = '0';
        }
        other[length++] = *byte;
    }
    if (all->number == 0) {
        answer_of(all, other, length);
    }
}

/* A message without the minus at the beginning of a value. */
static void loses_minus(struct tracing *all)
{
    static uint8_t other[TQUERY_MESSAGE_MAX];
    size_t length = 0;
    for (size_t at = 0; all->number == 0 && at < all->message_length; at++) {
        const uint8_t *byte = all->message + at;
        if (at == 0 || *byte != '-' || (byte[-1] != '=' && byte[-1] != ';')) {
            other[length++] = *byte;
        }
    }
    if (all->number == 0) {
        answer_of(all, other, length);
    }
}

/* A message without the last byte of each value of 81. */
static void takes_81(struct tracing *all)
{
    static uint8_t other[READ_LONGEST + 256];
    size_t length = 0, begin = 0;
    for (size_t at = 0; all->number == 13 && at < all->message_length; at++) {
        uint8_t byte = all->message[at];
        length -= ends_value(byte) && at - begin == 81;
        begin = ends_value(byte) || byte == '=' ? at + 1 : begin;
        other[length++] = byte;
    }
    if (all->number == 13) {
        answer_of(all, other, length);
    }
}

static const struct {
    const char *words;
    void (*fault)(struct tracing *all);
} of_tracer[] = {
    {"tracer reads past the message", past_message},
    {"tracer reads before the message", before_message},
    {"tracer writes the message, what stands there", writes_message},
    {"tracer writes past the result area", past_array},
    {"tracer writes before the result area", before_array},
    {"tracer answers a length one short", one_short},
    {"tracer answers 10 with a length", refuses_short_with_length},
    {"tracer answers 12 for 13", answers_12_for_13},
    {"tracer changes the result area at 13", touches_at_13},
    {"tracer leaves a byte of the result area at 10", leaves_at_10},
    {"tracer changes a byte beyond the array", touches_beyond},
    {"tracer tests the result area before the message", answers_10_for_13},
    {"tracer gives no tree of an empty message", gives_no_tree},
    {"tracer gives an empty text for an empty value", empty_text},
    {"tracer gives an array by what the area held", array_by_area},
    {"tracer gives label 8 for DO", label_8},
    {"tracer takes a message of 4,097 bytes", takes_4097},
    {"tracer takes a message by its first line", stops_at_second_line},
    {"tracer takes one of the seven names twice", takes_name_twice},
    {"tracer takes tenths for hundredths", tenths_as_hundredths},
    {"tracer takes a number without its minus", loses_minus},
    {"tracer takes a value of 81 bytes", takes_81},
};

/* The words of a fault, by its place in the three tables, one behind another. */
static const char *words_of(int number)
{
    if (number < OF_RUN) {
        return of_run[number].words;
    }
    return number < TRACER_FIRST ? of_others[number - OF_RUN] : of_tracer[number - TRACER_FIRST].words;
}

static int fault(void)
{
    static int number = -1;
    if (number < 0) {
        number = atoi(getenv("FAULT"));
        fprintf(stderr, "fault: %s\n", words_of(number));
    }
    return number;
}

uint64_t __real_tquery_run(const uint8_t *query, size_t query_length,
                           const uint8_t *input, size_t input_length,
                           const uint8_t *joined, size_t joined_length,
                           uint8_t *work, size_t work_length,
                           uint8_t *result, size_t result_length,
                           uint16_t *positions, size_t positions_length);
uint64_t __real_tquery_regroup(const uint8_t *query, size_t query_length,
                               const uint8_t *first, size_t first_length,
                               const uint8_t *second, size_t second_length,
                               uint8_t *work, size_t work_length,
                               uint8_t *result, size_t result_length);
uint64_t __real_tquery_check_array(const uint8_t *bytes, size_t length);
uint64_t __real_tquery_check_query(const uint8_t *bytes, size_t length);

uint64_t __wrap_tquery_run(const uint8_t *query, size_t query_length,
                           const uint8_t *input, size_t input_length,
                           const uint8_t *joined, size_t joined_length,
                           uint8_t *work, size_t work_length,
                           uint8_t *result, size_t result_length,
                           uint16_t *positions, size_t positions_length)
{
    struct run run = {query, input, joined, query_length, input_length, joined_length, work, result,
                      work_length, result_length, positions, positions_length,
                      work_length > 0 ? work[0] : 0, positions_length > 0 ? positions[0] : 0, 0, 0};
    uint64_t answer = __real_tquery_run(query, query_length, input, input_length, joined, joined_length,
                                        work, work_length, result, result_length,
                                        positions, positions_length);
    run.number = TQUERY_NUMBER(answer);
    run.length = TQUERY_LENGTH(answer);
    if (fault() < OF_RUN) {
        of_run[fault()].fault(&run);
    }
    return (uint64_t)run.number << 32 | run.length;
}

uint64_t __wrap_tquery_check_array(const uint8_t *bytes, size_t length)
{
    uint64_t answer = __real_tquery_check_array(bytes, length);
    switch (fault()) {
    case READS_PAST:
        seen = bytes[length];
        return answer;
    case WITH_LENGTH:
        return answer == 5ull << 32 ? answer + 1 : answer;
    case ANSWERS_6:
        return answer == 4ull << 32 ? 6ull << 32 : answer;
    case BY_PLACE:
        return answer == 0 && (uintptr_t)bytes % 4096 == 0 ? 5ull << 32 : answer;
    default:
        return answer;
    }
}

uint64_t __wrap_tquery_check_query(const uint8_t *bytes, size_t length)
{
    uint64_t answer = __real_tquery_check_query(bytes, length);
    switch (fault()) {
    case QUERY_2:
        return answer == 3ull << 32 ? 2ull << 32 : answer;
    case QUERY_0:
        return answer == 3ull << 32 ? 0 : answer;
    default:
        return answer;
    }
}

/* What a regrouping with a fault answers, by the arrays' own answers and the answer of the engine. */
static uint64_t regroup_fault(uint64_t answer, uint64_t query, uint64_t first, uint64_t second,
                              size_t both_lengths)
{
    unsigned number = TQUERY_NUMBER(answer);
    int ran = number == TQUERY_ACCEPTED || (number >= TQUERY_TREE_LARGE && number <= TQUERY_RESULT_LONG);
    int of_arrays = number == TQUERY_INPUT_LONG || number == TQUERY_INPUT_MALFORMED;
    switch (fault()) {
    case GROUP_LATE:
        return number == TQUERY_QUERY_MALFORMED && query == 0 && first != 0 ? first : answer;
    case SECOND_FIRST:
        return of_arrays && second != 0 ? second : answer;
    case TWO_HEADS:
        return ran && both_lengths > TQUERY_ARRAY_MAX ? 9ull << 32 : answer;
    case REGROUP_12:
        return number == TQUERY_TREE_LARGE ? 12ull << 32 : answer;
    default:
        return answer;
    }
}

/* A query that tquery_check_query accepts, with pairs of tag 49 for the totals of its first stage. */
static void without_totals(uint8_t *other, const uint8_t *query, size_t length)
{
    memcpy(other, query, length);
    uint8_t *pair = other + 3 * FIELD_HEAD;
    if (length <= 3 * FIELD_HEAD || other[FIELD_HEAD] != TAG_GROUP) {
        return;
    }
    for (uint8_t *end = pair + length_at(pair - 2); pair < end; pair += FIELD_HEAD + length_at(pair + 1)) {
        pair[0] = TAG_PAIR;
    }
}

uint64_t __wrap_tquery_regroup(const uint8_t *query, size_t query_length,
                               const uint8_t *first, size_t first_length,
                               const uint8_t *second, size_t second_length,
                               uint8_t *work, size_t work_length,
                               uint8_t *result, size_t result_length)
{
    uint64_t checks[3] = {__real_tquery_check_query(query, query_length),
                          __real_tquery_check_array(first, first_length),
                          __real_tquery_check_array(second, second_length)};
    int swapped = fault() == SWAPPED && checks[1] == 0 && checks[2] == 0;
    static uint8_t other[TQUERY_QUERY_MAX];
    if (fault() == TAKES_TOTAL && checks[0] == 0) {
        without_totals(other, query, query_length);
        query = other;
    }
    uint64_t answer = __real_tquery_regroup(query, query_length, swapped ? second : first,
                                            swapped ? second_length : first_length,
                                            swapped ? first : second,
                                            swapped ? first_length : second_length,
                                            work, work_length, result, result_length);
    if (fault() == PAST_SECOND) {
        seen = second[second_length];
    }
    if (fault() == LEFT_AT_9 && TQUERY_NUMBER(answer) == TQUERY_GROUP_LONG && result_length > 0) {
        result[result_length / 2] = 1;
    }
    return regroup_fault(answer, checks[0], checks[1], checks[2], first_length + second_length);
}

uint64_t __wrap_tquery_tracer(const uint8_t *message, size_t message_length, uint8_t *result, size_t result_length)
{
    struct tracing all = {message, message_length, result, result_length,
                          result_length > 0 ? result[0] : 0, 0, 0};
    uint64_t answer = __real_tquery_tracer(message, message_length, result, result_length);
    all.number = TQUERY_NUMBER(answer);
    all.length = TQUERY_LENGTH(answer);
    if (fault() >= TRACER_FIRST) {
        of_tracer[fault() - TRACER_FIRST].fault(&all);
    }
    return (uint64_t)all.number << 32 | all.length;
}
