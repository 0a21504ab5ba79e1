#include "case.h"

#include "tquery.h"
#include "tracer.h"

#include <string.h>

#define FIELD_HEAD 3

/* Refusal 1 is one test, so most cases have enough. The choice that is left says tquery_tracer, which takes none. */
static const size_t work_lengths[8] = {65536, 65536, 65536, 0, 65537, 70000, 65535, 0};

/* So has refusal 11; the last choice is a length under the limit. */
static const size_t positions_lengths[3] = {TQUERY_POSITIONS_MIN, TQUERY_POSITIONS_MIN + 1, POSITIONS_LONGEST};

static const uint8_t tags[READ_AREAS] = {16, 1, 1};
static const size_t limits[READ_AREAS] = {TQUERY_QUERY_MAX, TQUERY_ARRAY_MAX, TQUERY_ARRAY_MAX};

size_t length_at(const uint8_t *bytes)
{
    return (size_t)bytes[0] * 256 + bytes[1];
}

void set_length(uint8_t *bytes, size_t length)
{
    bytes[0] = (uint8_t)(length / 256);
    bytes[1] = (uint8_t)length;
}

int is_message(const uint8_t *data)
{
    return (data[0] & 7) == 3;
}

static size_t least(size_t one, size_t other)
{
    return one < other ? one : other;
}

void case_bounds(size_t bounds[READ_AREAS + 1], const uint8_t *data, size_t size)
{
    bounds[QUERY] = CASE_HEAD;
    bounds[INPUT] = least(size, bounds[QUERY] + length_at(data + 4));
    bounds[JOINED] = least(size, bounds[INPUT] + length_at(data + 6));
    bounds[READ_AREAS] = size;
}

static void append(struct content *content, const uint8_t *bytes, size_t length)
{
    length = least(length, READ_LONGEST - content->length);
    memcpy(content->bytes + content->length, bytes, length);
    content->length += length;
}

static void append_zeros(struct content *content, size_t until)
{
    if (content->length < until) {
        memset(content->bytes + content->length, 0, until - content->length);
        content->length = until;
    }
}

static void repeat(struct content *content, size_t limit)
{
    size_t once = content->length < FIELD_HEAD ? 0 : content->length - FIELD_HEAD;
    while (once > 0 && content->length + once <= limit) {
        append(content, content->bytes + FIELD_HEAD, once);
    }
}

static void read_area(struct content *content, int area, const uint8_t *head)
{
    int longer = head[3] >> (2 * area) & 3;
    if (longer == 3) {
        append_zeros(content, limits[area] + 1);
    } else if (longer == 2 && area != QUERY) {
        repeat(content, limits[area]);
    }
    if (head[0] >> (3 + area) & 1) {
        append_zeros(content, FIELD_HEAD);
        content->bytes[0] = tags[area];
        set_length(content->bytes + 1, content->length - FIELD_HEAD);
    }
}

static size_t positions_length(const uint8_t *head)
{
    int choice = head[3] >> 6;
    return choice < 3 ? positions_lengths[choice] : length_at(head + 1) % TQUERY_POSITIONS_MIN;
}

/* The areas that are read of a run or a regrouping. */
static void read_areas(struct fuzz_case *all, const uint8_t *head, const uint8_t *data, size_t size)
{
    size_t bounds[READ_AREAS + 1] = {0};
    if (size >= CASE_HEAD) {
        case_bounds(bounds, data, size);
    }
    for (int area = 0; area < READ_AREAS; area++) {
        append(&all->read[area], data + bounds[area], bounds[area + 1] - bounds[area]);
        read_area(&all->read[area], area, head);
    }
}

static void read_message(struct content *message, const uint8_t *head, const uint8_t *data, size_t size)
{
    int longer = head[3] & 3;
    append(message, data + least(size, CASE_HEAD), size - least(size, CASE_HEAD));
    if (longer >= 2) {
        message->length = with_other_lines(message->bytes, message->length, TQUERY_MESSAGE_MAX + longer - 2);
    }
}

void case_read(struct fuzz_case *all, const uint8_t *data, size_t size)
{
    uint8_t head[CASE_HEAD] = {0};
    memcpy(head, data, least(size, CASE_HEAD));
    for (int area = 0; area < READ_AREAS; area++) {
        all->read[area].length = 0;
    }
    all->call = is_message(head) ? TRACER : head[0] >> 7 ? REGROUP : RUN;
    if (all->call == TRACER) {
        read_message(&all->read[MESSAGE], head, data, size);
    } else {
        read_areas(all, head, data, size);
    }
    all->work_length = work_lengths[head[0] & 7];
    all->result_length = head[0] >> 6 & 1 ? TQUERY_ARRAY_MAX : length_at(head + 1) % (RESULT_LONGEST + 1);
    all->positions_length = positions_length(head);
}
