/*
 * The mutator. A quarter of the time libFuzzer changes the data blindly, which
 * mostly spoils a length. Else one field of one area is changed, and the
 * lengths of all fields around it, and of the area, are set right. A message
 * has no lengths, and is always changed blindly.
 */
#include "case.h"

#include <string.h>

#define FIELD_HEAD 3
#define LEVELS_MOST 64
#define DRAWS_MOST 8 /* to find a field of a wanted kind */
#define DATA_LONGEST 65536
#define GROWTH_MOST 8 /* of the content of a field in one step */

enum { TAG_PAIR = 49, TAG_TOTAL = 54 };

size_t LLVMFuzzerMutate(uint8_t *data, size_t size, size_t max_size);

/* A field in the data, and where the heads of the fields around it stand. */
struct found {
    int area;
    size_t begin;
    size_t end;
    size_t heads[LEVELS_MOST];
    int levels;
};

static uint32_t state;

static size_t below(size_t bound)
{
    state = state * 1664525 + 1013904223;
    return (size_t)((uint64_t)(state >> 8) * bound >> 24);
}

/* Fields of one kind may stand in each other's place: roots, stages, criteria, data, items, pairs. */
static int kind_of(uint8_t tag)
{
    static const uint8_t last_of_kind[] = {1, 2, 6, 7, 16, 21, 32, 39, 45, 46, 48, 49, 50, 51};
    int kind = 0;
    tag = tag == TAG_TOTAL ? TAG_PAIR : tag;
    while (kind < (int)sizeof last_of_kind && tag > last_of_kind[kind]) {
        kind++;
    }
    return kind;
}

/* Where the fields inside a field begin: behind its head, behind a label's byte, or nowhere. */
static size_t inner_begin(const uint8_t *data, size_t begin, size_t end)
{
    switch (data[begin]) {
    case 3: case 4: case 5: case 6: case 32: case 33: case 46:
        return end;
    case 7:
        return begin + FIELD_HEAD + 1;
    default:
        return begin + FIELD_HEAD;
    }
}

/* Where the field at a place ends; 0 if no field stands there. */
static size_t field_end(const uint8_t *data, size_t at, size_t limit)
{
    if (at + FIELD_HEAD > limit) {
        return 0;
    }
    size_t end = at + FIELD_HEAD + length_at(data + at + 1);
    return end <= limit ? end : 0;
}

/* One of the fields from a place to a limit, each as likely; 0 if there is none. */
static size_t pick_field(const uint8_t *data, size_t at, size_t limit)
{
    size_t picked = 0;
    size_t seen = 0;
    for (size_t end = field_end(data, at, limit); end != 0; end = field_end(data, at, limit)) {
        seen++;
        if (below(seen) == 0) {
            picked = at;
        }
        at = end;
    }
    return picked;
}

/* A field by a walk down one of the areas; 0 if the area has no head that spans it. */
static int find_field(struct found *found, const uint8_t *data, size_t size)
{
    size_t bounds[READ_AREAS + 1];
    case_bounds(bounds, data, size);
    found->area = (int)below(READ_AREAS);
    found->begin = bounds[found->area];
    found->end = bounds[found->area + 1];
    found->levels = 0;
    if (field_end(data, found->begin, found->end) != found->end) {
        return 0;
    }
    while (found->levels < LEVELS_MOST && (found->levels == 0 || below(4) != 0)) {
        size_t inner = inner_begin(data, found->begin, found->end);
        size_t picked = inner < found->end ? pick_field(data, inner, found->end) : 0;
        if (picked == 0) {
            break;
        }
        found->heads[found->levels++] = found->begin;
        found->end = field_end(data, picked, found->end);
        found->begin = picked;
    }
    return 1;
}

/* Puts bytes in place of those from begin to end, and sets the lengths around them right. */
static size_t replace(uint8_t *data, size_t size, const struct found *found, size_t begin, size_t end,
                      const uint8_t *bytes, size_t length, size_t max_size)
{
    size_t new_size = size - (end - begin) + length;
    if (new_size > max_size) {
        return size;
    }
    for (int level = 0; level < found->levels; level++) {
        uint8_t *head = data + found->heads[level];
        set_length(head + 1, length_at(head + 1) - (end - begin) + length);
    }
    if (found->area != JOINED) {
        uint8_t *area_length = data + 4 + 2 * found->area;
        set_length(area_length, length_at(area_length) - (end - begin) + length);
    }
    memmove(data + begin + length, data + end, size - end);
    memcpy(data + begin, bytes, length);
    return new_size;
}

static const uint8_t tags[] = {1, 2, 3, 4, 5, 6, 7, 16, 17, 18, 19, 20, 21, 32, 33, 34, 35,
                               36, 37, 38, 39, 40, 41, 42, 43, 44, 45, 46, 47, 48, 49, 50, 51, 54};

/* Whether a field's content has one length. */
static int is_fixed(uint8_t tag)
{
    return tag == 4 || tag == 5 || tag == 46;
}

/* Changes what stands in a field blindly, and sets its own length too. */
static size_t change_content(uint8_t *data, size_t size, struct found *found, size_t max_size)
{
    static uint8_t content[DATA_LONGEST + GROWTH_MOST];
    size_t begin = found->begin + FIELD_HEAD;
    size_t length = found->end - begin;
    int fixed = is_fixed(data[found->begin]);
    if (found->levels == LEVELS_MOST || (fixed && length == 0)) {
        return size;
    }
    memcpy(content, data + begin, length);
    size_t changed = LLVMFuzzerMutate(content, length, fixed ? length : length + GROWTH_MOST);
    found->heads[found->levels++] = found->begin;
    return replace(data, size, found, begin, found->end, content, fixed ? length : changed, max_size);
}

/* Puts a field from anywhere, of the same kind if one is found, before a field or in its place. */
static size_t copy_field(uint8_t *data, size_t size, const struct found *found, int over, size_t max_size)
{
    static uint8_t copy[DATA_LONGEST];
    struct found other = *found;
    for (int draw = 0; draw < DRAWS_MOST; draw++) {
        if (find_field(&other, data, size) && kind_of(data[other.begin]) == kind_of(data[found->begin])) {
            break;
        }
    }
    memcpy(copy, data + other.begin, other.end - other.begin);
    size_t end = over ? found->end : found->begin;
    return replace(data, size, found, found->begin, end, copy, other.end - other.begin, max_size);
}

static size_t change_field(uint8_t *data, size_t size, struct found *found, size_t max_size)
{
    int leaf = inner_begin(data, found->begin, found->end) >= found->end;
    switch (below(16)) {
    case 0:
        data[found->begin] = tags[below(sizeof tags)];
        return size;
    case 1: case 2:
        return replace(data, size, found, found->begin, found->end, data, 0, max_size);
    case 3: case 4: case 5: case 6: case 7:
        return copy_field(data, size, found, 1, max_size);
    case 8: case 9: case 10: case 11: case 12:
        return copy_field(data, size, found, 0, max_size);
    default:
        return leaf || below(8) == 0 ? change_content(data, size, found, max_size)
                                     : copy_field(data, size, found, 1, max_size);
    }
}

size_t LLVMFuzzerCustomMutator(uint8_t *data, size_t size, size_t max_size, unsigned seed)
{
    struct found found;
    state = seed;
    if (size < CASE_HEAD || size > DATA_LONGEST || is_message(data) || below(4) == 0 ||
        !find_field(&found, data, size)) {
        return LLVMFuzzerMutate(data, size, max_size);
    }
    return change_field(data, size, &found, max_size);
}
