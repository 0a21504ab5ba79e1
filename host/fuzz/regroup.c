#include "regroup.h"

#include "case.h"

#include <string.h>

#define FIELD_HEAD 3
#define PATH_OF_ONE 4
#define LABELS 256

enum { TAG_ARRAY = 1, TAG_QUERY = 16, TAG_GROUP = 20, TAG_PAIR = 49 };

static size_t field_length(const uint8_t *field)
{
    return FIELD_HEAD + length_at(field + 1);
}

static void set_head(uint8_t *field, uint8_t tag, size_t length)
{
    field[0] = tag;
    set_length(field + 1, length - FIELD_HEAD);
}

/*
 * Writes a pair whose source is its destination too; 0 if that is not one
 * label, or one that was seen, or if the pair is a total.
 */
static size_t pair_again(uint8_t *out, const uint8_t *pair, uint8_t seen[LABELS])
{
    const uint8_t *source = pair + FIELD_HEAD;
    const uint8_t *destination = source + field_length(source);
    if (pair[0] != TAG_PAIR || field_length(destination) != PATH_OF_ONE || seen[destination[FIELD_HEAD]]) {
        return 0;
    }
    seen[destination[FIELD_HEAD]] = 1;
    memcpy(out + FIELD_HEAD, destination, PATH_OF_ONE);
    memcpy(out + FIELD_HEAD + PATH_OF_ONE, destination, PATH_OF_ONE);
    set_head(out, TAG_PAIR, FIELD_HEAD + 2 * PATH_OF_ONE);
    return field_length(out);
}

/* Writes a list of pairs; 0 if one of them cannot be written. */
static size_t list_again(uint8_t *out, const uint8_t *list, uint8_t seen[LABELS])
{
    const uint8_t *end = list + field_length(list);
    size_t length = FIELD_HEAD;
    for (const uint8_t *pair = list + FIELD_HEAD; pair < end; pair += field_length(pair)) {
        size_t written = pair_again(out + length, pair, seen);
        if (written == 0) {
            return 0;
        }
        length += written;
    }
    set_head(out, list[0], length);
    return length;
}

size_t regrouping(uint8_t again[AGAIN_LONGEST], const uint8_t *query, size_t length)
{
    uint8_t seen[LABELS] = {0};
    const uint8_t *group = query + FIELD_HEAD;
    if (length == FIELD_HEAD || group[0] != TAG_GROUP || FIELD_HEAD + field_length(group) != length) {
        return 0;
    }
    const uint8_t *aggregates = group + FIELD_HEAD;
    size_t begin = 2 * FIELD_HEAD;
    size_t first = list_again(again + begin, aggregates, seen);
    size_t second = first == 0 ? 0
                               : list_again(again + begin + first, aggregates + field_length(aggregates), seen);
    if (second == 0) {
        return 0;
    }
    set_head(again + FIELD_HEAD, TAG_GROUP, FIELD_HEAD + first + second);
    set_head(again, TAG_QUERY, begin + first + second);
    return begin + first + second;
}

size_t join_length(size_t first, size_t second)
{
    return first + second - FIELD_HEAD;
}

void join(uint8_t *both, const uint8_t *first, size_t first_length, const uint8_t *second,
          size_t second_length)
{
    memcpy(both, first, first_length);
    memcpy(both + first_length, second + FIELD_HEAD, second_length - FIELD_HEAD);
    set_head(both, TAG_ARRAY, join_length(first_length, second_length));
}
