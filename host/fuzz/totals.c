#include "totals.h"

#include "case.h"

#define FIELD_HEAD 3

enum { TAG_INTEGER = 5, TAG_GROUP = 20, TAG_TOTAL = 54 };

static const uint8_t *field_end(const uint8_t *field)
{
    return field + FIELD_HEAD + length_at(field + 1);
}

/* The first total of a list from a pair on, or the list's end. */
static const uint8_t *next_total(const uint8_t *pair, const uint8_t *end)
{
    while (pair < end && pair[0] != TAG_TOTAL) {
        pair = field_end(pair);
    }
    return pair;
}

/* Whether a stage is a group with a total. */
static int totals(const uint8_t *stage)
{
    const uint8_t *aggregates = stage + FIELD_HEAD;
    if (stage[0] != TAG_GROUP) {
        return 0;
    }
    return next_total(aggregates + FIELD_HEAD, field_end(aggregates)) < field_end(aggregates);
}

int groups_with_total(const uint8_t *query, size_t length)
{
    int groups = 0;
    for (const uint8_t *stage = query + FIELD_HEAD; stage < query + length; stage = field_end(stage)) {
        groups += totals(stage);
    }
    return groups;
}

int begins_with_total(const uint8_t *query, size_t length)
{
    const uint8_t *stage = query + FIELD_HEAD;
    if (length == FIELD_HEAD || !totals(stage)) {
        return 0;
    }
    const uint8_t *grouping = field_end(stage + FIELD_HEAD);
    return length_at(grouping + 1) == 0;
}

/* An exact sum of fewer than 2^31 integers: high times 2^32, and low. */
struct sum {
    int64_t high;
    uint64_t low;
};

/* Adds an integer by its two halves, the upper of which has the sign. */
static void add(struct sum *sum, const uint8_t *bytes)
{
    int64_t high = bytes[0] < 128 ? bytes[0] : (int64_t)bytes[0] - 256;
    uint64_t low = 0;
    for (int byte = 1; byte < 4; byte++) {
        high = high * 256 + bytes[byte];
    }
    for (int byte = 4; byte < 8; byte++) {
        low = low * 256 + bytes[byte];
    }
    sum->high += high;
    sum->low += low;
}

static int fits(const struct sum *sum)
{
    int64_t high = sum->high + (int64_t)(sum->low >> 32);
    return high >= INT32_MIN && high <= INT32_MAX;
}

static void add_trees(struct sum *sum, const uint8_t *labels, size_t left, const uint8_t *tree,
                      const uint8_t *end);

/* Adds the integer roots of the trees that so many labels give of a tree. */
static void add_tree(struct sum *sum, const uint8_t *labels, size_t left, const uint8_t *tree)
{
    const uint8_t *root = tree + FIELD_HEAD;
    if (left == 0) {
        if (root[0] == TAG_INTEGER) {
            add(sum, root + FIELD_HEAD);
        }
        return;
    }
    for (const uint8_t *label = field_end(root); label < field_end(tree); label = field_end(label)) {
        const uint8_t *array = label + FIELD_HEAD + 1;
        if (label[FIELD_HEAD] == *labels) {
            add_trees(sum, labels + 1, left - 1, array + FIELD_HEAD, field_end(array));
        }
    }
}

static void add_trees(struct sum *sum, const uint8_t *labels, size_t left, const uint8_t *tree,
                      const uint8_t *end)
{
    for (; tree < end; tree = field_end(tree)) {
        add_tree(sum, labels, left, tree);
    }
}

int totals_fit(const uint8_t *query, const uint8_t *input, size_t input_length)
{
    const uint8_t *aggregates = query + 2 * FIELD_HEAD; /* the first field of the first stage */
    const uint8_t *end = field_end(aggregates);
    int all_fit = 1;
    for (const uint8_t *pair = next_total(aggregates + FIELD_HEAD, end); pair < end;
         pair = next_total(field_end(pair), end)) {
        const uint8_t *source = pair + FIELD_HEAD;
        struct sum sum = {0, 0};
        add_trees(&sum, source + FIELD_HEAD, length_at(source + 1), input + FIELD_HEAD, input + input_length);
        all_fit = all_fit && fits(&sum);
    }
    return all_fit;
}
