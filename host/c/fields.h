/*
 * The bytes of arrays, as the examples lend and read them: fields in fields,
 * each behind a head of a tag and a length.
 */
#ifndef FIELDS_H
#define FIELDS_H

#include <stddef.h>
#include <stdint.h>

/* An area and its length. The zero that ends a literal is not lent. */
#define LENT(literal) (literal), sizeof (literal) - 1

/* The tags that are read. */
enum { ARRAY = 1, TREE = 2, INTEGER = 5, TEXT = 6, LABEL = 7 };

/* A field's head: a tag, and a length of two bytes, high byte first. */
#define HEAD 3u

/* Some bytes. */
struct part {
    const uint8_t *bytes;
    size_t length;
};

/* Takes the first field off some bytes: its tag, and its content. 0 if no whole field is there. */
static inline unsigned take(struct part *rest, struct part *content)
{
    if (rest->length < HEAD) {
        return 0;
    }
    unsigned tag = rest->bytes[0];
    size_t length = rest->bytes[1] * 256u + rest->bytes[2];
    if (length > rest->length - HEAD) {
        return 0;
    }
    *content = (struct part){rest->bytes + HEAD, length};
    *rest = (struct part){rest->bytes + HEAD + length, rest->length - HEAD - length};
    return tag;
}

/* The content of the first of some trees; nothing if there is none. */
static inline struct part first(struct part trees)
{
    struct part tree;
    return take(&trees, &tree) == TREE ? tree : (struct part){NULL, 0};
}

/* The trees under a label of a tree; none if it has not the label. */
static inline struct part under(struct part tree, uint8_t label)
{
    struct part field, array;
    take(&tree, &field); /* the root */
    while (take(&tree, &field) == LABEL && field.length > 0) {
        struct part held = {field.bytes + 1, field.length - 1};
        if (field.bytes[0] == label && take(&held, &array) == ARRAY) {
            return array;
        }
    }
    return (struct part){NULL, 0};
}

/* The bits of an integer, by the bytes of its root. */
static inline uint64_t bits(struct part integer)
{
    uint64_t so_far = 0;
    for (size_t byte = 0; byte < integer.length; byte++) {
        so_far = so_far * 256 + integer.bytes[byte];
    }
    return so_far;
}

#endif
