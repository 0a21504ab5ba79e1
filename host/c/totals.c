/*
 * Edge lengths added per job, by the engine: of each job the eyes whose lenses
 * were cut, and the length of all their edges together. In front stands the
 * position of the first record of the job.
 *
 * From the repository's top: host/library, and then
 *
 *     cc -I include host/c/totals.c -L target/staticlib -ltquery -o totals && ./totals
 */
#include "fields.h"
#include "tquery.h"

#include <stdio.h>
#include <stdlib.h>

/*
 * One group, by the job, 1. Its aggregates are the eyes, 2, and a total, tag
 * 36 in hexadecimal: the sum of the integers under 3.
 */
static const uint8_t query[] =
    "\x10\x00\x2a"
    "\x14\x00\x27" "\x32\x00\x16" "\x31\x00\x08" "\x20\x00\x01\x02" "\x20\x00\x01\x02"
                                  "\x36\x00\x08" "\x20\x00\x01\x03" "\x20\x00\x01\x03"
                   "\x33\x00\x0b" "\x31\x00\x08" "\x20\x00\x01\x01" "\x20\x00\x01\x01";

/*
 * The input, lenses: label 1 has the job, 2 the eye, 3 the lengths of the edges
 * in hundredths of a millimetre, as integers. A text adds nothing.
 */
static const uint8_t lenses[] =
    "\x01\x01\x02"
    /* v{1:["4711"], 2:["right"], 3:[7604, 7606]} */
    "\x02\x00\x49" "\x03\x00\x00"
    "\x07\x00\x0e\x01" "\x01\x00\x0a" "\x02\x00\x07" "\x06\x00\x04" "4711"
    "\x07\x00\x0f\x02" "\x01\x00\x0b" "\x02\x00\x08" "\x06\x00\x05" "right"
    "\x07\x00\x20\x03" "\x01\x00\x1c" "\x02\x00\x0b" "\x05\x00\x08" "\x00\x00\x00\x00\x00\x00\x1d\xb4"
                                      "\x02\x00\x0b" "\x05\x00\x08" "\x00\x00\x00\x00\x00\x00\x1d\xb6"
    /* v{1:["4712"], 2:["left"], 3:[14875]} */
    "\x02\x00\x3a" "\x03\x00\x00"
    "\x07\x00\x0e\x01" "\x01\x00\x0a" "\x02\x00\x07" "\x06\x00\x04" "4712"
    "\x07\x00\x0e\x02" "\x01\x00\x0a" "\x02\x00\x07" "\x06\x00\x04" "left"
    "\x07\x00\x12\x03" "\x01\x00\x0e" "\x02\x00\x0b" "\x05\x00\x08" "\x00\x00\x00\x00\x00\x00\x3a\x1b"
    /* v{1:["4711"], 2:["left"], 3:[15198]} */
    "\x02\x00\x3a" "\x03\x00\x00"
    "\x07\x00\x0e\x01" "\x01\x00\x0a" "\x02\x00\x07" "\x06\x00\x04" "4711"
    "\x07\x00\x0e\x02" "\x01\x00\x0a" "\x02\x00\x07" "\x06\x00\x04" "left"
    "\x07\x00\x12\x03" "\x01\x00\x0e" "\x02\x00\x0b" "\x05\x00\x08" "\x00\x00\x00\x00\x00\x00\x3b\x5e"
    /* v{1:["4713"], 2:["left"], 3:["rimless"]} */
    "\x02\x00\x39" "\x03\x00\x00"
    "\x07\x00\x0e\x01" "\x01\x00\x0a" "\x02\x00\x07" "\x06\x00\x04" "4713"
    "\x07\x00\x0e\x02" "\x01\x00\x0a" "\x02\x00\x07" "\x06\x00\x04" "left"
    "\x07\x00\x11\x03" "\x01\x00\x0d" "\x02\x00\x0a" "\x06\x00\x07" "rimless";

/* The joined array: the query has no lookup, and needs none. */
static const uint8_t none[] = "\x01\x00\x00";

static uint8_t work[TQUERY_WORK_MIN];
static uint8_t result[TQUERY_ARRAY_MAX];
static uint16_t positions[TQUERY_POSITIONS_MIN];

/* Prints the texts at the roots of some trees. Answers how wide they are. */
static int print_texts(struct part trees)
{
    struct part tree, root;
    int width = 0;
    while (take(&trees, &tree) == TREE && take(&tree, &root) == TEXT) {
        width += printf("%.*s ", (int)root.length, (const char *)root.bytes);
    }
    return width;
}

/* Prints the first integer of some trees, hundredths of a millimetre, or a dash where nothing was placed. */
static void print_length(struct part trees)
{
    struct part tree = first(trees), root;
    if (take(&tree, &root) != INTEGER) {
        printf("%8s\n", "-");
        return;
    }
    uint64_t hundredths = bits(root); /* a length is not negative */
    printf("%5llu.%02llu\n", (unsigned long long)(hundredths / 100), (unsigned long long)(hundredths % 100));
}

int main(void)
{
    uint64_t answer = tquery_run(LENT(query), LENT(lenses), LENT(none),
                                 work, sizeof work, result, sizeof result,
                                 positions, sizeof positions / sizeof *positions);
    if (TQUERY_NUMBER(answer) == TQUERY_TOTAL_LARGE) {
        fprintf(stderr, "refused 12: the lengths of some job add to more than 64 bits hold\n");
        return EXIT_FAILURE;
    }
    if (TQUERY_NUMBER(answer) != TQUERY_ACCEPTED) {
        fprintf(stderr, "refused %u\n", TQUERY_NUMBER(answer));
        return EXIT_FAILURE;
    }

    struct part all = {result, TQUERY_LENGTH(answer)}, trees = {NULL, 0}, tree;
    take(&all, &trees);
    printf("nr  job   eyes         edges in mm\n");
    for (size_t line = 0; take(&trees, &tree) == TREE; line++) {
        printf("%2u  ", positions[line]);
        print_texts(under(tree, 1));
        printf(" ");
        int width = print_texts(under(tree, 2));
        printf("%*s", 16 - width, "");
        print_length(under(tree, 3));
    }
    return EXIT_SUCCESS;
}
