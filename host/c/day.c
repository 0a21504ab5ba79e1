/*
 * A day in trays, by the engine: of each lens the jobs of the day. The jobs
 * come in three trays; the query is run over each of them, and each result is
 * joined to the list so far by tquery_regroup, with the query's last stage, the
 * group, alone.
 *
 * From the repository's top: host/library, and then
 *
 *     cc -I include host/c/day.c -L target/staticlib -ltquery -o day && ./day
 */
#include "fields.h"
#include "tquery.h"

#include <stdio.h>
#include <stdlib.h>

/* match exists 2: the jobs that have a lens */
#define MATCH "\x11\x00\x07" "\x22\x00\x04" "\x20\x00\x01\x02"

/* group: the jobs, 1, go to 2, and the lens, 2, to 1: single labels, and distinct */
#define GROUP "\x14\x00\x1c" "\x32\x00\x0b" "\x31\x00\x08" "\x20\x00\x01\x01" "\x20\x00\x01\x02" \
                             "\x33\x00\x0b" "\x31\x00\x08" "\x20\x00\x01\x02" "\x20\x00\x01\x01"

static const uint8_t query[] = "\x10\x00\x29" MATCH GROUP;
static const uint8_t group[] = "\x10\x00\x1f" GROUP;

/* The jobs: label 1 has the number, 2 the lens. */
static const uint8_t morning[] =
    "\x01\x00\x5a"
    /* v{1:["4711"], 2:["progressive"]} */
    "\x02\x00\x2c" "\x03\x00\x00"
    "\x07\x00\x0e\x01" "\x01\x00\x0a" "\x02\x00\x07" "\x06\x00\x04" "4711"
    "\x07\x00\x15\x02" "\x01\x00\x11" "\x02\x00\x0e" "\x06\x00\x0b" "progressive"
    /* v{1:["4712"], 2:["bifocal"]} */
    "\x02\x00\x28" "\x03\x00\x00"
    "\x07\x00\x0e\x01" "\x01\x00\x0a" "\x02\x00\x07" "\x06\x00\x04" "4712"
    "\x07\x00\x11\x02" "\x01\x00\x0d" "\x02\x00\x0a" "\x06\x00\x07" "bifocal";

static const uint8_t noon[] =
    "\x01\x00\x42"
    /* v{1:["4713"], 2:["bifocal"]} */
    "\x02\x00\x28" "\x03\x00\x00"
    "\x07\x00\x0e\x01" "\x01\x00\x0a" "\x02\x00\x07" "\x06\x00\x04" "4713"
    "\x07\x00\x11\x02" "\x01\x00\x0d" "\x02\x00\x0a" "\x06\x00\x07" "bifocal"
    /* v{1:["4714"]} */
    "\x02\x00\x14" "\x03\x00\x00"
    "\x07\x00\x0e\x01" "\x01\x00\x0a" "\x02\x00\x07" "\x06\x00\x04" "4714";

static const uint8_t evening[] =
    "\x01\x00\x59"
    /* v{1:["4715"], 2:["progressive"]} */
    "\x02\x00\x2c" "\x03\x00\x00"
    "\x07\x00\x0e\x01" "\x01\x00\x0a" "\x02\x00\x07" "\x06\x00\x04" "4715"
    "\x07\x00\x15\x02" "\x01\x00\x11" "\x02\x00\x0e" "\x06\x00\x0b" "progressive"
    /* v{1:["4716"], 2:["single"]} */
    "\x02\x00\x27" "\x03\x00\x00"
    "\x07\x00\x0e\x01" "\x01\x00\x0a" "\x02\x00\x07" "\x06\x00\x04" "4716"
    "\x07\x00\x10\x02" "\x01\x00\x0c" "\x02\x00\x09" "\x06\x00\x06" "single";

/* The joined array: the query has no lookup, and needs none. */
static const uint8_t none[] = "\x01\x00\x00";

/* The bytes of a literal, without the zero that ends it. */
#define PART(literal) {(literal), sizeof (literal) - 1}

static const struct part trays[] = {PART(morning), PART(noon), PART(evening)};

static uint8_t work[TQUERY_WORK_MIN];
static uint8_t result[TQUERY_ARRAY_MAX];

/* Where the trees of a result came from: a tray's positions mean nothing in the day's list, and are not read. */
static uint16_t positions[TQUERY_POSITIONS_MIN];

/* The list so far and the next one, in turn: a result overlaps no array that is read. */
static uint8_t lists[2][TQUERY_ARRAY_MAX];

/* The length of an accepted answer; after a refusal the program ends. */
static size_t accepted(const char *call, uint64_t answer)
{
    if (TQUERY_NUMBER(answer) != TQUERY_ACCEPTED) {
        fprintf(stderr, "%s: refused %u\n", call, TQUERY_NUMBER(answer));
        exit(EXIT_FAILURE);
    }
    return TQUERY_LENGTH(answer);
}

/* The list of all trays, folded together one by one, beginning with the empty list. */
static struct part day(void)
{
    struct part list = PART(none);
    for (size_t tray = 0; tray < sizeof trays / sizeof *trays; tray++) {
        uint8_t *next = lists[tray % 2];
        size_t length = accepted("run", tquery_run(query, sizeof query - 1,
                                                   trays[tray].bytes, trays[tray].length,
                                                   none, sizeof none - 1,
                                                   work, sizeof work, result, sizeof result,
                                                   positions, TQUERY_POSITIONS_MIN));
        length = accepted("regroup", tquery_regroup(group, sizeof group - 1,
                                                    list.bytes, list.length, result, length,
                                                    work, sizeof work, next, TQUERY_ARRAY_MAX));
        list = (struct part){next, length};
    }
    return list;
}

/* Prints the texts at the roots of some trees, each behind some words. */
static void print_texts(struct part trees, const char *before, int width)
{
    struct part tree, root;
    while (take(&trees, &tree) == TREE && take(&tree, &root) == TEXT) {
        printf("%s%-*.*s", before, width, (int)root.length, (const char *)root.bytes);
    }
}

int main(void)
{
    struct part list = day(), trees = {NULL, 0}, tree;
    take(&list, &trees);
    printf("lens         jobs\n");
    while (take(&trees, &tree) == TREE) {
        print_texts(under(tree, 1), "", 12);
        print_texts(under(tree, 2), " ", 0);
        printf("\n");
    }
    return EXIT_SUCCESS;
}
