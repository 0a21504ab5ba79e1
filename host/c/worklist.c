/*
 * A worklist, by the engine: of some jobs those whose lens is chosen, a line
 * for each eye, with the shelf that the lens lies on and, in front, the
 * position of the job that it stems from.
 *
 * From the repository's top: host/library, and then
 *
 *     cc -I include host/c/worklist.c -L target/staticlib -ltquery -o worklist && ./worklist
 */
#include "fields.h"
#include "tquery.h"

#include <stdio.h>
#include <stdlib.h>

static const uint8_t query[] =
    "\x10\x00\x20"
    /* match exists 2: the jobs that have a lens */
    "\x11\x00\x07" "\x22\x00\x04" "\x20\x00\x01\x02"
    /* unwind 3: a tree for each eye */
    "\x12\x00\x04" "\x20\x00\x01\x03"
    /* lookup 2, 1, 4: under 4 what is in stock of the lens */
    "\x15\x00\x0c" "\x20\x00\x01\x02" "\x20\x00\x01\x01" "\x20\x00\x01\x04";

/* The input, jobs: label 1 has the number, 2 the lens, 3 the eyes. */
static const uint8_t jobs[] =
    "\x01\x00\xb7"
    /* v{1:["4711"], 2:["progressive 1.6"], 3:["right", "left"]} */
    "\x02\x00\x4c" "\x03\x00\x00"
    "\x07\x00\x0e\x01" "\x01\x00\x0a" "\x02\x00\x07" "\x06\x00\x04" "4711"
    "\x07\x00\x19\x02" "\x01\x00\x15" "\x02\x00\x12" "\x06\x00\x0f" "progressive 1.6"
    "\x07\x00\x19\x03" "\x01\x00\x15" "\x02\x00\x08" "\x06\x00\x05" "right"
                                      "\x02\x00\x07" "\x06\x00\x04" "left"
    /* v{1:["4712"], 3:["left"]} */
    "\x02\x00\x25" "\x03\x00\x00"
    "\x07\x00\x0e\x01" "\x01\x00\x0a" "\x02\x00\x07" "\x06\x00\x04" "4712"
    "\x07\x00\x0e\x03" "\x01\x00\x0a" "\x02\x00\x07" "\x06\x00\x04" "left"
    /* v{1:["4713"], 2:["bifocal 1.5"], 3:["left"]} */
    "\x02\x00\x3d" "\x03\x00\x00"
    "\x07\x00\x0e\x01" "\x01\x00\x0a" "\x02\x00\x07" "\x06\x00\x04" "4713"
    "\x07\x00\x15\x02" "\x01\x00\x11" "\x02\x00\x0e" "\x06\x00\x0b" "bifocal 1.5"
    "\x07\x00\x0e\x03" "\x01\x00\x0a" "\x02\x00\x07" "\x06\x00\x04" "left";

/* The joined array, what is in stock: label 1 has the lens, 2 its shelf. */
static const uint8_t stock[] =
    "\x01\x00\x31"
    /* v{1:["progressive 1.6"], 2:["A3"]} */
    "\x02\x00\x2e" "\x03\x00\x00"
    "\x07\x00\x19\x01" "\x01\x00\x15" "\x02\x00\x12" "\x06\x00\x0f" "progressive 1.6"
    "\x07\x00\x0c\x02" "\x01\x00\x08" "\x02\x00\x05" "\x06\x00\x02" "A3";

static uint8_t work[TQUERY_WORK_MIN];
static uint8_t result[TQUERY_ARRAY_MAX];
static uint16_t positions[TQUERY_POSITIONS_MIN];

/* Prints the text at the root of the first tree along a path of labels, or a dash. */
static void print_text(struct part tree, const char *path, int width)
{
    struct part root;
    for (; *path != '\0'; path++) {
        tree = first(under(tree, (uint8_t)*path));
    }
    if (take(&tree, &root) == TEXT) {
        printf("%-*.*s", width, (int)root.length, (const char *)root.bytes);
    } else {
        printf("%-*s", width, "-");
    }
}

/* A number in words, those of the table in tquery.h. */
static const char *words(unsigned number)
{
    static const char *const table[] = {
        "accepted",
        "work area under 65,536 bytes",
        "query over 4,096 bytes",
        "query malformed",
        "input over 16,384 bytes",
        "input malformed, or a tree in it too large",
        "joined array over 16,384 bytes",
        "joined array malformed, or a tree too large",
        "a tree was too large in a stretch",
        "an array entering a group over 16,384 bytes",
        "the last array over 16,384 bytes, or over the result area",
        "position area under 2,730 entries",
        "a total does not fit a signed 64-bit integer",
    };
    return number < sizeof table / sizeof table[0] ? table[number] : "not in the table";
}

int main(void)
{
    uint64_t answer = tquery_run(LENT(query), LENT(jobs), LENT(stock),
                                 work, sizeof work, result, sizeof result,
                                 positions, sizeof positions / sizeof *positions);
    if (TQUERY_NUMBER(answer) != TQUERY_ACCEPTED) {
        fprintf(stderr, "refused %u: %s\n", TQUERY_NUMBER(answer), words(TQUERY_NUMBER(answer)));
        return EXIT_FAILURE;
    }

    struct part all = {result, TQUERY_LENGTH(answer)}, trees = {NULL, 0}, tree;
    take(&all, &trees);
    printf("nr  job   lens             eye    shelf\n");
    for (size_t line = 0; take(&trees, &tree) == TREE; line++) {
        printf("%2u  ", positions[line]);
        print_text(tree, "\1", 6);
        print_text(tree, "\2", 17);
        print_text(tree, "\3", 7);
        print_text(tree, "\4\2", 0);
        printf("\n");
    }
    return EXIT_SUCCESS;
}
