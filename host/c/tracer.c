/*
 * A worklist of what tracers sent, by the engine: of the jobs whose frame has
 * a diameter, the widths and diameters in millimetres, with the blank that is
 * set aside for the job. In front stands the position of its first message.
 *
 * From the repository's top: host/library, and then
 *
 *     cc -I include host/c/tracer.c -L target/staticlib -ltquery -o tracer && ./tracer
 */
#include "fields.h"
#include "tquery.h"

#include <stdio.h>
#include <stdlib.h>
#include <string.h>

/*
 * What tracers sent, a message each. The eyes of job 4711 were traced one by
 * one; job 4712 has no diameter. Lines of other names are skipped.
 */
static const char *const messages[] = {
    "JOB=4711\r\nSTATUS=0\r\nDO=R\r\nDBL=18\r\nHBOX=52.4\r\nVBOX=30.1\r\nFED=55.5\r\n",
    "JOB=4712\r\nSTATUS=0\r\nDO=B\r\nDBL=16.25\r\nHBOX=50;50.1\r\n",
    "JOB=4711\r\nSTATUS=0\r\nDO=L\r\nHBOX=52.45\r\nVBOX=30\r\nFED=55.75\r\n",
    "STATUS=0\r\nFED=;51.2\r\nHBOX=;48.05\r\nDBL=17.5\r\nDO=L\r\nJOB=4713\r\n",
};

/* The labels of the names that are read, and where the lookup places a blank, which is the label of no name. */
enum { JOB = 1, DBL = 2, HBOX = 3, FED = 5, BLANK = 8 };

/*
 * The messages with a diameter, 5; one tree for each job, 1, with all that was
 * traced of its DBL, 2, its width, 3, and its diameter; and under 8 what is set
 * aside for the job.
 */
static const uint8_t query[] =
    "\x10\x00\x4e"
    "\x11\x00\x07" "\x22\x00\x04" "\x20\x00\x01\x05"
    "\x14\x00\x32" "\x32\x00\x21" "\x31\x00\x08" "\x20\x00\x01\x02" "\x20\x00\x01\x02"
                                  "\x31\x00\x08" "\x20\x00\x01\x03" "\x20\x00\x01\x03"
                                  "\x31\x00\x08" "\x20\x00\x01\x05" "\x20\x00\x01\x05"
                   "\x33\x00\x0b" "\x31\x00\x08" "\x20\x00\x01\x01" "\x20\x00\x01\x01"
    "\x15\x00\x0c" "\x20\x00\x01\x01" "\x20\x00\x01\x01" "\x20\x00\x01\x08";

/* The joined array, blanks that are set aside: label 1 has the job, 2 the shelf. */
static const uint8_t blanks[] =
    "\x01\x00\x4c"
    /* v{1:["4711"], 2:["A3"]} */
    "\x02\x00\x23" "\x03\x00\x00"
    "\x07\x00\x0e\x01" "\x01\x00\x0a" "\x02\x00\x07" "\x06\x00\x04" "4711"
    "\x07\x00\x0c\x02" "\x01\x00\x08" "\x02\x00\x05" "\x06\x00\x02" "A3"
    /* v{1:["4712"], 2:["B1"]} */
    "\x02\x00\x23" "\x03\x00\x00"
    "\x07\x00\x0e\x01" "\x01\x00\x0a" "\x02\x00\x07" "\x06\x00\x04" "4712"
    "\x07\x00\x0c\x02" "\x01\x00\x08" "\x02\x00\x05" "\x06\x00\x02" "B1";

static uint8_t traced[TQUERY_TRACED_MAX];
static uint8_t input[TQUERY_ARRAY_MAX];
static uint8_t work[TQUERY_WORK_MIN];
static uint8_t result[TQUERY_ARRAY_MAX];
static uint16_t positions[TQUERY_POSITIONS_MIN];

/* Ends the program, if the engine refused. */
static void accepted(uint64_t answer)
{
    if (TQUERY_NUMBER(answer) == TQUERY_MESSAGE_MALFORMED) {
        fprintf(stderr, "refused 13: a message is too long, a line is out of form, or a name comes twice\n");
        exit(EXIT_FAILURE);
    }
    if (TQUERY_NUMBER(answer) != TQUERY_ACCEPTED) {
        fprintf(stderr, "refused %u\n", TQUERY_NUMBER(answer));
        exit(EXIT_FAILURE);
    }
}

/*
 * Makes one array of the trees of all messages, and answers its length. Each
 * message becomes an array of one tree: its tree goes without the array's head.
 */
static size_t trace_all(void)
{
    size_t length = HEAD;
    for (size_t at = 0; at < sizeof messages / sizeof *messages; at++) {
        uint64_t answer = tquery_tracer((const uint8_t *)messages[at], strlen(messages[at]),
                                        traced, sizeof traced);
        accepted(answer);
        size_t tree = TQUERY_LENGTH(answer) - HEAD;
        if (tree > sizeof input - length) {
            fprintf(stderr, "more messages than one array holds\n");
            exit(EXIT_FAILURE);
        }
        memcpy(input + length, traced + HEAD, tree);
        length += tree;
    }
    input[0] = ARRAY;
    input[1] = (uint8_t)((length - HEAD) >> 8);
    input[2] = (uint8_t)(length - HEAD);
    return length;
}

/* Prints the text at the root of the first of some trees, or a dash, in so many columns. */
static void print_text(struct part trees, int columns)
{
    struct part tree = first(trees), root;
    if (take(&tree, &root) == TEXT) {
        printf("%-*.*s", columns, (int)root.length, (const char *)root.bytes);
    } else {
        printf("%-*s", columns, "-");
    }
}

/* Prints an integer, hundredths of a millimetre, in seven columns. */
static void print_hundredths(struct part integer)
{
    uint64_t hundredths = bits(integer);
    int negative = hundredths >> 63 != 0;
    if (negative) {
        hundredths = 0 - hundredths;
    }
    char number[32];
    snprintf(number, sizeof number, "%s%llu.%02llu", negative ? "-" : "",
             (unsigned long long)(hundredths / 100), (unsigned long long)(hundredths % 100));
    printf("%7s", number);
}

/* Prints the values of a label, each in seven columns, a dash where one is no number; and room up to so many. */
static void print_sizes(struct part trees, int room)
{
    struct part tree, root;
    for (; take(&trees, &tree) == TREE; room--) {
        if (take(&tree, &root) == INTEGER) {
            print_hundredths(root);
        } else {
            printf("%7s", "-");
        }
    }
    for (; room > 0; room--) {
        printf("%7s", "");
    }
}

int main(void)
{
    size_t length = trace_all();
    uint64_t answer = tquery_run(LENT(query), input, length, LENT(blanks),
                                 work, sizeof work, result, sizeof result,
                                 positions, sizeof positions / sizeof *positions);
    accepted(answer);

    struct part all = {result, TQUERY_LENGTH(answer)}, trees = {NULL, 0}, tree;
    take(&all, &trees);
    printf("nr  job   blank     dbl         width      diameter in mm\n");
    for (size_t line = 0; take(&trees, &tree) == TREE; line++) {
        printf("%2u  ", positions[line]);
        print_text(under(tree, JOB), 6);
        print_text(under(first(under(tree, BLANK)), 2), 6); /* the shelf */
        print_sizes(under(tree, DBL), 1);
        print_sizes(under(tree, HBOX), 2);
        print_sizes(under(tree, FED), 0);
        printf("\n");
    }
    return EXIT_SUCCESS;
}
