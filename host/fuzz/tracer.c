#include "tracer.h"

#include "case.h"
#include "expect.h"
#include "tquery.h"

#include <string.h>

#define FIELD_HEAD 3
#define ARRAY_LEAST 9 /* of a bare void tree */
#define NAMES 7
#define VALUES_MOST 2
#define VALUE_MOST 80
#define NUMBER_MOST 99999999 /* in hundredths */
#define END_LENGTH 2
#define LINE_LEAST 4 /* a name of one letter, an equals sign and the end */
#define ADDED_LONGEST 200
#define FILL 187

enum { TAG_TREE = 2, TAG_VOID = 3, TAG_INTEGER = 5, TAG_TEXT = 6, JOB = 1 };

static const char *const names[NAMES] = {"JOB", "DBL", "HBOX", "VBOX", "FED", "IPD", "DO"};

#define TEN "aaaaaaaaaa"
#define EIGHTY TEN TEN TEN TEN TEN TEN TEN TEN

/* Lines that leave an array as it is, and lines out of form. */
static const char *const sound_lines[] = {
    "A=\r\n", "DOX=1\r\n", "JO=;\r\n", "ABCDEFG9=-1.5;~ \r\n", "X=" EIGHTY ";" EIGHTY "\r\n",
};
static const char *const faulty_lines[] = {
    "\r\n", "=1\r\n", "X\r\n", "X=1\r", "X=1\n", "X=1\r\r\n", "X=1;2;3\r\n", "x=1\r\n", "1X=1\r\n", "X =1\r\n",
    "ABCDEFGH9=1\r\n", "X=1;" EIGHTY "a\r\n", "X=\x1f\r\n", "X=\x7f\r\n", "X=\x80\r\n", "X=1", "X",
};

/* A line of each of the seven names, and the root of its value. */
static const struct {
    const char *line;
    const char *root;
    size_t root_length;
} known[NAMES] = {
    {"JOB=12\r\n", "\6\0\2" "12", 5},
    {"DBL=-1.5\r\n", "\5\0\10\xff\xff\xff\xff\xff\xff\xff\x6a", 11},
    {"HBOX=1.\r\n", "\6\0\2" "1.", 5},
    {"VBOX=.5\r\n", "\6\0\2" ".5", 5},
    {"FED=-\r\n", "\6\0\1" "-", 4},
    {"IPD=999999.99\r\n", "\5\0\10\0\0\0\0\5\xf5\xe0\xff", 11},
    {"DO=\r\n", "\3\0\0", 3},
};

/* The array of the message, the areas of the other calls, and the other messages. */
static uint8_t whole[TQUERY_TRACED_MAX + 1];
static uint8_t own[TQUERY_TRACED_MAX + 1];
static uint8_t other[READ_LONGEST + ADDED_LONGEST];

size_t with_other_lines(uint8_t *message, size_t length, size_t until)
{
    while (length + LINE_LEAST <= until) {
        size_t left = until - length, most = LINE_LEAST + VALUE_MOST;
        size_t line = left <= most ? left : left < most + LINE_LEAST ? left - LINE_LEAST : most;
        memcpy(message + length, "A=", 2);
        memset(message + length + 2, 'a', line - LINE_LEAST);
        memcpy(message + length + line - END_LENGTH, "\r\n", END_LENGTH);
        length += line;
    }
    return length;
}

/* The answer to a message in an area of so many bytes, which is filled before. */
static uint64_t trace(uint8_t area[TQUERY_TRACED_MAX + 1], const uint8_t *message, size_t length, size_t room)
{
    memset(area, FILL, TQUERY_TRACED_MAX + 1);
    return tquery_tracer(message, length, area, room);
}

/* The answer to the bytes of the other message, in an area that holds every array. */
static uint64_t trace_other(size_t length)
{
    return trace(own, other, length, TQUERY_TRACED_MAX);
}

static int refused(uint64_t answer)
{
    return answer == (uint64_t)TQUERY_MESSAGE_MALFORMED << 32;
}

/* Whether the other message gives the array of so many bytes. */
static int gives_whole(size_t other_length, size_t length)
{
    return trace_other(other_length) == length && memcmp(own, whole, length) == 0;
}

/* One more byte of the other message. */
static size_t put(size_t at, uint8_t byte)
{
    other[at] = byte;
    return at + 1;
}

/* Writes an integer as the shortest value that is so many hundredths. */
static size_t put_number(size_t at, const uint8_t *bytes)
{
    uint64_t bits = 0;
    for (int byte = 0; byte < 8; byte++) {
        bits = bits << 8 | bytes[byte];
    }
    int negative = bits >> 63 != 0;
    uint64_t number = negative ? 0 - bits : bits;
    expect(number <= NUMBER_MOST, "an integer is that of a number of 6 digits and 2");
    at = negative ? put(at, '-') : at;
    for (uint64_t unit = 10000000; unit >= 100; unit /= 10) {
        if (number >= unit || unit == 100) {
            at = put(at, (uint8_t)('0' + number / unit % 10));
        }
    }
    if (number % 100 != 0) {
        at = put(put(at, '.'), (uint8_t)('0' + number / 10 % 10));
    }
    return number % 10 != 0 ? put(at, (uint8_t)('0' + number % 10)) : at;
}

/* Writes the text of a root. */
static size_t put_text(size_t at, const uint8_t *bytes, size_t length)
{
    expect(length >= 1 && length <= VALUE_MOST, "a text has 1 to 80 bytes");
    for (size_t byte = 0; byte < length; byte++) {
        expect(bytes[byte] >= 0x20 && bytes[byte] <= 0x7E && bytes[byte] != ';', "a text is of printable bytes");
        at = put(at, bytes[byte]);
    }
    return at;
}

/* Writes the value that a bare tree under a label is of. */
static size_t put_value(size_t at, const uint8_t *tree, unsigned label)
{
    const uint8_t *root = tree + FIELD_HEAD;
    size_t length = length_at(root + 1);
    expect(length_at(tree + 1) == FIELD_HEAD + length, "a value is a tree without labels");
    switch (root[0]) {
    case TAG_VOID:
        return at;
    case TAG_INTEGER:
        expect(label != JOB, "under JOB stands no integer");
        return put_number(at, root + FIELD_HEAD);
    default:
        expect(root[0] == TAG_TEXT, "a value is void, an integer or a text");
        return put_text(at, root + FIELD_HEAD, length);
    }
}

/* Writes the line that a label is of. */
static size_t put_line(size_t at, const uint8_t *field)
{
    unsigned label = field[FIELD_HEAD];
    const uint8_t *array = field + FIELD_HEAD + 1, *tree = array + FIELD_HEAD;
    const uint8_t *end = tree + length_at(array + 1);
    int values = 0;
    expect(label >= 1 && label <= NAMES, "a label is 1 to 7");
    for (const char *letter = names[label - 1]; *letter != 0; letter++) {
        at = put(at, (uint8_t)*letter);
    }
    for (; tree < end; tree += FIELD_HEAD + length_at(tree + 1)) {
        expect(values < VALUES_MOST, "a label holds at most two trees");
        at = put_value(put(at, values == 0 ? '=' : ';'), tree, label);
        values++;
    }
    expect(values > 0, "a label holds a tree");
    return put(put(at, '\r'), '\n');
}

/* Writes a message that is to give the array, and sets for each label whether it is there. */
static size_t message_of(const uint8_t *array, size_t length, int there[NAMES + 1])
{
    const uint8_t *tree = array + FIELD_HEAD, *root = tree + FIELD_HEAD, *end = array + length;
    size_t at = 0;
    expect(tree[0] == TAG_TREE && 2 * FIELD_HEAD + length_at(tree + 1) == length, "the array has one tree");
    expect(root[0] == TAG_VOID, "its root is void");
    for (const uint8_t *field = root + FIELD_HEAD; field < end; field += FIELD_HEAD + length_at(field + 1)) {
        at = put_line(at, field);
        there[field[FIELD_HEAD]] = 1;
    }
    return at;
}

/* Writes the lines of a message that is accepted in reverse order. */
static void reverse_lines(const uint8_t *message, size_t length)
{
    size_t begin = 0;
    for (size_t at = 0; at < length; at++) {
        if (message[at] == '\n') {
            memcpy(other + length - at - 1, message + begin, at + 1 - begin);
            begin = at + 1;
        }
    }
}

/* Puts a line behind the message, which stands in the other message already. */
static size_t with_line(size_t length, const char *line)
{
    memcpy(other + length, line, strlen(line));
    return length + strlen(line);
}

/* Whether the array of the last call, of so many bytes, has a root as the first under the label of a name. */
static int has_root(size_t length, int name)
{
    const uint8_t *field = own + ARRAY_LEAST;
    while (field < own + length && field[FIELD_HEAD] != name + 1) {
        field += FIELD_HEAD + length_at(field + 1);
    }
    /* behind the heads of the label, of its array and of the tree, and the label's byte */
    const uint8_t *root = field + 3 * FIELD_HEAD + 1;
    return field < own + length && memcmp(root, known[name].root, known[name].root_length) == 0;
}

/* One of the seven names once more is refused; one that was missing gives one label more, of a tree that is known. */
static void check_names(size_t length, size_t array, const int there[NAMES + 1])
{
    for (int name = 0; name < NAMES; name++) {
        size_t longer = with_line(length, known[name].line);
        size_t more = 3 * FIELD_HEAD + 1 + known[name].root_length;
        uint64_t answer = trace_other(longer);
        if (there[name + 1] || longer > TQUERY_MESSAGE_MAX) {
            expect(refused(answer), "one of the seven names twice is refused");
        } else {
            expect(answer == array + more && tquery_check_array(own, array + more) == 0 && has_root(answer, name),
                   "each of the seven names gives a label, of what its value is");
        }
    }
}

/* Lines behind an accepted message that change nothing, and lines out of form. */
static void check_lines(const uint8_t *message, size_t length, size_t array)
{
    memcpy(other, message, length);
    for (size_t line = 0; line < sizeof sound_lines / sizeof *sound_lines; line++) {
        size_t longer = with_line(length, sound_lines[line]);
        int fits = longer <= TQUERY_MESSAGE_MAX;
        expect(fits ? gives_whole(longer, array) : refused(trace_other(longer)),
               "a line of another name changes nothing, unless the message passes its limit");
    }
    size_t most = with_other_lines(other, length, TQUERY_MESSAGE_MAX);
    expect(gives_whole(most, array), "a message of 4,096 bytes is taken");
    for (size_t line = 0; line < sizeof faulty_lines / sizeof *faulty_lines; line++) {
        expect(refused(trace_other(with_line(length, faulty_lines[line]))), "a line out of form is refused");
    }
}

/* The array stands in an area that is just long enough, and 10 comes of one that is a byte shorter. */
static void check_areas(const uint8_t *message, size_t length, size_t array)
{
    expect(trace(own, message, length, array) == array && memcmp(own, whole, array) == 0 && own[array] == FILL,
           "an area that is just long enough holds the array");
    expect(trace(own, message, length, array - 1) == (uint64_t)TQUERY_RESULT_LONG << 32,
           "10 comes of an area that is a byte too short");
    for (size_t at = 0; at < array; at++) {
        expect(own[at] == (at < array - 1 ? 0 : FILL), "after 10 the area is zero");
    }
}

/* What follows from the array of an accepted message. */
static void check_accepted(const uint8_t *message, size_t length, size_t array)
{
    int there[NAMES + 1] = {0};
    expect(array >= ARRAY_LEAST && array <= TQUERY_TRACED_MAX, "an array has 9 to 1,262 bytes");
    expect(tquery_check_array(whole, array) == 0, "an array is one");
    expect(gives_whole(message_of(whole, array, there), array), "a message made of the array gives it again");
    reverse_lines(message, length);
    expect(gives_whole(length, array), "lines may stand in any order");
    check_areas(message, length, array);
    check_lines(message, length, array);
    check_names(length, array, there);
}

void check_traced(const uint8_t *message, size_t length, uint64_t answer, const uint8_t *array, size_t room)
{
    uint64_t of_whole = trace(whole, message, length, TQUERY_TRACED_MAX);
    expect(length <= TQUERY_MESSAGE_MAX || refused(of_whole), "a message over 4,096 bytes is refused");
    if (refused(of_whole)) {
        expect(refused(answer), "13 does not depend on the result area");
        memcpy(other, sound_lines[0], LINE_LEAST);
        memcpy(other + LINE_LEAST, message, length);
        expect(refused(trace_other(LINE_LEAST + length)), "a line before a message out of form does not help it");
        return;
    }
    size_t written = TQUERY_LENGTH(of_whole);
    expect(TQUERY_NUMBER(of_whole) == TQUERY_ACCEPTED, "1,262 bytes hold every array");
    check_accepted(message, length, written);
    uint64_t wanted = written <= room ? written : (uint64_t)TQUERY_RESULT_LONG << 32;
    expect(answer == wanted, "10 comes of an area that is too short alone");
    expect(TQUERY_NUMBER(answer) != 0 || memcmp(array, whole, written) == 0, "the array follows from the message");
}
