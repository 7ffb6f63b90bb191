/* What the examples share: a style file read into memory and its section found, a refusal told in words, and a number taken from a word.
 * The kit's clang comes without the headers of the C library, so what is used of it is declared here. */
#ifndef STYLE_H
#define STYLE_H
#include "casm.h"

int printf(const char *format, ...);
unsigned long strlen(const char *text);
int open(const char *name, int flags, ...);
long read(int from, void *into, unsigned long count);

/* A byte more than a style file may have, so that a longer one is refused as such and not cut. */
static unsigned char file[CASM_MAX_FILE + 1];

/* Reads a file up to that length, into room for as much; 0 where it cannot be read. */
static inline int read_file(const char *name, unsigned char *into, unsigned long *length) {
    int from = open(name, 0);
    long got = from < 0 ? -1 : 1;
    *length = 0;
    while (got > 0 && *length < sizeof file) {
        got = read(from, into + *length, sizeof file - *length);
        if (got > 0)
            *length += (unsigned long)got;
    }
    if (got < 0)
        printf("cannot read %s\n", name);
    return got >= 0;
}

/* A number of refusal in words. */
static inline const char *in_words(unsigned char number) {
    static const char *const words[] = {
        "sound", "not a style file", "a chunk is cut off", "over its limit", "a section tag seen before", "no CASM section",
        "a tag that may not stand there", "a Ctab not of 27 bytes, a Ctb2 not of 47 or a Cntt not of 2", "a rule on the Sdec's text is broken",
        "a byte out of its range", "a channel's second Ctab, Ctb2 or Cntt", "a Cntt without its Ctab", "more than 32 groups",
        "a part name seen in an earlier group", "too little room", "no such part or channel", "a number out of range",
        "root fixed and the table is not bypass, or rule 2", "the positions of the Cntts are wrong"};
    if (number == CASM_OTHER_EDITION)
        return "of another edition";
    if (number == CASM_READ_ONLY)
        return "read only";
    return number < sizeof words / sizeof *words ? words[number] : "unknown";
}

/* Says what was refused, and where; the status that a program ends with. */
static inline int refused(const char *what, unsigned char number, unsigned long place) {
    printf("%s: refused %d at %lu, %s\n", what, number, place, in_words(number));
    return 1;
}

/* Reads a style file and finds its CASM section, whose body stands behind its tag and length; 0, or the status that a program ends with. */
static inline int find_section(const char *name, casm_section *section) {
    unsigned long length;
    if (!read_file(name, file, &length))
        return 2;
    *section = casm_find(file, length);
    return section->number == CASM_ACCEPTED ? 0 : refused(name, section->number, section->place);
}

/* A whole decimal number up to 255, or -1. The calls take a byte and refuse one that is too large; but 256 made a byte is 0, and would be
 * answered as 0. So a number from outside is looked at before it is narrowed. */
static inline int byte_of(const char *text) {
    int number = 0;
    if (*text == 0)
        return -1;
    for (; *text != 0; text++) {
        if (*text < '0' || *text > '9')
            return -1;
        number = 10 * number + (*text - '0');
        if (number > 255)
            return -1;
    }
    return number;
}
#endif
