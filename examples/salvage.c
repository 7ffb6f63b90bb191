/* salvage FILE: reads the CASM section of a style file strictly; where it is damaged, lists what of it is sound and what is not.
 *
 * cc -Iinclude examples/salvage.c target/staticlib/libc_export.a -o salvage    (x86-64 Linux; bench/kit.sh writes the archive)
 *
 * With the kit's clang: examples/build. */
#include "style.h"

/* Room for the salvage list of any body, so that casm_salvage never refuses for want of it. */
static unsigned long list[CASM_MAX_LIST];

/* A sound piece read alone is a body of one group: its part names, and its edition, which may be another than that of its neighbours. */
static void show_parts(const unsigned char *group, unsigned long size) {
    casm_bounds bounds = casm_group(group, size, 0);
    if (bounds.number == CASM_ACCEPTED)
        printf(": %.*s, %lu channels, edition %d", (int)bounds.text_length, (const char *)group + bounds.text_at, bounds.records, bounds.edition);
}

int main(int count, char **words) {
    if (count != 2) {
        printf("usage: salvage FILE\n");
        return 2;
    }
    casm_section section;
    int status = find_section(words[1], &section);
    if (status != 0)
        return status;
    const unsigned char *body = file + section.tag + 8;

    /* Strictly first: a sound body has nothing to salvage. */
    casm_count groups = casm_body(body, section.length);
    if (groups.number == CASM_ACCEPTED) {
        printf("sound, %lu groups\n", groups.count);
        return 0;
    }
    refused("the body", groups.number, groups.place);

    /* Three numbers an entry: its place in the body, its length, and its kind: 0 a sound group, any other the number of the refusal. */
    casm_count entries = casm_salvage(body, section.length, list, CASM_MAX_LIST);
    if (entries.number != CASM_ACCEPTED)
        return refused("the list", entries.number, entries.place);
    for (unsigned long i = 0; i < entries.count; i++) {
        unsigned long place = list[3 * i], size = list[3 * i + 1], kind = list[3 * i + 2];
        printf("%lu bytes at %lu, %s", size, place, in_words((unsigned char)kind));
        if (kind == CASM_ACCEPTED)
            show_parts(body + place, size);
        printf("\n");
    }
    return 0;
}
