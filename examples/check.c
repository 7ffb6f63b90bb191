/* check BEFORE AFTER GROUP CHANNEL: whether a style file that came back is the one that was sent but for one record, that of a group and a source channel.
 * Numbers are decimal, the group and the channel from 0. The status is 0 for yes, and 1 for no and for a refusal.
 *
 * A yes does not say what changed in the record. Its source channel and its lock may have, too: so these two are looked at. */
#include "style.h"

/* What came back; what was sent is in `file`. */
static unsigned char back[sizeof file];

static void show_change(const char *what, unsigned long place) {
    if (file[place] != back[place])
        printf("its %s was %d and is %d\n", what, file[place], back[place]);
}

int main(int count, char **words) {
    int group = count == 5 ? byte_of(words[3]) : -1;
    int channel = count == 5 ? byte_of(words[4]) : -1;
    if (group < 0 || channel < 0) {
        printf("usage: check BEFORE AFTER GROUP CHANNEL\n");
        return 2;
    }
    unsigned long length, back_length;
    if (!read_file(words[1], file, &length) || !read_file(words[2], back, &back_length))
        return 2;

    /* What a refusal speaks of: `which` is the place in this list. */
    static const char *const refusable[] = {"neither", "the file before", "the file after", "the body before", "the body after"};
    casm_checked checked = casm_check_files(file, length, back, back_length, (unsigned long)group, (unsigned char)channel);
    if (checked.number != CASM_ACCEPTED)
        return refused(refusable[checked.which], checked.number, checked.place);
    if (!checked.yes) {
        printf("no: the first unlike place is %lu (%lXH)\n", checked.unlike, checked.unlike);
        return 1;
    }
    printf("yes: nothing changed outside the record of group %d, channel %d\n", group, channel);

    /* A yes found section and record in the first file: neither call refuses. The record stands at the same place in the second. */
    casm_section section = casm_find(file, length);
    unsigned long body = section.tag + 8;
    unsigned long at = body + casm_channel(file + body, section.length, (unsigned long)group, (unsigned char)channel).at;
    show_change("source channel", at);
    show_change("lock", at + 10);
    return 0;
}
