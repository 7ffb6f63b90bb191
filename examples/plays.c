/* plays FILE PART ROOT TYPE: who plays in a style file for a part, a chord root (0-11, C is 0) and a chord type (0-33).
 *
 * cc -Iinclude examples/plays.c target/staticlib/libc_export.a -o plays    (x86-64 Linux; bench/kit.sh writes the archive)
 *
 * With the kit's clang: examples/build. */
#include "style.h"

int main(int count, char **words) {
    int root = count == 5 ? byte_of(words[3]) : -1;
    int type = count == 5 ? byte_of(words[4]) : -1;
    if (root < 0 || type < 0) {
        printf("usage: plays FILE PART ROOT TYPE\n");
        return 2;
    }
    casm_section section;
    int status = find_section(words[1], &section);
    if (status != 0)
        return status;
    const unsigned char *body = file + section.tag + 8;
    printf("CASM at %lu, %lu bytes\n", section.tag, section.length);

    /* The question. A body that is damaged anywhere is refused here: salvage.c shows what to do then. */
    const unsigned char *part = (const unsigned char *)words[2];
    unsigned long part_length = strlen(words[2]);
    casm_players players = casm_plays(body, section.length, part, part_length, (unsigned char)root, (unsigned char)type);
    if (players.number != CASM_ACCEPTED)
        return refused("the question", players.number, players.place);
    casm_holder holder = casm_part(body, section.length, part, part_length);
    if (holder.number != CASM_ACCEPTED)
        return refused("the part", holder.number, holder.place);

    /* Of a group without records no edition is known: it is 0. */
    casm_bounds bounds = casm_group(body, section.length, holder.group);
    if (bounds.number != CASM_ACCEPTED)
        return refused("the group", bounds.number, bounds.place);
    printf("%s, group %lu, edition %d: %lu of %lu play\n", words[2], holder.group, bounds.edition, players.count, bounds.records);

    /* The voice names stand in the body: they are shown from there, and not copied. */
    for (unsigned long i = 0; i < players.count; i++) {
        casm_span voice = casm_voice(body, section.length, holder.group, players.channels[i]);
        if (voice.number != CASM_ACCEPTED)
            return refused("the voice", voice.number, voice.place);
        printf("channel %d %.*s\n", players.channels[i], (int)voice.length, (const char *)body + voice.start);
    }
    return 0;
}
