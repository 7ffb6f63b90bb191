/* retune FILE: a batch that sets the source root of every record of a style file to C, locked or not. The file itself stays as it is: what would be written is counted.
 *
 * What must change every record asks to override, and says so: without CASM_OVERRIDE a record that is read only would be refused with 22. A screen does not: press.c. */
#include "style.h"

int main(int count, char **words) {
    if (count != 2) {
        printf("usage: retune FILE\n");
        return 2;
    }
    casm_section section;
    int status = find_section(words[1], &section);
    if (status != 0)
        return status;
    unsigned char *body = file + section.tag + 8;
    casm_count groups = casm_body(body, section.length);
    if (groups.number != CASM_ACCEPTED)
        return refused("the body", groups.number, groups.place);

    unsigned long records = 0, locked = 0;
    for (unsigned long group = 0; group < groups.count; group++) {
        casm_row rows[CASM_MAX_RECORDS];
        casm_count read = casm_read_rows(body, section.length, group, rows, CASM_MAX_RECORDS);
        if (read.number != CASM_ACCEPTED)
            return refused("the group", read.number, read.place);
        for (unsigned long i = 0; i < read.count; i++) {
            locked += rows[i].bytes[10] == 1;
            rows[i].bytes[18] = 0;
            casm_answer answer = casm_edit(body, section.length, group, rows[i].bytes[0], rows[i], CASM_OVERRIDE);
            if (answer.number != CASM_ACCEPTED)
                return refused("the edit", answer.number, answer.place);
            records++;
        }
    }
    printf("%lu records of %lu groups, %lu of them read only: source root C\n", records, groups.count, locked);
    return 0;
}
