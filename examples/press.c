/* press FILE GROUP CHANNEL INDEX VALUE: what an editing screen does with one key press: a byte of a record is set, and the record goes back into the body.
 * Numbers are decimal, the group and the channel from 0. The file itself stays as it is: what would be written is counted.
 *
 * A screen never overrides: a record that is read only is refused, but for its byte 10, by which the lock comes off. retune.c shows the other way. */
#include "style.h"

int main(int count, char **words) {
    int numbers[4] = {-1, -1, -1, -1};
    for (int i = 0; i < 4; i++)
        numbers[i] = count == 6 ? byte_of(words[2 + i]) : -1;
    if (numbers[0] < 0 || numbers[1] < 0 || numbers[2] < 0 || numbers[3] < 0) {
        printf("usage: press FILE GROUP CHANNEL INDEX VALUE\n");
        return 2;
    }
    unsigned long group = (unsigned long)numbers[0];
    unsigned char channel = (unsigned char)numbers[1];
    casm_section section;
    int status = find_section(words[1], &section);
    if (status != 0)
        return status;
    unsigned char *body = file + section.tag + 8;

    /* The record, as the screen keeps it. */
    casm_row rows[CASM_MAX_RECORDS];
    casm_position position = casm_channel(body, section.length, group, channel);
    if (position.number != CASM_ACCEPTED)
        return refused("the channel", position.number, position.place);
    casm_count read = casm_read_rows(body, section.length, group, rows, CASM_MAX_RECORDS);
    if (read.number != CASM_ACCEPTED)
        return refused("the group", read.number, read.place);

    /* The press: refused, the record is shown as it was. */
    casm_edited press = casm_field(rows[position.record], (unsigned long)numbers[2], (unsigned char)numbers[3]);
    if (press.number != CASM_ACCEPTED)
        return refused("the press", press.number, press.place);
    casm_answer answer = casm_edit(body, section.length, group, channel, press.held, CASM_KEEP_LOCKED);
    if (answer.number != CASM_ACCEPTED)
        return refused("the edit", answer.number, answer.place);
    printf("group %lu, channel %d: byte %d is %d\n", group, channel, numbers[2], numbers[3]);
    return 0;
}
