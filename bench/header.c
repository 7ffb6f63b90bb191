/* That include/casm.h fits the archive is shown by no proof, so it is tried: every call and wrapper, on inputs whose answers documents 01 and 02 give.
 * bench/header builds this as C99 and as C++ and runs it. Each test that fails is printed by its name, and the program then ends with status 1. */
#include "casm.h"

#ifdef __cplusplus
extern "C" {
#endif
int printf(const char *format, ...);
int memcmp(const void *a, const void *b, unsigned long size);
void *memcpy(void *to, const void *from, unsigned long size);
void *memset(void *to, int value, unsigned long size);
#ifdef __cplusplus
}
#endif

static int tests, failed;

static void test(const char *name, int holds) {
    tests++;
    if (!holds) {
        failed++;
        printf("failed: %s\n", name);
    }
}

static const unsigned char *bytes(const char *text) { return (const unsigned char *)text; }

/* ---- what the tests are made on */

/* Document 01's M: one group, "Main A". */
enum { M_SIZE = 22 };
static const unsigned char M[M_SIZE + 1] = "CSEG\0\0\0\16Sdec\0\0\0\6Main A";

/* Its example for `list`: a style file whose body is M and a byte 00. */
enum { STYLE_SIZE = 57, STYLE_TAG = 26, STYLE_BODY = 23 };
static const unsigned char style[STYLE_SIZE + 1] = "MThd\0\0\0\6\0\0\0\1\0\140MTrk\0\0\0\4\0\377/\0CASM\0\0\0\27CSEG\0\0\0\16Sdec\0\0\0\6Main A";

/* A record as in example 12: it plays under every chord, table 01, high key 5, notes 0-127. Its voice is "Bass". */
static casm_row record(unsigned char channel) {
    casm_row row;
    memset(&row, 0, sizeof row);
    row.edition = CASM_FIRST_EDITION;
    row.bytes[0] = channel;
    memcpy(row.bytes + 1, "Bass    ", 8);
    row.bytes[9] = 8;
    row.bytes[11] = 0x0F;
    row.bytes[12] = 0xFF;
    row.bytes[13] = 0x03;
    memset(row.bytes + 14, 0xFF, 4);
    row.bytes[21] = 1;
    row.bytes[22] = 5;
    row.bytes[24] = 127;
    return row;
}

static casm_row with_cntt(unsigned char channel, unsigned char cntt, unsigned char position) {
    casm_row row = record(channel);
    row.has_cntt = 1;
    row.cntt = cntt;
    row.position = position;
    return row;
}

/* A body of one group: channels 3, 0 and 7, of which channel 0 has a Cntt. */
enum { BODY_SIZE = M_SIZE + 3 * 35 + 10 };
static casm_row three[3];
static unsigned char body[CASM_MAX_GROUP_SIZE];

static void prepare(void) {
    three[0] = record(3);
    three[1] = with_cntt(0, 0x81, 1);
    three[2] = record(7);
    memset(body, 0xEE, sizeof body);
    casm_length length = casm_write(bytes("Main A"), 6, (const unsigned char *)three, sizeof three, 3, body, sizeof body);
    test("write: three records, one with a Cntt", length.number == CASM_ACCEPTED && length.place == 0 && length.length == BODY_SIZE);
    test("write: later bytes are kept", body[BODY_SIZE] == 0xEE);
}

/* A Ctb2 by hand. Notes 48-72 are the middle ones; below, root transposition by table 01, high key 5, notes 36-60; between, root fixed and bypass;
 * above, rule 2. The seven bytes behind are kept, whatever they are. */
#define SECOND(channel) \
    "Ctb2\0\0\0\57" channel "Strings \12\0\17\377\3\377\377\377\377\0\2\60\110" \
    "\0\1\5\44\74\1" "\1\200\13\0\177\0" "\2\2\13\0\177\0" "\0\0\0\0\200\0\377"
enum { SECOND_SIZE = 55, NEWER_GROUP = M_SIZE + 2 * SECOND_SIZE, NEWER_SIZE = NEWER_GROUP + M_SIZE };

/* A body of the second edition: a group of channels 3 and 7, and one without records. */
static const unsigned char newer[NEWER_SIZE + 1] = "CSEG\0\0\0\174Sdec\0\0\0\6Main A" SECOND("\3") SECOND("\7") "CSEG\0\0\0\16Sdec\0\0\0\6Main B";

/* The record of its channel 3, as a row. */
static casm_row second_record(unsigned char channel) {
    casm_row row;
    memset(&row, 0, sizeof row);
    row.edition = CASM_SECOND_EDITION;
    memcpy(row.bytes, newer + M_SIZE + 8, CASM_SECOND_BYTES);
    row.bytes[0] = channel;
    return row;
}

/* ---- reading */

static void test_find(void) {
    casm_section section = casm_find(style, STYLE_SIZE);
    test("find: the example of `list`", section.number == CASM_ACCEPTED && section.tag == STYLE_TAG && section.length == STYLE_BODY);
    section = casm_find(style, STYLE_TAG);
    test("find: no section at all", section.number == CASM_NO_CASM && section.place == STYLE_TAG && section.tag == 0 && section.length == 0);
    section = casm_find(0, 0);
    test("find: no bytes", section.number == CASM_NOT_A_STYLE_FILE && section.place == 0 && section.tag == 0 && section.length == 0);
}

/* A length, or a refusal whose length is 0. */
static int is_length(casm_length answer, unsigned long length) {
    return answer.number == CASM_ACCEPTED && answer.place == 0 && answer.length == length;
}

static int no_length(casm_length answer, unsigned char number, unsigned long place) {
    return answer.number == number && answer.place == place && answer.length == 0;
}

static void test_section_at(void) {
    const unsigned char *least = bytes("OTSc\0\0\0\0"), *most = bytes("OTSc\377\377\377\377");
    test("section: the MThd", is_length(casm_section_at(style, STYLE_SIZE, 0), 6));
    test("section: the MTrk", is_length(casm_section_at(style, STYLE_SIZE, 14), 4));
    test("section: the CASM, to the file's end", is_length(casm_section_at(style, STYLE_SIZE, STYLE_TAG), STYLE_BODY));
    unsigned long at = 0, met = 0;
    for (casm_length section; (section = casm_section_at(style, STYLE_SIZE, at)).number == CASM_ACCEPTED; met++)
        at += 8 + section.length;
    test("section: a walk from 0 to the end", met == 3 && at == STYLE_SIZE);
    test("section: at the end", no_length(casm_section_at(style, STYLE_SIZE, STYLE_SIZE), CASM_CUT_OFF, STYLE_SIZE));
    test("section: past the end", no_length(casm_section_at(style, STYLE_SIZE, STYLE_SIZE + 1), CASM_CUT_OFF, STYLE_SIZE + 1));
    test("section: a length past the end", no_length(casm_section_at(style, STYLE_SIZE - 1, STYLE_TAG), CASM_CUT_OFF, STYLE_TAG));
    test("section: 8 bytes", is_length(casm_section_at(least, 8, 0), 0));
    test("section: 7 bytes", no_length(casm_section_at(least, 7, 0), CASM_CUT_OFF, 0));
    test("section: 7 of 8 bytes", no_length(casm_section_at(least, 8, 1), CASM_CUT_OFF, 1));
    test("section: the greatest length", no_length(casm_section_at(most, 8, 0), CASM_CUT_OFF, 0));
    test("section: any four bytes are a tag", is_length(casm_section_at(style, STYLE_SIZE, 4), 1));
    test("section: what is before is not judged", is_length(casm_section_at(M, M_SIZE, 8), 6));
    test("section: no bytes", no_length(casm_section_at(0, 0, 0), CASM_CUT_OFF, 0));
    test("section: a place in no bytes", no_length(casm_section_at(0, 0, 5), CASM_CUT_OFF, 5));
}

static void test_body(void) {
    unsigned char twice[2 * M_SIZE];
    memcpy(twice, M, M_SIZE);
    memcpy(twice + M_SIZE, M, M_SIZE);
    casm_count groups = casm_body(0, 0);
    test("body: example 1, empty", groups.number == CASM_ACCEPTED && groups.place == 0 && groups.count == 0);
    groups = casm_body(M, M_SIZE);
    test("body: example 2, M", groups.number == CASM_ACCEPTED && groups.place == 0 && groups.count == 1);
    groups = casm_body(M, 7);
    test("body: example 3, 7 bytes of M", groups.number == CASM_CUT_OFF && groups.place == 0 && groups.count == 0);
    groups = casm_body(twice, sizeof twice);
    test("body: example 7, M M", groups.number == CASM_NAME_AGAIN && groups.place == M_SIZE && groups.count == 0);
}

static void test_part(void) {
    casm_holder holder = casm_part(body, BODY_SIZE, bytes("Main A"), 6);
    test("part: there", holder.number == CASM_ACCEPTED && holder.group == 0);
    holder = casm_part(body, BODY_SIZE, bytes("Main B"), 6);
    test("part: not there", holder.number == CASM_NOT_THERE && holder.place == 0 && holder.group == 0);
}

static void test_group(void) {
    casm_bounds bounds = casm_group(body, BODY_SIZE, 0);
    test("group: accepted, all of the body", bounds.number == CASM_ACCEPTED && bounds.at == 0 && bounds.size == BODY_SIZE);
    test("group: its text", bounds.text_at == 16 && bounds.text_length == 6);
    test("group: its records", bounds.records_at == M_SIZE && bounds.records == 3);
    test("group: its Cntts", bounds.cntts_at == M_SIZE + 3 * 35 && bounds.cntts == 1);
    test("group: its edition", bounds.edition == CASM_FIRST_EDITION);
    bounds = casm_group(body, BODY_SIZE, 1);
    test("group: no such group", bounds.number == CASM_BAD_NUMBER && bounds.place == 0 && bounds.size == 0 && bounds.cntts == 0 && bounds.edition == 0);
}

static void test_channel(void) {
    casm_position position = casm_channel(body, BODY_SIZE, 0, 7);
    test("channel: its record is number 2", position.number == CASM_ACCEPTED && position.place == 0 && position.record == 2);
    test("channel: its byte 0 stands there", position.at == M_SIZE + 2 * 35 + 8 && memcmp(body + position.at, three[2].bytes, 26) == 0);
    position = casm_channel(body, BODY_SIZE, 0, 4);
    test("channel: not there", position.number == CASM_NOT_THERE && position.place == 0 && position.record == 0 && position.at == 0);
    position = casm_channel(body, BODY_SIZE, 1, 7);
    test("channel: no such group", position.number == CASM_BAD_NUMBER && position.place == 0 && position.at == 0);
    position = casm_channel(body, BODY_SIZE - 1, 0, 7);
    test("channel: a body that is cut", position.number == CASM_CUT_OFF && position.at == 0);
}

static int is_site(casm_site site, unsigned long group, unsigned long child, unsigned long chunk) {
    return site.number == CASM_ACCEPTED && site.place == 0 && site.group == group && site.child == child && site.chunk == chunk;
}

static int no_site(casm_site site, unsigned char number) {
    return site.number == number && site.place == 0 && site.group == 0 && site.child == 0 && site.chunk == 0;
}

static void test_site_at(void) {
    const unsigned long last = M_SIZE + 2 * 35, cntt = M_SIZE + 3 * 35;
    test("site: the first byte, a group's header", is_site(casm_site_at(body, BODY_SIZE, 0), 0, 0, 0));
    test("site: the last of the header", is_site(casm_site_at(body, BODY_SIZE, 7), 0, 0, 0));
    test("site: the Sdec", is_site(casm_site_at(body, BODY_SIZE, 8), 0, 1, 8));
    test("site: the last of its text", is_site(casm_site_at(body, BODY_SIZE, M_SIZE - 1), 0, 1, 8));
    test("site: record 0", is_site(casm_site_at(body, BODY_SIZE, M_SIZE), 0, 2, M_SIZE));
    test("site: its end marker", is_site(casm_site_at(body, BODY_SIZE, M_SIZE + 34), 0, 2, M_SIZE));
    test("site: record 1", is_site(casm_site_at(body, BODY_SIZE, M_SIZE + 35), 0, 3, M_SIZE + 35));
    test("site: the last record", is_site(casm_site_at(body, BODY_SIZE, cntt - 1), 0, 4, last));
    test("site: a Cntt", is_site(casm_site_at(body, BODY_SIZE, cntt), 0, 5, cntt));
    test("site: the last byte", is_site(casm_site_at(body, BODY_SIZE, BODY_SIZE - 1), 0, 5, cntt));
    test("site: not there", no_site(casm_site_at(body, BODY_SIZE, BODY_SIZE), CASM_BAD_NUMBER));
    test("site: not lent, though there", no_site(casm_site_at(body, cntt, cntt), CASM_BAD_NUMBER));
    test("site: no bytes", no_site(casm_site_at(0, 0, 0), CASM_BAD_NUMBER));
    test("site: a record of the second edition", is_site(casm_site_at(newer, NEWER_SIZE, NEWER_GROUP - 1), 0, 3, M_SIZE + SECOND_SIZE));
    test("site: the next group's header", is_site(casm_site_at(newer, NEWER_SIZE, NEWER_GROUP), 1, 0, NEWER_GROUP));
    test("site: its Sdec", is_site(casm_site_at(newer, NEWER_SIZE, NEWER_SIZE - 1), 1, 1, NEWER_GROUP + 8));
    test("site: the group as an entry", is_site(casm_site_at(newer + NEWER_GROUP, M_SIZE, M_SIZE - 1), 0, 1, 8));
}

/* What is damaged is walked all the same. */
static void test_site_damaged(void) {
    unsigned char changed[BODY_SIZE + M_SIZE];
    memcpy(changed, body, BODY_SIZE);
    memset(changed + M_SIZE + 4, 0xFF, 4);
    test("site: before a length that is too great", is_site(casm_site_at(changed, BODY_SIZE, M_SIZE - 1), 0, 1, 8));
    test("site: all behind is of that chunk", is_site(casm_site_at(changed, BODY_SIZE, BODY_SIZE - 1), 0, 2, M_SIZE));
    memcpy(changed + M_SIZE, "CSEG", 4);
    test("site: a CSEG in a record's place, whatever its length", is_site(casm_site_at(changed, BODY_SIZE, M_SIZE + 7), 1, 0, M_SIZE));
    test("site: the chunk 8 bytes on", is_site(casm_site_at(changed, BODY_SIZE, M_SIZE + 8), 1, 1, M_SIZE + 8));
    memcpy(changed, M, M_SIZE);
    memcpy(changed + 16, "CSEGs", 5);
    memcpy(changed + M_SIZE, M, M_SIZE);
    test("site: a CSEG in a text is none", is_site(casm_site_at(changed, 2 * M_SIZE, M_SIZE - 1), 0, 1, 8));
    test("site: the group behind it", is_site(casm_site_at(changed, 2 * M_SIZE, 2 * M_SIZE - 1), 1, 1, M_SIZE + 8));
    test("site: a header cut off", is_site(casm_site_at(changed, M_SIZE + 7, M_SIZE + 6), 1, 0, M_SIZE));
    test("site: three bytes of a tag, loose behind a group", is_site(casm_site_at(changed, M_SIZE + 3, M_SIZE + 2), 0, 2, M_SIZE));
    test("site: a single byte", is_site(casm_site_at(M, 1, 0), 0, 0, 0));
    memset(changed, 0, 16);
    memcpy(changed + 16, M, M_SIZE);
    test("site: loose bytes", is_site(casm_site_at(changed, 16 + M_SIZE, 7), 0, 0, 0));
    test("site: more of them", is_site(casm_site_at(changed, 16 + M_SIZE, 8), 0, 1, 8));
    test("site: the first group behind them", is_site(casm_site_at(changed, 16 + M_SIZE, 16), 0, 0, 16));
    test("site: and its Sdec", is_site(casm_site_at(changed, 16 + M_SIZE, 16 + 8), 0, 1, 16 + 8));
}

/* The place of a refusal, told as the record and its byte. */
static void test_site_refused(void) {
    unsigned char changed[BODY_SIZE];
    casm_position position = casm_channel(body, BODY_SIZE, 0, 7);
    memcpy(changed, body, BODY_SIZE);
    changed[position.at + 24] = 200;
    unsigned long place = casm_body(changed, BODY_SIZE).place;
    casm_site site = casm_site_at(changed, BODY_SIZE, place);
    test("site: the record of a refusal", site.number == CASM_ACCEPTED && site.group == 0 && site.child - 2 == position.record && site.chunk + 8 == position.at);
    test("site: and its byte", place - site.chunk - 8 == 24);
}

static void test_salvage(void) {
    const unsigned long wanted[7] = {0, 22, 0, 22, 1, 6, 9};
    unsigned long list[7] = {9, 9, 9, 9, 9, 9, 9};
    casm_count entries = casm_salvage(style + STYLE_TAG + 8, STYLE_BODY, list, 5);
    test("salvage: too little room", entries.number == CASM_NO_ROOM && entries.count == 0);
    test("salvage: the list is as it was", list[0] == 9 && list[5] == 9);
    entries = casm_salvage(style + STYLE_TAG + 8, STYLE_BODY, list, 7);
    test("salvage: example 8", entries.number == CASM_ACCEPTED && entries.count == 2 && memcmp(list, wanted, sizeof wanted) == 0);
    entries = casm_salvage(0, 0, 0, 0);
    test("salvage: nothing lent", entries.number == CASM_ACCEPTED && entries.count == 0);
}

/* The group of three records as an entry, with one byte changed: whether it is refused with this number at this place. */
static int entry_changed(unsigned long at, unsigned char value, unsigned char number, unsigned long place) {
    unsigned char changed[BODY_SIZE];
    memcpy(changed, body, BODY_SIZE);
    changed[at] = value;
    return no_length(casm_entry(changed, BODY_SIZE), number, place);
}

static void test_entry(void) {
    const unsigned long first = M_SIZE, later = M_SIZE + 35, cntt = M_SIZE + 3 * 35;
    test("entry: a group", is_length(casm_entry(body, BODY_SIZE), BODY_SIZE));
    test("entry: a group and loose bytes", is_length(casm_entry(style + STYLE_TAG + 8, STYLE_BODY), M_SIZE));
    test("entry: a group of the second edition, another behind", is_length(casm_entry(newer, NEWER_SIZE), NEWER_GROUP));
    test("entry: no bytes", no_length(casm_entry(0, 0), CASM_BAD_TAG, 0));
    test("entry: loose bytes", no_length(casm_entry(style, STYLE_SIZE), CASM_BAD_TAG, 0));
    test("entry: three bytes", no_length(casm_entry(M, 3), CASM_BAD_TAG, 0));
    test("entry: CSEG alone", no_length(casm_entry(M, 4), CASM_CUT_OFF, 0));
    test("entry: a byte less than a group", no_length(casm_entry(M, M_SIZE - 1), CASM_CUT_OFF, 0));
    test("entry: an empty group", no_length(casm_entry(bytes("CSEG\0\0\0\0"), 8), CASM_BAD_TAG, 0));
    test("entry: no room for an Sdec", no_length(casm_entry(bytes("CSEG\0\0\0\1S"), 9), CASM_CUT_OFF, 8));
    test("entry: no Sdec", entry_changed(8, 's', CASM_BAD_TAG, 8));
    test("entry: a text", entry_changed(M_SIZE - 1, ',', CASM_BAD_TEXT, 8));
    test("entry: a record's tag", entry_changed(later, 'c', CASM_BAD_TAG, later));
    test("entry: a record's length past the group", entry_changed(later + 6, 1, CASM_CUT_OFF, later));
    test("entry: a record's length", entry_changed(later + 7, 26, CASM_BAD_SIZE, later));
    test("entry: a byte out of range", entry_changed(later + 8 + 24, 128, CASM_OUT_OF_RANGE, later + 8 + 24));
    test("entry: a channel again", entry_changed(later + 8, 3, CASM_CHANNEL_AGAIN, later));
    test("entry: a Cntt without its Ctab", entry_changed(cntt + 8, 9, CASM_STRAY_CNTT, cntt));
    test("entry: a Cntt's value", entry_changed(BODY_SIZE - 1, 0x7F, CASM_OUT_OF_RANGE, BODY_SIZE - 1));
    test("entry: another edition in the group", entry_changed(first + 3, '2', CASM_BAD_TAG, first));
}

/* Whether each entry of a list is answered with its kind, and a sound one with its length; and the place of a damaged one, counted in the body. */
static void test_entries(void) {
    unsigned char damaged[3 + 2 * BODY_SIZE + NEWER_SIZE];
    unsigned long list[3 * 6], damaged_at = 3 + BODY_SIZE, place = 0;
    memcpy(damaged, "Sty", 3);
    memcpy(damaged + 3, body, BODY_SIZE);
    memcpy(damaged + damaged_at, body, BODY_SIZE);
    memcpy(damaged + damaged_at + BODY_SIZE, newer, NEWER_SIZE);
    damaged[damaged_at + M_SIZE + 8 + 24] = 200;
    casm_count entries = casm_salvage(damaged, sizeof damaged, list, 3 * 6);
    int kinds = entries.number == CASM_ACCEPTED;
    for (unsigned long i = 0; i < entries.count; i++) {
        const unsigned long at = list[3 * i], length = list[3 * i + 1], kind = list[3 * i + 2];
        casm_length entry = casm_entry(damaged + at, length);
        kinds = kinds && entry.number == kind && entry.length == (kind == 0 ? length : 0);
        if (at == damaged_at)
            place = at + entry.place;
    }
    test("entry: five of a list, each by its kind", entries.count == 5 && kinds);
    test("entry: where the damaged one is refused", place == damaged_at + M_SIZE + 8 + 24);
}

/* ---- the questions */

static void test_plays(void) {
    casm_players players = casm_plays(body, BODY_SIZE, bytes("Main A"), 6, 11, 33);
    test("plays: three", players.number == CASM_ACCEPTED && players.count == 3);
    test("plays: in Ctab order, then 0", players.channels[0] == 3 && players.channels[1] == 0 && players.channels[2] == 7 && players.channels[3] == 0);
    players = casm_plays(body, BODY_SIZE, bytes("Main B"), 6, 11, 33);
    test("plays: no such part", players.number == CASM_NOT_THERE && players.count == 0);
    players = casm_plays(body, BODY_SIZE, bytes("Main A"), 6, 12, 33);
    test("plays: no such root", players.number == CASM_BAD_NUMBER && players.count == 0);
}

static void test_voice(void) {
    casm_span voice = casm_voice(body, BODY_SIZE, 0, 7);
    test("voice: without its spaces", voice.number == CASM_ACCEPTED && voice.length == 4 && memcmp(body + voice.start, "Bass", 4) == 0);
    voice = casm_voice(body, BODY_SIZE, 0, 4);
    test("voice: no such channel", voice.number == CASM_NOT_THERE && voice.start == 0 && voice.length == 0);
}

static void test_place(void) {
    casm_row row = record(0);
    casm_note note = casm_place(row, 5, 60);
    test("place: example 12, root 5", note.number == CASM_ACCEPTED && note.note == 65);
    note = casm_place(row, 6, 60);
    test("place: example 12, root 6", note.number == CASM_ACCEPTED && note.note == 54);
    note = casm_place(row, 12, 60);
    test("place: no such root", note.number == CASM_BAD_NUMBER && note.place == 0);
    row.bytes[23] = 60, row.bytes[24] = 65;
    note = casm_place(row, 0, 54);
    test("place: example 14, the lower of two equally near", note.number == CASM_ACCEPTED && note.place == 0 && note.note == 54);
    row.bytes[23] = 127, row.bytes[24] = 127;
    note = casm_place(row, 0, 8);
    test("place: example 15, within 0 to 127", note.number == CASM_ACCEPTED && note.place == 0 && note.note == 116);
    row.bytes[23] = 74, row.bytes[24] = 60;
    test("place: crossed limits, the nearest above", casm_place(row, 0, 66).note == 78);
    test("place: crossed limits, the nearest below", casm_place(row, 0, 60).note == 72);
    test("place: crossed limits, the lower of two equally near", casm_place(row, 0, 80).note == 68);
    row.bytes[24] = 200;
    note = casm_place(row, 0, 60);
    test("place: a byte out of range", note.number == CASM_OUT_OF_RANGE && note.place == 24);
    note = casm_place(with_cntt(0, 0x7F, 1), 0, 60);
    test("place: a bad Cntt counts as byte 21", note.number == CASM_OUT_OF_RANGE && note.place == 21);
    row = record(0);
    row.bytes[20] = 1;
    note = casm_place(row, 0, 60);
    test("place: root fixed", note.number == CASM_ROOT_FIXED && note.place == 0);
    row.cntt = 0x80;
    test("place: no Cntt where has_cntt is 0", casm_place(row, 0, 60).number == CASM_ROOT_FIXED);
    row.has_cntt = 7;
    test("place: a Cntt where has_cntt is anything else", casm_place(row, 0, 60).note == 60);
}

/* ---- writing and editing */

static void test_edit(void) {
    unsigned char changed[BODY_SIZE];
    casm_row row = record(3);
    row.bytes[18] = 2;
    memcpy(changed, body, BODY_SIZE);
    casm_answer answer = casm_edit(changed, BODY_SIZE, 0, 4, record(4), CASM_KEEP_LOCKED);
    test("edit: no such channel", answer.number == CASM_NOT_THERE && answer.place == 0);
    answer = casm_edit(changed, BODY_SIZE, 0, 3, record(4), CASM_KEEP_LOCKED);
    test("edit: another source channel", answer.number == CASM_BAD_NUMBER && answer.place == 0);
    test("edit: refused, the body is as it was", memcmp(changed, body, BODY_SIZE) == 0);
    answer = casm_edit(changed, BODY_SIZE, 0, 3, row, CASM_KEEP_LOCKED);
    test("edit: accepted", answer.number == CASM_ACCEPTED && answer.place == 0);
    test("edit: the byte is there", changed[M_SIZE + 8 + 18] == 2);
    changed[M_SIZE + 8 + 18] = 0;
    test("edit: and no other changed", memcmp(changed, body, BODY_SIZE) == 0);
}

static void test_read_only(void) {
    unsigned char changed[BODY_SIZE], locked[BODY_SIZE];
    casm_row row = record(3), bad = record(3);
    bad.bytes[24] = 200;
    memcpy(locked, body, BODY_SIZE);
    locked[M_SIZE + 8 + 10] = 1;
    memcpy(changed, locked, BODY_SIZE);
    casm_answer answer = casm_edit(changed, BODY_SIZE, 0, 3, row, CASM_KEEP_LOCKED);
    test("read only: refused, though the row is not locked", answer.number == CASM_READ_ONLY && answer.place == 10);
    test("read only: before a byte out of range", casm_edit(changed, BODY_SIZE, 0, 3, bad, CASM_KEEP_LOCKED).number == CASM_READ_ONLY);
    test("read only: after another source channel", casm_edit(changed, BODY_SIZE, 0, 3, record(7), CASM_KEEP_LOCKED).number == CASM_BAD_NUMBER);
    test("read only: 2 does not override", casm_edit(changed, BODY_SIZE, 0, 3, row, 2).number == CASM_READ_ONLY);
    test("read only: 255 does not override", casm_edit(changed, BODY_SIZE, 0, 3, row, 255).number == CASM_READ_ONLY);
    row.edition = CASM_SECOND_EDITION;
    test("read only: after another edition", casm_edit(changed, BODY_SIZE, 0, 3, row, CASM_KEEP_LOCKED).number == CASM_OTHER_EDITION);
    row.edition = CASM_FIRST_EDITION;
    test("read only: the body is as it was", memcmp(changed, locked, BODY_SIZE) == 0);
    answer = casm_edit(changed, BODY_SIZE, 0, 3, bad, CASM_OVERRIDE);
    test("override: a byte out of range all the same", answer.number == CASM_OUT_OF_RANGE && answer.place == 24);
    test("override: accepted, and the lock is gone", casm_edit(changed, BODY_SIZE, 0, 3, row, CASM_OVERRIDE).number == CASM_ACCEPTED && memcmp(changed, body, BODY_SIZE) == 0);
    row.bytes[10] = 1;
    test("read only: a row that locks goes in", casm_edit(changed, BODY_SIZE, 0, 3, row, CASM_KEEP_LOCKED).number == CASM_ACCEPTED && memcmp(changed, locked, BODY_SIZE) == 0);
    test("read only: its neighbour is not locked", casm_edit(changed, BODY_SIZE, 0, 7, record(7), CASM_KEEP_LOCKED).number == CASM_ACCEPTED);
}

static void test_locked_field(void) {
    casm_row row = record(3);
    row.bytes[10] = 1;
    casm_edited edited = casm_field(row, 24, 100);
    test("locked field: refused, the record as it was", edited.number == CASM_READ_ONLY && edited.place == 10 && memcmp(&edited.held, &row, sizeof row) == 0);
    test("locked field: before a value out of range", casm_field(row, 24, 200).number == CASM_READ_ONLY);
    test("locked field: after an index", casm_field(row, 26, 0).number == CASM_BAD_NUMBER);
    edited = casm_field(row, 10, 2);
    test("locked field: a bad lock is out of range", edited.number == CASM_OUT_OF_RANGE && edited.place == 10);
    edited = casm_field(row, 10, 0);
    test("locked field: the lock comes off", edited.number == CASM_ACCEPTED && edited.held.bytes[10] == 0);
    test("locked field: and then any byte is set", casm_field(edited.held, 24, 100).number == CASM_ACCEPTED);
    row.bytes[10] = 2;
    test("locked field: 02 does not lock", casm_field(row, 24, 100).number == CASM_ACCEPTED);
}

static void test_field(void) {
    casm_row row = with_cntt(0, 0x81, 9);
    casm_edited edited = casm_field(row, 24, 100);
    test("field: set", edited.number == CASM_ACCEPTED && edited.place == 0 && edited.held.bytes[24] == 100);
    edited.held.bytes[24] = row.bytes[24];
    test("field: all others kept", memcmp(&edited.held, &row, sizeof row) == 0);
    edited = casm_field(row, 24, 200);
    test("field: a value out of range", edited.number == CASM_OUT_OF_RANGE && edited.place == 24);
    test("field: refused, the record as it was", memcmp(&edited.held, &row, sizeof row) == 0);
    edited = casm_field(row, 26, 0);
    test("field: no such byte", edited.number == CASM_BAD_NUMBER && edited.place == 0 && memcmp(&edited.held, &row, sizeof row) == 0);
    row.has_cntt = 7;
    test("field: has_cntt comes back as 1", casm_field(row, 24, 100).held.has_cntt == 1);
    row.edition = 7;
    row.bytes[CASM_FIRST_BYTES] = row.bytes[46] = 0xFF;
    edited = casm_field(row, 24, 100);
    test("field: edition 7 comes back as the first", edited.number == CASM_ACCEPTED && edited.held.edition == CASM_FIRST_EDITION);
    test("field: and the bytes that it does not use as 0", edited.held.bytes[CASM_FIRST_BYTES] == 0 && edited.held.bytes[46] == 0);
}

static void test_write(void) {
    unsigned char out[CASM_MAX_GROUP_SIZE], before[CASM_MAX_GROUP_SIZE];
    const unsigned char *flat = (const unsigned char *)three;
    memset(out, 0xEE, sizeof out);
    memcpy(before, out, sizeof out);
    casm_length length = casm_write(bytes("Main A"), 6, flat, sizeof three - 1, 3, out, sizeof out);
    test("write: a byte less than the count needs", length.number == CASM_BAD_NUMBER && length.place == 0 && length.length == 0);
    length = casm_write(bytes("Main ,"), 6, 0, 0, 0, out, sizeof out);
    test("write: an empty name", length.number == CASM_BAD_TEXT && length.place == 0 && length.length == 0);
    length = casm_write(bytes("Main A"), 6, flat, sizeof three, 3, out, BODY_SIZE - 1);
    test("write: a byte too little room", length.number == CASM_NO_ROOM && length.place == 0 && length.length == 0);
    test("write: refused, the buffer is as it was", memcmp(out, before, sizeof out) == 0);
}

/* Cntts stand by their positions; 18 comes after each record's 9 and 10 and before 14. */
static void test_positions(void) {
    unsigned char out[CASM_MAX_GROUP_SIZE];
    casm_row rows[3], back[3];
    rows[0] = with_cntt(9, 0x81, 2);
    rows[1] = record(5);
    rows[2] = with_cntt(0, 0x84, 1);
    casm_length length = casm_write_rows(bytes("Main A"), 6, rows, 3, out, sizeof out);
    test("positions: written", length.number == CASM_ACCEPTED && length.length == M_SIZE + 3 * 35 + 2 * 10);
    test("positions: the first Cntt", memcmp(out + M_SIZE + 3 * 35, "Cntt\0\0\0\2\0\x84", 10) == 0);
    test("positions: the second", memcmp(out + M_SIZE + 3 * 35 + 10, "Cntt\0\0\0\2\x09\x81", 10) == 0);
    casm_count count = casm_read_rows(out, length.length, 0, back, 3);
    test("positions: read back", count.count == 3 && memcmp(back, rows, sizeof rows) == 0);
    rows[2].position = 3;
    length = casm_write_rows(bytes("Main A"), 6, rows, 3, out, 0);
    test("positions: a gap, before the room", length.number == CASM_BAD_POSITIONS && length.place == 0 && length.length == 0);
    rows[2].position = 2;
    test("positions: one twice", casm_write_rows(bytes("Main A"), 6, rows, 3, out, sizeof out).number == CASM_BAD_POSITIONS);
    rows[2].position = 0;
    test("positions: none for a Cntt", casm_write_rows(bytes("Main A"), 6, rows, 3, out, sizeof out).number == CASM_BAD_POSITIONS);
    rows[2].position = 1;
    rows[1].position = 3;
    test("positions: one without a Cntt", casm_write_rows(bytes("Main A"), 6, rows, 3, out, sizeof out).number == CASM_BAD_POSITIONS);
    rows[2].bytes[24] = 200;
    length = casm_write_rows(bytes("Main A"), 6, rows, 3, out, sizeof out);
    test("positions: a later byte out of range first", length.number == CASM_OUT_OF_RANGE && length.place == 27 * 2 + 24);
    length = casm_write_rows(bytes("Main A"), 6, rows, 1, out, sizeof out);
    test("positions: of the first record alone", length.number == CASM_BAD_POSITIONS);
    rows[0].position = 1;
    length = casm_write_rows(bytes("Main A"), 6, rows, 1, out, sizeof out);
    test("positions: past the count not looked at", length.number == CASM_ACCEPTED && length.length == M_SIZE + 35 + 10);
}

/* More rows than a group may have are no matter of the count: the 17th record of 16 channels is refused, however many follow. */
static void test_write_33_rows(void) {
    casm_row rows[33];
    unsigned char out[2048];
    for (unsigned char i = 0; i < 33; i++)
        rows[i] = record((unsigned char)(i % 16));
    casm_length length = casm_write(bytes("Main A"), 6, (const unsigned char *)rows, sizeof rows, 33, out, sizeof out);
    test("write: 33 rows, a channel again", length.number == CASM_CHANNEL_AGAIN && length.place == 27 * 16 && length.length == 0);
    length = casm_write(bytes("Main ,"), 6, (const unsigned char *)rows, sizeof rows, 33, out, sizeof out);
    test("write: 33 rows, the text first", length.number == CASM_BAD_TEXT && length.place == 0);
    rows[2].bytes[24] = 200;
    length = casm_write(bytes("Main A"), 6, (const unsigned char *)rows, sizeof rows, 33, out, sizeof out);
    test("write: 33 rows, a byte out of range", length.number == CASM_OUT_OF_RANGE && length.place == 27 * 2 + 24);
    length = casm_write(bytes("Main A"), 6, (const unsigned char *)rows, sizeof rows, 34, out, sizeof out);
    test("write: 34 of 33 rows", length.number == CASM_BAD_NUMBER && length.place == 0);
    length = casm_write(bytes("Main A"), 6, (const unsigned char *)rows, sizeof rows, 2, out, sizeof out);
    test("write: 2 of 33 rows", length.number == CASM_ACCEPTED && length.length == M_SIZE + 2 * 35);
}

static void test_records(void) {
    casm_row rows[4];
    memset(rows, 0xDD, sizeof rows);
    casm_count count = casm_records(body, BODY_SIZE, 0, (unsigned char *)rows, sizeof three - 1);
    test("records: a byte too little room", count.number == CASM_NO_ROOM && count.place == 0 && count.count == 0);
    count = casm_records(body, BODY_SIZE, 1, (unsigned char *)rows, sizeof rows);
    test("records: no such group", count.number == CASM_BAD_NUMBER && count.place == 0 && count.count == 0);
    test("records: refused, the table is as it was", rows[0].bytes[0] == 0xDD && rows[2].cntt == 0xDD);
    count = casm_records(body, BODY_SIZE, 0, (unsigned char *)rows, sizeof rows);
    test("records: what was written", count.number == CASM_ACCEPTED && count.count == 3 && memcmp(rows, three, sizeof three) == 0);
    test("records: later bytes are kept", rows[3].bytes[0] == 0xDD && rows[3].cntt == 0xDD);
}

/* ---- the wrappers, and the largest group that there is */

static void test_rows(void) {
    unsigned char out[CASM_MAX_GROUP_SIZE], text[CASM_MAX_TEXT + 1];
    casm_row rows[CASM_MAX_RECORDS], back[CASM_MAX_RECORDS];
    for (int i = 0; i < CASM_MAX_TEXT; i++)
        text[i] = (unsigned char)(i % 16 == 15 ? ',' : i % 16 == 0 ? 'A' + i / 16 : '-');
    text[CASM_MAX_TEXT - 1] = '-';
    for (int i = 0; i < CASM_MAX_RECORDS; i++)
        rows[i] = with_cntt((unsigned char)i, 0x8A, (unsigned char)(CASM_MAX_RECORDS - i));
    casm_length length = casm_write_rows(text, CASM_MAX_TEXT, rows, CASM_MAX_RECORDS, out, sizeof out);
    test("write_rows: the largest group of the first edition", length.number == CASM_ACCEPTED && length.length == 16 + CASM_MAX_TEXT + CASM_MAX_RECORDS * 45);
    casm_count count = casm_read_rows(out, length.length, 0, back, CASM_MAX_RECORDS);
    test("read_rows: what was written", count.number == CASM_ACCEPTED && count.count == CASM_MAX_RECORDS && memcmp(back, rows, sizeof rows) == 0);
    for (int i = 0; i < CASM_MAX_RECORDS; i++)
        rows[i] = second_record((unsigned char)i);
    length = casm_write_rows(text, CASM_MAX_TEXT, rows, CASM_MAX_RECORDS, out, sizeof out);
    test("write_rows: the largest group", length.number == CASM_ACCEPTED && length.length == CASM_MAX_GROUP_SIZE);
    count = casm_read_rows(out, sizeof out, 0, back, CASM_MAX_RECORDS);
    test("read_rows: what was written, in the second edition", count.count == CASM_MAX_RECORDS && memcmp(back, rows, sizeof rows) == 0);
    count = casm_read_rows(out, sizeof out, 0, back, CASM_MAX_RECORDS - 1);
    test("read_rows: a row too little room", count.number == CASM_NO_ROOM && count.count == 0);
    length = casm_write_rows(bytes("Main A"), 6, 0, 0, out, sizeof out);
    test("write_rows: no rows", length.number == CASM_ACCEPTED && length.length == M_SIZE && memcmp(out, M, M_SIZE) == 0);
    count = casm_read_rows(out, length.length, 0, 0, 0);
    test("read_rows: none", count.number == CASM_ACCEPTED && count.count == 0);
    length = casm_write_rows(text, CASM_MAX_TEXT + 1, 0, 0, out, sizeof out);
    test("write_rows: a text over its limit", length.number == CASM_BAD_TEXT);
    text[15] = '-';
    length = casm_write_rows(text, CASM_MAX_NAME + 1, 0, 0, out, sizeof out);
    test("write_rows: a name over its limit", length.number == CASM_BAD_TEXT);
    text[0] = '-';
    length = casm_write_rows(text, CASM_MAX_NAME, 0, 0, out, sizeof out);
    test("write_rows: a name at its limit", length.number == CASM_ACCEPTED && length.length == 16 + CASM_MAX_NAME);
}

/* ---- the limits of a file, a body and a list */

static void test_limits(void) {
    static unsigned char long_file[CASM_MAX_FILE + 1], long_body[CASM_MAX_BODY + 1];
    static unsigned long list[CASM_MAX_LIST];
    test("limits: a file of the most bytes", casm_find(long_file, CASM_MAX_FILE).number == CASM_NOT_A_STYLE_FILE);
    test("limits: a byte more", casm_find(long_file, CASM_MAX_FILE + 1).number == CASM_OVER_LIMIT);
    test("limits: a section has none", is_length(casm_section_at(long_file, CASM_MAX_FILE + 1, CASM_MAX_FILE - 7), 0));
    test("limits: nor has its refusal", no_length(casm_section_at(long_file, CASM_MAX_FILE + 1, CASM_MAX_FILE - 6), CASM_CUT_OFF, CASM_MAX_FILE - 6));
    for (int i = 0; i < CASM_MAX_BODY; i++)
        long_body[i] = (unsigned char)"CSEG"[i % 4];
    test("limits: a byte more than a body has", casm_body(long_body, CASM_MAX_BODY + 1).number == CASM_OVER_LIMIT);
    casm_count entries = casm_salvage(long_body, CASM_MAX_BODY, list, CASM_MAX_LIST);
    test("limits: the longest list", entries.number == CASM_ACCEPTED && 3 * entries.count == CASM_MAX_LIST);
    test("limits: a number less", casm_salvage(long_body, CASM_MAX_BODY, list, CASM_MAX_LIST - 1).number == CASM_NO_ROOM);
    casm_site site = casm_site_at(long_body, CASM_MAX_BODY, CASM_MAX_BODY - 1);
    test("limits: the last place, of more groups than may be", is_site(site, CASM_MAX_BODY / 8 - 1, 0, CASM_MAX_BODY - 8));
    test("limits: a place behind it", no_site(casm_site_at(long_body, CASM_MAX_BODY, CASM_MAX_BODY), CASM_BAD_NUMBER));
    test("limits: a place of too long a body", no_site(casm_site_at(long_body, CASM_MAX_BODY + 1, 0), CASM_OVER_LIMIT));
    test("limits: first of all", no_site(casm_site_at(long_body, CASM_MAX_BODY + 1, CASM_MAX_BODY + 1), CASM_OVER_LIMIT));
    for (int i = 0; i <= CASM_MAX_GROUPS; i++) {
        memcpy(long_body + i * M_SIZE, M, M_SIZE);
        long_body[i * M_SIZE + M_SIZE - 1] = (unsigned char)('A' + i);
    }
    test("limits: the longest entry", is_length(casm_entry(long_body, CASM_MAX_BODY), M_SIZE));
    test("limits: a longer one", no_length(casm_entry(long_body, CASM_MAX_BODY + 1), CASM_OVER_LIMIT, 0));
    test("limits: before its tag", no_length(casm_entry(long_file, CASM_MAX_BODY + 1), CASM_OVER_LIMIT, 0));
    casm_count groups = casm_body(long_body, CASM_MAX_GROUPS * M_SIZE);
    test("limits: the most groups", groups.number == CASM_ACCEPTED && groups.count == CASM_MAX_GROUPS);
    groups = casm_body(long_body, (CASM_MAX_GROUPS + 1) * M_SIZE);
    test("limits: a group more", groups.number == CASM_TOO_MANY_GROUPS && groups.place == CASM_MAX_GROUPS * M_SIZE);
}

/* ---- numbers from 2^32 on, which a script cannot say: cut to 32 bits each would be 0, and be answered as 0 */

static void test_large_numbers(void) {
    const unsigned long large = 1UL << 32;
    unsigned char changed[BODY_SIZE], out[BODY_SIZE];
    memcpy(changed, body, BODY_SIZE);
    test("large: a group's number", casm_group(body, BODY_SIZE, large).number == CASM_BAD_NUMBER);
    test("large: a channel's group", casm_channel(body, BODY_SIZE, large, three[0].bytes[0]).number == CASM_BAD_NUMBER);
    test("large: a voice's group", casm_voice(body, BODY_SIZE, large, three[0].bytes[0]).number == CASM_BAD_NUMBER);
    test("large: an edit's group", casm_edit(changed, BODY_SIZE, large, three[0].bytes[0], three[0], CASM_KEEP_LOCKED).number == CASM_BAD_NUMBER);
    test("large: the records' group", casm_records(body, BODY_SIZE, large, 0, 0).number == CASM_BAD_NUMBER);
    test("large: a check's group", casm_check(body, BODY_SIZE, body, BODY_SIZE, large, three[0].bytes[0]).number == CASM_BAD_NUMBER);
    test("large: a field's index", casm_field(three[0], large, 0).number == CASM_BAD_NUMBER);
    test("large: a place", no_site(casm_site_at(body, BODY_SIZE, large), CASM_BAD_NUMBER));
    test("large: the largest", no_site(casm_site_at(body, BODY_SIZE, ~0UL), CASM_BAD_NUMBER));
    test("large: a section's place, which comes back", no_length(casm_section_at(style, STYLE_SIZE, large), CASM_CUT_OFF, large));
    test("large: the largest that 8 more fit behind", no_length(casm_section_at(style, STYLE_SIZE, ~0UL - 8), CASM_CUT_OFF, ~0UL - 8));
    test("large: where 8 more are 0", no_length(casm_section_at(style, STYLE_SIZE, ~0UL - 7), CASM_CUT_OFF, ~0UL - 7));
    test("large: the largest section's place", no_length(casm_section_at(style, STYLE_SIZE, ~0UL), CASM_CUT_OFF, ~0UL));
    test("large: a count", casm_write((const unsigned char *)"Main A", 6, 0, 0, large, out, sizeof out).number == CASM_BAD_NUMBER);
}

/* ---- the second edition: document 02, section 4 */

static void test_second_reading(void) {
    casm_count groups = casm_body(newer, NEWER_SIZE);
    test("second: a body by hand", groups.number == CASM_ACCEPTED && groups.place == 0 && groups.count == 2);
    casm_bounds bounds = casm_group(newer, NEWER_SIZE, 0);
    test("second: a group's edition", bounds.number == CASM_ACCEPTED && bounds.edition == CASM_SECOND_EDITION && bounds.size == NEWER_GROUP);
    test("second: its records, and no Cntts behind them", bounds.records_at == M_SIZE && bounds.records == 2 && bounds.cntts_at == NEWER_GROUP && bounds.cntts == 0);
    bounds = casm_group(newer, NEWER_SIZE, 1);
    test("second: a group without records has edition 0", bounds.number == CASM_ACCEPTED && bounds.at == NEWER_GROUP && bounds.records == 0 && bounds.edition == 0);
    bounds = casm_group(newer, NEWER_SIZE - 1, 0);
    test("second: a body refused has edition 0", bounds.number == CASM_CUT_OFF && bounds.place == NEWER_GROUP && bounds.edition == 0);
    casm_position position = casm_channel(newer, NEWER_SIZE, 0, 7);
    test("second: a channel's record", position.number == CASM_ACCEPTED && position.record == 1 && position.at == M_SIZE + SECOND_SIZE + 8);
    casm_span voice = casm_voice(newer, NEWER_SIZE, 0, 7);
    test("second: a voice", voice.start == M_SIZE + SECOND_SIZE + 9 && voice.length == 7 && memcmp(newer + voice.start, "Strings", 7) == 0);
    casm_players players = casm_plays(newer, NEWER_SIZE, bytes("Main A"), 6, 11, 33);
    test("second: who plays", players.count == 2 && players.channels[0] == 3 && players.channels[1] == 7);
    test("second: a part without records", casm_plays(newer, NEWER_SIZE, bytes("Main B"), 6, 11, 33).number == CASM_ACCEPTED);
    test("second: which group has it", casm_part(newer, NEWER_SIZE, bytes("Main B"), 6).group == 1);
}

/* The body by hand with one byte changed: whether it is refused with this number at this place, or accepted with its two groups. */
static int read_changed(unsigned long at, unsigned char value, unsigned char number, unsigned long place) {
    unsigned char changed[NEWER_SIZE];
    memcpy(changed, newer, NEWER_SIZE);
    changed[at] = value;
    casm_count groups = casm_body(changed, NEWER_SIZE);
    return groups.number == number && groups.place == place && groups.count == (number == CASM_ACCEPTED ? 2 : 0);
}

static void test_second_refusals(void) {
    const unsigned long later = M_SIZE + SECOND_SIZE, record_at = later + 8;
    test("second: a Ctab beside a Ctb2", read_changed(later + 2, 'a', CASM_BAD_TAG, later));
    test("second: a Cntt beside a Ctb2", read_changed(later + 1, 'n', CASM_BAD_TAG, later));
    test("second: a Ctb2 not of 47", read_changed(later + 7, 46, CASM_BAD_SIZE, later));
    test("second: a Ctb2 past its group", read_changed(later + 7, 48, CASM_CUT_OFF, later));
    test("second: a channel again", read_changed(record_at, 3, CASM_CHANNEL_AGAIN, later));
    test("second: a bound of the middle notes", read_changed(record_at + 20, 128, CASM_OUT_OF_RANGE, record_at + 20));
    test("second: a rule", read_changed(record_at + 28, 3, CASM_OUT_OF_RANGE, record_at + 28));
    test("second: a table", read_changed(record_at + 23, 11, CASM_OUT_OF_RANGE, record_at + 23));
    test("second: a table that rule 2 does not allow", read_changed(record_at + 35, 3, CASM_OUT_OF_RANGE, record_at + 35));
    test("second: nor with bit 7", read_changed(record_at + 35, 0x83, CASM_OUT_OF_RANGE, record_at + 35));
    test("second: one that it allows", read_changed(record_at + 35, 0x82, CASM_ACCEPTED, 0));
    test("second: the bytes behind may be anything", read_changed(record_at + 40, 255, CASM_ACCEPTED, 0) && read_changed(record_at + 46, 0, CASM_ACCEPTED, 0));
}

/* Groups one behind another; how long they are. */
static unsigned long joined(unsigned char *to, const unsigned char *one, unsigned long one_size, const unsigned char *other, unsigned long other_size) {
    memcpy(to, one, one_size);
    memcpy(to + one_size, other, other_size);
    return one_size + other_size;
}

static void test_both_editions(void) {
    const unsigned char *empty = newer + NEWER_GROUP;
    unsigned char both[BODY_SIZE + NEWER_SIZE];
    unsigned long list[10] = {9, 9, 9, 9, 9, 9, 9, 9, 9, 9};
    unsigned long size = joined(both, body, BODY_SIZE, newer, NEWER_SIZE);
    casm_count groups = casm_body(both, size);
    test("both: a later group of the second, before its names", groups.number == CASM_OTHER_EDITION && groups.place == BODY_SIZE && groups.count == 0);
    test("both: every call that reads a body", casm_part(both, size, bytes("Main A"), 6).number == CASM_OTHER_EDITION);
    casm_count entries = casm_salvage(both, size, list, 10);
    test("both: the list shows both", entries.number == CASM_ACCEPTED && entries.count == 3 && list[2] == 0 && list[5] == 0 && list[8] == 0 && list[9] == 9);
    test("both: each by itself", list[3] == BODY_SIZE && list[4] == NEWER_GROUP && list[6] == BODY_SIZE + NEWER_GROUP && list[7] == M_SIZE);
    groups = casm_body(both, joined(both, newer, NEWER_SIZE, body, BODY_SIZE));
    test("both: a later group of the first", groups.number == CASM_OTHER_EDITION && groups.place == NEWER_SIZE);
    both[NEWER_SIZE + M_SIZE + 8 + 26] = 1;
    groups = casm_body(both, NEWER_SIZE + BODY_SIZE);
    test("both: after its contents", groups.number == CASM_OUT_OF_RANGE && groups.place == NEWER_SIZE + M_SIZE + 8 + 26);
    groups = casm_body(both, joined(both, empty, M_SIZE, newer, NEWER_GROUP));
    test("both: a group without records before the second", groups.number == CASM_ACCEPTED && groups.count == 2);
    groups = casm_body(both, joined(both, empty, M_SIZE, body, BODY_SIZE));
    test("both: and before the first", groups.number == CASM_ACCEPTED && groups.count == 2);
}

static void test_second_rows(void) {
    unsigned char out[CASM_MAX_GROUP_SIZE];
    casm_row rows[3], wanted[2];
    memset(rows, 0xDD, sizeof rows);
    wanted[0] = second_record(3), wanted[1] = second_record(7);
    casm_count count = casm_read_rows(newer, NEWER_SIZE, 0, rows, 3);
    test("second rows: read", count.number == CASM_ACCEPTED && count.count == 2 && memcmp(rows, wanted, sizeof wanted) == 0);
    test("second rows: later bytes are kept", rows[2].edition == 0xDD && rows[2].position == 0xDD);
    memset(out, 0xEE, sizeof out);
    casm_length length = casm_write_rows(bytes("Main A"), 6, rows, 2, out, sizeof out);
    test("second rows: written", length.number == CASM_ACCEPTED && length.length == NEWER_GROUP && memcmp(out, newer, NEWER_GROUP) == 0 && out[NEWER_GROUP] == 0xEE);
    rows[0].has_cntt = rows[0].cntt = rows[0].position = 99;
    length = casm_write_rows(bytes("Main A"), 6, rows, 2, out, sizeof out);
    test("second rows: a Cntt is not looked at", length.number == CASM_ACCEPTED && memcmp(out, newer, NEWER_GROUP) == 0);
    test("second rows: a byte too little room", casm_write_rows(bytes("Main A"), 6, rows, 2, out, NEWER_GROUP - 1).number == CASM_NO_ROOM);
    rows[1].bytes[35] = 0x0A;
    length = casm_write_rows(bytes("Main A"), 6, rows, 2, out, sizeof out);
    test("second rows: a byte out of range", length.number == CASM_OUT_OF_RANGE && length.place == 47 + 35 && length.length == 0);
    rows[1] = second_record(3);
    length = casm_write_rows(bytes("Main A"), 6, rows, 2, out, sizeof out);
    test("second rows: a channel again", length.number == CASM_CHANNEL_AGAIN && length.place == 47);
}

static void test_mixed_rows(void) {
    unsigned char out[CASM_MAX_GROUP_SIZE], before[CASM_MAX_GROUP_SIZE];
    casm_row rows[3];
    memset(out, 0xEE, sizeof out);
    memcpy(before, out, sizeof out);
    rows[0] = second_record(3), rows[1] = second_record(7), rows[2] = record(3);
    rows[2].bytes[24] = 200;
    casm_length length = casm_write_rows(bytes("Main A"), 6, rows, 3, out, 0);
    test("mixed rows: the first among the second", length.number == CASM_OTHER_EDITION && length.place == 2 * 47 && length.length == 0);
    rows[0] = record(3), rows[1] = second_record(16);
    length = casm_write_rows(bytes("Main A"), 6, rows, 3, out, sizeof out);
    test("mixed rows: the second among the first", length.number == CASM_OTHER_EDITION && length.place == 27);
    rows[0].bytes[24] = 200;
    length = casm_write_rows(bytes("Main A"), 6, rows, 3, out, sizeof out);
    test("mixed rows: an earlier record's byte first", length.number == CASM_OUT_OF_RANGE && length.place == 24);
    test("mixed rows: refused, the buffer is as it was", memcmp(out, before, sizeof out) == 0);
    rows[0] = record(3), rows[1] = record(7);
    rows[1].edition = 7;
    length = casm_write_rows(bytes("Main A"), 6, rows, 2, out, sizeof out);
    test("mixed rows: edition 7 is the first", length.number == CASM_ACCEPTED && length.length == M_SIZE + 2 * 35 && memcmp(out + M_SIZE + 35, "Ctab", 4) == 0);
    rows[1] = second_record(7);
    test("mixed rows: past the count not looked at", casm_write_rows(bytes("Main A"), 6, rows, 1, out, sizeof out).number == CASM_ACCEPTED);
}

static void test_second_edit(void) {
    unsigned char changed[NEWER_SIZE], older[BODY_SIZE];
    casm_row row = second_record(7), unlike = record(7);
    memcpy(changed, newer, NEWER_SIZE);
    memcpy(older, body, BODY_SIZE);
    unlike.bytes[24] = 200;
    casm_answer answer = casm_edit(changed, NEWER_SIZE, 0, 7, unlike, CASM_KEEP_LOCKED);
    test("second edit: a row of the first, before its bytes", answer.number == CASM_OTHER_EDITION && answer.place == 0);
    test("second edit: another source channel before that", casm_edit(changed, NEWER_SIZE, 0, 3, unlike, CASM_KEEP_LOCKED).number == CASM_BAD_NUMBER);
    row.bytes[37] = 128;
    answer = casm_edit(changed, NEWER_SIZE, 0, 7, row, CASM_KEEP_LOCKED);
    test("second edit: a byte out of range", answer.number == CASM_OUT_OF_RANGE && answer.place == 37);
    test("second edit: refused, the body is as it was", memcmp(changed, newer, NEWER_SIZE) == 0);
    row.bytes[37] = 1, row.bytes[46] = 1;
    answer = casm_edit(changed, NEWER_SIZE, 0, 7, row, CASM_KEEP_LOCKED);
    test("second edit: accepted", answer.number == CASM_ACCEPTED && memcmp(changed + M_SIZE + SECOND_SIZE + 8, row.bytes, 47) == 0);
    memcpy(changed + M_SIZE + SECOND_SIZE + 8, newer + M_SIZE + SECOND_SIZE + 8, 47);
    test("second edit: and no other byte changed", memcmp(changed, newer, NEWER_SIZE) == 0);
    answer = casm_edit(older, BODY_SIZE, 0, 7, row, CASM_KEEP_LOCKED);
    test("second edit: a row of the second in the first", answer.number == CASM_OTHER_EDITION && answer.place == 0 && memcmp(older, body, BODY_SIZE) == 0);
    unlike = record(7);
    unlike.edition = 7;
    test("second edit: edition 7 is the first", casm_edit(older, BODY_SIZE, 0, 7, unlike, CASM_KEEP_LOCKED).number == CASM_ACCEPTED);
}

static void test_second_field(void) {
    casm_row row = second_record(3);
    casm_edited edited = casm_field(row, 26, 100);
    test("second field: index 26", edited.number == CASM_ACCEPTED && edited.place == 0 && edited.held.bytes[26] == 100);
    edited.held.bytes[26] = row.bytes[26];
    test("second field: all others kept", memcmp(&edited.held, &row, sizeof row) == 0);
    edited = casm_field(row, 46, 0);
    test("second field: index 46", edited.number == CASM_ACCEPTED && edited.held.bytes[46] == 0 && edited.held.edition == CASM_SECOND_EDITION);
    edited = casm_field(row, 47, 0);
    test("second field: no such byte", edited.number == CASM_BAD_NUMBER && edited.place == 0 && memcmp(&edited.held, &row, sizeof row) == 0);
    edited = casm_field(row, 35, 3);
    test("second field: a table that rule 2 does not allow", edited.number == CASM_OUT_OF_RANGE && edited.place == 35);
    test("second field: with bit 7", casm_field(row, 35, 0x82).number == CASM_ACCEPTED && casm_field(row, 35, 0x83).number == CASM_OUT_OF_RANGE);
    edited = casm_field(casm_field(row, 23, 0x8A).held, 22, 2);
    test("second field: rule 2 over a table that it does not allow", edited.number == CASM_ACCEPTED && edited.held.bytes[22] == 2);
    casm_note note = casm_place(edited.held, 0, 60);
    test("second field: which placing then refuses", note.number == CASM_OUT_OF_RANGE && note.place == 23 && note.note == 0);
    row.bytes[34] = 7;
    test("second field: a rule over 2 counts as 0", casm_field(row, 35, 0x0A).number == CASM_ACCEPTED);
    row.has_cntt = row.cntt = row.position = 9;
    edited = casm_field(row, 18, 1);
    test("second field: a Cntt comes back as 0", edited.held.has_cntt == 0 && edited.held.cntt == 0 && edited.held.position == 0);
}

static void test_second_place(void) {
    casm_row row = second_record(3);
    casm_note note = casm_place(row, 5, 40);
    test("second place: by the low set", note.number == CASM_ACCEPTED && note.place == 0 && note.note == 45);
    test("second place: above its high key, within its limits", casm_place(row, 6, 40).note == 46);
    test("second place: the last of the low notes", casm_place(row, 1, 47).note == 48);
    test("second place: the first of the middle notes", casm_place(row, 5, 48).note == 48);
    test("second place: the last of them", casm_place(row, 5, 72).note == 72);
    note = casm_place(row, 0, 73);
    test("second place: rule 2", note.number == CASM_ROOT_FIXED && note.place == 0 && note.note == 0);
    row.bytes[35] = 0x80;
    test("second place: rule 2 and bypass", casm_place(row, 0, 73).number == CASM_ROOT_FIXED);
    row.bytes[34] = 0;
    test("second place: by the high set", casm_place(row, 0, 73).note == 73);
    row.bytes[29] = 1;
    test("second place: root fixed", casm_place(row, 0, 60).number == CASM_ROOT_FIXED);
    row.bytes[20] = 72, row.bytes[21] = 48;
    test("second place: crossed bounds, the low set first", casm_place(row, 5, 50).note == 55);
    row.bytes[36] = 12;
    note = casm_place(row, 5, 50);
    test("second place: a byte of a set that is not used", note.number == CASM_OUT_OF_RANGE && note.place == 36);
    test("second place: no such root, first of all", casm_place(row, 12, 50).number == CASM_BAD_NUMBER);
    row = record(0);
    row.edition = 7;
    test("second place: edition 7 is the first", casm_place(row, 5, 60).note == 65);
}

/* 28 of the largest groups are a body; a 29th makes it too long. */
static void test_second_limit(void) {
    static unsigned char large[29 * CASM_MAX_GROUP_SIZE];
    unsigned char text[CASM_MAX_TEXT];
    casm_row rows[CASM_MAX_RECORDS];
    for (int i = 0; i < CASM_MAX_RECORDS; i++)
        rows[i] = second_record((unsigned char)i);
    for (int k = 0; k < 29; k++) {
        for (int i = 0; i < CASM_MAX_TEXT; i++)
            text[i] = (unsigned char)(i % 16 == 15 ? ',' : i % 16 == 0 ? 'A' + i / 16 : 'A' + k);
        casm_write_rows(text, CASM_MAX_TEXT, rows, CASM_MAX_RECORDS, large + k * CASM_MAX_GROUP_SIZE, CASM_MAX_GROUP_SIZE);
    }
    casm_count groups = casm_body(large, 28 * CASM_MAX_GROUP_SIZE);
    test("second limit: 28 of the largest groups", groups.number == CASM_ACCEPTED && groups.count == 28);
    test("second limit: one more", casm_body(large, sizeof large).number == CASM_OVER_LIMIT);
}

/* ---- checking what other editors return: document 02, section 13 */

static int is_yes(casm_checked checked) {
    return checked.number == CASM_ACCEPTED && checked.place == 0 && checked.which == CASM_NEITHER && checked.yes == 1 && checked.unlike == 0;
}

static int is_no(casm_checked checked, unsigned long unlike) {
    return checked.number == CASM_ACCEPTED && checked.place == 0 && checked.which == CASM_NEITHER && checked.yes == 0 && checked.unlike == unlike;
}

static int is_refused(casm_checked checked, unsigned char number, unsigned long place, unsigned char which) {
    return checked.number == number && checked.place == place && checked.which == which && checked.yes == 0 && checked.unlike == 0;
}

/* The body against itself with one byte changed, asked for its channel 7, the last of three. */
enum { LAST_AT = M_SIZE + 2 * 35 + 8, CNTT_AT = M_SIZE + 3 * 35 };

static casm_checked check_changed(unsigned long at, unsigned char value) {
    unsigned char changed[BODY_SIZE];
    memcpy(changed, body, BODY_SIZE);
    changed[at] = value;
    return casm_check(body, BODY_SIZE, changed, BODY_SIZE, 0, 7);
}

static void test_check(void) {
    unsigned char changed[BODY_SIZE], locked[BODY_SIZE];
    casm_row row = record(7);
    memcpy(changed, body, BODY_SIZE);
    test("check: unchanged", is_yes(casm_check(body, BODY_SIZE, changed, BODY_SIZE, 0, 7)));
    test("check: against itself", is_yes(casm_check(body, BODY_SIZE, body, BODY_SIZE, 0, 3)));
    row.bytes[1] = 'C', row.bytes[18] = 2, row.bytes[25] = 5;
    casm_edit(changed, BODY_SIZE, 0, 7, row, CASM_KEEP_LOCKED);
    test("check: what an edit wrote", changed[LAST_AT + 25] == 5 && is_yes(casm_check(body, BODY_SIZE, changed, BODY_SIZE, 0, 7)));
    test("check: asked for another channel", is_no(casm_check(body, BODY_SIZE, changed, BODY_SIZE, 0, 3), LAST_AT + 1));
    test("check: the first byte, renumbered", is_yes(check_changed(LAST_AT, 4)));
    test("check: the last that may change", is_yes(check_changed(LAST_AT + 25, 5)));
    test("check: locked", is_yes(check_changed(LAST_AT + 10, 1)));
    memcpy(locked, body, BODY_SIZE);
    locked[LAST_AT + 10] = 1;
    test("check: the lock taken off", is_yes(casm_check(locked, BODY_SIZE, body, BODY_SIZE, 0, 7)));
    memcpy(changed, locked, BODY_SIZE);
    changed[LAST_AT + 24] = 100;
    test("check: changed under its lock", is_yes(casm_check(locked, BODY_SIZE, changed, BODY_SIZE, 0, 7)));
}

static void test_check_unlike(void) {
    unsigned char changed[2 * BODY_SIZE];
    test("check: a name", is_no(check_changed(M_SIZE - 1, 'B'), M_SIZE - 1));
    test("check: a byte of a record before", is_no(check_changed(M_SIZE + 8 + 24, 100), M_SIZE + 8 + 24));
    test("check: the last of the record before", is_no(check_changed(LAST_AT - 8 - 2, 5), LAST_AT - 8 - 2));
    test("check: a Cntt behind", is_no(check_changed(CNTT_AT + 9, 0x84), CNTT_AT + 9));
    memcpy(changed, body, BODY_SIZE);
    changed[CNTT_AT + 9] = 0x84, changed[LAST_AT + 18] = 2;
    test("check: a Cntt behind, and the record", is_no(casm_check(body, BODY_SIZE, changed, BODY_SIZE, 0, 7), CNTT_AT + 9));
    changed[M_SIZE - 1] = 'B';
    test("check: the first of two", is_no(casm_check(body, BODY_SIZE, changed, BODY_SIZE, 0, 7), M_SIZE - 1));
    unsigned long longer = joined(changed, body, BODY_SIZE, newer + NEWER_GROUP, M_SIZE);
    test("check: a group more", is_no(casm_check(body, BODY_SIZE, changed, longer, 0, 7), BODY_SIZE));
    test("check: a group less", is_no(casm_check(changed, longer, body, BODY_SIZE, 0, 7), BODY_SIZE));
    test("check: a shorter group", is_no(casm_check(body, BODY_SIZE, M, M_SIZE, 0, 7), 7));
    test("check: nothing came back", is_no(casm_check(body, BODY_SIZE, 0, 0, 0, 7), 0));
}

static void test_check_refused(void) {
    unsigned char changed[BODY_SIZE];
    memcpy(changed, body, BODY_SIZE);
    test("check: the body before", is_refused(casm_check(M, 7, body, BODY_SIZE, 0, 7), CASM_CUT_OFF, 0, CASM_BEFORE_BODY));
    changed[LAST_AT + 24] = 200;
    test("check: the body after", is_refused(casm_check(body, BODY_SIZE, changed, BODY_SIZE, 0, 7), CASM_OUT_OF_RANGE, LAST_AT + 24, CASM_AFTER_BODY));
    test("check: before first", is_refused(casm_check(changed, BODY_SIZE, M, 7, 9, 99), CASM_OUT_OF_RANGE, LAST_AT + 24, CASM_BEFORE_BODY));
    test("check: after, then the group", is_refused(casm_check(body, BODY_SIZE, M, 7, 1, 99), CASM_CUT_OFF, 0, CASM_AFTER_BODY));
    test("check: no such group", is_refused(casm_check(body, BODY_SIZE, M, M_SIZE, 1, 99), CASM_BAD_NUMBER, 0, CASM_BEFORE_BODY));
    test("check: no such channel", is_refused(casm_check(body, BODY_SIZE, M, M_SIZE, 0, 4), CASM_NOT_THERE, 0, CASM_BEFORE_BODY));
    test("check: a channel that only the body after has", is_refused(casm_check(M, M_SIZE, body, BODY_SIZE, 0, 7), CASM_NOT_THERE, 0, CASM_BEFORE_BODY));
    test("check: no bytes", is_refused(casm_check(0, 0, 0, 0, 0, 7), CASM_BAD_NUMBER, 0, CASM_BEFORE_BODY));
    test("check: no bytes before", is_refused(casm_check(0, 0, body, BODY_SIZE, 0, 7), CASM_BAD_NUMBER, 0, CASM_BEFORE_BODY));
    test("check: the end marker", is_refused(check_changed(LAST_AT + 26, 1), CASM_OUT_OF_RANGE, LAST_AT + 26, CASM_AFTER_BODY));
    test("check: renumbered as another", is_refused(check_changed(LAST_AT, 3), CASM_CHANNEL_AGAIN, LAST_AT - 8, CASM_AFTER_BODY));
    memcpy(changed, body, BODY_SIZE);
    changed[LAST_AT - 35] = 9;
    test("check: renumbered away from its Cntt", is_refused(casm_check(body, BODY_SIZE, changed, BODY_SIZE, 0, 0), CASM_STRAY_CNTT, CNTT_AT, CASM_AFTER_BODY));
}

static void test_second_check(void) {
    const unsigned long last_at = M_SIZE + SECOND_SIZE + 8;
    unsigned char changed[NEWER_SIZE];
    casm_row row = second_record(7);
    row.bytes[20] = 1, row.bytes[46] = 1;
    memcpy(changed, newer, NEWER_SIZE);
    casm_edit(changed, NEWER_SIZE, 0, 7, row, CASM_KEEP_LOCKED);
    test("second check: what an edit wrote", changed[last_at + 46] == 1 && is_yes(casm_check(newer, NEWER_SIZE, changed, NEWER_SIZE, 0, 7)));
    test("second check: asked for another channel", is_no(casm_check(newer, NEWER_SIZE, changed, NEWER_SIZE, 0, 3), last_at + 20));
    changed[last_at] = 15, changed[last_at + 10] = 1;
    test("second check: renumbered and locked", is_yes(casm_check(newer, NEWER_SIZE, changed, NEWER_SIZE, 0, 7)));
    test("second check: the channel is not looked for after", is_refused(casm_check(newer, NEWER_SIZE, changed, NEWER_SIZE, 0, 15), CASM_NOT_THERE, 0, CASM_BEFORE_BODY));
    changed[last_at - 8 - 1] = 1;
    test("second check: the last byte of the record before", is_no(casm_check(newer, NEWER_SIZE, changed, NEWER_SIZE, 0, 7), last_at - 8 - 1));
    memcpy(changed, newer, NEWER_SIZE);
    changed[NEWER_SIZE - 1] = 'C';
    test("second check: a name behind", is_no(casm_check(newer, NEWER_SIZE, changed, NEWER_SIZE, 0, 7), NEWER_SIZE - 1));
    test("second check: a group less", is_no(casm_check(newer, NEWER_SIZE, newer, NEWER_GROUP, 0, 7), NEWER_GROUP));
    test("second check: a group without records", is_refused(casm_check(newer, NEWER_SIZE, newer, NEWER_SIZE, 1, 7), CASM_NOT_THERE, 0, CASM_BEFORE_BODY));
    test("second check: of another edition", is_no(casm_check(newer, NEWER_SIZE, body, BODY_SIZE, 0, 7), 7));
    unsigned char both[BODY_SIZE + NEWER_SIZE];
    unsigned long size = joined(both, newer, NEWER_SIZE, body, BODY_SIZE);
    test("second check: of both editions", is_refused(casm_check(newer, NEWER_SIZE, both, size, 0, 7), CASM_OTHER_EDITION, NEWER_SIZE, CASM_AFTER_BODY));
}

/* A style file: the head of the example of `list`, the body in its CASM, and a section of two bytes behind. `moved` has that section before its CASM. */
#define OTHER_SECTION "OTSc\0\0\0\2\1\2"
enum { OTHER_SIZE = 10, FILE_BODY = STYLE_TAG + 8, OTHER_AT = FILE_BODY + BODY_SIZE, FILE_SIZE = OTHER_AT + OTHER_SIZE };
static unsigned char whole[FILE_SIZE], moved[FILE_SIZE];

static void prepare_files(void) {
    const unsigned char head[8] = {'C', 'A', 'S', 'M', 0, 0, 0, BODY_SIZE};
    memcpy(whole, style, STYLE_TAG);
    memcpy(whole + STYLE_TAG, head, 8);
    memcpy(whole + FILE_BODY, body, BODY_SIZE);
    memcpy(whole + OTHER_AT, OTHER_SECTION, OTHER_SIZE);
    memcpy(moved, style, STYLE_TAG);
    memcpy(moved + STYLE_TAG, OTHER_SECTION, OTHER_SIZE);
    memcpy(moved + STYLE_TAG + OTHER_SIZE, whole + STYLE_TAG, 8 + BODY_SIZE);
}

static casm_checked check_file_changed(unsigned long at, unsigned char value) {
    unsigned char changed[FILE_SIZE];
    memcpy(changed, whole, FILE_SIZE);
    changed[at] = value;
    return casm_check_files(whole, FILE_SIZE, changed, FILE_SIZE, 0, 7);
}

static void test_check_files(void) {
    prepare_files();
    test("check files: against itself", is_yes(casm_check_files(whole, FILE_SIZE, whole, FILE_SIZE, 0, 7)));
    test("check files: the record", is_yes(check_file_changed(FILE_BODY + LAST_AT + 24, 100)));
    test("check files: renumbered", is_yes(check_file_changed(FILE_BODY + LAST_AT, 15)));
    test("check files: locked", is_yes(check_file_changed(FILE_BODY + LAST_AT + 10, 1)));
}

static void test_check_files_unlike(void) {
    unsigned char longer[FILE_SIZE + 8];
    test("check files: the file's head", is_no(check_file_changed(STYLE_TAG - 13, 1), STYLE_TAG - 13));
    test("check files: a name", is_no(check_file_changed(FILE_BODY + M_SIZE - 1, 'B'), FILE_BODY + M_SIZE - 1));
    test("check files: a Cntt", is_no(check_file_changed(FILE_BODY + CNTT_AT + 9, 0x84), FILE_BODY + CNTT_AT + 9));
    test("check files: another section's tag", is_no(check_file_changed(OTHER_AT, 'o'), OTHER_AT));
    test("check files: the last byte", is_no(check_file_changed(FILE_SIZE - 1, 0), FILE_SIZE - 1));
    test("check files: the sections in another order", is_no(casm_check_files(whole, FILE_SIZE, moved, FILE_SIZE, 0, 7), STYLE_TAG));
    unsigned long size = joined(longer, whole, FILE_SIZE, bytes("MHhd\0\0\0\0"), 8);
    test("check files: a section more", is_no(casm_check_files(whole, FILE_SIZE, longer, size, 0, 7), FILE_SIZE));
    test("check files: a section less", is_no(casm_check_files(whole, FILE_SIZE, whole, OTHER_AT, 0, 7), OTHER_AT));
}

static void test_check_files_refused(void) {
    test("check files: the file before", is_refused(casm_check_files(whole, STYLE_TAG, M, 7, 9, 99), CASM_NO_CASM, STYLE_TAG, CASM_BEFORE_FILE));
    test("check files: the file after", is_refused(casm_check_files(whole, FILE_SIZE, whole, STYLE_TAG, 9, 99), CASM_NO_CASM, STYLE_TAG, CASM_AFTER_FILE));
    test("check files: both files before the bodies", is_refused(casm_check_files(style, STYLE_SIZE, whole, OTHER_AT + 7, 0, 7), CASM_CUT_OFF, OTHER_AT, CASM_AFTER_FILE));
    test("check files: the body before", is_refused(casm_check_files(style, STYLE_SIZE, style, STYLE_SIZE, 0, 7), CASM_CUT_OFF, FILE_BODY + M_SIZE, CASM_BEFORE_BODY));
    test("check files: the body after", is_refused(casm_check_files(whole, FILE_SIZE, style, STYLE_SIZE, 9, 99), CASM_CUT_OFF, FILE_BODY + M_SIZE, CASM_AFTER_BODY));
    moved[FILE_BODY + OTHER_SIZE + LAST_AT + 24] = 200;
    casm_checked checked = casm_check_files(whole, FILE_SIZE, moved, FILE_SIZE, 0, 7);
    test("check files: a body elsewhere", is_refused(checked, CASM_OUT_OF_RANGE, FILE_BODY + OTHER_SIZE + LAST_AT + 24, CASM_AFTER_BODY));
    test("check files: no such group", is_refused(casm_check_files(whole, FILE_SIZE, whole, FILE_SIZE, 1, 99), CASM_BAD_NUMBER, 0, CASM_BEFORE_BODY));
    test("check files: no such channel", is_refused(casm_check_files(whole, FILE_SIZE, whole, FILE_SIZE, 0, 4), CASM_NOT_THERE, 0, CASM_BEFORE_BODY));
    test("check files: no bytes", is_refused(casm_check_files(0, 0, 0, 0, 0, 7), CASM_NOT_A_STYLE_FILE, 0, CASM_BEFORE_FILE));
    test("check files: no bytes after", is_refused(casm_check_files(whole, FILE_SIZE, 0, 0, 0, 7), CASM_NOT_A_STYLE_FILE, 0, CASM_AFTER_FILE));
    test("check files: large numbers", casm_check_files(whole, FILE_SIZE, whole, FILE_SIZE, 1UL << 32, 7).number == CASM_BAD_NUMBER);
}

/* ---- an edit inside a style file */

/* An edit of a copy of a file, in the group that has the part "Main A": refused so, and the file is as it was. */
static int edit_refused(const unsigned char *file, unsigned long size, unsigned char source, casm_row row, unsigned char over, unsigned char number, unsigned long place) {
    unsigned char changed[FILE_SIZE];
    memcpy(changed, file, size);
    casm_answer answer = casm_edit_file(changed, size, bytes("Main A"), 6, source, row, over);
    return answer.number == number && answer.place == place && memcmp(changed, file, size) == 0;
}

/* A part that no group of `whole` has. */
static int no_part(const char *part, unsigned long length) {
    unsigned char changed[FILE_SIZE];
    memcpy(changed, whole, FILE_SIZE);
    casm_answer answer = casm_edit_file(changed, FILE_SIZE, length == 0 ? 0 : bytes(part), length, 7, record(7), CASM_KEEP_LOCKED);
    return answer.number == CASM_NOT_THERE && answer.place == 0 && memcmp(changed, whole, FILE_SIZE) == 0;
}

static void test_edit_file(void) {
    unsigned char changed[FILE_SIZE + 1];
    casm_row row = with_cntt(7, 0xFF, 200);
    row.bytes[18] = 2;
    memcpy(changed, whole, FILE_SIZE);
    changed[FILE_SIZE] = 0xEE;
    casm_answer answer = casm_edit_file(changed, FILE_SIZE, bytes("Main A"), 6, 7, row, CASM_KEEP_LOCKED);
    test("edit file: accepted, its Cntt not looked at", answer.number == CASM_ACCEPTED && answer.place == 0);
    test("edit file: what is behind is not lent", changed[FILE_SIZE] == 0xEE);
    test("edit file: the byte is there", changed[FILE_BODY + LAST_AT + 18] == 2);
    test("edit file: a check says yes", is_yes(casm_check_files(whole, FILE_SIZE, changed, FILE_SIZE, 0, 7)));
    unsigned char alone[BODY_SIZE];
    memcpy(alone, body, BODY_SIZE);
    casm_edit(alone, BODY_SIZE, 0, 7, row, CASM_KEEP_LOCKED);
    test("edit file: as in the body alone", memcmp(changed + FILE_BODY, alone, BODY_SIZE) == 0);
    changed[FILE_BODY + LAST_AT + 18] = 0;
    test("edit file: and no other byte changed", memcmp(changed, whole, FILE_SIZE) == 0);
    const unsigned long later = FILE_BODY + OTHER_SIZE;
    prepare_files();
    memcpy(changed, moved, FILE_SIZE);
    answer = casm_edit_file(changed, FILE_SIZE, bytes("Main A"), 6, 7, row, CASM_KEEP_LOCKED);
    test("edit file: a body elsewhere", answer.number == CASM_ACCEPTED && changed[later + LAST_AT + 18] == 2);
    changed[later + LAST_AT + 18] = 0;
    test("edit file: and no other byte changed there", memcmp(changed, moved, FILE_SIZE) == 0);
}

static void test_edit_file_refused(void) {
    unsigned char changed[FILE_SIZE];
    casm_row row = record(7), bad = record(7), unlike = second_record(7);
    bad.bytes[24] = unlike.bytes[24] = 200;
    test("edit file: no section at all", edit_refused(whole, STYLE_TAG, 9, bad, 0, CASM_NO_CASM, STYLE_TAG));
    test("edit file: a section cut off behind", edit_refused(whole, OTHER_AT + 7, 9, bad, 0, CASM_CUT_OFF, OTHER_AT));
    test("edit file: the body, at its place in the file", edit_refused(style, STYLE_SIZE, 9, bad, 0, CASM_CUT_OFF, FILE_BODY + M_SIZE));
    memcpy(changed, moved, FILE_SIZE);
    changed[FILE_BODY + OTHER_SIZE + LAST_AT + 24] = 200;
    test("edit file: a body elsewhere, at its place", edit_refused(changed, FILE_SIZE, 9, bad, 0, CASM_OUT_OF_RANGE, FILE_BODY + OTHER_SIZE + LAST_AT + 24));
    test("edit file: no such part", no_part("Main B", 6) && no_part("Main", 4) && no_part("Main A ", 7));
    test("edit file: no name", no_part("", 0));
    test("edit file: no such channel", edit_refused(whole, FILE_SIZE, 9, bad, 0, CASM_NOT_THERE, 0));
    test("edit file: another source channel", edit_refused(whole, FILE_SIZE, 3, unlike, 0, CASM_BAD_NUMBER, 0));
    test("edit file: another edition", edit_refused(whole, FILE_SIZE, 7, unlike, 0, CASM_OTHER_EDITION, 0));
    test("edit file: a byte out of range", edit_refused(whole, FILE_SIZE, 7, bad, 0, CASM_OUT_OF_RANGE, 24));
    casm_answer answer = casm_edit_file(0, 0, 0, 0, 7, row, CASM_OVERRIDE);
    test("edit file: no bytes", answer.number == CASM_NOT_A_STYLE_FILE && answer.place == 0);
}

static void test_edit_file_read_only(void) {
    unsigned char locked[FILE_SIZE], changed[FILE_SIZE];
    casm_row row = record(7), bad = record(7), unlike = second_record(7);
    bad.bytes[24] = 200;
    memcpy(locked, whole, FILE_SIZE);
    locked[FILE_BODY + LAST_AT + 10] = 1;
    test("edit file: read only, though the row is not locked", edit_refused(locked, FILE_SIZE, 7, row, CASM_KEEP_LOCKED, CASM_READ_ONLY, 10));
    test("edit file: read only, before a byte out of range", edit_refused(locked, FILE_SIZE, 7, bad, CASM_KEEP_LOCKED, CASM_READ_ONLY, 10));
    test("edit file: read only, after another edition", edit_refused(locked, FILE_SIZE, 7, unlike, CASM_KEEP_LOCKED, CASM_OTHER_EDITION, 0));
    test("edit file: 2 does not override", edit_refused(locked, FILE_SIZE, 7, row, 2, CASM_READ_ONLY, 10));
    test("edit file: 255 does not override", edit_refused(locked, FILE_SIZE, 7, row, 255, CASM_READ_ONLY, 10));
    test("edit file: a byte out of range all the same", edit_refused(locked, FILE_SIZE, 7, bad, CASM_OVERRIDE, CASM_OUT_OF_RANGE, 24));
    memcpy(changed, locked, FILE_SIZE);
    casm_answer answer = casm_edit_file(changed, FILE_SIZE, bytes("Main A"), 6, 7, row, CASM_OVERRIDE);
    test("edit file: overridden, and the lock is gone", answer.number == CASM_ACCEPTED && memcmp(changed, whole, FILE_SIZE) == 0);
    answer = casm_edit_file(changed, FILE_SIZE, bytes("Main A"), 6, 3, record(3), CASM_KEEP_LOCKED);
    test("edit file: its neighbour is not locked", answer.number == CASM_ACCEPTED && memcmp(changed, whole, FILE_SIZE) == 0);
}

static void test_second_edit_file(void) {
    enum { SIZE = FILE_BODY + NEWER_SIZE, AT = FILE_BODY + M_SIZE + SECOND_SIZE + 8 };
    unsigned char file[SIZE], changed[SIZE];
    memcpy(file, whole, FILE_BODY);
    file[FILE_BODY - 1] = NEWER_SIZE;
    memcpy(file + FILE_BODY, newer, NEWER_SIZE);
    memcpy(changed, file, SIZE);
    casm_row row = second_record(7);
    row.bytes[46] = 1;
    casm_answer answer = casm_edit_file(changed, SIZE, bytes("Main A"), 6, 7, row, CASM_KEEP_LOCKED);
    test("second edit file: accepted", answer.number == CASM_ACCEPTED && memcmp(changed + AT, row.bytes, 47) == 0);
    memcpy(changed + AT, file + AT, 47);
    test("second edit file: and no other byte changed", memcmp(changed, file, SIZE) == 0);
    answer = casm_edit_file(changed, SIZE, bytes("Main A"), 6, 7, record(7), CASM_KEEP_LOCKED);
    test("second edit file: a row of the first", answer.number == CASM_OTHER_EDITION && answer.place == 0);
    row.bytes[37] = 128;
    answer = casm_edit_file(changed, SIZE, bytes("Main A"), 6, 7, row, CASM_KEEP_LOCKED);
    test("second edit file: a byte out of range", answer.number == CASM_OUT_OF_RANGE && answer.place == 37);
    answer = casm_edit_file(changed, SIZE, bytes("Main B"), 6, 7, row, CASM_KEEP_LOCKED);
    test("second edit file: a group without records", answer.number == CASM_NOT_THERE && answer.place == 0);
    test("second edit file: refused, the file is as it was", memcmp(changed, file, SIZE) == 0);
}

int main(void) {
    test("the version", CASM_VERSION == 4002);
    prepare();
    test_find();
    test_section_at();
    test_body();
    test_part();
    test_group();
    test_channel();
    test_site_at();
    test_site_damaged();
    test_site_refused();
    test_salvage();
    test_entry();
    test_entries();
    test_plays();
    test_voice();
    test_place();
    test_edit();
    test_read_only();
    test_locked_field();
    test_field();
    test_write();
    test_positions();
    test_write_33_rows();
    test_records();
    test_rows();
    test_limits();
    test_large_numbers();
    test_second_reading();
    test_second_refusals();
    test_both_editions();
    test_second_rows();
    test_mixed_rows();
    test_second_edit();
    test_second_field();
    test_second_place();
    test_second_limit();
    test_check();
    test_check_unlike();
    test_check_refused();
    test_second_check();
    test_check_files();
    test_check_files_unlike();
    test_check_files_refused();
    test_edit_file();
    test_edit_file_refused();
    test_edit_file_read_only();
    test_second_edit_file();
    printf("%d tests of the header, %d failed\n", tests, failed);
    return failed != 0;
}
