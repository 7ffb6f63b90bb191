/* The CASM library for C, on x86-64 Linux: `rt lib` in crates/c_export_c proves it; bench/kit.sh keeps it as target/staticlib/libc_export.a.
 *
 * Every call takes every input: no number, length or content of what is lent is wrong, and what cannot be done is refused.
 * An answer carries a number and a place. Number 0 accepts, at place 0. Any other number refuses; then every other field of the answer is 0
 * and lent memory is as it was. Two fields are not 0 then: `held` of casm_field is the record as it was, because the editing screen goes on
 * showing it, and `which` of casm_check and casm_check_files says which of the two that were lent is refused.
 * A place is counted from the start of the bytes that were lent; in a record that is handed over it is the byte of the record.
 *
 *    1  not a style file                            11  a Cntt without its Ctab
 *    2  a chunk is cut off                          12  more than 32 groups
 *    3  a file or a body over its limit             13  a part name seen in an earlier group
 *    4  a section tag seen before                   14  what is lent is too small for the answer
 *    5  no CASM section                             15  no such part, or no such channel in the group
 *    6  a tag that may not stand there              16  a number out of range
 *    7  a Ctab not of 27 bytes, a Ctb2 not of 47,   17  root fixed, and the table is not bypass; or rule 2
 *       or a Cntt not of 2                          18  the positions of the Cntts are wrong
 *    8  a rule on an Sdec's text is broken          21  another edition: a group than the first with records, a record to
 *    9  a byte out of its range                         be written than the first, or an edit's than the one in the body
 *   10  a channel's second Ctab, Ctb2 or Cntt       22  read only: the record is locked
 *
 * What a caller owes, since C checks none of it: a pointer and its length name memory that is there for the whole call, that nothing
 * else writes meanwhile and, where it is lent to be written (no const), that overlaps nothing else that is lent to the same call.
 * Where the length is 0 the pointer is not looked at: NULL will do. Elsewhere it may not be NULL.
 *
 * No call keeps a pointer, and none allocates memory, reads or writes files, or has a state of its own. So every call is thread-safe: calls
 * may run at the same time, on the same bytes too where none of them writes these. CASM_MAX_STACK bytes of stack are enough for any call:
 * this is measured (bench/run prints it for each) and not proved.
 *
 * `unsigned long` is size_t here and `unsigned char` uint8_t. The header needs no other header; C99 and C++ take it. */
#ifndef CASM_H
#define CASM_H

/* The version of this header and of the archive that belongs to it. With the same major number nothing that stands here changes: no name,
 * no field, no size, no number, and no answer to any input. A minor number adds calls or constants. CASM_VERSION is both, to compare with.
 * 2.0: Cntts are read in any order, 18 is new, and a row has an edition and a position. casm_place always gives a note: `silent` is gone.
 * 3.0: The second edition (Ctb2) is read, written, edited, placed and salvaged, and 21 is new. To come over from 2.0, compile anew, and
 *  - set the `edition` of each row that you make: 2.0 did not look at it, and now 2 says that all 47 bytes are used;
 *  - look at the `edition` of each row and of each group that you get: bytes 20-46 mean something else in the second edition, which has no Cntts;
 *  - walk from record to record by 8 + CASM_FIRST_SIZE or 8 + CASM_SECOND_SIZE bytes, as the group's edition says;
 *  - lend casm_write CASM_MAX_GROUP_SIZE bytes, which are more than they were, if you counted on them being enough;
 *  - expect 21 where a body, a row to write or a row to edit is of another edition than it must be.
 *    A body of the first edition is answered as before, and so is a row whose edition is not 2.
 * 4.0: Read only means read only: casm_edit has a last argument, and 22 is new. To come over from 3.0, compile anew, and
 *  - say in each casm_edit whether a lock is overridden: CASM_OVERRIDE for what must change a record whatever its byte 10, as a batch does,
 *    which is answered as 3.0 answered, or CASM_KEEP_LOCKED;
 *  - expect 22 from casm_edit with CASM_KEEP_LOCKED where byte 10 of the record in the body is 01, and from casm_field where that of the row is,
 *    for every index but 10: a lock is taken off by setting byte 10 to 00.
 * 4.1: What other editors return is checked: casm_check and casm_check_files are new, and the constants of their `which`. What is refused can be shown
 *    to people: casm_section_at, casm_entry and casm_site_at are new, and casm_site. These are added and nothing else changes: what uses 4.0 stays
 *    as it is.
 * 4.2: A record is edited inside a whole style file: casm_edit_file is new. It is added and nothing else changes: what uses 4.1 stays as it is. */
#define CASM_VERSION_MAJOR 4
#define CASM_VERSION_MINOR 2
#define CASM_VERSION (1000 * CASM_VERSION_MAJOR + CASM_VERSION_MINOR)

/* The numbers of refusal. */
#define CASM_ACCEPTED 0
#define CASM_NOT_A_STYLE_FILE 1
#define CASM_CUT_OFF 2
#define CASM_OVER_LIMIT 3
#define CASM_TAG_AGAIN 4
#define CASM_NO_CASM 5
#define CASM_BAD_TAG 6
#define CASM_BAD_SIZE 7
#define CASM_BAD_TEXT 8
#define CASM_OUT_OF_RANGE 9
#define CASM_CHANNEL_AGAIN 10
#define CASM_STRAY_CNTT 11
#define CASM_TOO_MANY_GROUPS 12
#define CASM_NAME_AGAIN 13
#define CASM_NO_ROOM 14
#define CASM_NOT_THERE 15
#define CASM_BAD_NUMBER 16
#define CASM_ROOT_FIXED 17
#define CASM_BAD_POSITIONS 18
#define CASM_OTHER_EDITION 21
#define CASM_READ_ONLY 22

/* The limits, and what is enough for any answer. */
#define CASM_MAX_FILE 1048576    /* bytes of a style file */
#define CASM_MAX_BODY 32768      /* bytes of a CASM body */
#define CASM_MAX_GROUPS 32       /* groups of a body */
#define CASM_MAX_GROUP_SIZE 1151 /* bytes of a group that casm_write writes: 16 for two headers, a text, and 55 for each record (45 in the first edition) */
#define CASM_MAX_RECORDS 16      /* records of a group */
#define CASM_MAX_TEXT 255        /* bytes of an Sdec's text */
#define CASM_MAX_NAME 16         /* bytes of a part name */
#define CASM_MAX_LIST 24576      /* numbers of a salvage list, three an entry */
#define CASM_MAX_STACK 4096      /* bytes of stack of a call */
#define CASM_ROW_SIZE 51         /* bytes of a record in a flat table */
#define CASM_KEEP_LOCKED 0       /* what casm_edit and casm_edit_file are asked to do with a locked record: to refuse it, .. */
#define CASM_OVERRIDE 1          /* .. or to change it all the same */
#define CASM_FIRST_EDITION 1     /* the edition of a row or a group (Ctab), .. */
#define CASM_FIRST_BYTES 26      /* .. how many of a row's bytes it uses, .. */
#define CASM_FIRST_SIZE 27       /* .. and how many its Ctab has behind its tag and length: the end marker is one more */
#define CASM_SECOND_EDITION 2    /* the other edition (Ctb2), .. */
#define CASM_SECOND_BYTES 47     /* .. the same of it .. */
#define CASM_SECOND_SIZE 47      /* .. and of its Ctb2 */
#define CASM_NEITHER 0           /* which of the two that are checked is refused: neither, where the call accepts, .. */
#define CASM_BEFORE_FILE 1       /* .. the file before, in which no CASM section is found, .. */
#define CASM_AFTER_FILE 2        /* .. the file after, .. */
#define CASM_BEFORE_BODY 3       /* .. the body before, or what is asked of it, .. */
#define CASM_AFTER_BODY 4        /* .. or the body after */

#ifdef __cplusplus
extern "C" {
#endif

/* Accepted or refused. */
typedef struct {
    unsigned char number;
    unsigned long place;
} casm_answer;

/* How many groups, records or entries. */
typedef struct {
    unsigned char number;
    unsigned long place;
    unsigned long count;
} casm_count;

/* How many bytes were written, or how long a section's body or a group is. */
typedef struct {
    unsigned char number;
    unsigned long place;
    unsigned long length;
} casm_length;

/* The CASM section of a style file: the place of its tag and the length of its body, which stands 8 bytes behind the tag's place. */
typedef struct {
    unsigned char number;
    unsigned long place;
    unsigned long tag;
    unsigned long length;
} casm_section;

/* The number of the group that has a part; groups are numbered from 0. */
typedef struct {
    unsigned char number;
    unsigned long place;
    unsigned long group;
} casm_holder;

/* Where a group stands in its body: the place of its tag and its size with the header; the place and length of its Sdec's text;
 * the place of its first Ctab or Ctb2 and how many it has; the place of its first Cntt, behind the last of these, and how many it has;
 * and its edition, CASM_FIRST_EDITION or CASM_SECOND_EDITION, or 0 for a group without records. */
typedef struct {
    unsigned char number;
    unsigned long place;
    unsigned long at;
    unsigned long size;
    unsigned long text_at;
    unsigned long text_length;
    unsigned long records_at;
    unsigned long records;
    unsigned long cntts_at;
    unsigned long cntts;
    unsigned char edition;
} casm_bounds;

/* The record of a source channel in a group: its number among the group's records, counted from 0 as they stand, and the place of its byte 0
 * in the body. The record's bytes 0-25 stand there, and behind them the end marker; in the second edition its bytes 0-46. */
typedef struct {
    unsigned char number;
    unsigned long place;
    unsigned long record;
    unsigned long at;
} casm_position;

/* What stands at a place of a body: the number of the group; the number of the chunk in the group, whose own header is number 0, its Sdec 1, its
 * records from 2 on and its Cntts behind them; and the place of the chunk's tag. So in a record its number is child - 2, and the byte of the record is
 * the place that was asked for - chunk - 8. */
typedef struct {
    unsigned char number;
    unsigned long place;
    unsigned long group;
    unsigned long child;
    unsigned long chunk;
} casm_site;

/* A part of the lent bytes. */
typedef struct {
    unsigned char number;
    unsigned long place;
    unsigned long start;
    unsigned long length;
} casm_span;

/* The source channels that play, as their records stand; places past the count are 0. */
typedef struct {
    unsigned char number;
    unsigned long place;
    unsigned long count;
    unsigned char channels[16];
} casm_players;

/* The note. */
typedef struct {
    unsigned char number;
    unsigned long place;
    unsigned char note;
} casm_note;

/* A channel record: its edition, CASM_SECOND_EDITION for the second, and any other number for the first; its bytes, of which a record of the first
 * edition uses the first 26, bytes 0-25 of its Ctab, and one of the second all 47, those of its Ctb2; `has_cntt`, 0 where it has no Cntt, and
 * anything else where `cntt` is the Cntt's value; and the Cntt's position, its number among the group's Cntts, from 1, or 0 for none.
 * What an edition does not use is not looked at: the other 21 bytes in the first, and in the second `has_cntt`, `cntt` and `position`.
 * It comes back with `edition` CASM_FIRST_EDITION or CASM_SECOND_EDITION, what that edition does not use 0, `has_cntt` 0 or 1, and `cntt` 0 where
 * there is no Cntt. Only casm_write looks at the position. A flat table is an array of rows. */
typedef struct {
    unsigned char edition;
    unsigned char bytes[47];
    unsigned char has_cntt;
    unsigned char cntt;
    unsigned char position;
} casm_row;

/* A row is its 51 bytes and nothing between them, or this does not compile. */
typedef char casm_row_has_its_size[sizeof(casm_row) == CASM_ROW_SIZE ? 1 : -1];

/* A record after one field byte of it was set; on refusal the record as it was, to be shown on. */
typedef struct {
    unsigned char number;
    unsigned long place;
    casm_row held;
} casm_edited;

/* Whether two bodies, or two style files, are alike but for one record: `yes` is 1 where they are. Where it is 0 and number is 0, the answer is no, and
 * `unlike` is the first place outside the record at which they have different bytes, or the end of the shorter where there is none before it;
 * for a yes it is 0. On refusal `which` is CASM_BEFORE_FILE, CASM_AFTER_FILE, CASM_BEFORE_BODY or CASM_AFTER_BODY, else CASM_NEITHER. */
typedef struct {
    unsigned char number;
    unsigned long place;
    unsigned char which;
    unsigned char yes;
    unsigned long unlike;
} casm_checked;

/* Finds the CASM section of a style file. No group is read. Where it is found, tag + 8 + length is at most file_length.
 * Refusals: 3, 1; per section 2, 4; then 5, 3. */
casm_section casm_find(const unsigned char *file, unsigned long file_length);

/* A section of a style file by the place of its tag, the leading MThd (at 0) and MTrk (at 14) too: the length of its body. The next one stands 8 and so
 * many bytes on: so a caller walks a file from 0 to its end. Nothing else is judged, no limit and no tag: casm_find judges the file as a whole.
 * `tag` may be any number.
 * Refusals: 2, at `tag`, where fewer than 8 bytes are left there for tag and length, or the length passes the file's end. */
casm_length casm_section_at(const unsigned char *file, unsigned long file_length, unsigned long tag);

/* Reads a body strictly: how many groups it has.
 * Refusals: 3; per group 2, 6, 2, 12, then of what is in it 6, 2, 6, 2, 7, 8, 9, 10, 11, then 21, 13. Below they are "the body's".
 * 21 stands at the tag of a group whose records are of another edition than those of the first group with records. A group without records suits either. */
casm_count casm_body(const unsigned char *body, unsigned long body_length);

/* The group that has a part of this name.
 * Refusals: the body's; 15. */
casm_holder casm_part(const unsigned char *body, unsigned long body_length, const unsigned char *part, unsigned long part_length);

/* Where a group and its parts stand.
 * Refusals: the body's; 16 where there is no such group. */
casm_bounds casm_group(const unsigned char *body, unsigned long body_length, unsigned long group);

/* Where the record of a group's source channel stands.
 * Refusals: the body's; 16 where there is no such group; 15. */
casm_position casm_channel(const unsigned char *body, unsigned long body_length, unsigned long group, unsigned char source);

/* What stands at a place of a body, or of an entry of its salvage list, sound or damaged, by the lengths that stand before it. So the place at which
 * one is refused is told as group, record and byte: all before it is sound, and groups and records have the numbers that the other calls give them.
 * A chunk begins at 0. CSEG where a chunk begins is a group's header, and the next chunk begins 8 bytes on, within the group; any other chunk is passed
 * over whole, by its length. So a group lasts until the next CSEG: what is loose behind it counts as more chunks of it. Chunks before the first CSEG have
 * group 0, and are numbered from 0 on.
 * Refusals: 3; 16, at 0, where `place` is not below body_length. */
casm_site casm_site_at(const unsigned char *body, unsigned long body_length, unsigned long place);

/* Fills `list` with the salvage list of a body, sound or damaged: three numbers an entry (place, length, kind), numbers past the last
 * entry kept. list_length counts numbers, not entries. CASM_MAX_LIST numbers are enough for any body. Each group is taken by itself, so that
 * the list may show groups of both editions, and no kind is 12, 13 or 21.
 * Refusals: 3; 14. */
casm_count casm_salvage(const unsigned char *body, unsigned long body_length, unsigned long *list, unsigned long list_length);

/* An entry of a salvage list by its bytes alone: the size of the group that stands at its start, with the header. An entry of a list that casm_salvage
 * filled is answered with its kind as number: so this says where in the entry the refusal stands, counted from the entry's start.
 * Refusals: 3; 6, at 0, for bytes that do not begin with CSEG, which are loose, and for none at all; then a group's, 2, and of what is in it
 * 6, 2, 6, 2, 7, 8, 9, 10, 11. */
casm_length casm_entry(const unsigned char *entry, unsigned long entry_length);

/* Who plays for a part under a chord root (0-11, C is 0) and a chord type (0-33).
 * Refusals: the body's; 16 for root or type; 15. */
casm_players casm_plays(
    const unsigned char *body, unsigned long body_length, const unsigned char *part, unsigned long part_length, unsigned char root, unsigned char type);

/* Where in the body the voice name of a group's source channel stands, its trailing spaces left off.
 * Refusals: the body's; 16 where there is no such group; 15. */
casm_span casm_voice(const unsigned char *body, unsigned long body_length, unsigned long group, unsigned char source);

/* The note that a record gives for a note (0-127) under a chord root (0-11). Where no octave of it lies within the record's limits, which may be
 * crossed, it is the octave within 0 to 127 that is nearest to the low limit, the lower of two equally near. A record of the second edition places
 * a note below its byte 20 by its low set (bytes 22-27), else one above its byte 21 by its high set (34-39), and any other by its middle set (28-33).
 * Refusals: 16 for root or note; 9 for a byte of the record, used for this note or not, at its place (a bad Cntt value counts as byte 21); 17,
 * which a set of rule 2 always gives. */
casm_note casm_place(casm_row row, unsigned char root, unsigned char note);

/* Replaces the record of a group and source channel inside a body: only that Ctab's 27 bytes, or that Ctb2's 47, change. A Cntt in `row` is
 * neither read nor checked, nor is its position.
 * Refusals: the body's; 16 where there is no such group; 15; 16 for another source channel in `row`; 21, at 0, where `row` is of another edition
 * than the group; 22, at 10, where byte 10 of the record in the body is 01, whatever that of `row`, unless `over` is CASM_OVERRIDE (any other
 * number is as CASM_KEEP_LOCKED); 9, at the byte of the record. */
casm_answer casm_edit(
    unsigned char *body, unsigned long body_length, unsigned long group, unsigned char source, casm_row row, unsigned char over);

/* casm_edit inside a style file, in the group that has a part of this name: only that record's bytes change, and every other section, group and record
 * stays as it is, byte for byte. So casm_check_files answers yes, for that group and channel.
 * Refusals: casm_find's; the body's, at the place counted from the start of the file, from its CASM tag's place + 8 on; 15, at 0, where no group has the
 * part; 15, at 0, where that group has no such channel; then casm_edit's: 16 and 21 at 0, 22 at 10, and 9 at the byte of the record. */
casm_answer casm_edit_file(
    unsigned char *file, unsigned long file_length, const unsigned char *part, unsigned long part_length, unsigned char source, casm_row row,
    unsigned char over);

/* Checks what another editor returned. It is yes exactly when both bodies are readable, equally long, and differ in no byte outside the record of
 * that group and source channel of `before`: the 27 bytes of its Ctab, or the 47 of its Ctb2, without tag and length. So what casm_edit wrote is
 * a yes, and an unchanged body too. No is an accepted answer: look at `yes`, and not at `number` alone.
 * Within the record any byte may have changed, if only `after` reads: its source channel (byte 0) and its lock (byte 10) too. So "changed one channel"
 * can mean renumbered. Where that matters, look at these two: casm_channel says where they stand in `before`, and they stand there in `after`.
 * The group and the channel are looked for in `before` alone.
 * Refusals: the body's, of `before`, then of `after`; then of `before`, at 0, 16 where there is no such group; 15. `which` is CASM_BEFORE_BODY or
 * CASM_AFTER_BODY. */
casm_checked casm_check(
    const unsigned char *before, unsigned long before_length, const unsigned char *after, unsigned long after_length, unsigned long group,
    unsigned char source);

/* casm_check of two style files: all bytes of the two are compared but those of that record, the other sections too. Places, `unlike` among
 * them, are counted from the start of the file: in a body, from its CASM tag's place + 8 on. 16 and 15 stand at 0.
 * Refusals: casm_find's, of `before`, then of `after`, `which` being CASM_BEFORE_FILE or CASM_AFTER_FILE; then casm_check's. */
casm_checked casm_check_files(
    const unsigned char *before, unsigned long before_length, const unsigned char *after, unsigned long after_length, unsigned long group,
    unsigned char source);

/* One byte (index 0-25, or 0-46 in the second edition) of a record set to a value, all others kept, and its Cntt with its position.
 * Only the value is judged, a set's table by the rule that the record then has (over 2 counts as 0): so a rule 2 may be set over a table that
 * it does not allow, and casm_write, casm_edit, casm_edit_file and casm_place then answer 9 at that table.
 * Of a row whose byte 10 is 01, byte 10 alone is set: nothing is overridden here.
 * Refusals: 16 for the index; 22, at 10, where byte 10 of the row is 01 and the index is not 10; 9 for the value, at the index. */
casm_edited casm_field(casm_row row, unsigned long index, unsigned char value);

/* Writes one group at the start of `out`, from its Sdec's text and the first `count` records of a flat table; later bytes are kept.
 * The Cntts stand by their positions.
 * flat_length counts bytes: the table has flat_length / 51 records, however many, and bytes left over are not looked at.
 * Refusals: 16 where the count is above that; 8; per record 21 where it is of another edition than the first, 9, 10, at 27 times its number
 * plus the byte, or 47 times where the first is of the second edition; 18 unless each of these records without a Cntt has position 0 and the others
 * have 1 to their number, each once; 14. */
casm_length casm_write(
    const unsigned char *text, unsigned long text_length, const unsigned char *flat, unsigned long flat_length, unsigned long count, unsigned char *out,
    unsigned long out_length);

/* Fills a flat table with the records of a group and answers how many there are; later bytes are kept. flat_length counts bytes: there
 * is room for flat_length / 51 records, and CASM_MAX_RECORDS are enough for any group.
 * Refusals: the body's; 16 where there is no such group; 14. */
casm_count casm_records(const unsigned char *body, unsigned long body_length, unsigned long group, unsigned char *flat, unsigned long flat_length);

/* casm_write from `count` rows. Refusals: casm_write's; 16 only for a count of rows that no memory holds. */
static inline casm_length casm_write_rows(
    const unsigned char *text, unsigned long text_length, const casm_row *rows, unsigned long count, unsigned char *out, unsigned long out_length) {
    return casm_write(text, text_length, (const unsigned char *)rows, count * CASM_ROW_SIZE, count, out, out_length);
}

/* casm_records into room for `room` rows. */
static inline casm_count casm_read_rows(const unsigned char *body, unsigned long body_length, unsigned long group, casm_row *rows, unsigned long room) {
    return casm_records(body, body_length, group, (unsigned char *)rows, room * CASM_ROW_SIZE);
}

#ifdef __cplusplus
}
#endif

#endif
