/* script: answers each line of a script on standard input through the calls of casm.h, as the proved program `calls` does through the face's.
 * The gate compares its answers with the second program's, since what C makes of the header (the order of fields, what a length counts, what is lent) is shown
 * by no proof. It has no rule of its own: a line is taken apart, one call is made (for `group` two), and what came back is printed.
 *
 * Tokens are separated by one space. BYTES are `-`, or parts joined by `+`: pairs of hex digits, or such pairs, `*` and how often. REC is 52 hex digits, `:`,
 * two more or `-`, the Cntt, `:` and its position; or, of the second edition, 94 hex digits. Numbers are decimal and below 2^32. A line that breaks this is
 * answered `bad`. Each verb has its tokens above it.
 *
 * Lent memory is exactly as long as the line says, and ends where a page begins that cannot be touched: a call that looks past the end stops the program.
 * Where nothing is lent the pointer is NULL.
 * .ci/script builds this. The kit's clang comes without the headers of the C library, so what is used of it is declared here. */
#include "casm.h"

long read(int from, void *into, unsigned long count);
long write(int to, const void *from, unsigned long count);
int mprotect(void *start, unsigned long length, int allowed);
void *memcpy(void *to, const void *from, unsigned long count);
void *memmove(void *to, const void *from, unsigned long count);
void *memset(void *to, int value, unsigned long count);
void *memchr(const void *in, int value, unsigned long count);
int memcmp(const void *one, const void *other, unsigned long count);
unsigned long strlen(const char *text);
void _exit(int status);

enum {
    LINE = 2200000,  /* characters of a line; a longer one is bad */
    HELD = 1048577,  /* bytes of a token, a byte more than a style file may have */
    RECORDS = 32,    /* records that may be lent */
    ROOM = 2048,     /* bytes that may be lent to `write` */
    ENTRIES = 8192,  /* entries that may be lent to `salvage`, three numbers each */
    PAGE = 65536     /* as large as pages are, also where the emulator runs this */
};

/* What lent memory holds before a call. A lent record has no Cntt, and its last byte is not looked at. */
enum { OF_RECORD = 0xEE, OF_BUFFER = 0xAA, OF_ENTRY = 7 };

/* -- Lent memory -- */

typedef struct {
    unsigned char *at;
    unsigned long length;
} Lent;

/* Room for the longest of each kind, and where it ends: there its page begins that cannot be touched. */
static unsigned char body_room[HELD + 2 * PAGE], name_room[HELD + 2 * PAGE], table_room[RECORDS * CASM_ROW_SIZE + 2 * PAGE];
static unsigned long list_room[3 * ENTRIES + 2 * PAGE / sizeof(unsigned long)];
static unsigned char *body_end, *name_end, *table_end, *list_end;

static unsigned char *fenced(void *room, unsigned long longest) {
    unsigned char *end = (unsigned char *)room + longest;
    while ((unsigned long)end % PAGE != 0)
        end++;
    if (mprotect(end, PAGE, 0) != 0)
        _exit(2);
    return end;
}

/* Where the length is 0, NULL will do. */
static Lent lend(unsigned char *end, unsigned long length) {
    Lent lent = {length == 0 ? 0 : end - length, length};
    return lent;
}

/* -- Printing -- */

static unsigned char printed[PAGE];
static unsigned long printed_length;

static void flush(void) {
    for (unsigned long done = 0; done < printed_length;) {
        long count = write(1, printed + done, printed_length - done);
        if (count <= 0)
            _exit(2);
        done += (unsigned long)count;
    }
    printed_length = 0;
}

static void print_char(char c) {
    if (printed_length == sizeof printed)
        flush();
    printed[printed_length++] = (unsigned char)c;
}

static void print(const char *text) {
    while (*text != 0)
        print_char(*text++);
}

static void print_digits(unsigned long number) {
    char digits[20];
    int count = 0;
    do
        digits[count++] = (char)('0' + number % 10);
    while ((number /= 10) != 0);
    while (count > 0)
        print_char(digits[--count]);
}

static void print_number(unsigned long number) {
    print_char(' ');
    print_digits(number);
}

static void print_hex(const unsigned char *bytes, unsigned long length) {
    for (unsigned long i = 0; i < length; i++) {
        print_char("0123456789abcdef"[bytes[i] >> 4]);
        print_char("0123456789abcdef"[bytes[i] & 15]);
    }
}

static void print_bytes(const unsigned char *bytes, unsigned long length) {
    print(length == 0 ? " -" : " ");
    print_hex(bytes, length);
}

/* Whether a record that came back has an edition, and what that edition does not use is 0: in the first the other bytes, in the second a Cntt and its position. */
static int unused_is_zero(casm_row row) {
    if (row.edition == CASM_SECOND_EDITION)
        return (row.has_cntt | row.cntt | row.position) == 0;
    for (unsigned long i = CASM_FIRST_BYTES; i < sizeof row.bytes; i++)
        if (row.bytes[i] != 0)
            return 0;
    return row.edition == CASM_FIRST_EDITION;
}

/* A record that came back. Where it is not as casm.h says, it prints as no record: has_cntt is 0 or 1, and cntt 0 where there is none. */
static void print_record(casm_row row) {
    print_bytes(row.bytes, row.edition == CASM_SECOND_EDITION ? CASM_SECOND_BYTES : CASM_FIRST_BYTES);
    if (!unused_is_zero(row))
        print_char('?');
    if (row.edition == CASM_SECOND_EDITION)
        return;
    print_char(':');
    if (row.has_cntt == 1)
        print_hex(&row.cntt, 1);
    else
        print(row.has_cntt == 0 && row.cntt == 0 ? "-" : "?");
    print_char(':');
    print_digits(row.position);
}

static void print_kept(int kept) {
    print(kept ? " kept" : " changed");
}

/* `ok`, or `refused` with number and place; whether it is `ok`. casm.h says more: an accepted answer has place 0, and every other field of a refusal is 0.
 * Where that does not hold, the answer is told otherwise than any that can be right. */
static int told(unsigned char number, unsigned long place, unsigned long others) {
    if (number == 0) {
        print(place == 0 ? "ok" : "ok at a place");
        return 1;
    }
    print("refused");
    print_number(number);
    print_number(place);
    if (others != 0)
        print(" and more");
    return 0;
}

/* -- The tokens of a line -- */

typedef struct {
    const char *at, *end;
} Text;

static unsigned long length_of(Text text) {
    return (unsigned long)(text.end - text.at);
}

/* Whether the last piece was cut off. */
static int ended(const Text *rest) {
    return rest->at == 0;
}

/* Cuts off what stands before the next mark, or all that is left. Whether there was a piece, and it is not empty. */
static int cut(Text *rest, char mark, Text *piece) {
    if (ended(rest))
        return 0;
    const char *found = memchr(rest->at, mark, length_of(*rest));
    piece->at = rest->at;
    piece->end = found == 0 ? rest->end : found;
    rest->at = found == 0 ? 0 : found + 1;
    return length_of(*piece) > 0;
}

static int take(Text *line, Text *token) {
    return cut(line, ' ', token);
}

static int is(Text token, const char *word) {
    return length_of(token) == strlen(word) && memcmp(token.at, word, length_of(token)) == 0;
}

static int decimal(Text token, unsigned long *number) {
    *number = 0;
    for (const char *c = token.at; c < token.end; c++) {
        if (*c < '0' || *c > '9')
            return 0;
        *number = *number * 10 + (unsigned long)(*c - '0');
        if (*number > 0xFFFFFFFF)
            return 0;
    }
    return length_of(token) > 0;
}

static int number(Text *line, unsigned long *found) {
    Text token;
    return take(line, &token) && decimal(token, found);
}

static int number_up_to(Text *line, unsigned long most, unsigned long *found) {
    return number(line, found) && *found <= most;
}

static int byte(Text *line, unsigned char *found) {
    unsigned long wide;
    if (!number_up_to(line, 255, &wide))
        return 0;
    *found = (unsigned char)wide;
    return 1;
}

static int digit(char c) {
    return c >= '0' && c <= '9' ? c - '0' : c >= 'a' && c <= 'f' ? c - 'a' + 10 : -1;
}

/* How many characters at the token's start are hex digits. */
static unsigned long digits_of(Text token) {
    const char *c = token.at;
    while (c < token.end && digit(*c) >= 0)
        c++;
    return (unsigned long)(c - token.at);
}

static void put_pairs(const char *digits, unsigned char *to, unsigned long count) {
    for (unsigned long i = 0; i < count; i++)
        to[i] = (unsigned char)(digit(digits[2 * i]) * 16 + digit(digits[2 * i + 1]));
}

/* Adds a part of BYTES at `to`, where there is room for `room` bytes. */
static int add_part(Text part, unsigned char *to, unsigned long room, unsigned long *added) {
    unsigned long digits = digits_of(part), pairs = digits / 2, times = 1;
    if (digits == 0 || digits % 2 != 0)
        return 0;
    if (digits < length_of(part)) {
        Text count = {part.at + digits + 1, part.end};
        if (part.at[digits] != '*' || !decimal(count, &times))
            return 0;
    }
    *added = pairs * times;
    if (*added > room)
        return 0;
    for (unsigned long done = 0; done < *added; done += pairs)
        put_pairs(part.at, to + done, pairs);
    return 1;
}

/* Takes BYTES, and lends them at the end of a room. */
static int bytes(Text *line, unsigned char *end, Lent *lent) {
    Text token, part;
    if (!take(line, &token))
        return 0;
    if (is(token, "-"))
        token.at = 0; /* no parts */
    unsigned char *start = end - HELD;
    unsigned long length = 0, added;
    while (!ended(&token)) {
        if (!cut(&token, '+', &part) || !add_part(part, start + length, HELD - length, &added))
            return 0;
        length += added;
    }
    memmove(end - length, start, length);
    *lent = lend(end, length);
    return 1;
}

/* The Cntt of a REC of the first edition, and its position. Where there is one, has_cntt is anything but 0; where there is none, cntt is not looked at. */
static int second_table(Text rest, casm_row *row) {
    Text cntt, place;
    unsigned long position;
    if (!cut(&rest, ':', &cntt) || !cut(&rest, ':', &place) || !ended(&rest) || !decimal(place, &position) || position > 255)
        return 0;
    row->position = (unsigned char)position;
    row->has_cntt = 0;
    if (is(cntt, "-"))
        return 1;
    if (length_of(cntt) != 2 || digits_of(cntt) != 2)
        return 0;
    put_pairs(cntt.at, &row->cntt, 1);
    row->has_cntt = row->cntt | 1;
    return 1;
}

/* Takes a REC. Its row keeps OF_RECORD where its edition does not look: so the number of the first edition, too, is one that is not 2. */
static int record(Text *line, casm_row *row) {
    const unsigned long first = 2 * CASM_FIRST_BYTES, second = 2 * CASM_SECOND_BYTES;
    Text token;
    if (!take(line, &token))
        return 0;
    memset(row, OF_RECORD, sizeof *row);
    unsigned long digits = digits_of(token);
    if (digits == second && length_of(token) == second) {
        row->edition = CASM_SECOND_EDITION;
        put_pairs(token.at, row->bytes, CASM_SECOND_BYTES);
        return 1;
    }
    if (digits != first || length_of(token) == first || token.at[first] != ':')
        return 0;
    put_pairs(token.at, row->bytes, CASM_FIRST_BYTES);
    token.at += first + 1;
    return second_table(token, row);
}

/* -- The verbs: each takes its tokens, makes its call and prints the answer; 0 where the line is bad -- */

/* find BYTES */
static int find(Text *line) {
    Lent file;
    if (!bytes(line, body_end, &file) || !ended(line))
        return 0;
    casm_section section = casm_find(file.at, file.length);
    if (told(section.number, section.place, section.tag | section.length)) {
        print_number(section.tag);
        print_number(section.length);
    }
    return 1;
}

/* `ok` and a length, or the refusal. */
static void tell_length(casm_length answer) {
    if (told(answer.number, answer.place, answer.length))
        print_number(answer.length);
}

/* section BYTES AT */
static int section(Text *line) {
    Lent file;
    unsigned long at;
    if (!bytes(line, body_end, &file) || !number(line, &at) || !ended(line))
        return 0;
    tell_length(casm_section_at(file.at, file.length, at));
    return 1;
}

/* body BYTES */
static int body(Text *line) {
    Lent lent;
    if (!bytes(line, body_end, &lent) || !ended(line))
        return 0;
    casm_count groups = casm_body(lent.at, lent.length);
    if (told(groups.number, groups.place, groups.count))
        print_number(groups.count);
    return 1;
}

/* part BYTES NAME */
static int part(Text *line) {
    Lent lent, name;
    if (!bytes(line, body_end, &lent) || !bytes(line, name_end, &name) || !ended(line))
        return 0;
    casm_holder holder = casm_part(lent.at, lent.length, name.at, name.length);
    if (told(holder.number, holder.place, holder.group))
        print_number(holder.group);
    return 1;
}

/* where BYTES G */
static int where(Text *line) {
    Lent lent;
    unsigned long group;
    if (!bytes(line, body_end, &lent) || !number(line, &group) || !ended(line))
        return 0;
    casm_bounds bounds = casm_group(lent.at, lent.length, group);
    const unsigned long fields[] = {bounds.at,      bounds.size,     bounds.text_at, bounds.text_length, bounds.records_at,
                                    bounds.records, bounds.cntts_at, bounds.cntts,   bounds.edition};
    unsigned long others = 0;
    for (int i = 0; i < 9; i++)
        others |= fields[i];
    if (told(bounds.number, bounds.place, others))
        for (int i = 0; i < 9; i++)
            print_number(fields[i]);
    return 1;
}

/* channel BYTES G CHANNEL */
static int channel(Text *line) {
    Lent lent;
    unsigned long group;
    unsigned char source;
    if (!bytes(line, body_end, &lent) || !number(line, &group) || !byte(line, &source) || !ended(line))
        return 0;
    casm_position position = casm_channel(lent.at, lent.length, group, source);
    if (told(position.number, position.place, position.record | position.at)) {
        print_number(position.record);
        print_number(position.at);
    }
    return 1;
}

/* site BYTES PLACE */
static int site(Text *line) {
    Lent lent;
    unsigned long place;
    if (!bytes(line, body_end, &lent) || !number(line, &place) || !ended(line))
        return 0;
    casm_site found = casm_site_at(lent.at, lent.length, place);
    if (told(found.number, found.place, found.group | found.child | found.chunk)) {
        print_number(found.group);
        print_number(found.child);
        print_number(found.chunk);
    }
    return 1;
}

static casm_row row_at(Lent table, unsigned long i) {
    casm_row row;
    memcpy(&row, table.at + i * CASM_ROW_SIZE, sizeof row);
    return row;
}

static void put_row(Lent table, unsigned long i, casm_row row) {
    memcpy(table.at + i * CASM_ROW_SIZE, &row, sizeof row);
}

/* Whether the records from `first` on are as they were lent. */
static int rows_kept(Lent table, unsigned long first, casm_row lent) {
    for (unsigned long i = first; i < table.length / CASM_ROW_SIZE; i++)
        if (memcmp(table.at + i * CASM_ROW_SIZE, &lent, sizeof lent) != 0)
            return 0;
    return 1;
}

/* group BYTES G ROOM. casm_read_rows is casm_records over rows. */
static int group(Text *line) {
    Lent lent;
    unsigned long wanted, room;
    if (!bytes(line, body_end, &lent) || !number(line, &wanted) || !number_up_to(line, RECORDS, &room) || !ended(line))
        return 0;
    casm_row blank;
    memset(&blank, OF_RECORD, sizeof blank);
    blank.has_cntt = 0;
    Lent table = lend(table_end, room * CASM_ROW_SIZE);
    for (unsigned long i = 0; i < room; i++)
        put_row(table, i, blank);
    casm_count records = casm_read_rows(lent.at, lent.length, wanted, (casm_row *)table.at, room);
    if (told(records.number, records.place, records.count)) {
        casm_bounds bounds = casm_group(lent.at, lent.length, wanted);
        print_number(records.count);
        print_bytes(lent.at + bounds.text_at, bounds.text_length);
        for (unsigned long i = 0; i < records.count; i++)
            print_record(row_at(table, i));
    }
    print_kept(rows_kept(table, records.count, blank));
    return 1;
}

/* voice BYTES G CHANNEL */
static int voice(Text *line) {
    Lent lent;
    unsigned long group;
    unsigned char source;
    if (!bytes(line, body_end, &lent) || !number(line, &group) || !byte(line, &source) || !ended(line))
        return 0;
    casm_span span = casm_voice(lent.at, lent.length, group, source);
    if (told(span.number, span.place, span.start | span.length))
        print_bytes(lent.at + span.start, span.length);
    return 1;
}

/* plays BYTES NAME ROOT TYPE */
static int plays(Text *line) {
    Lent lent, name;
    unsigned char root, type;
    if (!bytes(line, body_end, &lent) || !bytes(line, name_end, &name) || !byte(line, &root) || !byte(line, &type) || !ended(line))
        return 0;
    casm_players players = casm_plays(lent.at, lent.length, name.at, name.length, root, type);
    told(players.number, players.place, players.count);
    for (unsigned long i = 0; i < sizeof players.channels; i++)
        if (i < players.count)
            print_number(players.channels[i]);
        else if (players.channels[i] != 0)
            print(" and more");
    return 1;
}

/* place REC ROOT NOTE */
static int place(Text *line) {
    casm_row row;
    unsigned char root, note;
    if (!record(line, &row) || !byte(line, &root) || !byte(line, &note) || !ended(line))
        return 0;
    casm_note placed = casm_place(row, root, note);
    if (told(placed.number, placed.place, placed.note))
        print_number(placed.note);
    return 1;
}

/* write NAMES COUNT ROOM REC .. REC */
static int write_group(Text *line) {
    Lent names;
    unsigned long count, room, records = 0;
    if (!bytes(line, name_end, &names) || !number(line, &count) || !number_up_to(line, ROOM, &room))
        return 0;
    casm_row rows[RECORDS];
    while (!ended(line))
        if (records == RECORDS || !record(line, &rows[records++]))
            return 0;
    Lent table = lend(table_end, records * CASM_ROW_SIZE), buffer = lend(body_end, room);
    for (unsigned long i = 0; i < records; i++)
        put_row(table, i, rows[i]);
    memset(body_end - room, OF_BUFFER, room);
    casm_length written = casm_write(names.at, names.length, table.at, table.length, count, buffer.at, buffer.length);
    tell_length(written);
    print_bytes(buffer.at, buffer.length);
    return 1;
}

/* edit BYTES G CHANNEL REC OVERRIDE */
static int edit(Text *line) {
    Lent lent;
    unsigned long group;
    unsigned char source;
    casm_row row;
    unsigned long over;
    if (!bytes(line, body_end, &lent) || !number(line, &group) || !byte(line, &source) || !record(line, &row) || !number(line, &over) || over > 1 || !ended(line))
        return 0;
    casm_answer answer = casm_edit(lent.at, lent.length, group, source, row, over ? CASM_OVERRIDE : CASM_KEEP_LOCKED);
    told(answer.number, answer.place, 0);
    print_bytes(lent.at, lent.length);
    return 1;
}

/* editfile FILE NAME CHANNEL OVERRIDE REC */
static int edit_file(Text *line) {
    Lent lent, name;
    unsigned char source;
    unsigned long over;
    casm_row row;
    if (!bytes(line, body_end, &lent) || !bytes(line, name_end, &name) || !byte(line, &source) || !number(line, &over) || over > 1 || !record(line, &row) || !ended(line))
        return 0;
    casm_answer answer = casm_edit_file(lent.at, lent.length, name.at, name.length, source, row, over ? CASM_OVERRIDE : CASM_KEEP_LOCKED);
    told(answer.number, answer.place, 0);
    print_bytes(lent.at, lent.length);
    return 1;
}

/* screen REC INDEX VALUE */
static int screen(Text *line) {
    casm_row row;
    unsigned long index;
    unsigned char value;
    if (!record(line, &row) || !number(line, &index) || !byte(line, &value) || !ended(line))
        return 0;
    casm_edited edited = casm_field(row, index, value);
    told(edited.number, edited.place, 0);
    print_record(edited.held);
    return 1;
}

/* salvage BYTES ROOM */
static int salvage(Text *line) {
    Lent lent;
    unsigned long room;
    if (!bytes(line, body_end, &lent) || !number_up_to(line, ENTRIES, &room) || !ended(line))
        return 0;
    unsigned long *list = (unsigned long *)(void *)lend(list_end, 3 * room * sizeof(unsigned long)).at;
    for (unsigned long i = 0; i < 3 * room; i++)
        list[i] = OF_ENTRY;
    casm_count entries = casm_salvage(lent.at, lent.length, list, 3 * room);
    if (told(entries.number, entries.place, entries.count)) {
        print_number(entries.count);
        for (unsigned long i = 0; i < 3 * entries.count; i++) {
            print_char(i % 3 == 0 ? ' ' : ',');
            print_digits(list[i]);
        }
    }
    int kept = 1;
    for (unsigned long i = 3 * entries.count; i < 3 * room; i++)
        kept &= list[i] == OF_ENTRY;
    print_kept(kept);
    return 1;
}

/* entry BYTES */
static int entry(Text *line) {
    Lent lent;
    if (!bytes(line, body_end, &lent) || !ended(line))
        return 0;
    tell_length(casm_entry(lent.at, lent.length));
    return 1;
}

/* Yes, or no with its place. An accepted answer refuses neither, `yes` is 0 or 1, and a yes has no place: where that does not hold, it is told otherwise. */
static void print_yes_or_no(casm_checked checked) {
    print(checked.yes == 0 ? " no" : checked.yes == 1 ? " yes" : " ?");
    if (checked.yes == 0)
        print_number(checked.unlike);
    if (checked.which != CASM_NEITHER || (checked.yes != 0 && checked.unlike != 0))
        print(" and more");
}

/* What is refused. */
static void print_which(unsigned char which) {
    static const char *const words[] = {
        [CASM_BEFORE_FILE] = " beforefile", [CASM_AFTER_FILE] = " afterfile", [CASM_BEFORE_BODY] = " before", [CASM_AFTER_BODY] = " after"};
    print(which >= CASM_BEFORE_FILE && which <= CASM_AFTER_BODY ? words[which] : " ?");
}

typedef casm_checked Check(const unsigned char *, unsigned long, const unsigned char *, unsigned long, unsigned long, unsigned char);

/* What `checked` and `checkedfile` share: their tokens, and how the answer is told. */
static int compared(Text *line, Check *check) {
    Lent before, after;
    unsigned long group;
    unsigned char source;
    if (!bytes(line, body_end, &before) || !bytes(line, name_end, &after) || !number(line, &group) || !byte(line, &source) || !ended(line))
        return 0;
    casm_checked checked = check(before.at, before.length, after.at, after.length, group, source);
    if (told(checked.number, checked.place, checked.yes | checked.unlike))
        print_yes_or_no(checked);
    else
        print_which(checked.which);
    return 1;
}

/* checked BEFORE AFTER G CHANNEL */
static int checked(Text *line) {
    return compared(line, casm_check);
}

/* checkedfile BEFORE AFTER G CHANNEL */
static int checked_file(Text *line) {
    return compared(line, casm_check_files);
}

static const struct {
    const char *name;
    int (*answer)(Text *line);
} verbs[] = {
    {"find", find},       {"body", body},     {"part", part},       {"where", where},     {"channel", channel},
    {"group", group},     {"voice", voice},   {"plays", plays},     {"place", place},     {"write", write_group},
    {"edit", edit},       {"screen", screen}, {"salvage", salvage}, {"checked", checked}, {"checkedfile", checked_file},
    {"section", section}, {"entry", entry},   {"site", site},       {"editfile", edit_file},
};

static int answered(Text line) {
    Text verb;
    if (!take(&line, &verb))
        return 0;
    for (unsigned long i = 0; i < sizeof verbs / sizeof *verbs; i++)
        if (is(verb, verbs[i].name))
            return verbs[i].answer(&line);
    return 0;
}

/* -- The lines -- */

static int next_char(void) {
    static unsigned char got[PAGE];
    static long length, at;
    if (at == length) {
        at = 0;
        length = read(0, got, sizeof got);
        if (length < 0)
            _exit(2);
    }
    return at < length ? got[at++] : -1;
}

/* Reads the next line; of one that is too long a character more than it may have. 0 where there is none: the last may end without its end of line. */
static int next_line(Text *line) {
    static char held[LINE + 1];
    unsigned long length = 0;
    int c = next_char();
    if (c < 0)
        return 0;
    for (; c >= 0 && c != '\n'; c = next_char())
        if (length < sizeof held)
            held[length++] = (char)c;
    line->at = held;
    line->end = held + length;
    return 1;
}

int main(void) {
    body_end = fenced(body_room, HELD);
    name_end = fenced(name_room, HELD);
    table_end = fenced(table_room, RECORDS * CASM_ROW_SIZE);
    list_end = fenced(list_room, 3 * ENTRIES * sizeof(unsigned long));
    Text line;
    while (next_line(&line)) {
        if (line.end - line.at > LINE || !answered(line))
            print("bad");
        print_char('\n');
    }
    flush();
    return 0;
}
