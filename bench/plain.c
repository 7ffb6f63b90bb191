/* Plain C for the layout of documents 01 and 02, written to be fast: the yardstick of bench.c. It follows the documents and not the proved code;
   where they say nothing, of a section, a place or an entry by itself, it follows include/casm.h. */
#include "plain.h"

enum { BODY_LIMIT = 32768, FILE_LIMIT = 1048576, GROUPS = 32, FIRST = 1, SECOND = 2 };

/* One table of ranges for each edition. */
static const uint8_t low[27] = {[9] = 8};
static const uint8_t high[27] = {15,  255, 255, 255, 255, 255, 255, 255, 255, 15, 1, 15, 255, 7,
                                 255, 255, 255, 255, 11,  33,  1,   5,   11,  127, 127, 5, 0};

/* .. of which the second's ends before the seven bytes that are kept as they are. A set's table has a rule besides. */
enum { JUDGED = 40, SETS = 22, SET = 6 };
static const uint8_t low_second[JUDGED] = {[9] = 8};
static const uint8_t high_second[JUDGED] = {15,  255, 255, 255, 255, 255, 255, 255, 255, 15, 1, 15, 255, 7,  255, 255, 255, 255, 11, 33,
                                            127, 127, 2,   138, 11,  127, 127, 5,   2,   138, 11, 127, 127, 5, 2, 138, 11, 127, 127, 5};

/* The bytes of a record's chunk behind its header. */
static inline size_t size_of(size_t edition) { return edition == SECOND ? 47 : 27; }
/* The edition of a row: every number but 2 is the first. */
static inline size_t edition_of(uint8_t number) { return number == SECOND ? SECOND : FIRST; }

static inline uint32_t word(const uint8_t *s) { return (uint32_t)s[0] << 24 | (uint32_t)s[1] << 16 | (uint32_t)s[2] << 8 | s[3]; }
static inline uint32_t tag(const char *t) { return word((const uint8_t *)t); }

/* ---- the sections of a file */

casm_section plain_find(const uint8_t *file, size_t size)
{
    casm_section r = {0};
    if (size > FILE_LIMIT) return r.number = 3, r;
    if (size < 22 || word(file) != tag("MThd") || word(file + 4) != 6 || word(file + 14) != tag("MTrk") || word(file + 18) > size - 22)
        return r.number = 1, r;
    size_t first = 22 + word(file + 18), casm = 0, length = 0;
    for (size_t at = first; at != size;) {
        if (size - at < 8 || word(file + at + 4) > size - at - 8) return r.number = 2, r.place = at, r;
        uint32_t name = word(file + at);
        for (size_t i = first; i != at; i += 8 + word(file + i + 4))
            if (word(file + i) == name) return r.number = 4, r.place = at, r;
        if (name == tag("CASM")) casm = at, length = word(file + at + 4);
        at += 8 + word(file + at + 4);
    }
    if (casm == 0) return r.number = 5, r.place = size, r;
    if (length > BODY_LIMIT) return r.number = 3, r.place = casm, r;
    return r.tag = casm, r.length = length, r;
}

casm_length plain_section_at(const uint8_t *file, size_t size, size_t at)
{
    casm_length r = {0};
    if (size < 8 || at > size - 8 || word(file + at + 4) > size - at - 8) return r.number = 2, r.place = at, r;
    return r.length = word(file + at + 4), r;
}

/* ---- one group: p has n bytes */

struct group { size_t size, edition, length, ctabs, records, cntts, seconds; };
struct fault { uint8_t number; size_t place; };
static const struct fault fine = {0, 0};
#define FAULT(n, p) ((struct fault){(n), (p)})

/* n bytes alike; written out, because names are short and a call of memcmp costs more than it saves */
static inline _Bool alike(const uint8_t *a, const uint8_t *b, size_t n)
{
    for (size_t i = 0; i < n; i++)
        if (a[i] != b[i]) return 0;
    return 1;
}

/* A name sets one bit of 64; where it is not set the name is new to this text, and is compared with none. */
static _Bool sound_text(const uint8_t *t, size_t n)
{
    uint8_t ends[128];
    size_t names = 0, from = 0;
    uint64_t met = 0;
    if (n == 0 || n > 255) return 0;
    for (size_t i = 0; i <= n; i++) {
        if (i < n && (t[i] < 0x20 || t[i] > 0x7E)) return 0;
        if (i < n && t[i] != ',') continue;
        size_t size = i - from;
        if (size == 0 || size > 16) return 0;
        uint64_t bit = 1ul << ((t[from] * 7 + t[i - 1] + size) & 63);
        if (met & bit)
            for (size_t k = 0, start = 0; k < names; start = ends[k] + 1, k++)
                if (ends[k] - start == size && alike(t + start, t + from, size)) return 0;
        met |= bit;
        ends[names++] = (uint8_t)i;
        from = i + 1;
    }
    return 1;
}

static size_t first_out(const uint8_t *b, size_t n)
{
    for (size_t k = 0; k < n; k++)
        if (b[k] < low[k] || b[k] > high[k]) return k;
    return n;
}

/* A set's table is 00-0A, or 00-02 under rule 2, each with or without bit 7. */
static inline _Bool table_out(uint8_t rule, uint8_t table) { return (table & 127) > (rule == 2 ? 2 : 10); }

/* Most records are sound: so all bytes are judged together, without a branch, and one that is out is looked for only where there is one. */
static inline _Bool sound_second(const uint8_t *b)
{
    uint8_t out = 0;
    for (size_t k = 0; k < JUDGED; k++) out |= (uint8_t)((b[k] < low_second[k]) | (b[k] > high_second[k]));
    for (size_t t = SETS + 1; t < JUDGED; t += SET) out |= (uint8_t)table_out(b[t - 1], b[t]);
    return !out;
}

/* The first byte out of range of a record of the second edition. */
static inline size_t first_out_second(const uint8_t *b)
{
    size_t k = 0;
    if (sound_second(b)) return 47;
    while (k < JUDGED && b[k] >= low_second[k] && b[k] <= high_second[k]) k++;
    for (size_t t = SETS + 1; t < k; t += SET)
        if (table_out(b[t - 1], b[t])) return t;
    return k;
}

static _Bool cntt_value(uint8_t v) { return v == 4 || (v >= 6 && v <= 10) || (v >= 0x80 && v <= 0x8A); }

/* The records of the second edition, from the first of them to the group's end: nothing else stands beside them. */
static struct fault read_seconds(const uint8_t *p, size_t n, size_t at, struct group *g)
{
    uint32_t met = 0;
    size_t records = 0;
    for (; at != n; at += 55, records++) {
        if (n - at < 8) return FAULT(2, at);
        if (word(p + at) != tag("Ctb2")) return FAULT(6, at);
        if (word(p + at + 4) > n - at - 8) return FAULT(2, at);
        if (word(p + at + 4) != 47) return FAULT(7, at);
        size_t k = first_out_second(p + at + 8);
        if (k < 47) return FAULT(9, at + 8 + k);
        if (met >> p[at + 8] & 1) return FAULT(10, at);
        met |= 1u << p[at + 8];
    }
    g->size = n, g->cntts = n, g->records = records, g->seconds = 0, g->edition = SECOND;
    return fine;
}

static struct fault read_group(const uint8_t *p, size_t n, struct group *g)
{
    if (n < 8) return FAULT(2, 0);
    if (word(p) != tag("CSEG")) return FAULT(6, 0);
    size_t size = word(p + 4);
    if (size > n - 8) return FAULT(2, 0);
    if (size == 0) return FAULT(6, 0);
    n = 8 + size;
    if (n < 16) return FAULT(2, 8);
    if (word(p + 8) != tag("Sdec")) return FAULT(6, 8);
    size_t text = word(p + 12);
    if (text > n - 16) return FAULT(2, 8);
    if (!sound_text(p + 16, text)) return FAULT(8, 8);
    size_t at = 16 + text;
    uint8_t home[16] = {0}, seen[16] = {0};
    size_t records = 0, seconds = 0;
    g->length = text, g->ctabs = at;
    if (n - at >= 8 && word(p + at) == tag("Ctb2")) return read_seconds(p, n, at, g);
    for (; at != n; at += 35) {
        if (n - at >= 8 && word(p + at) == tag("Cntt")) break;
        if (n - at < 8) return FAULT(2, at);
        if (word(p + at) != tag("Ctab")) return FAULT(6, at);
        if (word(p + at + 4) > n - at - 8) return FAULT(2, at);
        if (word(p + at + 4) != 27) return FAULT(7, at);
        size_t k = first_out(p + at + 8, 27);
        if (k < 27) return FAULT(9, at + 8 + k);
        if (home[p[at + 8]]) return FAULT(10, at);
        home[p[at + 8]] = (uint8_t)++records;
    }
    g->cntts = at;
    for (; at != n; at += 10) {
        if (n - at < 8) return FAULT(2, at);
        if (word(p + at) != tag("Cntt")) return FAULT(6, at);
        if (word(p + at + 4) > n - at - 8) return FAULT(2, at);
        if (word(p + at + 4) != 2) return FAULT(7, at);
        uint8_t channel = p[at + 8];
        if (channel > 15) return FAULT(9, at + 8);
        if (!cntt_value(p[at + 9])) return FAULT(9, at + 9);
        if (seen[channel]) return FAULT(10, at);
        if (home[channel] == 0) return FAULT(11, at);
        seen[channel] = 1, seconds++;
    }
    g->size = n, g->records = records, g->seconds = seconds, g->edition = records ? FIRST : 0;
    return fine;
}

/* ---- a body */

static _Bool has_name(const uint8_t *t, size_t n, const uint8_t *name, size_t size)
{
    for (size_t i = 0, from = 0; i <= n; i++)
        if (i == n || t[i] == ',') {
            if (i - from == size && alike(t + from, name, size)) return 1;
            from = i + 1;
        }
    return 0;
}

/* Whether one of the k groups before has a name of this text. A name sets five bits of one of 256 words; where they are not all set it is new, so that few names are compared. */
static _Bool named_before(const uint8_t *s, const struct group *groups, const size_t *places, size_t k, const uint8_t *t, size_t n, uint64_t *met)
{
    uint64_t mark = 0;
    for (size_t i = 0, from = 0; i <= n; i++) {
        if (i < n && t[i] != ',') { mark = (mark + t[i]) * 0x9E3779B97F4A7C15u; continue; }
        uint64_t bits = 1ul << (mark >> 50 & 63) | 1ul << (mark >> 44 & 63) | 1ul << (mark >> 38 & 63) | 1ul << (mark >> 32 & 63) | 1ul << (mark >> 26 & 63), *word = &met[mark >> 56];
        if ((*word & bits) == bits)
            for (size_t j = 0; j < k; j++)
                if (has_name(s + places[j] + 16, groups[j].length, t + from, i - from)) return 1;
        *word |= bits;
        from = i + 1, mark = 0;
    }
    return 0;
}

static struct fault read_groups(const uint8_t *s, size_t size, struct group *groups, size_t *places, size_t *count)
{
    uint64_t met[256] = {0};
    size_t k = 0, editions = 0;
    if (size > BODY_LIMIT) return FAULT(3, 0);
    for (size_t at = 0; at != size; k++) {
        if (k == GROUPS) {
            if (size - at < 8) return FAULT(2, at);
            if (word(s + at) != tag("CSEG")) return FAULT(6, at);
            if (word(s + at + 4) > size - at - 8) return FAULT(2, at);
            return FAULT(12, at);
        }
        struct fault f = read_group(s + at, size - at, &groups[k]);
        if (f.number) return f.place += at, f;
        /* editions are bits of one number: 3 where there are both */
        if ((editions |= groups[k].edition) == 3) return FAULT(21, at);
        if (named_before(s, groups, places, k, s + at + 16, groups[k].length, met)) return FAULT(13, at);
        places[k] = at;
        at += groups[k].size;
    }
    return *count = k, fine;
}

/* The place of the record of a source channel, in a group that stands at `at`; 0 where it has none. */
static inline size_t record_of(const uint8_t *s, size_t at, const struct group *g, uint8_t source)
{
    size_t step = 8 + size_of(g->edition), end = at + g->ctabs + 8 + step * g->records;
    for (at += g->ctabs + 8; at != end; at += step)
        if (s[at] == source) return at;
    return 0;
}

casm_count plain_body(const uint8_t *body, size_t size)
{
    struct group groups[GROUPS];
    size_t places[GROUPS], count = 0;
    struct fault f = read_groups(body, size, groups, places, &count);
    return (casm_count){f.number, f.place, f.number ? 0 : count};
}

/* The chunks from 0 on. A place within 8 bytes of a chunk's beginning is in that chunk; where it is not, all of the header is there. */
casm_site plain_site_at(const uint8_t *body, size_t size, size_t place)
{
    casm_site r = {0};
    size_t headers = 0, at = 0;
    if (size > BODY_LIMIT) return r.number = 3, r;
    if (place >= size) return r.number = 16, r;
    for (;; r.child++) {
        _Bool header = size - at >= 4 && word(body + at) == tag("CSEG");
        if (header) headers++, r.child = 0;
        if (place - at < 8) break;
        size_t step = header ? 8 : 8 + (size_t)word(body + at + 4);
        if (place - at < step) break;
        at += step;
    }
    return r.group = headers ? headers - 1 : 0, r.chunk = at, r;
}

/* ---- the salvage list, and one entry of it */

static size_t next_cseg(const uint8_t *s, size_t size, size_t at)
{
    if (size < 4) return size;
    for (size_t end = size - 3; at < end; at++)
        if (s[at] == 'C' && s[at + 1] == 'S' && s[at + 2] == 'E' && s[at + 3] == 'G') return at;
    return size;
}

static size_t entries(const uint8_t *s, size_t size, size_t *list, size_t room)
{
    size_t n = 0, at = 0;
#define ENTRY(p, l, k) do { if (n < room) list[3 * n] = (p), list[3 * n + 1] = (l), list[3 * n + 2] = (k); n++; } while (0)
    size_t first = next_cseg(s, size, 0);
    if (first) ENTRY(0, first, 6);
    for (at = first; at != size;) {
        size_t end = next_cseg(s, size, at + 4);
        struct group g;
        struct fault f = read_group(s + at, end - at, &g);
        if (f.number) ENTRY(at, end - at, f.number);
        else {
            ENTRY(at, g.size, 0);
            if (at + g.size != end) ENTRY(at + g.size, end - at - g.size, 6);
        }
        at = end;
    }
    return n;
}

casm_count plain_salvage(const uint8_t *body, size_t size, size_t *list, size_t numbers)
{
    casm_count r = {0};
    size_t room = numbers / 3;
    if (size > BODY_LIMIT) return r.number = 3, r;
    if (size / 4 >= room && entries(body, size, NULL, 0) > room) return r.number = 14, r;
    return r.count = entries(body, size, list, room), r;
}

casm_length plain_entry(const uint8_t *entry, size_t size)
{
    casm_length r = {0};
    struct group g;
    if (size > BODY_LIMIT) return r.number = 3, r;
    if (size < 4 || word(entry) != tag("CSEG")) return r.number = 6, r;
    struct fault f = read_group(entry, size, &g);
    if (f.number) return r.number = f.number, r.place = f.place, r;
    return r.length = g.size, r;
}

/* ---- questions */

casm_players plain_plays(const uint8_t *body, size_t size, const uint8_t *part, size_t length, uint8_t root, uint8_t kind)
{
    casm_players r = {0};
    struct group groups[GROUPS];
    size_t places[GROUPS], count = 0, k = 0;
    struct fault f = read_groups(body, size, groups, places, &count);
    if (f.number) return r.number = f.number, r.place = f.place, r;
    if (root > 11 || kind > 33) return r.number = 16, r;
    while (k < count && !has_name(body + places[k] + 16, groups[k].length, part, length)) k++;
    if (k == count) return r.number = 15, r;
    const uint8_t *b = body + places[k] + groups[k].ctabs + 8;
    size_t step = 8 + size_of(groups[k].edition);
    for (size_t i = 0; i < groups[k].records; i++, b += step) {
        uint32_t roots = (uint32_t)b[11] << 8 | b[12];
        uint64_t chords = (uint64_t)b[13] << 32 | word(b + 14);
        if (roots >> root & 1 && chords >> kind & 1) r.channels[r.count++] = b[0];
    }
    return r;
}

/* A note by a set, as bytes 20-25 of the first edition are: rule 0 or 1, table, high key, limits, retrigger. Each edition has its own copy, for speed. */
static inline __attribute__((always_inline)) casm_note placed(const uint8_t *set, uint8_t table, uint8_t source, uint8_t root, uint8_t note)
{
    casm_note r = {0};
    int value = note, least = set[3], most = set[4];
    if (table != 0x00 && table != 0x80) {
        if (set[0]) return r.number = 17, r;
        value += root - source - (root > set[2] ? 12 : 0);
    }
    if (value < least) value += (least - value + 11) / 12 * 12;
    else if (value > most) value -= (value - most + 11) / 12 * 12;
    if (value < least || value > most) {
        int up = ((value - least) % 12 + 12) % 12;
        value = least + up;
        if (value >= 12 && (value > 127 || up >= 6)) value -= 12;
    }
    return r.note = (uint8_t)value, r;
}

casm_note plain_place(casm_row row, uint8_t root, uint8_t note)
{
    static const uint8_t becomes[6] = {0x00, 0x01, 0x02, 0x81, 0x03, 0x05};
    casm_note r = {0};
    const uint8_t *b = row.bytes;
    if (root > 11 || note > 127) return r.number = 16, r;
    if (row.edition == SECOND) {
        size_t k = first_out_second(b);
        if (k < 47) return r.number = 9, r.place = k, r;
        const uint8_t *set = b + SETS + (note < b[20] ? 0 : note > b[21] ? 2 * SET : SET);
        if (set[0] == 2) return r.number = 17, r;
        return placed(set, set[1], b[18], root, note);
    }
    size_t k = first_out(b, 26);
    if (k > 21 && row.has_cntt && !cntt_value(row.cntt)) k = 21;
    if (k < 26) return r.number = 9, r.place = k, r;
    return placed(b + 20, row.has_cntt ? row.cntt : becomes[b[21]], b[18], root, note);
}

/* ---- writing and editing */

static uint8_t *put_head(uint8_t *out, const char *name, size_t size)
{
    memcpy(out, name, 4);
    out[4] = (uint8_t)(size >> 24), out[5] = (uint8_t)(size >> 16), out[6] = (uint8_t)(size >> 8), out[7] = (uint8_t)size;
    return out + 8;
}

/* Cntts by their positions: 0 is none, and `reach` is above how many there are where a position is wrong. */
struct second_tables { const uint8_t *at[17]; size_t count, reach; };

static void lay_down(struct second_tables *to, const uint8_t *row)
{
    uint8_t has_cntt = row[48], position = row[50];
    if (!has_cntt) {
        if (position) to->reach = 17;
    } else if (position == 0 || position > 16 || to->at[position]) {
        to->reach = 17, to->count++;
    } else {
        to->at[position] = row, to->count++;
        if (to->reach < position) to->reach = position;
    }
}

/* The first byte out of range of a row's record. */
static size_t row_out(const uint8_t *row, size_t edition)
{
    if (edition == SECOND) return first_out_second(row + 1);
    size_t k = first_out(row + 1, 26);
    if (k > 21 && row[48] && !cntt_value(row[49])) k = 21;
    return k < 26 ? k : 47;
}

static uint8_t *put_record(uint8_t *out, const uint8_t *row, size_t edition)
{
    if (edition == SECOND) return out = put_head(out, "Ctb2", 47), memcpy(out, row + 1, 47), out + 47;
    out = put_head(out, "Ctab", 27), memcpy(out, row + 1, 26), out[26] = 0;
    return out + 27;
}

casm_length plain_write(const uint8_t *text, size_t length, const uint8_t *table, size_t bytes, size_t count, uint8_t *out, size_t room)
{
    casm_length r = {0};
    uint32_t seen = 0;
    struct second_tables cntts = {{0}, 0, 0};
    if (count > bytes / CASM_ROW_SIZE) return r.number = 16, r;
    if (!sound_text(text, length)) return r.number = 8, r;
    size_t edition = count ? edition_of(table[0]) : FIRST;
    for (size_t i = 0; i < count; i++) {
        const uint8_t *row = table + CASM_ROW_SIZE * i;
        if (edition_of(row[0]) != edition) return r.number = 21, r.place = size_of(edition) * i, r;
        size_t k = row_out(row, edition);
        if (k < 47) return r.number = 9, r.place = size_of(edition) * i + k, r;
        if (seen >> row[1] & 1) return r.number = 10, r.place = size_of(edition) * i, r;
        seen |= 1u << row[1];
        if (edition == FIRST) lay_down(&cntts, row);
    }
    if (cntts.reach > cntts.count) return r.number = 18, r;
    size_t size = 16 + length + (8 + size_of(edition)) * count + 10 * cntts.count;
    if (size > room) return r.number = 14, r;
    out = put_head(out, "CSEG", size - 8);
    out = put_head(out, "Sdec", length);
    memcpy(out, text, length), out += length;
    for (size_t i = 0; i < count; i++) out = put_record(out, table + CASM_ROW_SIZE * i, edition);
    for (size_t k = 1; k <= cntts.count; k++, out += 2) {
        out = put_head(out, "Cntt", 2);
        out[0] = cntts.at[k][1], out[1] = cntts.at[k][49];
    }
    return r.length = size, r;
}

casm_answer plain_edit(uint8_t *body, size_t size, size_t group, uint8_t source, casm_row row, uint8_t over)
{
    casm_answer r = {0};
    struct group groups[GROUPS];
    size_t places[GROUPS], count = 0;
    struct fault f = read_groups(body, size, groups, places, &count);
    if (f.number) return r.number = f.number, r.place = f.place, r;
    if (group >= count) return r.number = 16, r;
    size_t edition = groups[group].edition, at = record_of(body, places[group], &groups[group], source);
    if (at == 0) return r.number = 15, r;
    uint8_t *b = body + at;
    if (row.bytes[0] != source) return r.number = 16, r;
    if (edition_of(row.edition) != edition) return r.number = 21, r;
    if (b[10] == 1 && over != 1) return r.number = 22, r.place = 10, r;
    size_t held = edition == SECOND ? 47 : 26, k = edition == SECOND ? first_out_second(row.bytes) : first_out(row.bytes, 26);
    if (k < held) return r.number = 9, r.place = k, r;
    memcpy(b, row.bytes, held);
    if (edition == FIRST) b[26] = 0;
    return r;
}

/* ---- checking what came back */

/* A body or a file, the place of the body in it, and its length. */
struct lent { const uint8_t *at; size_t size, body, length; };

static casm_checked denied(uint8_t number, size_t place, uint8_t which) { return (casm_checked){number, place, which, 0, 0}; }

/* The first of n bytes that are unlike, or n. Few are: so all are compared at once, and the place is looked for only where there is one. */
static size_t first_unlike(const uint8_t *a, const uint8_t *b, size_t n)
{
    size_t i = 0;
    if (memcmp(a, b, n) == 0) return n;
    while (a[i] == b[i]) i++;
    return i;
}

/* Compares the two outside so many bytes at a place of the first. */
static casm_checked compared(const struct lent *before, const struct lent *after, size_t at, size_t size)
{
    size_t end = before->size < after->size ? before->size : after->size, stop = at < end ? at : end, behind = at + size;
    size_t k = first_unlike(before->at, after->at, stop);
    if (k == stop) k = behind < end ? behind + first_unlike(before->at + behind, after->at + behind, end - behind) : end;
    _Bool yes = k == end && before->size == after->size;
    return (casm_checked){0, 0, 0, yes, yes ? 0 : k};
}

static casm_checked check(const struct lent *before, const struct lent *after, size_t group, uint8_t source)
{
    struct group groups[GROUPS];
    size_t places[GROUPS], count = 0, at = 0, size = 0;
    struct fault f = read_groups(before->at + before->body, before->length, groups, places, &count);
    if (f.number) return denied(f.number, before->body + f.place, 3);
    _Bool there = group < count;
    if (there) at = record_of(before->at + before->body, places[group], &groups[group], source), size = size_of(groups[group].edition);
    f = read_groups(after->at + after->body, after->length, groups, places, &count);
    if (f.number) return denied(f.number, after->body + f.place, 4);
    if (!there) return denied(16, 0, 3);
    if (at == 0) return denied(15, 0, 3);
    return compared(before, after, before->body + at, size);
}

casm_checked plain_check(const uint8_t *before, size_t before_size, const uint8_t *after, size_t after_size, size_t group, uint8_t source)
{
    return check(&(struct lent){before, before_size, 0, before_size}, &(struct lent){after, after_size, 0, after_size}, group, source);
}

casm_checked plain_check_files(const uint8_t *before, size_t before_size, const uint8_t *after, size_t after_size, size_t group, uint8_t source)
{
    casm_section x = plain_find(before, before_size);
    if (x.number) return denied(x.number, x.place, 1);
    casm_section y = plain_find(after, after_size);
    if (y.number) return denied(y.number, y.place, 2);
    return check(&(struct lent){before, before_size, x.tag + 8, x.length}, &(struct lent){after, after_size, y.tag + 8, y.length}, group, source);
}
