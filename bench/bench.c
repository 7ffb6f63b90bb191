/* The proved calls against plain C, in one program: first both are asked the same and must answer alike; then both are timed in turn, and each job's ratio is printed
   (the median of the rounds; below 1 the proved call is the faster), then what twice the input costs the proved call, and how far down the stack it writes. Built and run by bench/run. */
#include "plain.h"

enum { ROUNDS = 31 };

/* ---- inputs */

static uint64_t seed = 2026;
static uint32_t any(uint32_t below) { return (uint32_t)((seed = seed * 6364136223846793005u + 1442695040888963407u) >> 33) % below; }

static uint8_t *put(uint8_t *at, const char *tag, size_t size)
{
    memcpy(at, tag, 4), at[4] = (uint8_t)(size >> 24), at[5] = (uint8_t)(size >> 16), at[6] = (uint8_t)(size >> 8), at[7] = (uint8_t)size;
    return at + 8;
}

/* Bytes 0-25 of a record of a channel: rare settings as often as common ones. */
static void record(uint8_t *b, uint8_t channel)
{
    static const uint8_t high[26] = {15, 255, 255, 255, 255, 255, 255, 255, 255, 15, 1, 15, 255, 7, 255, 255, 255, 255, 11, 33, 1, 5, 11, 127, 127, 5};
    for (int k = 0; k < 26; k++) b[k] = (uint8_t)any(high[k] + 1u);
    b[0] = channel, b[9] = (uint8_t)(8 + any(8));
    for (int k = 1; k < 9; k++) b[k] = (uint8_t)('A' + any(26));
}

/* All 47 bytes of one of the second edition. Each set's rule is 0 or 1, or now and then 2, and its table one that the rule allows. */
static void second_record(uint8_t *b, uint8_t channel)
{
    record(b, channel);
    b[20] = (uint8_t)any(128), b[21] = (uint8_t)any(128);
    for (uint8_t *set = b + 22; set != b + 40; set += 6) {
        set[0] = (uint8_t)(any(8) ? any(2) : 2), set[1] = (uint8_t)(any(set[0] == 2 ? 3 : 11) | any(2) << 7), set[2] = (uint8_t)any(12);
        set[3] = (uint8_t)any(128), set[4] = (uint8_t)any(128), set[5] = (uint8_t)any(6);
    }
    for (int k = 40; k < 47; k++) b[k] = (uint8_t)any(256);
}

/* The header and Sdec of a group; its parts are named after its number, 15 bytes each, so that 16 of them fill a text. Where its records begin is returned. */
static uint8_t *named(uint8_t *at, unsigned number, unsigned names)
{
    uint8_t *end = at + 16;
    for (unsigned i = 0; i < names; i++) end += sprintf((char *)end, "%sPart %c%c n %05u", i ? "," : "", 'A' + number / 10, '0' + number % 10, i);
    put(at + 8, "Sdec", (size_t)(end - at - 16));
    return end;
}

/* A sound group of so many channels of the second edition. Its length is returned. */
static size_t second_group(uint8_t *at, unsigned number, unsigned channels, unsigned names)
{
    uint8_t *end = named(at, number, names);
    for (unsigned i = 0; i < channels; i++) end = put(end, "Ctb2", 47), second_record(end, (uint8_t)i), end += 47;
    put(at, "CSEG", (size_t)(end - at - 8));
    return (size_t)(end - at);
}

/* A sound group of so many channels, each with a Cntt. Its length is returned. */
static size_t group(uint8_t *at, unsigned number, unsigned channels, unsigned names)
{
    uint8_t *end = named(at, number, names);
    for (unsigned i = 0; i < channels; i++) end = put(end, "Ctab", 27), record(end, (uint8_t)i), end[26] = 0, end += 27;
    for (unsigned i = 0; i < channels; i++) end = put(end, "Cntt", 2), end[0] = (uint8_t)i, end[1] = 0x81, end += 2;
    put(at, "CSEG", (size_t)(end - at - 8));
    return (size_t)(end - at);
}

/* A sound group of one channel and 80 names of two bytes, no name in two groups: near the most names that a body can hold. */
static size_t crowded(uint8_t *at, unsigned number)
{
    uint8_t *end = at + 16;
    for (unsigned i = number * 80; i < number * 80 + 80; i++) end += sprintf((char *)end, "%s%c%c", i % 80 ? "," : "", '0' + i % 75, '0' + i / 75);
    put(at + 8, "Sdec", (size_t)(end - at - 16));
    end = put(end, "Ctab", 27), record(end, 0), end[26] = 0, end += 27;
    put(at, "CSEG", (size_t)(end - at - 8));
    return (size_t)(end - at);
}

static uint8_t names[32768];
static size_t names_size, names_half;
static uint8_t sound[32768], damaged[32768], small[32768], csegs[32768], none[32768], edited[2][32768];
static size_t sound_size, small_size, sound_half, small_half;
static uint8_t second[32768], second_damaged[32768], both[32768];
static size_t second_size, second_half, both_size;
static uint8_t few[1048576], half_few[1048576], many[1048576], half_many[1048576];
static size_t list[2][24579];
static uint8_t table[40 * CASM_ROW_SIZE], second_table[40 * CASM_ROW_SIZE], buffer[2][2048];
static casm_row rows[4096], second_rows[4096];
static size_t sections = 2000;

/* What is checked lies in one piece: what was sent, and behind it what came back. */
enum { BODIES = 2 * CASM_MAX_BODY, FILES = 2 * CASM_MAX_FILE, SMALL = 40000 };
static uint8_t bodies[BODIES], half_bodies[BODIES], second_bodies[BODIES], half_second_bodies[BODIES];
static size_t bodies_size, half_bodies_size, second_bodies_size, half_second_bodies_size;
static uint8_t files[FILES], half_files[FILES / 2], small_files[2 * SMALL];
static size_t files_size, half_files_size, small_files_size;

/* A style file with so many sections before its CASM, so many bytes in the first of them. */
static size_t style_of(uint8_t *file, size_t sections, size_t filler, const uint8_t *body, size_t size)
{
    uint8_t *at = put(file, "MThd", 6) + 6;
    at = put(at, "MTrk", 4) + 4;
    for (size_t i = 0; i < sections; i++) {
        char name[5] = {(char)(i >> 24 | 1), (char)(i >> 16), (char)(i >> 8), (char)i, 0};
        at = put(at, name, i == 0 ? filler : 0) + (i == 0 ? filler : 0);
    }
    at = put(at, "CASM", size);
    memcpy(at, body, size);
    return (size_t)(at + size - file);
}
static size_t style(uint8_t *file, size_t sections, size_t filler) { return style_of(file, sections, filler, (const uint8_t *)"CSEG\0\0\0\16Sdec\0\0\0\6Main A", 22); }

static size_t length_at(const uint8_t *at) { return (size_t)at[4] << 24 | (size_t)at[5] << 16 | (size_t)at[6] << 8 | at[7]; }

/* A copy of a sound body with the length of every second group spoilt. */
static void spoil(uint8_t *to, const uint8_t *from, size_t size)
{
    memcpy(to, from, size);
    for (size_t at = 0, k = 0; at < size; at += 8 + length_at(from + at), k++)
        if (k % 2) to[at + 7] ^= 1;
}

/* The second edition: 28 groups of 16 channels, the most that a body holds where texts are full; a body of both editions, groups without records among them. */
static void prepare_second(void)
{
    for (unsigned k = 0; k < 28; k++) second_half = k == 14 ? second_size : second_half, second_size += second_group(second + second_size, k, 16, 16);
    spoil(second_damaged, second, second_size);
    for (unsigned k = 0; k < 32; k++) both_size += (k % 8 < 6 ? second_group : group)(both + both_size, k, k % 4 ? k % 8 : 0, 2);
    for (int i = 0; i < 40; i++) second_table[CASM_ROW_SIZE * i] = 2, second_record(second_table + CASM_ROW_SIZE * i + 1, (uint8_t)(i % 16));
    for (int i = 0; i < 4096; i++) {
        casm_row *row = &second_rows[i];
        row->edition = 2, second_record(row->bytes, (uint8_t)(i % 16));
        for (uint8_t *set = row->bytes + 22; set != row->bytes + 40; set += 6) set[0] = 0;
    }
}

/* The group and channel whose record came back with other bytes. */
enum { ASKED_GROUP = 7, ASKED_CHANNEL = 7 };

/* Behind so many bytes, which end with a body, a copy of them that has another record there. The size of both is returned. */
static size_t returned(uint8_t *pair, size_t size, const uint8_t *body, size_t body_size, void (*other)(uint8_t *, uint8_t))
{
    memcpy(pair + size, pair, size);
    other(pair + size + size - body_size + casm_channel(body, body_size, ASKED_GROUP, ASKED_CHANNEL).at, ASKED_CHANNEL);
    return 2 * size;
}

static size_t bodies_of(uint8_t *pair, const uint8_t *body, size_t size, void (*other)(uint8_t *, uint8_t))
{
    memcpy(pair, body, size);
    return returned(pair, size, body, size, other);
}

/* Two files of so many bytes each: 82 are headers, and the first of six sections before the CASM makes up the rest. */
static size_t files_of(uint8_t *pair, size_t size, const uint8_t *body, size_t body_size)
{
    return returned(pair, style_of(pair, 6, size - 82 - body_size, body, body_size), body, body_size, record);
}

static void prepare_checks(void)
{
    bodies_size = bodies_of(bodies, sound, sound_size, record), half_bodies_size = bodies_of(half_bodies, sound, sound_half, record);
    second_bodies_size = bodies_of(second_bodies, second, second_size, second_record);
    half_second_bodies_size = bodies_of(half_second_bodies, second, second_half, second_record);
    files_size = files_of(files, CASM_MAX_FILE, sound, sound_size), half_files_size = files_of(half_files, CASM_MAX_FILE / 2, sound, sound_half);
    small_files_size = files_of(small_files, SMALL, sound, sound_size);
}

static void prepare(void)
{
    for (unsigned k = 0; k < 32; k++) sound_half = k == 16 ? sound_size : sound_half, sound_size += group(sound + sound_size, k, 16, 16);
    for (unsigned k = 0; k < 32; k++) small_half = k == 16 ? small_size : small_half, small_size += group(small + small_size, k, 1, 10);
    for (unsigned k = 0; k < 32; k++) names_half = k == 16 ? names_size : names_half, names_size += crowded(names + names_size, k);
    spoil(damaged, sound, sound_size);
    for (size_t i = 0; i < sizeof csegs; i++) csegs[i] = (uint8_t)"CSEG"[i % 4], none[i] = (uint8_t)any(256);
    for (size_t i = 0; i + 3 < sizeof none; i++)
        if (memcmp(none + i, "CSEG", 4) == 0) none[i] = 0;
    /* every second record has a Cntt, and of two of them the later stands first */
    for (int i = 0; i < 16; i++) {
        uint8_t *row = table + CASM_ROW_SIZE * i;
        record(row + 1, (uint8_t)i), row[0] = 1, row[48] = (uint8_t)(i % 2), row[49] = i % 2 ? 0x84 : 0, row[50] = i % 2 ? (uint8_t)((i / 2 ^ 1) + 1) : 0;
    }
    memcpy(table + 16 * CASM_ROW_SIZE, table, 16 * CASM_ROW_SIZE), memcpy(table + 32 * CASM_ROW_SIZE, table, 8 * CASM_ROW_SIZE);
    for (int i = 0; i < 4096; i++)
        rows[i].edition = 1, record(rows[i].bytes, (uint8_t)(i % 16)), rows[i].bytes[20] = 0, rows[i].has_cntt = i % 2, rows[i].cntt = i % 2 ? 0x81 : 0;
    prepare_second();
    prepare_checks();
}

/* ---- both sides of a job: one call each, its answer folded into a number that both must agree on */

static uint64_t mix(uint64_t a, uint64_t b) { return (a ^ b) * 0x9E3779B97F4A7C15u; }
static uint64_t lent(const void *at, size_t size)
{
    uint64_t h = 1;
    for (size_t i = 0; i < size; i++) h = mix(h, ((const uint8_t *)at)[i]);
    return h;
}

static const uint8_t *in;
static size_t in_size;
static size_t sent; /* of what is checked, so many bytes were sent, if there are so many; those behind came back */
static void on(const uint8_t *input, size_t size) { in = input, in_size = size, sent = size / 2; }
static size_t back = 1; /* the place that is asked for, of a byte or of a section's tag, counted back from the end */
static size_t asked_group = ASKED_GROUP;
static uint8_t asked_channel = ASKED_CHANNEL;
static uint8_t *from = table;   /* the table of a group that is written .. */
static size_t written = 16;     /* .. and how many records of it */
static casm_row *placed = rows; /* the records of notes that are placed, and of an edit */
static size_t numbers = 24576; /* numbers of the lent list */
static int checking; /* lent memory is folded in only where answers are compared */

#define FIND(call) { casm_section r = call(in, in_size); return mix(mix(mix(r.number, r.place), r.tag), r.length); }
static uint64_t find_proved(void) FIND(casm_find)
static uint64_t find_plain(void) FIND(plain_find)
#define SECTION(call) { casm_length r = call(in, in_size, in_size - back); return mix(mix(r.number, r.place), r.length); }
static __attribute__((noinline)) uint64_t section_proved(void) SECTION(casm_section_at) /* the call itself has no stack to show: so its wrapper stays one */
static uint64_t section_plain(void) SECTION(plain_section_at)
#define SITE(call) { casm_site r = call(in, in_size, in_size - back); return mix(mix(mix(mix(r.number, r.place), r.group), r.child), r.chunk); }
static uint64_t site_proved(void) SITE(casm_site_at)
static uint64_t site_plain(void) SITE(plain_site_at)
#define ENTRY(call) { casm_length r = call(in, in_size); return mix(mix(r.number, r.place), r.length); }
static uint64_t entry_proved(void) ENTRY(casm_entry)
static uint64_t entry_plain(void) ENTRY(plain_entry)
#define BODY(call) { casm_count r = call(in, in_size); return mix(mix(r.number, r.place), r.count); }
static uint64_t body_proved(void) BODY(casm_body)
static uint64_t body_plain(void) BODY(plain_body)
#define SALVAGE(call, l) { casm_count r = call(in, in_size, l, numbers); return mix(mix(mix(r.number, r.place), r.count), checking ? lent(l, sizeof l) : 0); }
static uint64_t salvage_proved(void) SALVAGE(casm_salvage, list[0])
static uint64_t salvage_plain(void) SALVAGE(plain_salvage, list[1])
#define PLAYS(call) { casm_players r = call(in, in_size, (const uint8_t *)"Part B5 n 00003", 15, 7, 20); return mix(mix(mix(r.number, r.place), r.count), lent(r.channels, 16)); }
static uint64_t plays_proved(void) PLAYS(casm_plays)
static uint64_t plays_plain(void) PLAYS(plain_plays)
#define PLACE(call) { uint64_t h = 0; for (unsigned i = 0; i < 4096; i++) { casm_note r = call(placed[i], (uint8_t)(i % 12), (uint8_t)(i % 128)); h = mix(h, mix(mix(r.number, r.place), r.note)); } return h; }
static uint64_t place_proved(void) PLACE(casm_place)
static uint64_t place_plain(void) PLACE(plain_place)
#define WRITE(call, b) { casm_length r = call((const uint8_t *)"Main A,Main B", 13, from, sizeof table, written, b, 2048); return mix(mix(mix(r.number, r.place), r.length), checking ? lent(b, 2048) : 0); }
static uint64_t write_proved(void) WRITE(casm_write, buffer[0])
static uint64_t write_plain(void) WRITE(plain_write, buffer[1])
#define EDIT(call, b) { casm_answer r = call(b, in_size, 15, 7, placed[7], CASM_OVERRIDE); return mix(mix(r.number, r.place), checking ? lent(b, in_size) : 0); }
static uint64_t edit_proved(void) EDIT(casm_edit, edited[0])
static uint64_t edit_plain(void) EDIT(plain_edit, edited[1])
#define CHECK(call) { size_t n = sent < in_size ? sent : in_size; casm_checked r = call(in, n, in + n, in_size - n, asked_group, asked_channel); return mix(mix(mix(mix(r.number, r.place), r.which), r.yes), r.unlike); }
static uint64_t check_proved(void) CHECK(casm_check)
static uint64_t check_plain(void) CHECK(plain_check)
static uint64_t check_files_proved(void) CHECK(casm_check_files)
static uint64_t check_files_plain(void) CHECK(plain_check_files)

/* ---- alike, then timed */

static void alike(const char *job, uint64_t (*proved)(void), uint64_t (*plain)(void))
{
    checking = 1;
    uint64_t a = proved(), b = plain();
    checking = 0;
    if (a != b) printf("%s: the answers differ\n", job), exit(1);
}

/* The next tag of a record or a Cntt becomes another: so editions meet in one group. */
static void other_tag(uint8_t *at, const uint8_t *end)
{
    static const char *const tags[3] = {"Ctab", "Ctb2", "Cntt"};
    for (; end - at >= 4; at++)
        if (at[0] == 'C' && (at[1] == 't' || at[1] == 'n') && (at[2] == 'a' || at[2] == 'b' || at[2] == 't')) {
            memcpy(at, tags[any(3)], 4);
            return;
        }
}

/* The same call on damaged copies of its input. */
static void alike_damaged(const char *job, const uint8_t *input, size_t size, uint64_t (*proved)(void), uint64_t (*plain)(void), int times)
{
    static uint8_t copy[1048576];
    for (int i = 0; i < times; i++) {
        memcpy(copy, input, size);
        for (unsigned k = 0, n = any(4); k < n; k++) copy[any((uint32_t)size)] = (uint8_t)any(256);
        if (any(8) == 0) other_tag(copy + any((uint32_t)size), copy + size);
        in = copy, in_size = any(3) ? size : any((uint32_t)size + 1);
        memcpy(edited[0], copy, in_size < 32768 ? in_size : 32768), memcpy(edited[1], copy, in_size < 32768 ? in_size : 32768);
        alike(job, proved, plain);
    }
}

/* Writing from damaged tables, some of them too short for the count, some with more records than a group may have, some with records of both editions. */
static void alike_written(uint8_t *lent_table, int times)
{
    uint8_t kept[sizeof table];
    memcpy(kept, lent_table, sizeof table);
    from = lent_table;
    for (int i = 0; i < times; i++, memcpy(lent_table, kept, sizeof table)) {
        for (unsigned k = 0, n = any(3); k < n; k++) lent_table[any(sizeof table)] = (uint8_t)any(256);
        if (any(8) == 0) lent_table[CASM_ROW_SIZE * any(20)] = (uint8_t)any(3);
        written = any(3) ? 16 : any(44);
        alike("write", write_proved, write_plain);
    }
    from = table, written = 16;
}

/* Placing by rows with a byte changed in every fourth, or its edition. */
static void alike_placed(casm_row *lent_rows, int times)
{
    static casm_row changed[4096];
    placed = changed;
    for (int i = 0; i < times; i++) {
        memcpy(changed, lent_rows, sizeof changed);
        for (int k = 0; k < 4096; k += 4) *((uint8_t *)&changed[k] + any(CASM_ROW_SIZE)) = (uint8_t)(any(2) ? any(256) : any(4));
        alike("place", place_proved, place_plain);
    }
    placed = rows;
}

/* Asked for every place, for some behind the end and some that no memory has, and then for places of damaged copies. */
static void alike_at(const char *job, const uint8_t *input, size_t size, uint64_t (*proved)(void), uint64_t (*plain)(void), int times)
{
    on(input, size);
    for (back = (size_t)-16; back != size + 16; back++) alike(job, proved, plain);
    for (int i = 0; i < times; i++) back = any((uint32_t)size + 2), alike_damaged(job, input, size, proved, plain, 1);
    back = 1;
}

/* A group as an entry: each beginning of it, and damaged copies. */
static void alike_entry(const char *job, const uint8_t *input, int times)
{
    size_t size = 8 + length_at(input);
    for (size_t k = 0; k <= size; k++) on(input, k), alike(job, entry_proved, entry_plain);
    alike_damaged(job, input, size, entry_proved, entry_plain, times);
}

/* What came back against what was sent: asked for every group and channel, there or not, and then with either of the two damaged. */
static void alike_checked(const char *job, const uint8_t *pair, size_t size, uint64_t (*proved)(void), uint64_t (*plain)(void), int times)
{
    on(pair, size);
    for (asked_group = 0; asked_group <= CASM_MAX_GROUPS; asked_group++)
        for (asked_channel = 0; asked_channel <= CASM_MAX_RECORDS; asked_channel++) alike(job, proved, plain);
    asked_group = ASKED_GROUP, asked_channel = ASKED_CHANNEL;
    alike_damaged(job, pair, size, proved, plain, times);
}

static double now(void)
{
    struct timespec t;
    clock_gettime(CLOCK_MONOTONIC, &t);
    return (double)t.tv_sec + (double)t.tv_nsec * 1e-9;
}

static int by_size(const void *a, const void *b) { return *(const double *)a < *(const double *)b ? -1 : *(const double *)a > *(const double *)b; }

static volatile uint64_t sink;
static double timed(uint64_t (*call)(void), int calls)
{
    double start = now();
    for (int i = 0; i < calls; i++) sink += call();
    return (now() - start) / calls;
}

static void job(const char *name, uint64_t (*proved)(void), uint64_t (*plain)(void))
{
    double ratios[ROUNDS], times[ROUNDS], one;
    int calls = 1, rounds = ROUNDS;
    alike(name, proved, plain);
    while ((one = timed(plain, calls)) * calls < 0.004 && calls < 1000000) calls *= 2;
    if (one > 1) rounds = 3;
    for (int i = 0; i < rounds; i++) {
        double a, b;
        if (i % 2) a = timed(proved, calls), b = timed(plain, calls);
        else b = timed(plain, calls), a = timed(proved, calls);
        ratios[i] = a / b, times[i] = b;
    }
    qsort(ratios, (size_t)rounds, sizeof *ratios, by_size);
    qsort(times, (size_t)rounds, sizeof *times, by_size);
    printf("%-44s %5.2f   (quarters %.2f to %.2f; plain C %.2f us)\n", name, ratios[rounds / 2], ratios[rounds / 4], ratios[rounds * 3 / 4], times[rounds / 2] * 1e6);
    fflush(NULL);
}

static void sized(const uint8_t *input, size_t size, size_t records) { on(input, size), written = records, numbers = 3 * (size / 4 + 1); }

/* What is placed, written and edited is of the first edition, or of the second. */
static void of_first(void) { placed = rows, from = table, memcpy(edited[0], sound, sizeof sound), memcpy(edited[1], sound, sizeof sound); }
static void of_second(void) { placed = second_rows, from = second_table, memcpy(edited[0], second, sizeof second), memcpy(edited[1], second, sizeof second); }

/* What the call costs on an input of twice the size: the median of the rounds, each of which times both. */
static void doubled(const char *name, uint64_t (*call)(void), const uint8_t *half, size_t half_size, size_t half_written, const uint8_t *whole, size_t size)
{
    double ratios[ROUNDS], one;
    int calls = 1, rounds = ROUNDS;
    sized(whole, size, 16);
    while ((one = timed(call, calls)) * calls < 0.004 && calls < 1000000) calls *= 2;
    if (one > 1) rounds = 3;
    for (int i = 0; i < rounds; i++) {
        sized(half, half_size, half_written);
        double a = timed(call, calls);
        sized(whole, size, 16);
        ratios[i] = timed(call, calls) / a;
    }
    qsort(ratios, (size_t)rounds, sizeof *ratios, by_size);
    printf("%-44s %5.2f\n", name, ratios[rounds / 2]);
    fflush(NULL);
}

/* How far below its caller's frame a call writes: the stack is painted, the call made, and the deepest byte that changed is looked for. The wrapper's own frame counts. */
enum { PAINTED = 65536 };
static __attribute__((noinline)) void paint(void)
{
    volatile uint8_t area[PAINTED];
    for (size_t i = 0; i < PAINTED; i++) area[i] = 0xA5;
}
static __attribute__((noinline)) size_t depth(void)
{
    volatile uint8_t area[PAINTED];
    size_t i = 0;
    while (i < PAINTED && area[i] == 0xA5) i++;
    return PAINTED - i;
}
static void stack(const char *name, uint64_t (*call)(void))
{
    paint();
    sink += call();
    printf("%-44s %5lu\n", name, depth());
}

/* The calls that are not timed, for their stack. */
static uint64_t part_proved(void) { return casm_part(in, in_size, (const uint8_t *)"Part B5 n 00003", 15).group; }
static uint64_t group_proved(void) { return casm_group(in, in_size, 15).number; }
static uint64_t channel_proved(void) { return casm_channel(in, in_size, 15, 7).at; }
static uint64_t voice_proved(void) { return casm_voice(in, in_size, 15, 7).number; }
static uint64_t edit_file_proved(void) { return casm_edit_file(files, sent, (const uint8_t *)"Part B5 n 00003", 15, 7, rows[7], CASM_OVERRIDE).number; }
static uint64_t note_proved(void) { return casm_place(rows[7], 7, 60).note; }
static uint64_t field_proved(void) { return casm_field(rows[7], 1, 65).number; }
static uint64_t records_proved(void) { return casm_records(in, in_size, 15, table, sizeof table).count; }

static void ratios(void)
{
    printf("proved time over plain C time:\n");
    on(few, style(few, 6, 1048472)), job("find, 1 MiB, few sections", find_proved, find_plain);
    on(many, style(many, sections, 0)), job("find, many sections", find_proved, find_plain);
    on(sound, sound_size), job("strict body, 31 KiB, 32 groups", body_proved, body_plain);
    on(small, small_size), job("strict body, 32 groups of 1 channel", body_proved, body_plain);
    on(names, names_size), job("strict body, 32 groups of 80 names", body_proved, body_plain);
    on(sound, sound_size), job("salvage, sound", salvage_proved, salvage_plain);
    on(damaged, sound_size), job("salvage, every second group damaged", salvage_proved, salvage_plain);
    on(csegs, sizeof csegs), job("salvage, 8,192 times CSEG", salvage_proved, salvage_plain);
    on(none, sizeof none), job("salvage, 32 KiB with no CSEG", salvage_proved, salvage_plain);
    on(sound, 8 + length_at(sound)), job("an entry, a sound group of 16 records", entry_proved, entry_plain);
    on(sound, sound_size), job("what stands at a place, 32 groups", site_proved, site_plain);
    job("who plays", plays_proved, plays_plain);
    job("place, 4,096 notes", place_proved, place_plain);
    job("write, 16 records", write_proved, write_plain);
    of_first(), on(sound, sound_size), job("edit", edit_proved, edit_plain);
    of_second(), on(second, second_size), job("second edition: strict body, 28 groups", body_proved, body_plain);
    job("second edition: salvage, sound", salvage_proved, salvage_plain);
    job("second edition: who plays", plays_proved, plays_plain);
    job("second edition: edit", edit_proved, edit_plain);
    job("second edition: place, 4,096 notes", place_proved, place_plain);
    job("second edition: write, 16 records", write_proved, write_plain);
    on(second_damaged, second_size), job("second edition: salvage, half damaged", salvage_proved, salvage_plain);
    on(both, both_size), job("salvage, groups of both editions", salvage_proved, salvage_plain);
    on(bodies, bodies_size), job("check, two bodies", check_proved, check_plain);
    on(second_bodies, second_bodies_size), job("second edition: check, two bodies", check_proved, check_plain);
    on(files, files_size), job("check, two files of 1 MiB", check_files_proved, check_files_plain);
    of_first();
}

static void growth(void)
{
    printf("the proved call on twice the input, over the half:\n");
    doubled("find, 0.5 to 1 MiB, few sections", find_proved, half_few, style(half_few, 6, 524184), 16, few, style(few, 6, 1048472));
    doubled("find, sections doubled", find_proved, half_many, style(half_many, sections / 2, 0), 16, many, style(many, sections, 0));
    doubled("strict body, 16 to 32 groups, 31 KiB", body_proved, sound, sound_half, 16, sound, sound_size);
    doubled("strict body, 16 to 32 groups of 1 channel", body_proved, small, small_half, 16, small, small_size);
    doubled("strict body, 16 to 32 groups of 80 names", body_proved, names, names_half, 16, names, names_size);
    doubled("salvage, sound", salvage_proved, sound, sound_half, 16, sound, sound_size);
    doubled("salvage, every second group damaged", salvage_proved, damaged, sound_half, 16, damaged, sound_size);
    doubled("salvage, 4,096 to 8,192 times CSEG", salvage_proved, csegs, sizeof csegs / 2, 16, csegs, sizeof csegs);
    doubled("salvage, 16 to 32 KiB with no CSEG", salvage_proved, none, sizeof none / 2, 16, none, sizeof none);
    doubled("what stands at a place, 16 to 32 groups", site_proved, sound, sound_half, 16, sound, sound_size);
    doubled("who plays, 16 to 32 groups", plays_proved, sound, sound_half, 16, sound, sound_size);
    doubled("write, 8 to 16 records", write_proved, NULL, 0, 8, NULL, 0);
    doubled("edit, 16 to 32 groups", edit_proved, edited[0], sound_half, 16, edited[0], sound_size);
    of_second();
    doubled("second edition: strict body, 14 to 28 groups", body_proved, second, second_half, 16, second, second_size);
    doubled("second edition: salvage, sound", salvage_proved, second, second_half, 16, second, second_size);
    doubled("second edition: salvage, half damaged", salvage_proved, second_damaged, second_half, 16, second_damaged, second_size);
    doubled("second edition: who plays", plays_proved, second, second_half, 16, second, second_size);
    doubled("second edition: write, 8 to 16 records", write_proved, NULL, 0, 8, NULL, 0);
    doubled("second edition: edit, 14 to 28 groups", edit_proved, edited[0], second_half, 16, edited[0], second_size);
    doubled("check, 16 to 32 groups", check_proved, half_bodies, half_bodies_size, 16, bodies, bodies_size);
    doubled("second edition: check, 14 to 28 groups", check_proved, half_second_bodies, half_second_bodies_size, 16, second_bodies, second_bodies_size);
    doubled("check, two files, 0.5 to 1 MiB", check_files_proved, half_files, half_files_size, 16, files, files_size);
    of_first();
}

static void stacks(void)
{
    printf("bytes of stack that a call writes below its caller, this program's wrapper included:\n");
    on(few, style(few, 6, 1048472)), stack("casm_find", find_proved);
    back = in_size, stack("casm_section_at", section_proved), back = 1;
    on(sound, sound_size), stack("casm_body", body_proved);
    stack("casm_salvage", salvage_proved);
    stack("casm_entry", entry_proved);
    stack("casm_part", part_proved);
    stack("casm_group", group_proved);
    stack("casm_channel", channel_proved);
    stack("casm_site_at", site_proved);
    stack("casm_voice", voice_proved);
    stack("casm_plays", plays_proved);
    stack("casm_edit", edit_proved);
    stack("casm_place", note_proved);
    stack("casm_field", field_proved);
    stack("casm_write", write_proved);
    stack("casm_records", records_proved);
    on(bodies, bodies_size), stack("casm_check", check_proved);
    on(files, files_size), stack("casm_check_files", check_files_proved);
    stack("casm_edit_file", edit_file_proved);
}

int main(int count, char **words)
{
    if (count > 1) sections = (size_t)atol(words[1]);
    prepare();
    style(few, 6, 1048472);
    alike_damaged("find", few, 4096, find_proved, find_plain, 2000);
    alike_damaged("body", sound, sound_size, body_proved, body_plain, 4000);
    alike_damaged("body, short texts", small, small_size, body_proved, body_plain, 4000);
    alike_damaged("body, many names", names, names_size, body_proved, body_plain, 4000);
    alike_damaged("salvage", sound, sound_size, salvage_proved, salvage_plain, 300);
    alike_damaged("plays", sound, sound_size, plays_proved, plays_plain, 2000);
    alike_damaged("edit", sound, sound_size, edit_proved, edit_plain, 300);
    alike_damaged("second body", second, second_size, body_proved, body_plain, 4000);
    alike_damaged("second salvage", second, second_size, salvage_proved, salvage_plain, 300);
    alike_damaged("second plays", second, second_size, plays_proved, plays_plain, 2000);
    alike_damaged("an edit's record of the other edition", second, second_size, edit_proved, edit_plain, 300);
    placed = second_rows;
    alike_damaged("second edit", second, second_size, edit_proved, edit_plain, 300);
    alike_damaged("body of both editions", both, both_size, body_proved, body_plain, 4000);
    alike_damaged("salvage of both editions", both, both_size, salvage_proved, salvage_plain, 300);
    alike_damaged("edit of both editions", both, both_size, edit_proved, edit_plain, 300);
    alike_checked("check", bodies, bodies_size, check_proved, check_plain, 2000);
    alike_checked("second check", second_bodies, second_bodies_size, check_proved, check_plain, 2000);
    alike_checked("check of files", small_files, small_files_size, check_files_proved, check_files_plain, 2000);
    on(bodies, bodies_size), in_size = sent + sound_half, alike("check, half of it came back", check_proved, check_plain);
    alike_at("section", small_files, SMALL, section_proved, section_plain, 4000);
    alike_at("site", sound, sound_size, site_proved, site_plain, 4000);
    alike_at("site, short texts", small, small_size, site_proved, site_plain, 4000);
    alike_at("second site", second, second_size, site_proved, site_plain, 4000);
    alike_at("site, no CSEG", none, 4096, site_proved, site_plain, 1000);
    alike_at("site, 1,024 times CSEG", csegs, 4096, site_proved, site_plain, 1000);
    alike_entry("entry", sound, 4000), alike_entry("second entry", second, 4000);
    alike_damaged("entry with bytes behind", both, both_size, entry_proved, entry_plain, 300);
    alike_placed(rows, 50), alike_placed(second_rows, 50);
    alike_written(table, 2000), alike_written(second_table, 2000);
    printf("alike on damaged inputs\n");
    ratios(), growth(), stacks();
    return 0;
}
