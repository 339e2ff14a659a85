/*
 * The cases of the program that runs settings of keys, single ones and lists
 * of them. Its layout stands in that program's packed.rt.
 */
#include "cases.h"
#include "pairs.h"

#include <stdlib.h>
#include <string.h>

static const char *const LF = "\n", *const CRLF = "\r\n";

/* ---- a case */

enum { MOST_BUFFER = 73728, MOST_TABLE = 2048 };

/* How many times the bytes at a place stand there, one after the other. */
static size_t repeats(struct bytes b, size_t at, size_t unit)
{
    size_t n = 1;
    while (at + (n + 1) * unit <= b.length && memcmp(b.at + at, b.at + at + n * unit, unit) == 0)
        n++;
    return n;
}

/* The unit whose repetition at a place is the longest, and how many bytes that takes. */
static size_t longest_repeat(struct bytes b, size_t at, size_t *unit)
{
    static const size_t units[] = {1, 2, 3, 4, 251};
    size_t longest = 0;
    for (size_t i = 0; i < 5 && at + units[i] <= b.length; i++) {
        size_t n = repeats(b, at, units[i]) * units[i];
        if (n >= longest) {
            longest = n;
            *unit = units[i];
        }
    }
    return longest;
}

static size_t put_piece(struct text *t, size_t times, struct bytes b)
{
    if (b.length == 0)
        return 0;
    put_number(t, times);
    put_run(t, b);
    return 1;
}

/* The bytes as pieces, each so many times: long repetitions are told by their number. */
static void put_packed(struct text *t, struct bytes b)
{
    static struct text pieces;
    size_t at = 0, plain = 0, count = 0, unit = 1;
    pieces.length = 0;
    while (at < b.length) {
        size_t n = longest_repeat(b, at, &unit);
        if (n >= 64 && n >= 2 * unit) {
            count += put_piece(&pieces, 1, part(b, plain, at));
            count += put_piece(&pieces, n / unit, part(b, at, at + unit));
            plain = at += n;
        } else {
            at++;
        }
    }
    count += put_piece(&pieces, 1, part(b, plain, at));
    put_number(t, 4 + pieces.length);
    put_number(t, count);
    put(t, view(&pieces));
}

/* Makes the setting, and puts it with its answer; what was lent becomes what is left. */
static uint32_t put_setting(struct text *t, struct lent *now, const struct setting *s)
{
    craneholt_set_answer a =
        model_set_key(now->buffer.at, now->buffer.length, now->used, now->table.at, now->table.length, now->count,
                      s->key.at, s->key.length, s->value.at, s->value.length);
    put_run(t, s->key);
    put_run(t, s->value);
    put_refusal(t, a.refusal);
    put_wide(t, a.length);
    put_wide(t, a.count);
    now->used = a.length;
    now->count = a.count;
    return a.refusal.number;
}

static struct bytes file_of(struct lent *lent)
{
    return part(view(&lent->buffer), 0, lent->used < lent->buffer.length ? lent->used : lent->buffer.length);
}

/* The keys of the file and their values. */
static void put_keys(struct text *t, struct bytes file)
{
    static struct pair pairs[MOST_PAIRS];
    static struct text keys, value;
    size_t count = take_pairs(file, model_read_header(file.at, file.length).reading.fieldlines, pairs);
    keys.length = 0;
    put_number(&keys, count);
    for (size_t i = 0; i < count; i++) {
        value.length = 0;
        put_unescaped(&value, pairs[i].value_text);
        put_run(&keys, (struct bytes){pairs[i].key, pairs[i].length});
        put_run(&keys, view(&value));
    }
    put_run(t, view(&keys));
    free_pairs(pairs, count);
}

/* What the program prints of a fresh reading. */
static void show(struct bytes file, const char *name)
{
    static struct pair pairs[MOST_PAIRS];
    static struct text shown;
    craneholt_read_answer a = model_read_header(file.at, file.length);
    size_t count = take_pairs(file, a.reading.fieldlines, pairs);
    shown.length = 0;
    put_format(&shown, "%s: version %u, lines %u\n", name, (unsigned)a.reading.version, (unsigned)a.reading.lines);
    for (size_t i = 0; i < count; i++) {
        put_string(&shown, "  ");
        put_escaped(&shown, (struct bytes){pairs[i].key, pairs[i].length});
        put_string(&shown, " = ");
        put(&shown, pairs[i].value_text);
        put_string(&shown, "\n");
    }
    free_pairs(pairs, count);
    print_case(view(&shown));
}

/* True if the header is accepted and the table is that of its reading. */
static int is_fresh(struct lent *lent)
{
    static uint8_t table[4 * MOST_TABLE];
    struct bytes file = file_of(lent);
    craneholt_read_answer a = model_read(file.at, file.length, table, sizeof table);
    size_t length = 4 * (size_t)a.reading.lines;
    return a.refusal.number == 0 && lent->used == file.length && lent->count == a.reading.lines
           && lent->table.length >= length && memcmp(lent->table.at, table, length) == 0;
}

const uint32_t *put_settings(struct lent *first, const struct setting *settings, size_t count, const char *name)
{
    static uint32_t numbers[MOST_SETTINGS];
    static struct lent now;
    static struct text asked;
    struct text *c = start_case();
    int fresh = is_fresh(first);
    now = *first;
    asked.length = 0;
    put_number(&asked, count);
    for (size_t i = 0; i < count; i++)
        numbers[i] = put_setting(&asked, &now, &settings[i]);
    put_number(c, first->buffer.length);
    put_number(c, first->table.length / 4);
    put_wide(c, first->used);
    put_wide(c, first->count);
    put_number(c, (uint64_t)fresh);
    put_packed(c, view(&first->buffer));
    put_run(c, view(&first->table));
    put_run(c, view(&asked));
    put_packed(c, view(&now.buffer));
    put_run(c, view(&now.table));
    put_keys(c, fresh ? file_of(&now) : LITERAL(""));
    put_run(c, (struct bytes){(uint8_t *)name, strlen(name)});
    if (first->buffer.length > MOST_BUFFER || first->table.length > 4 * MOST_TABLE)
        leave_out();
    else
        end_case();
    if (*name != '\0')
        show(file_of(&now), name);
    return numbers;
}

/* ---- files and lists */

#define SET(key, value) {BYTES(key), BYTES(value)}
#define UTC "utc offset"
#define RIG "rig"
#define FIELDS "type: uint8", "dimension: 2", "sizes: 4 3", "encoding: raw"

static const struct bytes DATA = BYTES("\0\n\r\n\377data:=x\n\n#");

/* A file in a buffer with so many bytes more, and its table with so many entries more. */
static struct lent *lend(struct bytes file, size_t slack, size_t slots)
{
    static struct lent lent;
    lent.buffer.length = lent.table.length = 0;
    put(&lent.buffer, file);
    lent.used = file.length;
    lent.count = take_starts(file, &lent.table);
    put_times(&lent.buffer, "\356", slack);
    while (slots-- > 0)
        put_number(&lent.table, 4000000000u);
    return &lent;
}

/* Ends the program if the settings are not refused so. */
static void told(const uint32_t *numbers, size_t count, const uint32_t *want)
{
    ensure(memcmp(numbers, want, count * sizeof *want) == 0, "a list of settings has other refusals");
}

/* A header: the magic and lines, each with an ending, and a closing line. */
static struct bytes header(struct text *t, const char *magic, const char *const *lines, const char *end, int closed)
{
    t->length = 0;
    put_string(t, magic);
    put_string(t, end);
    for (; *lines != NULL; lines++) {
        put_string(t, *lines);
        put_string(t, end);
    }
    if (closed)
        put_string(t, end);
    return view(t);
}

/* ---- chosen lists: what a fresh reading shows is printed */

static const struct setting GROW[] = {SET(UTC, "38"), SET(UTC, "a longer value"), SET(RIG, ""), SET(UTC, "5"),
                                      SET("new", "1"), SET("newer", "2"), SET("new", "3"), SET(UTC, "")};
enum { GROWING = 7 }; /* the eighth is for some lists */

/* A list under a name with the ending in its middle. */
static void chosen_list(struct bytes file, const char *end, const struct setting *settings, size_t count,
                        const char *before, const char *after)
{
    static struct text name;
    name.length = 0;
    put_format(&name, "%s, %s, %s", before, end == LF ? "LF" : "CR LF", after);
    put_byte(&name, 0);
    put_settings(lend(file, 64, 8), settings, count, (const char *)name.at);
}

static void attached_lists(const char *end)
{
    static const char *const lines[] = {UTC ":=36", "type: uint8", "dimension: 2", "# sweep", RIG ":=7", UTC ":=37",
                                        "sizes: 4 3", "encoding: raw", NULL};
    static const struct setting bad[] = {
        SET("", "x"), SET("#k", "x"), SET("k: ", "x"), SET("k:=", "x"), SET("k", "\177"), SET("k\0", "x"), SET(UTC, "\r"),
        SET(UTC, "38"),
        SET("", "x"), SET("#k", "x"), SET("k: ", "x"), SET("k:=", "x"), SET("k", "\177"), SET("k\0", "x"), SET(UTC, "\r")};
    static const struct setting escapes[] = {SET("two\nlines", "a\nb\\c"), SET("back\\slash", "\\n"),
                                             SET("two\nlines", "\\\\\n"), SET("colon:", ": :="), SET("\ttab ", " ")};
    static struct text file;
    header(&file, "NRRD0004", lines, end, 1);
    put(&file, DATA);
    chosen_list(view(&file), end, GROW, GROWING, "attached", "repeated key");
    chosen_list(view(&file), end, bad, COUNT(bad), "attached", "one of 15 accepted");
    chosen_list(view(&file), end, escapes, COUNT(escapes), "attached", "LF and backslash");
}

static void detached_lists(const char *end)
{
    static const char *const lines[] = {FIELDS, UTC ":=36",
                                        "# sweep", RIG ":=7", UTC ":=37", "data file: d.raw", NULL};
    static const char *const last_pair[] = {FIELDS,
                                            "data file: d.raw", UTC ":=36", "# sweep", RIG ":=7", UTC ":=37", NULL};
    static struct text file;
    size_t length = header(&file, "NRRD0004", lines, end, 1).length;
    put_string(&file, "ignored:=1\n");
    chosen_list(view(&file), end, GROW, GROWING, "detached", "closed, bytes after it");
    chosen_list(part(view(&file), 0, length - strlen(end)), end, GROW, GROWING, "detached", "without closing line");
    length = header(&file, "NRRD0004", last_pair, end, 0).length;
    chosen_list(part(view(&file), 0, length - strlen(end)), end, GROW, GROWING + 1, "detached",
                "last line a pair without ending");
}

/* Names under LIST that look like pairs with the keys that are set, and a pattern. */
static void named_lists(const char *end)
{
    static const char *const lines[] = {UTC ":=36", FIELDS, UTC ":=37", "data file: LIST", UTC ":=99", RIG ":=8",
                                        "# new:=1", NULL};
    static const char *const pattern[] = {FIELDS, RIG ":=7", "data file: slice%02d.raw 3 1 -1", UTC ":=36", NULL};
    static struct text file;
    size_t length = header(&file, "NRRD0004", lines, end, 1).length;
    put_string(&file, "ignored:=1\n");
    chosen_list(view(&file), end, GROW, GROWING, "names under LIST", "closed, bytes after it");
    chosen_list(part(view(&file), 0, length - strlen(end)), end, GROW, GROWING, "names under LIST", "without closing line");
    chosen_list(part(view(&file), 0, length - 2 * strlen(end)), end, GROW, GROWING, "names under LIST",
                "last name without ending");
    header(&file, "NRRD0005", pattern, end, 1);
    chosen_list(view(&file), end, GROW, GROWING, "pattern", "closed");
}

/* The fields of the axis records between and after the pairs; a label looks like one. */
static void axes_lists(const char *end)
{
    static const char *const lines[] = {UTC ":=36", FIELDS, "labels: \"" UTC ":=\\\"9\\\"\" \"y\"", RIG ":=7", "kinds: space time",
                                        UTC ":=37", "centers: cell ???", "units: \"mm\" \"\"", NULL};
    static struct text file;
    header(&file, "NRRD0005", lines, end, 1);
    put(&file, DATA);
    chosen_list(view(&file), end, GROW, GROWING, "axis records", "repeated key");
}

static void chosen_lists(void)
{
    static const char *const lines[] = {FIELDS, NULL};
    static const struct setting mixed[] = {SET(RIG, "22"), SET(UTC, "0"), SET(RIG, "")};
    static struct text file, rest;
    for (int i = 0; i < 2; i++) {
        attached_lists(i ? CRLF : LF);
        detached_lists(i ? CRLF : LF);
        named_lists(i ? CRLF : LF);
        axes_lists(i ? CRLF : LF);
    }
    file.length = 0;
    put_string(&file, "NRRD0003\r\n" RIG ":=1\n");
    put(&file, header(&rest, "#c", lines, CRLF, 1));
    put(&file, DATA);
    put_settings(lend(view(&file), 64, 8), mixed, 3, "attached, CR LF after line 1, LF after the pair");
    header(&file, "NRRD00.01", lines, LF, 1);
    put(&file, DATA);
    put_settings(lend(view(&file), 64, 8), GROW, GROWING, "version 1, all refused");
}

/* ---- lists at the limits of header bytes, lines, buffer and table */

enum form { ATTACHED, OPEN, UNENDED, FORMS };

/* A header of so many bytes, filled by its last comment; an unended one has no ending there. */
static struct bytes filled_header(size_t length, enum form form, const char *end)
{
    static const char *const lines[] = {UTC ":=37", FIELDS, NULL};
    static struct text file;
    size_t after = form == ATTACHED ? 2 * strlen(end) : form == OPEN ? strlen(end) : 0;
    header(&file, "NRRD0004", lines, end, 0);
    if (form != ATTACHED) {
        put_string(&file, "data file: d.raw");
        put_string(&file, end);
    }
    put_byte(&file, '#');
    put_times(&file, "c", length - file.length - after);
    put_times(&file, end, form == ATTACHED ? 2 : form == OPEN ? 1 : 0);
    if (form == ATTACHED)
        put(&file, DATA);
    return view(&file);
}

/* A value of so many bytes; the byte is told. */
static struct bytes times(char byte, size_t count)
{
    static char texts[8][5000];
    static size_t turn;
    char *text = texts[turn++ % 8];
    memset(text, byte, count);
    return (struct bytes){(uint8_t *)text, count};
}

static void header_limit(enum form form, const char *end)
{
    static const struct setting full[] = {SET(UTC, "12345"), SET(UTC, "123456"), SET("k", ""), SET(UTC, "1"),
                                          SET(UTC, "\n\n\\"), SET(UTC, "")};
    static const struct setting line_more[] = {SET("k", "1"), SET("k", ""), SET("k", "1"), SET(UTC, "3")};
    const char *name = form == ATTACHED && end == LF ? "header of 65,535 bytes" : "";
    size_t line = strlen("k:=") + strlen(end);
    told(put_settings(lend(filled_header(CRANEHOLT_MAX_HEADER - 3, form, end), 64, 8), full, 6, name), 6,
         (const uint32_t[]){0, 3, 3, 0, 3, 0});
    told(put_settings(lend(filled_header(CRANEHOLT_MAX_HEADER - line, form, end), 64, 8), line_more, 4, ""), 4,
         (const uint32_t[]){3, 0, 3, 0});
}

/* The buffer and the table are exactly enough, or one byte or entry less. */
static void room_limits(enum form form, const char *end)
{
    const struct setting bytes[] = {{BYTES(UTC), times('3', 102)}, SET("k", ""), SET("k", "1"),
                                    {BYTES(UTC), times('3', 101)}, SET("k", "1")};
    const struct setting less[] = {{BYTES(UTC), times('3', 102)}, SET("k", ""), {BYTES(UTC), times('3', 101)}, SET("k", "")};
    static const struct setting entries[] = {SET("k", "1"), SET("l", "1"), SET("k", "22")};
    static const struct setting entry_less[] = {SET("k", "1"), SET(UTC, "1")};
    struct bytes file = filled_header(form == ATTACHED ? 200 : 400, form, end);
    size_t room = 100 + strlen("k:=") + strlen(end);
    told(put_settings(lend(file, room, 8), bytes, 5, ""), 5, (const uint32_t[]){0, 0, 22, 0, 0});
    told(put_settings(lend(file, room - 1, 8), less, 4, ""), 4, (const uint32_t[]){0, 22, 0, 0});
    told(put_settings(lend(file, 64, 1), entries, 3, ""), 3, (const uint32_t[]){0, 22, 0});
    told(put_settings(lend(file, 64, 0), entry_less, 2, ""), 2, (const uint32_t[]){22, 0});
}

/* A header of so many lines, most of them comments, its closing line included. */
static struct bytes lined_header(size_t lines, const char *end)
{
    static const char *const fields[] = {FIELDS, UTC ":=37", NULL};
    static const char *all[CRANEHOLT_MAX_LINES + 8];
    static struct text file;
    size_t comments = lines - 7;
    for (size_t i = 0; i < comments; i++)
        all[i] = "#";
    memcpy(all + comments, fields, sizeof fields);
    header(&file, "NRRD0004", all, end, 1);
    put(&file, DATA);
    return view(&file);
}

static void line_limit(const char *end)
{
    static const struct setting asked[] = {SET("k", "1"), SET("l", "1"), SET(UTC, ""), SET("k", "")};
    struct bytes file = lined_header(CRANEHOLT_MAX_LINES - 1, end);
    const char *name = end == LF ? "header of 1,024 lines" : "";
    told(put_settings(lend(file, 64, 4), asked, 4, name), 4, (const uint32_t[]){0, 4, 0, 0});
    told(put_settings(lend(file, 64, 1), asked, 4, ""), 4, (const uint32_t[]){0, 4, 0, 0});
    told(put_settings(lend(file, 64, 0), asked, 4, ""), 4, (const uint32_t[]){22, 22, 0, 22});
    file = lined_header(CRANEHOLT_MAX_LINES, end);
    for (int i = 0; i < 3; i++)
        told(put_settings(lend(file, 64, i == 0 ? 4 : i == 1), asked, 4, ""), 4, (const uint32_t[]){4, 4, 0, 4});
}

static void limit_lists(void)
{
    for (int i = 0; i < 2; i++) {
        const char *end = i ? CRLF : LF;
        for (enum form form = ATTACHED; form < FORMS; form++) {
            header_limit(form, end);
            room_limits(form, end);
        }
        line_limit(end);
    }
}

/* ---- lists that move much data, up and down, by one byte and by many */

static void moving_lists(void)
{
    static const char *const lines[] = {UTC ":=37", FIELDS, NULL};
    static const size_t lengths[] = {0, 1, 4095, 4096, 4097, 8192, 12289, 40000};
    static const size_t values[] = {3, 2, 1, 0, 100, 99, 4200, 10, 2, 700, 0};
    static char value[4200], other[10];
    static struct text file;
    struct setting asked[11];
    memset(value, 'v', sizeof value);
    memset(other, 'w', sizeof other);
    for (size_t i = 0; i < 11; i++)
        asked[i] = (struct setting){LITERAL(UTC), {(uint8_t *)value, values[i]}};
    asked[7] = (struct setting){LITERAL("k"), {(uint8_t *)other, sizeof other}};
    for (size_t i = 0; i < 16; i++) {
        header(&file, "NRRD0004", lines, i / 8 ? CRLF : LF, 1);
        for (size_t n = 0; n < lengths[i % 8]; n++)
            put_byte(&file, (uint8_t)(n % 251));
        put_settings(lend(view(&file), 4300, 8), asked, 11, "");
    }
}

/* ---- lists on files that are drawn */

static struct draw draw = {2024};

#define OF(list) ((list)[below(&draw, COUNT(list))])

static const struct bytes KEYS[] = {
    BYTES(UTC), BYTES(RIG), BYTES("Rig"), BYTES("a"), BYTES("type"), BYTES("two\nlines"), BYTES("back\\slash"),
    BYTES("\\"), BYTES("colon:"), BYTES(" lead"), BYTES("trail "), BYTES("="), BYTES("\n")};
static const struct bytes BAD_KEYS[] = {BYTES(""), BYTES("#"), BYTES("#k"), BYTES("k: v"), BYTES("k:="), BYTES("k\r"),
                                        BYTES("\200"), BYTES(": "), BYTES(":=")};
static const struct bytes BAD_VALUES[] = {BYTES("\r"), BYTES("\0"), BYTES("v\177"), BYTES("\377")};

/* The texts that are drawn for one list. */
static struct text drawn;

static struct bytes drawn_value(void)
{
    static const char *const pieces[] = {"x", "7", " ", "\n", "\\", ": ", ":=", "#", "\t"};
    static const int lengths[] = {0, 1, 2, 3, 5, 9, 30};
    size_t from = drawn.length;
    for (int left = OF(lengths); left > 0; left--)
        put_string(&drawn, OF(pieces));
    return part(view(&drawn), from, drawn.length);
}

/* A pair as a line. */
static struct bytes drawn_pair(void)
{
    static struct text line;
    struct bytes key = OF(KEYS);
    size_t from;
    line.length = 0;
    put_escaped(&line, key);
    put_string(&line, ":=");
    put_escaped(&line, drawn_value());
    from = drawn.length;
    put(&drawn, view(&line));
    return part(view(&drawn), from, drawn.length);
}

enum { MOST_LINES = 20 };

/* The fields, which keep their order since sizes come after dimension, and lines among them. */
static size_t drawn_lines(struct bytes *lines, int detached)
{
    static const char *const fields[] = {FIELDS};
    static const struct bytes others[] = {BYTES("# c"), BYTES("#"), BYTES("\t:="), {NULL, 0}, {NULL, 0}, {NULL, 0}};
    size_t count = 0;
    for (; count < COUNT(fields); count++)
        lines[count] = (struct bytes){(uint8_t *)fields[count], strlen(fields[count])};
    if (detached)
        lines[count++] = LITERAL("data file: d.raw");
    for (uint64_t left = below(&draw, 9); left > 0; left--) {
        struct bytes line = OF(others);
        size_t at = below(&draw, count + 1);
        memmove(lines + at + 1, lines + at, (count - at) * sizeof *lines);
        lines[at] = line.at == NULL ? drawn_pair() : line;
        count++;
    }
    return count;
}

/* One of the endings of a kind: LF, CR LF, or either. */
static const char *drawn_ending(uint64_t kind)
{
    uint64_t turn = below(&draw, kind < 2 ? 1 : 2);
    return kind == 1 || turn == 1 ? CRLF : LF;
}

/* LIST with as many names as the sizes ask for: pairs, and lines that are something else elsewhere. */
static size_t drawn_names(struct bytes *lines)
{
    static const struct bytes names[] = {BYTES("# c"), BYTES("x.raw"), BYTES(" "), BYTES("type: int8"), {NULL, 0}, {NULL, 0}};
    lines[0] = LITERAL("data file: LIST");
    for (size_t n = 1; n <= 3; n++) {
        struct bytes line = OF(names);
        lines[n] = line.at == NULL ? drawn_pair() : line;
    }
    return 4;
}

/* Attached; detached and closed, without closing line, or with a last line without ending, a third of these with LIST. */
static struct bytes drawn_file(void)
{
    static const char *const magics[] = {"NRRD0002", "NRRD0003", "NRRD0004", "NRRD0005"};
    static struct text file;
    struct bytes lines[MOST_LINES];
    uint64_t form = below(&draw, 4), kind;
    int named = form != 0 && below(&draw, 3) == 0;
    size_t count = drawn_lines(lines, form != 0 && !named);
    const char *end = LF;
    if (named)
        count += drawn_names(lines + count);
    kind = below(&draw, 3);
    file.length = 0;
    put_string(&file, OF(magics));
    put_string(&file, drawn_ending(kind));
    for (size_t i = 0; i < count; i++) {
        put(&file, lines[i]);
        put_string(&file, end = drawn_ending(kind));
    }
    if (form < 2) {
        const struct bytes data[] = {BYTES(""), DATA, BYTES("\n\n"), times('z', 70)};
        put_string(&file, drawn_ending(kind));
        put(&file, OF(data));
    } else if (form == 3) {
        file.length -= strlen(end);
    }
    return view(&file);
}

static void drawn_lists(void)
{
    static const size_t slacks[] = {0, 1, 7, 30, 200}, slots[] = {0, 1, 2, 12};
    for (int i = 0; i < 160; i++) {
        struct setting asked[12];
        struct bytes file;
        size_t count, slack;
        drawn.length = 0;
        file = drawn_file();
        count = 1 + below(&draw, 12);
        for (size_t n = 0; n < count; n++) {
            asked[n].key = below(&draw, 8) == 0 ? OF(BAD_KEYS) : OF(KEYS);
            asked[n].value = below(&draw, 10) == 0 ? OF(BAD_VALUES) : drawn_value();
        }
        slack = OF(slacks);
        put_settings(lend(file, slack, OF(slots)), asked, count, "");
    }
}

/* ---- lists that are refused: what is lent is not a file with its table */

static const struct setting REFUSED[] = {SET(UTC, "38"), SET("k", "1"), SET("#", "1"), SET("k", "\r")};

static void table_refused(struct lent *lent)
{
    told(put_settings(lent, REFUSED, 4, ""), 4, (const uint32_t[]){26, 26, 24, 25});
}

static void set_entry(struct lent *lent, size_t i, uint32_t entry)
{
    for (size_t n = 0; n < 4; n++)
        lent->table.at[4 * i + n] = (uint8_t)(entry >> 8 * n);
}

static uint32_t entry_at(struct lent *lent, size_t i)
{
    uint32_t entry = 0;
    for (size_t n = 4; n > 0; n--)
        entry = entry << 8 | lent->table.at[4 * i + n - 1];
    return entry;
}

static void wrong_counts(struct bytes file)
{
    static const struct {
        size_t slots, cut; /* entries of the table more, or less */
        int64_t count;     /* from the number of lines */
    } wrong[] = {{1, 0, -1}, {1, 0, 1}, {0, 0, 1}, {0, 1, 0}};
    struct lent *lent;
    for (size_t i = 0; i < 4; i++) {
        lent = lend(file, 64, wrong[i].slots);
        if (wrong[i].slots)
            set_entry(lent, lent->count, 9);
        lent->table.length -= 4 * wrong[i].cut;
        lent->count = (uint64_t)((int64_t)lent->count + wrong[i].count);
        table_refused(lent);
    }
    for (int i = 0; i < 2; i++) {
        lent = lend(file, 64, 0);
        lent->table.length = 0;
        lent->count = i ? lent->count : 0;
        table_refused(lent);
    }
    lent = lend(file, 64, 0);
    lent->count = 4294967295u;
    table_refused(lent);
}

static void wrong_entries(struct bytes file)
{
    struct lent *lent = lend(file, 64, 0);
    size_t last = lent->count - 1;
    uint32_t third = entry_at(lent, 3), fourth = entry_at(lent, 4);
    set_entry(lent, 0, 1);
    table_refused(lent);
    lent = lend(file, 64, 0);
    set_entry(lent, last, entry_at(lent, last) + 1);
    table_refused(lent);
    lent = lend(file, 64, 0);
    set_entry(lent, 3, fourth);
    set_entry(lent, 4, third);
    table_refused(lent);
    lent = lend(file, 64, 0);
    for (size_t i = 0; i <= last; i++)
        set_entry(lent, i, 0);
    table_refused(lent);
}

static void wrong_lengths(struct bytes file)
{
    const size_t header_length = file.length - DATA.length;
    struct lent *lent = lend(file, 64, 0);
    const uint64_t past[] = {lent->buffer.length + 1, 4294967295u};
    const uint64_t used[] = {0, 8, entry_at(lent, 1), header_length - 1};
    for (size_t i = 0; i < 2; i++) {
        lent = lend(file, 64, 0);
        lent->used = past[i];
        told(put_settings(lent, REFUSED, 4, ""), 4, (const uint32_t[]){22, 22, 22, 22});
    }
    for (size_t i = 0; i < 4; i++) {
        uint32_t number = i < 2 ? 2 : 13;
        lent = lend(file, 64, 0);
        lent->used = used[i];
        told(put_settings(lent, REFUSED, 4, ""), 4, (const uint32_t[]){number, number, number, number});
    }
}

static void refused_lists(void)
{
    static const char *const lines[] = {FIELDS, UTC ":=37", NULL};
    static const char *const unknown[] = {"what: is this", FIELDS, NULL};
    static const char *const no_mark[] = {FIELDS, "no mark", NULL};
    static const char *const fields[] = {FIELDS, NULL};
    static struct text file;
    header(&file, "NRRD0004", lines, LF, 1);
    put(&file, DATA);
    wrong_counts(view(&file));
    wrong_entries(view(&file));
    wrong_lengths(view(&file));
    put_settings(lend(header(&file, "NRRD0004", fields + 1, LF, 1), 64, 8), REFUSED, 4, "");
    put_settings(lend(header(&file, "NRRD0004", unknown, LF, 1), 64, 8), REFUSED, 4, "");
    put_settings(lend(header(&file, "NRRD0004", no_mark, CRLF, 1), 64, 8), REFUSED, 4, "");
    put_settings(lend(header(&file, "NRRD0001", fields, LF, 1), 64, 8), REFUSED, 4, "");
}

/* ---- groups */

void put_setting_groups(void)
{
    static const struct {
        const char *name;
        void (*put)(void);
    } groups[] = {
        {"chosen lists", chosen_lists},         {"lists at the limits", limit_lists},
        {"lists that move data", moving_lists}, {"drawn lists", drawn_lists},
        {"lists that are refused", refused_lists},
    };
    for (size_t i = 0; i < COUNT(groups); i++) {
        start_group(groups[i].name);
        groups[i].put();
        end_group();
    }
}
