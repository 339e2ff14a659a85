/*
 * The cases of the program that runs the reading and the look-ups. Its layout
 * stands in that program's main.rt. Headers of every shape are in headers.txt,
 * one a line: the entries of the lent table, a space, the file with LF, CR,
 * tab, backslash and other bytes as \n, \r, \t, \\ and \xNN. These are our
 * own, chosen by kinds of lines and fields; lines can be added by hand.
 */
#include "cases.h"
#include "pairs.h"

#include <stdio.h>
#include <stdlib.h>
#include <string.h>

/* ---- the keys that are asked for */

enum { MOST_ASKED = 4096 };

static struct bytes asked[MOST_ASKED];
static size_t asked_count;
static struct text made; /* the keys that are no key of the file */

/* Asks for a key once. */
static void ask(struct bytes key)
{
    for (size_t i = 0; i < asked_count; i++)
        if (same(asked[i], key))
            return;
    ensure(asked_count < MOST_ASKED, "too many keys are asked for");
    asked[asked_count++] = key;
}

/* Asks for the key that was made from this place on. */
static void ask_made(size_t from)
{
    ask(part(view(&made), from, made.length));
}

static void ask_other_case(struct pair pair)
{
    size_t from = made.length;
    for (size_t i = 0; i < pair.length; i++) {
        uint8_t b = pair.key[i];
        int letter = (b >= 'a' && b <= 'z') || (b >= 'A' && b <= 'Z');
        put_byte(&made, letter ? b ^ 32 : b);
    }
    ask_made(from);
}

static void ask_longer(struct pair pair)
{
    size_t from = made.length;
    put(&made, (struct bytes){pair.key, pair.length});
    put_byte(&made, ' ');
    ask_made(from);
}

/* Every key of the file; keys that are near to them, most of which it does not have. */
static void ask_keys(const struct pair *pairs, size_t count)
{
    asked_count = made.length = 0;
    for (size_t i = 0; i < count; i++)
        ask((struct bytes){pairs[i].key, pairs[i].length});
    ask(LITERAL("no such key"));
    ask(LITERAL(""));
    for (size_t i = 0; i < count; i++)
        ask_other_case(pairs[i]);
    for (size_t i = 0; i < count; i++)
        ask(pairs[i].key_text);
    if (count > 0)
        ask_longer(pairs[0]);
}

/* ---- a case */

static void put_reading(struct text *c, const craneholt_reading *r)
{
    const uint32_t kinds[] = {r->version, r->form, r->dimension, r->sampletype, r->encoding, r->endian};
    for (size_t i = 0; i < 6; i++)
        put_number(c, kinds[i]);
    for (size_t i = 0; i < CRANEHOLT_MAX_AXES; i++)
        put_number(c, r->sizes[i]);
    put_number(c, r->lineskip);
    put_number(c, r->byteskip);
    put_number(c, r->extent);
    put_number(c, r->length);
    put_number(c, r->lines);
    put_number(c, r->fromend);
    put_number(c, r->origin);
    put_number(c, r->directions);
    put_number(c, r->frame);
    put_number(c, r->space);
    put_number(c, r->spacedimension);
    put_number(c, r->files);
    put_number(c, r->fieldlines);
}

static void put_fields(struct text *c, struct bytes file)
{
    for (uint32_t field = 0; field < MODEL_FIELDS; field++) {
        craneholt_find_answer place = model_find_field(file.at, file.length, field);
        put_text(c, place.found, part(file, place.start, place.start + place.length));
    }
}

/* The key, its value's text and its value. */
static void put_key(struct text *c, struct bytes file, struct bytes key)
{
    craneholt_find_answer place = model_find_key(file.at, file.length, key.at, key.length);
    struct bytes value = filled(place.length);
    craneholt_value_answer copied =
        model_copy_value(file.at, file.length, key.at, key.length, value.at, value.length);
    put_run(c, key);
    put_text(c, place.found, part(file, place.start, place.start + place.length));
    put_run(c, part(value, 0, copied.length));
    free(value.at);
}

/* Asked for are also the keys that names under LIST look like. */
static void put_keys(struct text *c, struct bytes file, const craneholt_read_answer *header)
{
    static struct pair pairs[MOST_PAIRS];
    int accepted = header->refusal.number == 0;
    size_t count = take_pairs(file, header->reading.lines, pairs);
    ask_keys(pairs, count);
    if (!accepted) {
        asked_count = 0;
        ask(LITERAL("utc offset"));
    }
    put_number(c, asked_count);
    for (size_t i = 0; i < asked_count; i++)
        put_key(c, file, asked[i]);
    free_pairs(pairs, count);
}

enum { MOST_ENTRIES = 16384, MOST_FILE = 131072 };

void put_read(struct bytes file, uint64_t room)
{
    struct text *c = start_case();
    struct bytes table = filled(4 * MOST_ENTRIES);
    craneholt_read_answer told, header = model_read_header(file.at, file.length);
    if (room > MOST_ENTRIES || file.length > MOST_FILE) {
        free(table.at);
        leave_out();
        return;
    }
    told = model_read(file.at, file.length, table.at, 4 * room);
    put_number(c, room);
    put_refusal(c, told.refusal);
    put_refusal(c, header.refusal);
    put_reading(c, &header.reading);
    put_run(c, file);
    put_run(c, part(table, 0, 4 * (size_t)told.reading.lines));
    put_fields(c, file);
    put_keys(c, file, &header);
    free(table.at);
    end_case();
}

/* ---- the trials of the rules that are not among the vectors */

/* A file whose header is so long, by a comment that has bytes of every kind but LF. */
static struct bytes filled_header(size_t length, const char *data)
{
    static const char fields[] = "NRRD0004\ndimension: 1\ntype: uint8\nencoding: raw\nsizes: 3\n#";
    static struct text file;
    file.length = 0;
    put_string(&file, fields);
    for (size_t n = 0; file.length < length - 3; n++) {
        uint8_t b = (uint8_t)(7 * n + n / 251);
        put_byte(&file, b == '\n' ? '\r' : b);
    }
    put_string(&file, "x\n\n");
    put_string(&file, data);
    return view(&file);
}

static void put_trials(void)
{
    start_group("trials of document 01");
    put_read(LITERAL("NRRD0004\ndimension: 16\nsizes: 2 2 2 2 2 2 2 2 2 2 2 2 2 2 2 2\ntype: uint8\nencoding: raw\n\n"
                     "\0\0\0\0\0\0\0\0\0"), 9);
    put_read(LITERAL("NRRD0004\ndimension: 0\nsizes: 1\ntype: uint8\nencoding: raw\n\n"), 20);
    put_read(LITERAL("NRRD0004\ndimension: 17\nsizes: 1 1 1 1 1 1 1 1 1 1 1 1 1 1 1 1 1\ntype: uint8\n"
                     "encoding: raw\n\n"), 20);
    put_read(filled_header(CRANEHOLT_MAX_HEADER, "abc"), 10);
    put_read(filled_header(CRANEHOLT_MAX_HEADER + 1, ""), 20);
    end_group();
}

/* ---- names under LIST at the limits */

/* A header with so many names under LIST, as many as its sizes ask for, and comments before it up to so many lines. The last name
 * is so long that the header has this length, if it is not 0. */
static struct bytes named_header(size_t lines, size_t names, size_t length, int closed)
{
    static struct text file;
    size_t comments = lines - 6 - names - (size_t)closed;
    file.length = 0;
    put_format(&file, "NRRD0004\ntype: uint8\ndimension: 2\nsizes: 1 %zu\nencoding: raw\n", names > 0 ? names : 1);
    put_times(&file, "#\n", comments);
    put_string(&file, "data file: LIST\n");
    for (size_t n = 1; n < names; n++)
        put_format(&file, "%zu:=%zu\n", n % 100, n);
    while (names > 0 && file.length + 2 + (size_t)closed < length)
        put_byte(&file, 'n');
    if (names > 0)
        put_string(&file, "x\n");
    if (closed)
        put_byte(&file, '\n');
    return view(&file);
}

/* Headers of all lines or bytes that there may be, and of one more; a LIST without a name on the last line, or one byte before the end, is
 * told after the closing line. */
static void put_named(void)
{
    static const size_t names[] = {1, 7, 1000, 1017};
    start_group("names under LIST at the limits");
    for (size_t i = 0; i < 2 * COUNT(names); i++)
        for (size_t more = 0; more < 2; more++)
            put_read(named_header(CRANEHOLT_MAX_LINES + more, names[i / 2], 0, i % 2 == 0), 1100);
    for (size_t i = 0; i < 4; i++)
        put_read(named_header(30, 12, CRANEHOLT_MAX_HEADER + i / 2, i % 2 == 0), 30);
    for (size_t more = 0; more < 2; more++) {
        struct bytes file = named_header(CRANEHOLT_MAX_LINES + more, 0, 0, 1);
        uint32_t number = model_read_header(file.at, file.length).refusal.number;
        ensure(number == (more ? CRANEHOLT_TOO_MANY_LINES : CRANEHOLT_BAD_DESCRIPTOR), "an empty LIST has another refusal");
        put_read(file, 1100);
    }
    end_group();
}

/* ---- headers of every shape */

/* The byte that the text at a place stands for; the next place. */
static uint8_t take_byte(const char **at)
{
    static const char names[] = "nrt\\", bytes[] = "\n\r\t\\";
    const char *name;
    unsigned code = 0;
    if (**at != '\\')
        return (uint8_t)*(*at)++;
    ++*at;
    if (**at == 'x') {
        sscanf(*at + 1, "%2x", &code);
        *at += 3;
        return (uint8_t)code;
    }
    name = **at == '\0' ? NULL : strchr(names, *(*at)++);
    ensure(name != NULL, "headers.txt has a bad escape");
    return (uint8_t)bytes[name - names];
}

static void put_line(const char *line)
{
    static struct text file;
    char *text;
    unsigned long room = strtoul(line, &text, 10);
    const char *at = text + 1;
    ensure(text > line && *text == ' ', "headers.txt has a line without room");
    file.length = 0;
    while (*at != '\0')
        put_byte(&file, take_byte(&at));
    put_read(view(&file), room);
}

void put_header_groups(const char *folder)
{
    struct bytes lines = load(folder, "headers.txt");
    ensure(lines.at != NULL, "headers.txt is missing");
    put_trials();
    put_named();
    start_group("shapes of headers");
    for (char *line = strtok((char *)lines.at, "\n"); line != NULL; line = strtok(NULL, "\n"))
        put_line(line);
    end_group();
    free(lines.at);
}
