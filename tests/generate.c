#include "generate.h"

#include "model.h"

#include <stdlib.h>
#include <string.h>

enum { RAW, TEXT, HEX };
enum {
    DIMENSION, TYPE, ENCODING, ENDIAN, SIZES, LINE_SKIP, BYTE_SKIP, DATA_FILE,
    SPACE = 16, SPACE_DIMENSION, SPACE_UNITS, SPACE_ORIGIN, SPACE_DIRECTIONS, MEASUREMENT_FRAME,
    CENTERS = 26, LABELS, UNITS, KINDS
};

#define COUNT(list) (sizeof(list) / sizeof(list)[0])

/* ---- random numbers: xorshift64*, the seed spread by splitmix64 */

static uint64_t state;

void random_start(uint64_t seed)
{
    uint64_t z = seed + 0x9e3779b97f4a7c15u;
    z = (z ^ z >> 30) * 0xbf58476d1ce4e5b9u;
    z = (z ^ z >> 27) * 0x94d049bb133111ebu;
    state = (z ^ z >> 31) | 1;
}

uint64_t random_bits(void)
{
    state ^= state >> 12;
    state ^= state << 25;
    state ^= state >> 27;
    return state * 0x2545f4914f6cdd1du;
}

uint64_t random_below(uint64_t limit)
{
    return (random_bits() >> 11) % limit;
}

int random_chance(unsigned percent)
{
    return random_below(100) < percent;
}

/* ---- bytes */

void put_bytes(struct bytes *b, const void *bytes, size_t length)
{
    if (length > sizeof b->at - b->length)
        abort();
    memcpy(b->at + b->length, bytes, length);
    b->length += length;
}

void put_byte(struct bytes *b, uint8_t byte)
{
    put_bytes(b, &byte, 1);
}

void put_number(struct bytes *b, uint64_t number, size_t width)
{
    for (size_t i = 0; i < width; i++)
        put_byte(b, (uint8_t)(number >> 8 * i));
}

void put_random(struct bytes *b, size_t length)
{
    for (; length >= 8; length -= 8) {
        uint64_t bits = random_bits();
        put_bytes(b, &bits, 8);
    }
    put_number(b, random_bits(), length);
}

static void put_text(struct bytes *b, const char *text)
{
    put_bytes(b, text, strlen(text));
}

static void put_any(struct bytes *b, const char *alphabet, size_t length)
{
    size_t size = strlen(alphabet);
    while (length-- > 0)
        put_byte(b, (uint8_t)alphabet[random_below(size)]);
}

static int is_letter(char c)
{
    return (c >= 'a' && c <= 'z') || (c >= 'A' && c <= 'Z');
}

/* A word as it is, with small letters and capitals exchanged, or with some of them. */
static void put_word(struct bytes *b, const char *word)
{
    unsigned exchanged = random_chance(70) ? 0 : random_chance(50) ? 100 : 50;
    for (; *word != '\0'; word++)
        put_byte(b, (uint8_t)(is_letter(*word) && random_chance(exchanged) ? *word ^ 32 : *word));
}

static void put_zeros(struct bytes *b)
{
    if (random_chance(10))
        put_any(b, "0", random_below(30));
}

static void put_decimal(struct bytes *b, uint64_t number)
{
    if (number >= 10)
        put_decimal(b, number / 10);
    put_byte(b, (uint8_t)('0' + number % 10));
}

/* Changes length bytes at start to new_length bytes. */
static void replace(struct bytes *b, size_t start, size_t length, const void *bytes, size_t new_length)
{
    size_t rest = b->length - start - length;
    if (new_length > sizeof b->at - start - rest)
        abort();
    memmove(b->at + start + new_length, b->at + start + length, rest);
    memcpy(b->at + start, bytes, new_length);
    b->length = start + new_length + rest;
}

/* ---- keys and values */

static const char *const good_keys[] = {
    "utc offset", "rig", "a", "A", "a:", "a b", " lead", "trail\t", "type", "sizes", "x=y",
    "two\nlines", "back\\slash", "\n", "\\", "n", "\\n", "::", ":", "k#", "a:\n", "k",
};

static const char *const bad_keys[] = {
    "", "#", "#k", "k: v", "k:=v", ": ", ":=", "k\001", "k\177", "k\377", "k\r", "\037", "utc offset\r",
};

void make_key(struct bytes *key)
{
    key->length = 0;
    if (random_chance(80))
        put_text(key, good_keys[random_below(COUNT(good_keys))]);
    else if (random_chance(60))
        put_any(key, "ab:= #\\\n\t~", 1 + random_below(5));
    else if (random_chance(70))
        put_text(key, bad_keys[random_below(COUNT(bad_keys))]);
    else
        put_random(key, random_below(4));
}

void make_value(struct bytes *value, size_t near)
{
    value->length = 0;
    if (near > 0 && random_chance(50))
        put_any(value, "v", near - random_below(near < 24 ? near : 24));
    put_any(value, "0123456789abc xyz:=#~\t\n\\n", random_below(random_chance(90) ? 12 : 60));
    if (random_chance(4))
        put_any(value, "\001\010\013\r\037\177\200\377", 1);
}

static void put_escaped(struct bytes *b, const struct bytes *text)
{
    for (size_t i = 0; i < text->length; i++) {
        if (text->at[i] == '\n' || text->at[i] == '\\')
            put_byte(b, '\\');
        put_byte(b, text->at[i] == '\n' ? 'n' : text->at[i]);
    }
}

/* ---- components and vectors */

static void put_sign(struct bytes *b)
{
    if (random_chance(35))
        put_byte(b, random_chance(70) ? '-' : '+');
}

/* Zeros, then so many digits of which the first is not 0, with a point at any place or without one; how many digits
 * follow the point. */
static size_t put_digits(struct bytes *b, size_t zeros, size_t counted)
{
    size_t digits = zeros + counted, point = random_chance(40) ? digits + 1 : random_below(digits + 1);
    for (size_t i = 0; i <= digits; i++) {
        if (i == point)
            put_byte(b, '.');
        if (i < zeros)
            put_byte(b, '0');
        else if (i < digits)
            put_byte(b, (uint8_t)('0' + (i == zeros ? 1 + random_below(9) : random_below(10))));
    }
    return point < digits ? digits - point : 0;
}

/* A power, near nothing or near the limits. */
static int64_t make_power(void)
{
    if (random_chance(60))
        return (int64_t)random_below(9) - 4;
    if (random_chance(60))
        return (int64_t)random_below(801) - 400;
    return random_chance(50) ? 400 - (int64_t)random_below(2) : (int64_t)random_below(2) - 400;
}

/* Nothing, or an exponent. */
static void put_exponent(struct bytes *b, int64_t exponent)
{
    if (exponent == 0 && random_chance(80))
        return;
    put_byte(b, random_chance(80) ? 'e' : 'E');
    if (exponent < 0 || random_chance(20))
        put_byte(b, exponent < 0 ? '-' : '+');
    put_zeros(b);
    put_decimal(b, (uint64_t)(exponent < 0 ? -exponent : exponent));
}

/* Eighteen digits at most, and a power that is in range once the point is folded in; a fault passes one of the limits by
 * a little. */
static void put_numeral(struct bytes *b, int fault)
{
    size_t zeros = random_chance(15) ? random_below(25) : 0, counted = random_below(random_chance(80) ? 7 : 19);
    int64_t power = make_power(), past = 401 + (int64_t)random_below(3);
    if (fault && random_chance(50))
        counted = 19 + random_below(3);
    else if (fault)
        power = random_chance(50) ? past : -past;
    if (zeros + counted == 0)
        zeros = 1;
    put_exponent(b, power + (int64_t)put_digits(b, zeros, counted));
}

void put_component(struct bytes *b, unsigned faults)
{
    static const char *const words[] = {"nan", "inf", "infinity"};
    static const char *const zeros[] = {"0", "0.00", ".0", "0.", "000", "0e400", "0e-400", "0.0e-399", "00.e-1"};
    static const char *const bad[] = {"", ".", "e5", "1e", "1e+", "1.2.3", "0x1", "0x", "--1", "+", "infinit", "xnan",
                                      "none", "1e5.", "1e1e1", "0e401", "0.0e-400", "1e99999999999999999999",
                                      "1e-4294967296", "1000000000000000000", "1.000000000000000000", "1f", "nano",
                                      "i", "1e 5", "1:2"};
    int fault = random_chance(faults);
    if (fault && random_chance(60)) {
        put_text(b, bad[random_below(COUNT(bad))]);
        return;
    }
    put_sign(b);
    if (!fault && random_chance(8))
        put_word(b, words[random_below(COUNT(words))]);
    else if (!fault && random_chance(15))
        put_text(b, zeros[random_below(COUNT(zeros))]);
    else
        put_numeral(b, fault);
}

static void put_blanks(struct bytes *b, unsigned percent)
{
    if (random_chance(percent))
        put_any(b, " \t", 1 + random_below(3));
}

/* With faults in a hundred: another number of components, a missing or another bracket. */
static void put_vector(struct bytes *b, size_t components, unsigned faults)
{
    size_t count = random_chance(faults) ? random_below(components + 3) : components;
    if (!random_chance(faults / 4))
        put_byte(b, random_chance(faults / 4) ? '[' : '(');
    for (size_t i = 0; i < count; i++) {
        if (i > 0)
            put_byte(b, random_chance(faults / 8) ? ' ' : ',');
        put_blanks(b, 8);
        put_component(b, faults);
        put_blanks(b, 8);
    }
    if (!random_chance(faults / 4))
        put_byte(b, ')');
}

/* Vectors, or by nones in a hundred none; with faults also another number of them, or no blank between two. */
static void put_vectors(struct bytes *b, size_t count, size_t components, unsigned nones, unsigned faults)
{
    if (random_chance(faults))
        count = random_below(count + 3);
    for (size_t i = 0; i < count; i++) {
        if (i > 0 && !random_chance(faults / 2))
            put_any(b, " \t", random_chance(80) ? 1 : 3);
        if (random_chance(nones))
            put_word(b, "none");
        else
            put_vector(b, components, faults);
    }
}

/* ---- samples */

uint64_t make_sample(uint64_t type)
{
    const struct model_type *t = &model_types[type];
    uint64_t bits = random_bits() >> (64 - 8 * t->bytes);
    switch (random_below(6)) {
    case 0:
        return 0;
    case 1:
        return (uint64_t)t->low;
    case 2:
        return (uint64_t)t->high;
    case 3:
        return t->low < 0 ? ~random_below(10) : random_below(10);
    default:
        bits &= (uint64_t)t->high;
        return t->low < 0 && random_chance(50) ? ~bits : bits;
    }
}

/* A step to the next row: small, rarely none, back, or about as large as the largest that can be allowed. */
static uint32_t make_step(void)
{
    if (random_chance(96))
        return 1 + (uint32_t)random_below(random_chance(50) ? 3 : 9);
    switch (random_below(4)) {
    case 0:
        return 0;
    case 1:
        return 2147483646u + (uint32_t)random_below(3);
    case 2:
        return ~(uint32_t)random_below(3);
    default:
        return (uint32_t)random_bits();
    }
}

/* The sample of this number, of samples that are made in their order. */
static uint64_t next_sample(struct volume *v, uint64_t number)
{
    if (!v->sweep || number % v->sizes[0] != 0)
        return make_sample(v->type);
    v->stamp += make_step();
    return v->stamp;
}

/* ---- lines of a header */

/* What is being made: the volume, the endings its lines get, the fields that stand already. */
struct maker {
    struct volume *v;
    unsigned carriage_returns; /* percent of the endings */
    unsigned faults;           /* percent of the places between fields */
    int wanted[MODEL_FIELDS], done[MODEL_FIELDS];
    int offsets; /* lines with the offset of a sweep that are still to stand */
};

static void put_ending(struct maker *m)
{
    if (random_chance(m->carriage_returns))
        put_byte(&m->v->file, '\r');
    put_byte(&m->v->file, '\n');
}

/* Lines that are refused in most headers, by 5 to 12. */
static const char *const bad_lines[] = {
    "foo: bar", "dimension:2", ":=x", ": x", "a\\q:=b", "key:=\\", "k\\:=v", "k:=\\N", "type : int8",
    "content:\tx", "content:", "spaceunits: mm", "space dimensions: 3", "datafiles: x", "b\001: c",
    "content: \177", "rig:=\200", "\r", "a", ":", "=", "dimension: 0", "dimension: 17", "dimension: 1 1",
    "dimension: +2", "dimension: 2.", "dimension: 00000000000000000000000000000000000016",
    "dimension: 18446744073709551617", "dimension: ", "sizes: 0", "sizes: 4294967296",
    "sizes: 18446744073709551617", "sizes: 2x", "sizes: -2", "sizes:  ", "type: char", "type: long",
    "type: unsigned  char", "type: block", "type: int8 ", "type: ", "encoding: gzip", "encoding: bz2",
    "encoding: rawx", "encoding: ", "endian: none", "endian: ", "line skip: -1", "line skip: 1 1",
    "line skip: 4294967295", "line skip: 4294967296", "line skip:  ", "byte skip: -1", "byteskip: -1",
    "byte skip: 4294967296", "byte skip: x", "data file: LIST", "data file:  LIST ", "data file: LIST 2",
    "data file: LIST\t2", "data file: list", "data file: LISTs", "data file: a%d.raw 1 2 1",
    "data file: %", "data file: ", "datafile:  \t", "kinds: x", "measurement frame: (1)", "thicknesses: 1",
    "sample units: m", "space: left", "space directions: (1)", "space origin: 0", "space units: \"m\"",
    "units: x", "space: left\nspace directions: (1)", "space: RAS\nspace dimension: 3", "space: RAS\nspace origin: (1,2)",
    "space dimension: 3\nspace: LPS", "space dimension: 0", "space dimension: 9", "space dimension: 3 3", "space: 3D",
    "space dimension: 2\nspace origin: (1,2) (1,2)", "space: ", "space dimension:  ", "a:=b: c", "a: b:=c", "NRRD0004",
    " ", "\t", " # no comment", "centers: none", "centerings: cell", "centers: ", "kinds:  \t", "kinds: domain space times",
    "labels: \"x", "labels: x", "labels: ''", "units: \"\" \"a\\\\\"", "units: \"a\"\"b\"", "units: ", "labels: \"a\" b",
};

static void put_bad_line(struct maker *m)
{
    put_text(&m->v->file, bad_lines[random_below(COUNT(bad_lines))]);
    put_ending(m);
}

static void put_comment(struct maker *m)
{
    size_t length = random_below(12);
    put_byte(&m->v->file, '#');
    while (length-- > 0) {
        uint8_t byte = (uint8_t)random_bits();
        put_byte(&m->v->file, byte == '\n' ? '\r' : byte);
    }
    put_ending(m);
}

static void put_pair(struct maker *m)
{
    static struct bytes key, value;
    key.length = value.length = 0;
    if (random_chance(85))
        put_text(&key, good_keys[random_below(COUNT(good_keys))]);
    else
        put_any(&key, "abcXYZ019.-_", 1 + random_below(6));
    put_any(&value, "0123456789 abc:=#\t\\\n", random_below(10));
    put_escaped(&m->v->file, &key);
    put_text(&m->v->file, ":=");
    put_escaped(&m->v->file, &value);
    put_ending(m);
}

/* The line with the offset of a sweep; rarely one that does not say it. */
static void put_offset(struct maker *m)
{
    static const char *const keys[] = {"UTC offset", "utc offset ", " utc offset", "utc  offset", "utc\\noffset", "utc offse"};
    static const char *const bad[] = {"", "256", "260", "300", "1000", "4294967295", "4294967296", "4294967301",
                                      "18446744073709551615", "18446744073709551616", "18446744073709551653", "-1", "-0",
                                      "+5", " 7", "7 ", "3 7", "3x", "x3", "0x10", "1e2", "1.5", "\\n37", "37\\n", "3\\\\7", "\t9"};
    struct bytes *file = &m->v->file;
    put_text(file, random_chance(97) ? "utc offset" : keys[random_below(COUNT(keys))]);
    put_text(file, ":=");
    if (random_chance(93)) {
        put_zeros(file);
        put_decimal(file, random_chance(10) ? 255 * random_below(2) : random_below(256));
    } else {
        put_text(file, bad[random_below(COUNT(bad))]);
    }
    put_ending(m);
    m->offsets--;
}

/* ---- descriptors */

static void put_sizes(struct volume *v)
{
    for (size_t i = 0; i < v->dimension; i++) {
        if (i > 0)
            put_any(&v->file, " \t", random_chance(80) ? 1 : 3);
        put_zeros(&v->file);
        put_decimal(&v->file, v->sizes[i]);
    }
}

static void put_type(struct volume *v)
{
    const char *const *names = model_types[v->type].names;
    size_t count = 0;
    while (count < 8 && names[count] != NULL)
        count++;
    put_word(&v->file, names[random_below(count)]);
}

/* Now and then a text that is not quite -1. */
static void put_from_end(struct bytes *b)
{
    static const char *const bad[] = {"-01", "-2", "-0", "- 1", "-\t1", "-1 0", "-1 -1", "-10", "-", "--1", "+1", "-1x",
                                      "-4294967295", "-18446744073709551615"};
    put_text(b, random_chance(95) ? "-1" : bad[random_below(COUNT(bad))]);
}

/* The space by name, or its dimension, which is the dimension of the vectors after it. */
static void put_space(struct volume *v, int field)
{
    const struct model_space *space = &model_spaces[random_below(MODEL_SPACES)];
    if (field == SPACE) {
        v->space = space->dimension;
        put_word(&v->file, space->names[1] != NULL && random_chance(50) ? space->names[1] : space->names[0]);
        return;
    }
    v->space = random_chance(80) ? 1 + random_below(4) : random_below(random_chance(90) ? 9 : 11);
    put_zeros(&v->file);
    put_decimal(&v->file, v->space);
}

/* Of the vectors nine in ten are right. */
static void put_orientation(struct volume *v, int field)
{
    unsigned faults = random_chance(90) ? 0 : 10;
    size_t components = v->space > 0 ? v->space : 3;
    if (field == SPACE || field == SPACE_DIMENSION)
        put_space(v, field);
    else if (field == SPACE_DIRECTIONS)
        put_vectors(&v->file, v->dimension, components, 25, faults);
    else
        put_vectors(&v->file, field == SPACE_ORIGIN ? 1 : components, components, faults, faults);
}

/* ---- data files */

static void put_gap(struct bytes *b)
{
    put_any(b, " \t", random_chance(85) ? 1 : 3);
}

static void put_spaced(struct bytes *b, uint64_t number)
{
    put_gap(b);
    put_zeros(b);
    put_decimal(b, number);
}

/* `%d`, `%Nd` or `%0Nd`. */
static void put_conversion(struct bytes *b)
{
    static const uint64_t widths[] = {1, 2, 3, 5, 9, 10, 11, 20, 98, 99};
    put_byte(b, '%');
    if (random_chance(70)) {
        put_text(b, random_chance(50) ? "0" : "");
        put_decimal(b, random_chance(50) ? 1 + random_below(5) : widths[random_below(COUNT(widths))]);
    }
    put_byte(b, 'd');
}

/* First, last and step for so many files: up or down, near 0 or near the largest number; last is past the last number or not. */
static void put_range(struct bytes *b, uint64_t files)
{
    static const uint64_t largest = 4294967295u;
    uint64_t step = random_chance(60) ? 1 : random_chance(80) ? 1 + random_below(9) : 1 + random_below(largest);
    uint64_t reach, low;
    int down = random_chance(40);
    if (files > largest || (files - 1) * step > largest)
        step = 1;
    reach = (files - 1) * step + random_below(step);
    if (reach > largest)
        reach = (files - 1) * step > largest ? largest : (files - 1) * step;
    low = random_chance(70) ? random_below(12) : random_chance(50) ? largest - reach : random_below(largest);
    if (low > largest - reach)
        low = largest - reach;
    put_spaced(b, down ? low + reach : low);
    put_spaced(b, down ? low : low + reach);
    put_gap(b);
    if (down)
        put_byte(b, '-');
    put_zeros(b);
    put_decimal(b, step);
}

static void put_pattern(struct volume *v)
{
    static const char *const starts[] = {"", "s", "slice_", "./a", "/nas/", "LIST", "x:=", "#", "type:", "100", "-"};
    static const char *const ends[] = {"", ".raw", "d", "0", ":=y", ".hex.1", "#"};
    put_text(&v->file, starts[random_below(COUNT(starts))]);
    put_conversion(&v->file);
    put_text(&v->file, ends[random_below(COUNT(ends))]);
    put_range(&v->file, v->files);
    if (v->says_axes)
        put_spaced(&v->file, v->axes);
}

static void put_one_name(struct bytes *b)
{
    static const char *const names[] = {"a.raw", "data file.raw", "LISTS", "list", "x: y", "a:=b", "#", "LIST\t2", "./LIST"};
    put_text(b, names[random_below(COUNT(names))]);
}

/* What a data file field may not say, in any form. */
static void put_bad_files(struct bytes *b)
{
    static const char *const bad[] = {
        "%", "%d", "%d 1", "%d 1 2", "%d 2 1 1", "%d 1 2 -1", "%d 1 2 0", "%d 1 2 -0", "%d 1 2 +1", "%d -1 2 1", "%d +1 2 1",
        "%d 1 2 1 x", "%d 1 2 1 -1", "%d 1 2 1 +1", "%d 1 2 1 1 1", "%d 1 2 1 0", "%d 1 2 1 17", "%d 1 2 1 4294967297",
        "%d 1 2 1 18446744073709551617", "%x 1 2 1", "%i 1 2 1", "%D 1 2 1", "%ld 1 2 1", "%0d 1 2 1", "%00d 1 2 1",
        "%01d 1 2 1 0", "%001d 1 2 1", "%100d 1 2 1", "%0100d 1 2 1", "%999d 1 2 1", "%-3d 1 2 1", "%+d 1 2 1", "% d 1 2 1",
        "%.3d 1 2 1", "%3 1 2 1", "%3", "%0", "%%d 1 2 1", "%d%d 1 2 1", "%d%% 1 2 1", "100%", "a b%d 1 2 1", "a %d 1 2 1",
        "%d 1 2 %d", "%d 4294967296 4294967296 1", "%d 1 4294967296 1", "%d 1 2 4294967296", "%d 1 2 -4294967296",
        "%d 18446744073709551617 18446744073709551618 1", "%d 1 2 18446744073709551617", "%d 1 2 -", "%d 1 2 --1", "%d 1 2 1.",
        "%d 0x1 2 1", "%d 0 4294967295 1", "%d 4294967295 0 -1", "LIST x", "LIST -1", "LIST +1", "LIST 1 1", "LIST %d 1 2 1",
        "LIST 0", "LIST 17", "LIST 4294967297", "LIST 18446744073709551617", "LIST 1x", "LIST 1.", "LIST\tx%d 1 2 1"};
    put_text(b, bad[random_below(COUNT(bad))]);
}

static void put_files(struct volume *v)
{
    if (random_chance(5)) {
        put_bad_files(&v->file);
    } else if (v->named == PATTERN) {
        put_pattern(v);
    } else if (v->named == LIST) {
        put_text(&v->file, "LIST");
        if (v->says_axes) {
            put_byte(&v->file, ' ');
            put_blanks(&v->file, 15);
            put_zeros(&v->file);
            put_decimal(&v->file, v->axes);
        }
    } else {
        put_one_name(&v->file);
    }
}

/* A line under LIST, in half of the cases one that is something else elsewhere; rarely with a bad byte. */
static void put_name(struct maker *m)
{
    static const char *const like[] = {
        "type: int8", "dimension: 3", "sizes: 9 9", "data file: LIST", "datafile: x", "byte skip: -1", "space: RAS", "foo: bar",
        "utc offset:=99", "rig:=0", "a:=b", "k:=\\q", ":=", ":=x", ": ", ":", "\\", "#", "# comment", "#a:=b", "#\t", "NRRD0004", " ", "\t",
        "  x.raw", "x.raw \t", "LIST", "%d 1 2 1", "encoding:raw", "/abs/x.raw", "../x"};
    struct bytes *file = &m->v->file;
    if (random_chance(50)) {
        put_text(file, like[random_below(COUNT(like))]);
    } else {
        put_any(file, "abcxyz019._-/ ", 1 + random_below(12));
        put_text(file, random_chance(50) ? ".raw" : "");
    }
    if (random_below(1000) < 3)
        put_any(file, "\001\010\r\037\177\200\377", 1);
    put_ending(m);
}

static void put_names(struct maker *m)
{
    for (uint64_t n = 0; n < m->v->files; n++)
        put_name(m);
}

/* ---- words and strings, one for each axis */

/* A word that is in neither list, or, as `none`, not in that of the centrings. */
static void put_bad_word(struct bytes *b)
{
    static const char *const bad[] = {"cel", "cells", "nodes", "??", "????", "unknown", "domains", "spac", "3D", "2-vector-", "RGB",
                                      "RGB_color", "covariant", "3D-masked-symmetric-matri", "\"cell\"", "cell,node", "0"};
    put_text(b, random_chance(30) ? "none" : bad[random_below(COUNT(bad))]);
}

/* Words of the rows, the first one more often; with faults in a hundred another number of them, a bad one, or no blank between
 * two. */
static void put_words(struct bytes *b, const char *const (*names)[2], size_t rows, size_t count, unsigned faults)
{
    if (random_chance(faults))
        count = random_below(count + 3);
    for (size_t i = 0; i < count; i++) {
        size_t row = random_chance(15) ? 0 : random_below(rows);
        if (i > 0 && !random_chance(faults / 4))
            put_gap(b);
        if (random_chance(faults))
            put_bad_word(b);
        else
            put_word(b, names[row][1] != NULL && random_chance(50) ? names[row][1] : names[row][0]);
    }
}

/* What stands between the quotes of a string: now and then nothing, quotes after one backslash or more, what is a mark elsewhere.
 * It does not end in a backslash. */
static void put_inside(struct bytes *b)
{
    static const char *const pieces[] = {"\\\"", "\\\\\"", "\\\\\\\"", "\\", "\\\\", "\\n", " ", "\t", "  ", ": ", ":=", "#", "'",
                                         "%d", "(1,2)", "x", "mm", "label 0", "LIST", ","};
    size_t count = random_chance(20) ? 0 : 1 + random_below(random_chance(95) ? 5 : 80);
    while (count-- > 0)
        put_text(b, pieces[random_below(COUNT(pieces))]);
    if (b->at[b->length - 1] == '\\')
        put_byte(b, '.');
}

/* With faults in a hundred a quote is missing, is another one, or stands after a backslash, or something stands beside it. */
static void put_string(struct bytes *b, unsigned faults)
{
    if (!random_chance(faults / 2))
        put_byte(b, random_chance(faults / 4) ? '\'' : '"');
    put_inside(b);
    if (random_chance(faults / 2))
        put_text(b, random_chance(50) ? "\\" : "\\\\");
    if (!random_chance(faults / 2))
        put_byte(b, '"');
    if (random_chance(faults / 4))
        put_any(b, "x\"\\,", 1);
}

/* With faults in a hundred also another number of them, or no blank between two. */
static void put_strings(struct bytes *b, size_t count, unsigned faults)
{
    if (random_chance(faults))
        count = random_below(count + 3);
    for (size_t i = 0; i < count; i++) {
        if (i > 0 && !random_chance(faults / 2))
            put_gap(b);
        put_string(b, faults);
    }
}

/* More than nine in ten are right. */
static void put_axes(struct volume *v, int field)
{
    unsigned faults = random_chance(94) ? 0 : 10;
    if (field == CENTERS)
        put_words(&v->file, model_centrings, MODEL_CENTRINGS, v->dimension, faults);
    else if (field == KINDS)
        put_words(&v->file, model_kinds, MODEL_KINDS, v->dimension, faults);
    else
        put_strings(&v->file, v->dimension, faults);
}

/* ---- fields of a header, put in order */

/* A field of one number. */
static void put_alone(struct volume *v, int field)
{
    if (field == BYTE_SKIP && v->from_end) {
        put_from_end(&v->file);
        return;
    }
    put_zeros(&v->file);
    put_decimal(&v->file, field == DIMENSION ? v->dimension : field == LINE_SKIP ? v->line_skip : v->byte_skip);
}

static void put_descriptor(struct volume *v, int field)
{
    switch (field) {
    case TYPE:
        put_type(v);
        return;
    case ENCODING:
        put_word(&v->file, model_encodings[v->encoding][v->encoding == TEXT ? random_below(3) : 0]);
        return;
    case ENDIAN:
        put_word(&v->file, v->endian == 1 ? "big" : "little");
        return;
    case SIZES:
        put_sizes(v);
        return;
    case DATA_FILE:
        put_files(v);
        return;
    case DIMENSION:
    case LINE_SKIP:
    case BYTE_SKIP:
        put_alone(v, field);
        return;
    case SPACE:
    case SPACE_DIMENSION:
    case SPACE_ORIGIN:
    case SPACE_DIRECTIONS:
    case MEASUREMENT_FRAME:
        put_orientation(v, field);
        return;
    case CENTERS:
    case LABELS:
    case UNITS:
    case KINDS:
        put_axes(v, field);
        return;
    default:
        put_any(&v->file, "0123456789.,()\"abc :=\\%#\t", random_below(14));
    }
}

static void put_field(struct maker *m, int field)
{
    const struct model_field *f = &model_fields[field];
    put_word(&m->v->file, f->other != NULL && random_chance(50) ? f->other : f->name);
    put_text(&m->v->file, ": ");
    put_blanks(&m->v->file, 20);
    put_descriptor(m->v, field);
    put_blanks(&m->v->file, 15);
    put_ending(m);
    m->done[field] = 1;
}

/* Whether the field may stand here: version, order, once. */
static int may_stand(const struct maker *m, int field)
{
    int flags = model_fields[field].flags;
    return m->wanted[field] && !m->done[field] && m->v->version >= model_fields[field].version
           && (!(flags & MODEL_PER_AXIS) || m->done[DIMENSION])
           && (!(flags & MODEL_IN_SPACE) || m->done[SPACE] || m->done[SPACE_DIMENSION]);
}

/* Any of the fields that may stand here, or -1. */
static int next_field(const struct maker *m)
{
    int start = (int)random_below(MODEL_FIELDS);
    for (int i = 0; i < MODEL_FIELDS; i++)
        if (may_stand(m, (start + i) % MODEL_FIELDS))
            return (start + i) % MODEL_FIELDS;
    return -1;
}

static void choose_fields(struct maker *m)
{
    struct volume *v = m->v;
    unsigned carried = random_chance(50) ? 0 : random_chance(70) ? 20 : 80;
    for (int field = 0; field < MODEL_FIELDS; field++)
        m->wanted[field] = random_chance(carried);
    m->wanted[DIMENSION] = m->wanted[SIZES] = m->wanted[TYPE] = m->wanted[ENCODING] = 1;
    m->wanted[ENDIAN] = v->endian != 2;
    m->wanted[LINE_SKIP] = v->line_skip > 0 || random_chance(5);
    m->wanted[BYTE_SKIP] = v->byte_skip > 0 || v->from_end || random_chance(5);
    m->wanted[DATA_FILE] = v->detached && (v->named != LIST || random_chance(2)); /* LIST stands last, but for a few */
    m->wanted[SPACE] = v->oriented && random_chance(50);
    m->wanted[SPACE_DIMENSION] = v->oriented && (!m->wanted[SPACE] || random_chance(3));
    for (int field = SPACE_ORIGIN; field <= MEASUREMENT_FRAME; field++)
        m->wanted[field] = v->oriented && random_chance(70);
    for (int field = CENTERS; field <= KINDS; field++)
        m->wanted[field] = v->axed && random_chance(60);
    if (random_chance(v->files == 0 ? 40 : 3)) /* a needed field missing */
        m->wanted[random_below(SIZES + 1)] = 0;
}

/* A field that is perhaps repeated, too new, or, in half of the cases, too early. */
static void put_misplaced(struct maker *m)
{
    int field, ordered = random_chance(50);
    do
        field = (int)random_below(MODEL_FIELDS);
    while (ordered && !(model_fields[field].flags & (MODEL_PER_AXIS | MODEL_IN_SPACE)));
    put_field(m, field);
}

/* Comments, pairs and, rarely, bad lines between the fields. */
static void put_other_lines(struct maker *m)
{
    if (random_chance(15))
        put_comment(m);
    while (m->v->version >= 2 && random_chance(25))
        put_pair(m);
    if (random_chance(m->faults)) {
        if (random_chance(70))
            put_bad_line(m);
        else
            put_misplaced(m);
    }
}

static void put_magic(struct maker *m)
{
    static const char *const magics[] = {"NRRD0001", "NRRD0002", "NRRD0003", "NRRD0004", "NRRD0005"};
    static const char *const bad[] = {"NRRD0000", "NRRD0006", "NRRD00.02", "nrrd0004", "NRRD0004 ", "NRRD", ""};
    if (random_chance(1))
        put_text(&m->v->file, bad[random_below(COUNT(bad))]);
    else if (m->v->version == 1 && random_chance(40))
        put_text(&m->v->file, "NRRD00.01");
    else
        put_text(&m->v->file, magics[m->v->version - 1]);
    put_ending(m);
}

/* The empty line; a detached header may do without, and its last line without ending. */
static void put_closing(struct maker *m)
{
    struct bytes *file = &m->v->file;
    if (random_chance(m->v->detached ? 60 : 97))
        put_ending(m);
    else if (random_chance(50))
        file->length -= file->at[file->length - 2] == '\r' ? 2 : 1;
}

static void put_header(struct volume *v)
{
    struct maker m = {v, 0, 0, {0}, {0}, 0};
    int field;
    m.carriage_returns = random_chance(60) ? 0 : random_chance(60) ? 100 : 50;
    m.faults = random_chance(80) ? 0 : 15;
    if (v->sweep && v->version >= 2)
        m.offsets = random_chance(90) ? 1 : (int)random_below(4);
    put_magic(&m);
    choose_fields(&m);
    while ((field = next_field(&m)) >= 0) {
        put_other_lines(&m);
        if (m.offsets > 0 && random_chance(20))
            put_offset(&m);
        put_field(&m, field);
    }
    put_other_lines(&m);
    while (m.offsets > 0)
        put_offset(&m);
    if (v->detached && v->named == LIST) {
        if (!m.done[DATA_FILE])
            put_field(&m, DATA_FILE);
        put_names(&m);
    }
    put_closing(&m);
    v->header = v->file.length;
}

/* ---- data */

/* What is skipped; foreign bytes, sometimes with too few lines, where the data is the end. */
static void put_skipped(struct volume *v, struct bytes *data)
{
    if (v->from_end && random_chance(25)) {
        put_any(data, "ab\n", random_below(12));
        return;
    }
    for (uint64_t i = 0; i < v->line_skip; i++) {
        put_any(data, "ab \r:#", random_below(6));
        put_byte(data, '\n');
    }
    put_random(data, v->from_end && random_chance(70) ? random_below(40) : v->byte_skip);
}

/* Blanks of data: bytes 9 to 13 and 32. */
static void put_run(struct bytes *data, size_t most)
{
    put_any(data, "\t\n\v\f\r   ", random_below(most) + 1);
}

static void put_token(struct bytes *data, const struct volume *v, uint64_t sample)
{
    static const char *const bad[] = {"x", "+", "-", "12a", "--1", "+-1", "1.0", "0x1", "99999999999999999999999",
                                      "-99999999999999999999999", "1\0012", "255x", "9223372036854775808",
                                      "-9223372036854775809", "18446744073709551616"};
    int negative = model_types[v->type].low < 0 && sample >> 63 != 0;
    if (random_below(1000) < 5) {
        put_text(data, bad[random_below(COUNT(bad))]);
        return;
    }
    if (random_below(1000) < 5) /* one outside the type */
        sample = negative ? (uint64_t)model_types[v->type].low - 1 : (uint64_t)model_types[v->type].high + 1;
    if (negative || (sample == 0 && random_chance(10)))
        put_byte(data, '-');
    else if (random_chance(10))
        put_byte(data, '+');
    put_zeros(data);
    put_decimal(data, negative ? ~sample + 1 : sample);
}

static void put_text_data(struct bytes *data, struct volume *v)
{
    if (random_chance(20))
        put_run(data, 4);
    for (uint64_t i = 0; i < v->count; i++) {
        if (i > 0)
            put_run(data, random_chance(80) ? 1 : 4);
        put_token(data, v, next_sample(v, i));
    }
    if (random_chance(50))
        put_run(data, 2);
}

/* The bytes of the samples; in hex two digits each, with blanks anywhere. */
static void put_raw_or_hex(struct bytes *data, struct volume *v)
{
    static const char digits[2][17] = {"0123456789abcdef", "0123456789ABCDEF"};
    unsigned blanks = random_chance(50) ? 0 : random_chance(80) ? 15 : 1;
    unsigned outside = random_chance(90) ? 0 : 3;
    size_t bytes = model_types[v->type].bytes;
    for (uint64_t i = 0; i < v->count; i++) {
        uint64_t sample = random_chance(outside) ? random_bits() : next_sample(v, i);
        for (size_t k = 0; k < bytes; k++) {
            uint8_t byte = (uint8_t)(sample >> 8 * (v->endian == 1 ? bytes - 1 - k : k));
            if (v->encoding == RAW) {
                put_byte(data, byte);
                continue;
            }
            put_blanks(data, blanks);
            put_byte(data, (uint8_t)digits[random_below(2)][byte / 16]);
            put_blanks(data, blanks / 2);
            put_byte(data, (uint8_t)digits[random_below(2)][byte % 16]);
        }
    }
}

/* The data area; rarely too short, longer, or with a changed byte. */
static void put_data(struct volume *v, struct bytes *data)
{
    size_t start = data->length;
    put_skipped(v, data);
    if (v->encoding == TEXT)
        put_text_data(data, v);
    else
        put_raw_or_hex(data, v);
    if (random_chance(v->from_end ? 15 : 6) && data->length > start)
        data->length -= 1 + random_below(data->length - start);
    if (random_chance(15))
        put_random(data, 1 + random_below(8));
    if (random_chance(3) && data->length > start)
        data->at[start + random_below(data->length - start)] = (uint8_t)random_bits();
}

/* ---- damage */

static const char curious[] = "\r\n\n:=# \\\t09aA%+-n?\"\"\001\177\377";

/* The line around a place: its start and its length with ending. */
static size_t line_around(const struct bytes *b, size_t at, size_t *length)
{
    size_t start = at, end = at;
    while (start > 0 && b->at[start - 1] != '\n')
        start--;
    while (end < b->length && b->at[end] != '\n')
        end++;
    *length = (end < b->length ? end + 1 : end) - start;
    return start;
}

/* Puts the line around one place before the line around another, and, when
 * it is moved, takes it from its old place. */
static void repeat_line(struct bytes *b, size_t from, size_t to, int move)
{
    static struct bytes line;
    size_t length, other, start = line_around(b, from, &length), place = line_around(b, to, &other);
    line.length = 0;
    put_bytes(&line, b->at + start, length);
    replace(b, place, 0, line.at, line.length);
    if (move)
        replace(b, start >= place ? start + length : start, length, "", 0);
}

/* One change within the first bytes of b, which has at least one byte. */
static void damage(struct bytes *b, size_t within)
{
    size_t at = random_below(within < b->length ? within : b->length), left = b->length - at;
    uint8_t byte = (uint8_t)curious[random_below(sizeof curious - 1)];
    switch (random_below(8)) {
    case 0:
        b->at[at] ^= (uint8_t)(1u << random_below(8));
        return;
    case 1:
        b->at[at] = byte;
        return;
    case 2:
    case 3:
        replace(b, at, 0, &byte, 1);
        return;
    case 4:
        replace(b, at, random_below(left < 4 ? left : 4) + 1, "", 0);
        return;
    case 5:
        b->length = at;
        return;
    default:
        repeat_line(b, at, random_below(b->length), random_chance(50));
    }
}

/* ---- volumes */

/* Sizes with a product of at most 64, sometimes 2,048, rarely a very large one. */
static void choose_sizes(struct volume *v)
{
    static const uint64_t large[] = {65535, 65536, 65537, 4294967295u, 2, 16777216, 1};
    int too_large = random_chance(3), longer = random_chance(3);
    uint64_t left = longer ? 2048 : 64, most = longer ? 40 : v->sweep ? 12 : 5;
    v->dimension = random_chance(85) ? 1 + random_below(4) : 1 + random_below(16);
    if (v->sweep && random_chance(96))
        v->dimension = 2;
    v->count = 1;
    for (size_t i = 0; i < v->dimension; i++) {
        v->sizes[i] = too_large ? large[random_below(COUNT(large))] : 1 + random_below(left < most ? left : most);
        v->count *= too_large ? 1 : v->sizes[i];
        left /= too_large ? 1 : v->sizes[i];
    }
}

/* How many files fit the sizes, where so many axes are covered by one: the rule of section 3 of the format's definition. */
static uint64_t fitting_files(const struct volume *v)
{
    uint64_t slowest = v->sizes[v->dimension - 1], files = 1;
    if (v->axes < 1 || v->axes > v->dimension)
        return 1 + random_below(4);
    if (v->axes == v->dimension) {
        do
            files = 1 + random_below(slowest < 64 ? slowest : 64);
        while (slowest % files != 0);
        return files;
    }
    for (size_t i = v->axes; i < v->dimension; i++)
        files = files > 4294967295u ? files : files * v->sizes[i];
    return files;
}

/* One name, a pattern or LIST; most fit the sizes. A list is not too long for the largest headers. */
static void choose_files(struct volume *v)
{
    v->named = ONE_NAME;
    v->files = 1;
    v->says_axes = 0;
    if (!v->detached || random_chance(18))
        return;
    if (v->version < 4 && random_chance(85))
        v->version = 4 + (uint32_t)random_below(2);
    v->says_axes = v->dimension == 1 ? !random_chance(8) : random_chance(50);
    v->axes = v->dimension - 1;
    if (v->says_axes)
        v->axes = random_chance(96) ? 1 + random_below(v->dimension) : random_below(19);
    v->files = fitting_files(v);
    if (random_chance(4))
        v->files += random_chance(50) && v->files > 1 ? (uint64_t)-1 : 1 + random_below(2);
    v->named = v->files > 300 || random_chance(50) ? PATTERN : LIST;
    if (v->named == LIST && random_chance(2))
        v->files = 0;
    if (random_chance(1)) /* the low 32 bits fit */
        v->axes += 4294967296u;
}

/* Some are nearly one: detached, of another type, of version 1, which has no key, or of another dimension. */
static void choose_sweep(struct volume *v)
{
    v->sweep = 1;
    v->stamp = random_chance(60) ? ~(uint32_t)random_below(20) : (uint32_t)random_bits();
    v->detached = random_chance(3);
    if (random_chance(96))
        v->type = CRANEHOLT_UINT32;
    if (v->version == 1 && random_chance(80))
        v->version = 2;
}

static void choose_volume(struct volume *v)
{
    v->file.length = v->second.length = 0;
    v->version = random_chance(70) ? 4 + (uint32_t)random_below(2) : 1 + (uint32_t)random_below(3);
    v->oriented = v->version >= 4 && random_chance(78);
    v->space = 0;
    v->axed = random_chance(55);
    v->type = (uint32_t)random_below(random_chance(90) ? 8 : MODEL_TYPES);
    v->detached = random_chance(58);
    v->sweep = 0;
    if (random_chance(30))
        choose_sweep(v);
    v->from_end = random_chance(13);
    v->encoding = v->from_end && random_chance(70) ? RAW : (uint32_t)random_below(MODEL_ENCODINGS);
    v->endian = (uint32_t)random_below(2);
    if ((model_types[v->type].bytes == 1 || v->encoding == TEXT) && random_chance(70))
        v->endian = 2;
    v->line_skip = random_chance(15) ? random_below(4) : 0;
    v->byte_skip = !v->from_end && random_chance(15) ? random_below(6) : 0;
    choose_sizes(v);
    choose_files(v);
}

static void make_undamaged(struct volume *v)
{
    choose_volume(v);
    put_header(v);
    put_data(v, v->detached ? &v->second : &v->file);
    if (random_chance(30)) /* bytes that are not looked at */
        put_random(v->detached ? &v->file : &v->second, random_below(20));
}

void make_volume(struct volume *v)
{
    make_undamaged(v);
    while (random_chance(16) && v->file.length > 0)
        damage(&v->file, random_chance(90) ? v->header : v->file.length);
}

/* Lines of length bytes in all after line 1: one long one, or many short ones. */
static void insert_lines(struct volume *v, size_t length, size_t lines)
{
    static struct bytes text;
    size_t first, end = line_around(&v->file, 0, &first), each = length / lines;
    text.length = 0;
    for (size_t i = 0; i < lines; i++) {
        size_t own = i + 1 < lines ? each : length - text.length;
        size_t start = text.length;
        put_text(&text, v->version >= 2 && random_chance(60) ? "k:=" : "#:=");
        while (text.length < start + own - 1)
            put_byte(&text, (uint8_t)('a' + random_below(26)));
        put_byte(&text, '\n');
    }
    replace(&v->file, end + first, 0, text.at, text.length);
    v->header += text.length;
}

/* A header of so many bytes that has one sample, and a name that is nearly all of it: alone, under LIST, or a pattern whose number
 * is padded. The other lines are the shortest that a header can have. */
static void make_long_name(struct volume *v, size_t length)
{
    static const char *const before[] = {"", "", "LIST 1\n"}, *const after[] = {"", "%99d 0 0 1 1", ""};
    size_t end;
    v->version = 4;
    v->type = CRANEHOLT_INT32;
    v->encoding = TEXT;
    v->detached = 1;
    v->named = (int)random_below(3);
    v->dimension = v->sizes[0] = v->count = v->files = 1;
    v->sweep = v->from_end = 0;
    v->file.length = 0;
    put_text(&v->file, "NRRD0004\ndimension: 1\nsizes: 1\ntype: int\nencoding: txt\ndatafile: ");
    put_text(&v->file, before[v->named]);
    for (end = strlen(after[v->named]); v->file.length + end < length; )
        put_byte(&v->file, (uint8_t)('a' + random_below(26)));
    put_text(&v->file, after[v->named]);
    v->header = v->file.length;
}

/* A header of so many bytes, its empty line included, of which a label is nearly all; one sample follows. */
static void make_long_label(struct volume *v, size_t length)
{
    v->version = 1 + (uint32_t)random_below(5);
    v->type = CRANEHOLT_UINT8;
    v->encoding = RAW;
    v->detached = 0;
    v->dimension = v->sizes[0] = v->count = v->files = 1;
    v->sweep = v->from_end = 0;
    v->file.length = 0;
    put_text(&v->file, "NRRD000");
    put_decimal(&v->file, v->version);
    put_text(&v->file, "\ndimension: 1\nsizes: 1\ntype: uint8\nencoding: raw\nlabels: \"");
    while (v->file.length + 3 < length)
        put_byte(&v->file, (uint8_t)('a' + random_below(26)));
    put_text(&v->file, "\"\n\n");
    v->header = v->file.length;
    put_byte(&v->file, (uint8_t)random_bits());
}

void make_large_volume(struct volume *v)
{
    size_t near = random_below(6), lines;
    make_undamaged(v);
    if (random_chance(20)) {
        make_long_name(v, 65532 + near);
        return;
    }
    if (random_chance(10)) {
        make_long_label(v, 65532 + near);
        return;
    }
    lines = model_read_header(v->file.at, v->file.length).reading.lines;
    switch (random_below(4)) {
    case 0: /* the header's length near its limit */
        insert_lines(v, 65533 + near - v->header - 100 * random_below(4), 1);
        return;
    case 1: /* its number of lines near its limit */
        insert_lines(v, 8 * (1022 + near - lines), 1022 + near - lines);
        return;
    case 2: /* both */
        insert_lines(v, 65533 + near - v->header, 1024 - lines);
        return;
    default: /* the file's length near the longest that is listed */
        put_random(&v->file, 65534 + near - v->file.length);
    }
}
