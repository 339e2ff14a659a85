#include "frame.h"

#include <stdarg.h>
#include <stdio.h>
#include <stdlib.h>
#include <string.h>

void ensure(int holds, const char *what)
{
    if (!holds) {
        fprintf(stderr, "inputs: %s\n", what);
        exit(2);
    }
}

/* ---- bytes */

struct bytes view(struct text *t)
{
    return (struct bytes){t->at, t->length};
}

struct bytes part(struct bytes b, size_t from, size_t to)
{
    return (struct bytes){b.at + from, to - from};
}

/* the case that is put together; one that gets too long is left out */
static struct text open_case;
static int too_long;

void put(struct text *t, struct bytes b)
{
    if (b.length > sizeof t->at - t->length) {
        ensure(t == &open_case, "a text is too long");
        too_long = 1;
        return;
    }
    if (b.length > 0)
        memmove(t->at + t->length, b.at, b.length);
    t->length += b.length;
}

void put_byte(struct text *t, uint8_t byte)
{
    put(t, (struct bytes){&byte, 1});
}

void put_string(struct text *t, const char *string)
{
    put(t, (struct bytes){(uint8_t *)string, strlen(string)});
}

void put_times(struct text *t, const char *string, size_t times)
{
    while (times-- > 0)
        put_string(t, string);
}

void put_format(struct text *t, const char *format, ...)
{
    char line[512];
    va_list list;
    va_start(list, format);
    vsnprintf(line, sizeof line, format, list);
    va_end(list);
    put_string(t, line);
}

void put_sweep(struct text *t)
{
    put(t, LITERAL("NRRD0004\n# sweep\ntype: uint16\ndimension: 2\nsizes: 2 2\nencoding: raw\nendian: little\n"
                   "utc offset:=36\nutc offset:=37\n\n\1\0\2\0\0\1\377\377"));
}

/* ---- the parts of a frame */

static void put_low_first(struct text *t, uint64_t number, size_t width)
{
    for (size_t i = 0; i < width; i++)
        put_byte(t, (uint8_t)(number >> 8 * i));
}

void put_number(struct text *t, uint64_t number)
{
    ensure(number <= UINT32_MAX, "a number is too large for the frame");
    put_low_first(t, number, 4);
}

void put_wide(struct text *t, uint64_t number)
{
    put_low_first(t, number, 8);
}

void put_run(struct text *t, struct bytes b)
{
    put_number(t, b.length);
    put(t, b);
}

void put_text(struct text *t, int given, struct bytes b)
{
    put_number(t, given ? b.length + 1 : 0);
    if (given)
        put(t, b);
}

void put_refusal(struct text *t, craneholt_refusal refusal)
{
    put_number(t, refusal.number);
    put_number(t, refusal.line);
    put_number(t, 0); /* the byte, as long as refusals have none */
}

/* ---- a program's input */

/* bytes of a length that is not known before */
struct stream {
    uint8_t *at;
    size_t length, room;
};

static struct stream input, output;
static size_t longest_case, groups, group_cases, cases, left_out, count_at;
static char group_name[256];

static void append(struct stream *s, const void *bytes, size_t length)
{
    while (s->room < s->length + length)
        s->at = realloc(s->at, s->room = 2 * s->room + 4096);
    memcpy(s->at + s->length, bytes, length);
    s->length += length;
}

/* A number of the input, at its end or in place of one that was put there. */
static void set_number(size_t at, size_t number)
{
    uint8_t bytes[4];
    for (size_t i = 0; i < 4; i++)
        bytes[i] = (uint8_t)(number >> 8 * i);
    if (at == input.length)
        append(&input, bytes, 4);
    else
        memcpy(input.at + at, bytes, 4);
}

void start_program(size_t longest)
{
    longest_case = longest;
    groups = cases = left_out = 0;
    input.length = output.length = 0;
    set_number(0, 0);
}

void start_group(const char *name)
{
    snprintf(group_name, sizeof group_name, "%s", name);
    set_number(input.length, strlen(name));
    append(&input, name, strlen(name));
    count_at = input.length;
    set_number(input.length, 0);
    group_cases = 0;
}

struct text *start_case(void)
{
    open_case.length = 0;
    too_long = 0;
    return &open_case;
}

void end_case(void)
{
    if (too_long || open_case.length > longest_case) {
        leave_out();
        return;
    }
    set_number(input.length, open_case.length);
    append(&input, open_case.at, open_case.length);
    group_cases++;
}

void leave_out(void)
{
    left_out++;
}

void print_case(struct bytes line)
{
    append(&output, line.at, line.length);
}

void end_group(void)
{
    char line[320];
    snprintf(line, sizeof line, "%s: %zu of %zu\n", group_name, group_cases, group_cases);
    append(&output, line, strlen(line));
    ensure(group_cases > 0, "a group has no case");
    set_number(count_at, group_cases);
    groups++;
    cases += group_cases;
}

void end_program(const char *folder, const char *program)
{
    char crate[4096];
    snprintf(crate, sizeof crate, "%s/%s", folder, program);
    set_number(0, groups);
    store(crate, "stdin", (struct bytes){input.at, input.length});
    store(crate, "stdout", (struct bytes){output.at, output.length});
    printf("%s: %zu cases, %zu left out\n", program, cases, left_out);
}

/* ---- drawn numbers */

static uint64_t next_bits(struct draw *d)
{
    d->state = d->state * 6364136223846793005u + 1442695040888963407u;
    return d->state >> 33;
}

uint64_t below(struct draw *d, uint64_t limit)
{
    return next_bits(d) % limit;
}

int64_t between(struct draw *d, int64_t low, int64_t high)
{
    uint64_t span = (uint64_t)high - (uint64_t)low + 1, bits = next_bits(d) << 62;
    uint64_t drawn, middle = next_bits(d) << 31;
    bits |= middle;
    bits |= next_bits(d);
    drawn = (uint64_t)low + (span == 0 ? bits : bits % span);
    return drawn <= INT64_MAX ? (int64_t)drawn : -(int64_t)~drawn - 1;
}
