/*
 * Compares the library with the model on random and damaged inputs: every
 * call, its answer and every byte lent to it, with guard bytes around each
 * part. Each input is made from its own number, so that one alone can be
 * repeated.
 *
 *     random [first input] [number of inputs]
 */
#include "calls.h"
#include "generate.h"
#include "model.h"

#include <stdio.h>
#include <stdlib.h>
#include <string.h>

static const struct calls library = CALLS(craneholt);
static const struct calls model = CALLS(model);

static uint64_t input; /* the number of the input at hand */

/* ---- what a call is lent */

struct part {
    size_t start, length;
};

/* The arguments of a call; parts are places in the block of lent bytes. */
static struct lent {
    struct part file, second, key, value, out, table, list, coords, sizes, samples, orientation;
    uint32_t field;
    size_t room, used, count;
    uint64_t version, type, encoding, endian, largest, n, sample;
} lent;

/* The block as lent, and the copies for the library and the model. */
static struct bytes block, ours, theirs;

/* Guard bytes stand before, between and after the parts. */
static void put_guard(void)
{
    put_random(&block, 1 + random_below(16));
}

static struct part lend(const void *bytes, size_t length)
{
    struct part part = {block.length, length};
    put_bytes(&block, bytes, length);
    put_guard();
    return part;
}

/* A part to be written: random bytes, so that a change shows. */
static struct part lend_room(size_t length)
{
    struct part part = {block.length, length};
    put_random(&block, length);
    put_guard();
    return part;
}

static void lend_nothing(void)
{
    memset(&lent, 0, sizeof lent);
    block.length = 0;
    put_guard();
}

/* ---- answers, as lists of numbers; the first two are the refusal */

/* places in the answer of a reading */
enum {
    DIMENSION = 4, SIZES = 8, LENGTH = 27, LINES, FROM_END, ORIGIN_GIVEN, DIRECTIONS_GIVEN, FRAME_GIVEN, SPACE, SPACE_AXES,
    DATA_FILES, FIELD_LINES
};

struct answer {
    size_t count;
    uint64_t numbers[FIELD_LINES + 1];
};

static struct answer of_refusal(craneholt_refusal refusal)
{
    return (struct answer){2, {refusal.number, refusal.line}};
}

static void add(struct answer *answer, uint64_t number)
{
    answer->numbers[answer->count++] = number;
}

static struct answer of_reading(craneholt_read_answer a)
{
    const craneholt_reading *r = &a.reading;
    struct answer answer = of_refusal(a.refusal);
    add(&answer, r->version);
    add(&answer, r->form);
    add(&answer, r->dimension);
    add(&answer, r->sampletype);
    add(&answer, r->encoding);
    add(&answer, r->endian);
    for (int i = 0; i < 16; i++)
        add(&answer, r->sizes[i]);
    add(&answer, r->lineskip);
    add(&answer, r->byteskip);
    add(&answer, r->extent);
    add(&answer, r->length);
    add(&answer, r->lines);
    add(&answer, r->fromend);
    add(&answer, r->origin);
    add(&answer, r->directions);
    add(&answer, r->frame);
    add(&answer, r->space);
    add(&answer, r->spacedimension);
    add(&answer, r->files);
    add(&answer, r->fieldlines);
    return answer;
}

/* An answer of a refusal and up to three numbers. */
static struct answer of_numbers(craneholt_refusal refusal, uint64_t a, uint64_t b, uint64_t c)
{
    struct answer answer = of_refusal(refusal);
    add(&answer, a);
    add(&answer, b);
    add(&answer, c);
    return answer;
}

/* An answer of a refusal and a count. */
static struct answer of_count(craneholt_count_answer a)
{
    return of_numbers(a.refusal, a.count, 0, 0);
}

/* ---- the calls, each on what is lent at b */

#define PART(name) b + lent.name.start, lent.name.length

static struct answer run_read_header(const struct calls *calls, uint8_t *b)
{
    return of_reading(calls->read_header(PART(file)));
}

static struct answer run_read(const struct calls *calls, uint8_t *b)
{
    return of_reading(calls->read(PART(file), PART(table)));
}

static struct answer run_find_field(const struct calls *calls, uint8_t *b)
{
    craneholt_find_answer a = calls->find_field(PART(file), lent.field);
    return of_numbers(a.refusal, a.found, a.start, a.length);
}

static struct answer run_find_key(const struct calls *calls, uint8_t *b)
{
    craneholt_find_answer a = calls->find_key(PART(file), PART(key));
    return of_numbers(a.refusal, a.found, a.start, a.length);
}

static struct answer run_copy_value(const struct calls *calls, uint8_t *b)
{
    craneholt_value_answer a = calls->copy_value(PART(file), PART(key), PART(out));
    return of_numbers(a.refusal, a.found, a.length, 0);
}

static struct answer run_data(const struct calls *calls, uint8_t *b)
{
    craneholt_data_answer a = calls->data(PART(file), PART(second));
    return of_numbers(a.refusal, a.second, a.start, a.length);
}

static struct answer run_check_samples(const struct calls *calls, uint8_t *b)
{
    return of_count(calls->check_samples(PART(file), PART(second), lent.room));
}

static struct answer run_samples(const struct calls *calls, uint8_t *b)
{
    return of_count(calls->samples(PART(file), PART(second), PART(list)));
}

static struct answer run_sample_number(const struct calls *calls, uint8_t *b)
{
    craneholt_number_answer a = calls->sample_number(PART(file), PART(coords));
    return of_numbers(a.refusal, a.number, 0, 0);
}

static struct answer run_write(const struct calls *calls, uint8_t *b)
{
    craneholt_write_answer a = calls->write(lent.version, PART(sizes), lent.type, lent.encoding,
                                            lent.endian, PART(samples), PART(out));
    return of_numbers(a.refusal, a.length, 0, 0);
}

static struct answer run_origin(const struct calls *calls, uint8_t *b)
{
    return of_count(calls->origin(PART(file), PART(list)));
}

static struct answer run_directions(const struct calls *calls, uint8_t *b)
{
    return of_count(calls->directions(PART(file), PART(list)));
}

static struct answer run_frame(const struct calls *calls, uint8_t *b)
{
    return of_count(calls->frame(PART(file), PART(list)));
}

static struct answer run_write_header(const struct calls *calls, uint8_t *b)
{
    craneholt_write_answer a = calls->write_header(lent.version, PART(sizes), lent.type, lent.encoding,
                                                   lent.endian, PART(orientation), PART(out));
    return of_numbers(a.refusal, a.length, 0, 0);
}

static struct answer run_set_key(const struct calls *calls, uint8_t *b)
{
    craneholt_set_answer a = calls->set_key(PART(file), lent.used, PART(table), lent.count,
                                            PART(key), PART(value));
    return of_numbers(a.refusal, a.length, a.count, 0);
}

static struct answer run_listing(const struct calls *calls, uint8_t *b)
{
    craneholt_write_answer a = calls->listing(PART(file), PART(out));
    return of_numbers(a.refusal, a.length, 0, 0);
}

static struct answer run_sweep(const struct calls *calls, uint8_t *b)
{
    craneholt_sweep_answer a = calls->sweep(PART(file), PART(list), lent.largest);
    return of_numbers(a.refusal, a.offset, a.wrong, a.row);
}

static struct answer run_files(const struct calls *calls, uint8_t *b)
{
    return of_count(calls->files(PART(file)));
}

static struct answer run_file_name(const struct calls *calls, uint8_t *b)
{
    craneholt_write_answer a = calls->file_name(PART(file), lent.n, PART(out));
    return of_numbers(a.refusal, a.length, 0, 0);
}

static struct answer run_sample_file(const struct calls *calls, uint8_t *b)
{
    craneholt_share_answer a = calls->sample_file(PART(file), lent.sample);
    return of_numbers(a.refusal, a.file, a.byte, 0);
}

static struct answer run_axes(const struct calls *calls, uint8_t *b)
{
    return of_count(calls->axes(PART(file), PART(list)));
}

enum call {
    READ_HEADER, READ, FIND_FIELD, FIND_KEY, COPY_VALUE, DATA, CHECK_SAMPLES, SAMPLES,
    SAMPLE_NUMBER, WRITE, ORIGIN, DIRECTIONS, FRAME, WRITE_HEADER, SET_KEY, LISTING, SWEEP,
    FILES, FILE_NAME, SAMPLE_FILE, AXES, CALL_COUNT
};

enum { NUMBERS = 34 }; /* of refusal, and 0 for none */

static struct {
    const char *name;
    struct answer (*run)(const struct calls *, uint8_t *);
} entries[CALL_COUNT] = {
    {"read_header", run_read_header},     {"read", run_read},
    {"find_field", run_find_field},       {"find_key", run_find_key},
    {"copy_value", run_copy_value},       {"data", run_data},
    {"check_samples", run_check_samples}, {"samples", run_samples},
    {"sample_number", run_sample_number}, {"write", run_write},
    {"origin", run_origin},               {"directions", run_directions},
    {"frame", run_frame},                 {"write_header", run_write_header},
    {"set_key", run_set_key},             {"listing", run_listing},
    {"sweep", run_sweep},                 {"files", run_files},
    {"file_name", run_file_name},         {"sample_file", run_sample_file},
    {"axes", run_axes},
};

/* how often each number came from each call: with line 0, with a line */
static unsigned long refusals[CALL_COUNT][NUMBERS][2];

/* how often the data call gave each number for a header whose byte skip is -1, and that is right up to there */
static unsigned long from_end[NUMBERS];

/* headers that are accepted with a space, with each field of the orientation, with an axis that has no direction, and
 * headers that are refused with 9 or 11 at a line of one of the five fields */
static struct {
    unsigned long spaces, origins, directions, frames, nones, second, bad;
} oriented;

/* sweeps that are accepted with a largest step that can be allowed: with no wrong step, of these with a counter that ran through
 * its end, and with a wrong step; files that were made as sweeps and are then refused with 28; sweeps that are refused with 28 for
 * another largest step */
static struct {
    unsigned long right, wrapped, wrong, no_sweeps, no_largest;
} sweeps;

/* headers that are accepted with LIST, with a pattern and with one name; of the first two those with more than one file; headers
 * that are refused with 8 or 11 at the line of a data file field, with 11 and line 0 for files that do not fit the sizes; and
 * settings that are accepted on a header with LIST, and on one with a pattern */
static struct {
    unsigned long lists, patterns, names, several, too_early, bad, unfit, list_settings, pattern_settings;
} named;

/* headers that are accepted with one or more of the fields of the axis records, and with each of them; with a quote inside a string,
 * and with an empty string; headers that are refused with 11 at a line of one of the four; lists of records that are too short for a
 * header that is accepted; and settings that are accepted on a header with labels or units */
static struct {
    unsigned long headers, centers, labels, units, kinds, quotes, empty, bad, too_short, settings;
} axed;

/* ---- comparing */

static void print_answer(const char *who, const struct answer *answer)
{
    printf("%s answers:", who);
    for (size_t i = 0; i < answer->count; i++)
        printf(" %llu", (unsigned long long)answer->numbers[i]);
    printf("\n");
}

static void print_bytes(const char *name, struct part part)
{
    printf("%s, %zu bytes at %zu:\n  ", name, part.length, part.start);
    for (size_t i = 0; i < part.length && i < 2000; i++) {
        uint8_t byte = block.at[part.start + i];
        if (byte == '\n')
            printf("\\n\n  ");
        else if (byte < 32 || byte > 126)
            printf("\\x%02x", byte);
        else
            putchar(byte);
    }
    printf("\n");
}

/* Tells of a difference and ends the program. */
static void fail(enum call call, const char *what)
{
    printf("input %llu, %s: %s\n", (unsigned long long)input, entries[call].name, what);
    print_bytes("file", lent.file);
    print_bytes("second", lent.second);
    print_bytes("key", lent.key);
    print_bytes("value", lent.value);
    exit(1);
}

static void compare_answers(enum call call, const struct answer *a, const struct answer *b)
{
    if (memcmp(a->numbers, b->numbers, a->count * sizeof a->numbers[0]) == 0)
        return;
    print_answer("library", a);
    print_answer("model", b);
    fail(call, "the answers differ");
}

/* The lent bytes after the call, as the library and as someone else has them. */
static void compare_bytes(enum call call, const uint8_t *other, const char *what)
{
    size_t i = 0;
    if (memcmp(ours.at, other, block.length) == 0)
        return;
    while (ours.at[i] == other[i])
        i++;
    printf("byte %zu of the lent block is %d, not %d\n", i, ours.at[i], other[i]);
    fail(call, what);
}

static void count_refusal(enum call call, uint64_t number, uint64_t line)
{
    if (number < NUMBERS)
        refusals[call][number][line > 0]++;
}

/* Runs a call of library and model on copies of the block; answers the library's refusal. */
static struct answer check(enum call call)
{
    struct answer our_answer, their_answer;
    memcpy(ours.at, block.at, block.length);
    memcpy(theirs.at, block.at, block.length);
    our_answer = entries[call].run(&library, ours.at);
    their_answer = entries[call].run(&model, theirs.at);
    compare_answers(call, &our_answer, &their_answer);
    compare_bytes(call, theirs.at, "the lent bytes differ");
    if (our_answer.numbers[0] != 0)
        compare_bytes(call, block.at, "a refused call changed lent bytes");
    count_refusal(call, our_answer.numbers[0], our_answer.numbers[1]);
    return our_answer;
}

/* ---- reading calls */

static struct volume volume;

/* A length of items of a width: the right one, one less or more, and a rest too short for one. */
static size_t near_length(size_t right, size_t width)
{
    size_t items = right;
    if (random_chance(10))
        items = random_below(right + 2);
    else if (random_chance(20))
        items += random_below(4);
    return items * width + random_below(width);
}

static void check_reading(const struct answer *header)
{
    size_t lines = header->numbers[LINES];
    lent.table = lend_room(near_length(lines, 4));
    check(READ);
    for (int i = 0; i < 4; i++) {
        lent.field = (uint32_t)random_below(MODEL_FIELDS);
        check(FIND_FIELD);
    }
    lent.field = (uint32_t)(MODEL_FIELDS + (random_bits() >> (32 + random_below(32))));
    check(FIND_FIELD);
}

static void check_keys(void)
{
    static struct bytes key;
    for (int i = 0; i < 3; i++) {
        make_key(&key);
        lent.key = lend(key.at, key.length);
        lent.out = lend_room(0);
        check(FIND_KEY);
        /* once with too little room, once with enough */
        lent.out = lend_room(random_below(4));
        check(COPY_VALUE);
        lent.out = lend_room(64);
        check(COPY_VALUE);
    }
}

/* ---- the orientation */

/* One of the calls for decimals, with a list that is about as long as they need. */
static struct answer check_decimals(enum call call, uint64_t count)
{
    lent.list = lend_room(near_length(count, 16));
    return check(call);
}

/* True if the line of this number, which is there, starts with one of the names. */
static int line_starts(uint64_t number, const char *const *names, size_t count)
{
    const uint8_t *line = volume.file.at, *end = line + volume.file.length;
    for (; number > 1; number--)
        line = (const uint8_t *)memchr(line, '\n', (size_t)(end - line)) + 1;
    for (size_t i = 0; i < count; i++) {
        size_t at = 0;
        while (line + at < end && names[i][at] != '\0' && (line[at] | 32) == names[i][at])
            at++;
        if (names[i][at] == '\0')
            return 1;
    }
    return 0;
}

/* True if the line is one of the five fields'. */
static int is_orientation_line(uint64_t number)
{
    static const char *const names[] = {"space: ", "space dimension: ", "space origin: ", "space directions: ",
                                        "measurement frame: "};
    return line_starts(number, names, 5);
}

static void count_orientation(const struct answer *header)
{
    uint64_t number = header->numbers[0], line = header->numbers[1];
    oriented.spaces += header->numbers[SPACE_AXES] > 0;
    oriented.origins += header->numbers[ORIGIN_GIVEN];
    oriented.directions += header->numbers[DIRECTIONS_GIVEN];
    oriented.frames += header->numbers[FRAME_GIVEN];
    oriented.second += number == 9 && is_orientation_line(line);
    oriented.bad += number == 11 && line > 0 && is_orientation_line(line);
}

/* True if one of the directions that were stored in the list is none. */
static int has_none(uint64_t count)
{
    for (uint64_t i = 0; i < count; i++)
        if (ours.at[lent.list.start + 16 * i + 12] == CRANEHOLT_NONE)
            return 1;
    return 0;
}

static void check_orientation(const struct answer *header)
{
    uint64_t n = header->numbers[SPACE_AXES];
    struct answer directions;
    count_orientation(header);
    check_decimals(ORIGIN, n * header->numbers[ORIGIN_GIVEN]);
    check_decimals(FRAME, n * n * header->numbers[FRAME_GIVEN]);
    directions = check_decimals(DIRECTIONS, n * header->numbers[DIMENSION] * header->numbers[DIRECTIONS_GIVEN]);
    oriented.nones += (unsigned long)has_none(directions.numbers[2]);
}

/* ---- sweeps */

/* A step that can be allowed, small or near the largest. */
static uint64_t make_largest(void)
{
    if (random_chance(60))
        return 1 + random_below(12);
    return random_chance(50) ? CRANEHOLT_MAX_STEP - random_below(3) : 1 + random_below(CRANEHOLT_MAX_STEP);
}

/* Any number, near the bounds or not. */
static uint64_t any_largest(void)
{
    static const uint64_t edges[] = {0, 1, 2147483647, 2147483648u, 4294967295u, 4294967296u, 4294967297u,
                                     18446744073709551615u};
    return random_chance(70) ? edges[random_below(sizeof edges / sizeof edges[0])] : random_bits() >> random_below(64);
}

/* True if the stamp of a row is below that of the row before it. */
static int has_wrapped(const struct answer *header)
{
    uint64_t width = header->numbers[SIZES], rows = header->numbers[SIZES + 1];
    for (uint64_t row = 1; row < rows; row++) {
        int64_t before, after;
        memcpy(&before, ours.at + lent.list.start + 8 * (row - 1) * width, sizeof before);
        memcpy(&after, ours.at + lent.list.start + 8 * row * width, sizeof after);
        if (after < before)
            return 1;
    }
    return 0;
}

/* Twice, with a step that can be allowed and with any, into the list that is lent for the samples. */
static void check_sweep(const struct answer *header)
{
    struct answer sweep;
    int accepted;
    lent.largest = make_largest();
    sweep = check(SWEEP);
    accepted = sweep.numbers[0] == 0;
    sweeps.right += accepted && !sweep.numbers[3];
    sweeps.wrapped += accepted && !sweep.numbers[3] && has_wrapped(header);
    sweeps.wrong += accepted && sweep.numbers[3];
    sweeps.no_sweeps += volume.sweep && sweep.numbers[0] == 28;
    lent.largest = any_largest();
    sweep = check(SWEEP);
    sweeps.no_largest += accepted && sweep.numbers[0] == 28;
}

/* ---- data in several files */

/* The form of an accepted header's data file field; -1 where it has none. */
static int form_of(const struct bytes *file, size_t length)
{
    craneholt_find_answer field = model.find_field(file->at, length, CRANEHOLT_FIELD_DATA_FILE);
    const uint8_t *text = file->at + field.start;
    if (!field.found)
        return -1;
    if (field.length >= 4 && memcmp(text, "LIST", 4) == 0 && (field.length == 4 || text[4] == ' '))
        return LIST;
    return memchr(text, '%', field.length) != NULL ? PATTERN : ONE_NAME;
}

static void count_files(const struct answer *header)
{
    static const char *const fields[] = {"data file: ", "datafile: "};
    uint64_t number = header->numbers[0], line = header->numbers[1];
    int form = number == 0 ? form_of(&volume.file, volume.file.length) : -1;
    named.lists += form == LIST;
    named.patterns += form == PATTERN;
    named.names += form == ONE_NAME;
    named.several += header->numbers[DATA_FILES] > 1;
    named.too_early += number == 8 && line_starts(line, fields, 2);
    named.bad += number == 11 && line > 0 && line_starts(line, fields, 2);
    named.unfit += number == 11 && line == 0 && !volume.from_end;
}

/* The number of a file that is there, or one past the last, near it or not. */
static uint64_t make_file_number(uint64_t files)
{
    if (files > 0 && random_chance(80))
        return random_chance(30) ? files - 1 : random_below(files);
    return random_chance(60) ? files + random_below(2) : random_bits() >> random_below(64);
}

/* The name of a file, into a buffer that is about as long as it. */
static void check_name(uint64_t n)
{
    static struct bytes name;
    uint64_t length = model.file_name(volume.file.at, volume.file.length, n, name.at, sizeof name.at).length;
    lent.n = n;
    lent.out = lend_room(random_chance(50) ? length : near_length(length, 1));
    check(FILE_NAME);
    if (length > 0) {
        lent.out.length = random_chance(50) ? length - 1 : random_below(length);
        check(FILE_NAME);
    }
}

static void check_files(const struct answer *header)
{
    uint64_t files = header->numbers[DATA_FILES];
    count_files(header);
    check(FILES);
    for (int i = 0; i < (volume.file.length < 10000 ? 4 : 1); i++)
        check_name(make_file_number(files));
    for (int i = 0; i < 4; i++) {
        lent.sample = random_chance(85) ? random_below(volume.count + 1) : random_bits() >> random_below(64);
        check(SAMPLE_FILE);
    }
}

/* ---- axis records */

/* True if an accepted header has the field. */
static int has_field(const struct bytes *file, size_t length, uint32_t field)
{
    return model.find_field(file->at, length, field).found;
}

/* Counts what the records that were stored say of strings. */
static void count_strings(uint64_t count)
{
    int quotes = 0, empty = 0;
    for (uint64_t i = 0; i < count; i++) {
        craneholt_axis axis;
        memcpy(&axis, ours.at + lent.list.start + i * sizeof axis, sizeof axis);
        quotes |= memchr(volume.file.at + axis.labelplace, '"', axis.labellength) != NULL
                  || memchr(volume.file.at + axis.unitplace, '"', axis.unitlength) != NULL;
        empty |= (axis.labelplace > 0 && axis.labellength == 0) || (axis.unitplace > 0 && axis.unitlength == 0);
    }
    axed.quotes += (unsigned long)quotes;
    axed.empty += (unsigned long)empty;
}

static void count_axes(const struct answer *header)
{
    static const char *const fields[] = {"centers: ", "centerings: ", "labels: ", "units: ", "kinds: "};
    uint64_t number = header->numbers[0], line = header->numbers[1];
    int centers, labels, units, kinds;
    axed.bad += number == 11 && line > 0 && line_starts(line, fields, 5);
    if (number != 0)
        return;
    centers = has_field(&volume.file, volume.file.length, CRANEHOLT_FIELD_CENTERS);
    labels = has_field(&volume.file, volume.file.length, CRANEHOLT_FIELD_LABELS);
    units = has_field(&volume.file, volume.file.length, CRANEHOLT_FIELD_UNITS);
    kinds = has_field(&volume.file, volume.file.length, CRANEHOLT_FIELD_KINDS);
    axed.headers += centers || labels || units || kinds;
    axed.centers += (unsigned long)centers;
    axed.labels += (unsigned long)labels;
    axed.units += (unsigned long)units;
    axed.kinds += (unsigned long)kinds;
}

/* Into a list that is about as long as the records, then into one that is too short, each with a rest too short for a record. */
static void check_axes(const struct answer *header)
{
    uint64_t axes = header->numbers[DIMENSION];
    count_axes(header);
    lent.list = lend_room(near_length(axes, sizeof(craneholt_axis)));
    count_strings(check(AXES).numbers[2]);
    if (axes > 0) {
        lent.list.length = random_below(axes) * sizeof(craneholt_axis) + random_below(sizeof(craneholt_axis));
        axed.too_short += check(AXES).numbers[0] == 22;
    }
}

/* ---- data */

/* True if the byte skip is -1, which is refused with line 0 in text and hex. */
static int is_from_end(const struct answer *header)
{
    return header->numbers[FROM_END] != 0
           || (volume.from_end && volume.encoding != CRANEHOLT_RAW && header->numbers[0] == 11 && header->numbers[1] == 0);
}

static void check_data(const struct answer *header)
{
    struct answer data = check(DATA);
    if (is_from_end(header))
        from_end[data.numbers[0]]++;
    lent.list = lend_room(near_length(volume.count, 8));
    lent.room = random_chance(90) ? lent.list.length / 8 : random_bits() >> random_below(64);
    check(CHECK_SAMPLES);
    check(SAMPLES);
}

static void check_coordinates(void)
{
    static struct bytes coords;
    size_t count = random_chance(95) ? volume.dimension : random_below(18);
    coords.length = 0;
    for (size_t i = 0; i < count; i++) {
        uint64_t size = i < volume.dimension ? volume.sizes[i] : 5;
        put_number(&coords, random_chance(97) ? random_below(size) : size + (random_bits() >> random_below(64)), 8);
    }
    put_random(&coords, random_below(8));
    lent.coords = lend(coords.at, coords.length);
    check(SAMPLE_NUMBER);
}

/* The listing into a long buffer, then into one of just its length, and one too short. */
static void check_listing(const struct answer *header)
{
    size_t length, lines = header->numbers[LINES];
    lent.out = lend_room(volume.file.length + 4 * lines + 512);
    length = check(LISTING).numbers[2];
    lent.out.length = length;
    check(LISTING);
    lent.out.length = random_chance(50) ? length - 1 : random_below(length);
    check(LISTING);
}

static struct answer check_file(void)
{
    struct answer header;
    lend_nothing();
    lent.file = lend(volume.file.at, volume.file.length);
    lent.second = lend(volume.second.at, volume.second.length);
    header = check(READ_HEADER);
    check_reading(&header);
    check_keys();
    check_orientation(&header);
    check_files(&header);
    check_axes(&header);
    check_data(&header);
    check_sweep(&header);
    check_coordinates();
    check_listing(&header);
    return header;
}

/* ---- the writer */

static uint64_t odd_number(void)
{
    static const uint64_t odd[] = {0, 6, 10, 3, 2, 255, 256, 65536, 4294967295u, 4294967296u,
                                   4294967297u, 9223372036854775808u, 18446744073709551615u};
    return odd[random_below(sizeof odd / sizeof odd[0])];
}

static void lend_sizes(uint64_t *product)
{
    static struct bytes sizes;
    size_t count = random_chance(95) ? 1 + random_below(4) : random_below(19);
    *product = 1;
    sizes.length = 0;
    for (size_t i = 0; i < count; i++) {
        uint64_t size = random_chance(97) ? 1 + random_below(4) : odd_number();
        put_number(&sizes, size, 8);
        *product *= size;
    }
    put_random(&sizes, random_below(8));
    lent.sizes = lend(sizes.at, sizes.length);
}

/* Samples of the type, as many as the product if that is small; rarely one is any number. */
static void lend_samples(uint64_t product)
{
    static struct bytes samples;
    size_t count = product <= 256 ? product : random_below(10);
    if (random_chance(4))
        count = random_below(count + 2);
    samples.length = 0;
    for (size_t i = 0; i < count; i++) {
        int any = random_below(1000) < 4;
        put_number(&samples, any ? random_bits() >> random_below(64) : make_sample(lent.type % 10), 8);
    }
    put_random(&samples, random_below(8));
    lent.samples = lend(samples.at, samples.length);
}

/* Lends what both writers take but for samples, orientation and buffer; the product of the sizes. */
static uint64_t lend_volume(unsigned floats)
{
    uint64_t product;
    lend_nothing();
    lent.version = random_chance(97) ? 1 + random_below(5) : odd_number();
    lent.type = random_chance(97) ? random_below(random_chance(floats) ? 10 : 8) : odd_number();
    lent.encoding = random_chance(97) ? random_below(3) : odd_number();
    lent.endian = random_chance(97) ? random_below(2) : odd_number();
    lend_sizes(&product);
    return product;
}

/* Writes to the buffer that is lent and, if it is accepted, to one too short and to one of just the length written. */
static int check_written(enum call call)
{
    struct answer answer = check(call);
    if (answer.numbers[0] != 0)
        return 0;
    lent.out.length = random_below(answer.numbers[2]);
    check(call);
    lent.out.length = answer.numbers[2];
    check(call);
    return 1;
}

static void check_write(void)
{
    lend_samples(lend_volume(5));
    lent.out = lend_room(512 + 21 * lent.samples.length / 8);
    check_written(WRITE);
}

/* ---- the header writer */

/* A decimal in range, near a limit or past one by faults in a hundred, or a mark; rarely of a kind that there is not. */
static craneholt_decimal make_decimal(unsigned faults)
{
    static const int64_t numbers[] = {0, 1, -1, 999999999999999999, -999999999999999999};
    static const int64_t bad_numbers[] = {1000000000000000000, -1000000000000000000, INT64_MAX, INT64_MIN};
    static const int32_t powers[] = {0, 400, -400, 399, -399}, bad_powers[] = {401, -401, INT32_MAX, INT32_MIN};
    craneholt_decimal d = {0, 0, CRANEHOLT_NUMBER};
    d.number = (int64_t)(random_bits() >> 1) % 1000000000000000000 / (random_chance(50) ? 1000000000000 : 1);
    if (random_chance(40))
        d.number = -d.number;
    d.power = random_chance(70) ? (int32_t)random_below(20) - 10 : (int32_t)random_below(801) - 400;
    if (random_chance(15))
        d.number = numbers[random_below(5)];
    if (random_chance(15))
        d.power = powers[random_below(5)];
    if (random_chance(10))
        d.kind = CRANEHOLT_NAN + (uint32_t)random_below(3);
    if (random_chance(faults))
        d.number = bad_numbers[random_below(4)];
    if (random_chance(faults))
        d.power = bad_powers[random_below(4)];
    if (random_chance(faults))
        d.kind = random_chance(50) ? CRANEHOLT_NONE : random_chance(50) ? 5 : (uint32_t)random_bits();
    return d;
}

/* Counts that do not fit, kinds of fields that are not given, and numbers past the bounds. */
static void damage_orientation(craneholt_orientation *o)
{
    static const uint32_t counts[] = {0, 1, 7, 8, 9, 15, 16, 17, 65536, 4294967295u};
    uint32_t odd = counts[random_below(10)];
    switch (random_below(7)) {
    case 0:
        o->components = odd;
        return;
    case 1:
        o->axes = odd;
        return;
    case 2:
        o->columns = odd;
        return;
    case 3:
        o->space = 10 + random_below(4);
        return;
    case 4:
        o->spacedimension = odd_number();
        return;
    case 5:
        o->given = (uint32_t)random_below(64);
        return;
    default:
        o->given |= (uint32_t)random_bits() << random_below(32);
    }
}

static void make_vectors(craneholt_decimal *decimals, size_t count, unsigned nones, unsigned faults)
{
    for (size_t i = 0; i < count; i++) {
        for (size_t j = 0; j < CRANEHOLT_MAX_SPACE; j++)
            decimals[CRANEHOLT_MAX_SPACE * i + j] = make_decimal(faults);
        if (random_chance(nones))
            decimals[CRANEHOLT_MAX_SPACE * i].kind = CRANEHOLT_NONE;
    }
}

/* Ends each vector by what follows its last component, not by the number of components. */
static void end_vectors(craneholt_orientation *o)
{
    uint32_t end = o->components;
    if (end == CRANEHOLT_MAX_SPACE)
        return;
    o->origin[end].kind = CRANEHOLT_NONE;
    for (size_t i = 0; i < CRANEHOLT_MAX_AXES; i++)
        o->directions[i][end].kind = CRANEHOLT_NONE;
    for (size_t i = 0; i < CRANEHOLT_MAX_SPACE; i++)
        o->frame[i][end].kind = CRANEHOLT_NONE;
    o->components = CRANEHOLT_MAX_SPACE;
}

/* An orientation of an array with so many axes; most are right. What no count names is any bytes. */
static void make_orientation(craneholt_orientation *o, size_t axes)
{
    unsigned faults = random_chance(85) ? 0 : 2;
    uint8_t *bytes = (uint8_t *)o;
    for (size_t i = 0; i < sizeof *o; i++)
        bytes[i] = (uint8_t)random_bits();
    o->space = random_below(MODEL_SPACES);
    o->spacedimension = 1 + random_below(8);
    o->given = random_chance(95) ? 1 + (uint32_t)random_below(2) : 3 * (uint32_t)random_below(2);
    o->given += 4 * (uint32_t)random_below(8);
    o->components = o->given & CRANEHOLT_GIVES_SPACE ? model_spaces[o->space].dimension : (uint32_t)o->spacedimension;
    o->axes = (uint32_t)axes;
    o->columns = o->components;
    make_vectors(o->origin, 1, faults, faults);
    make_vectors(o->directions[0], axes < CRANEHOLT_MAX_AXES ? axes : CRANEHOLT_MAX_AXES, 20, faults);
    make_vectors(o->frame[0], CRANEHOLT_MAX_SPACE, faults, faults);
    if (random_chance(30))
        end_vectors(o);
    if (random_chance(12))
        damage_orientation(o);
}

/* The struct whole, or rarely a length that is not its own. */
static void lend_orientation(const craneholt_orientation *o)
{
    static struct bytes bytes;
    bytes.length = 0;
    put_bytes(&bytes, o, sizeof *o);
    put_random(&bytes, 16);
    lent.orientation =
        lend(bytes.at, random_chance(90) ? sizeof *o : random_chance(80) ? 0 : random_below(bytes.length));
}

/* What the call stores is what went in: vectors of so many components. A mark has no number and no power. */
static void check_went_in(enum call call, uint32_t given, const craneholt_decimal *decimals, uint64_t count,
                          uint64_t components)
{
    lent.list = lend_room(given ? 16 * count * components : 0);
    check(call);
    for (uint64_t i = 0; given && i < count * components; i++) {
        craneholt_decimal in = decimals[CRANEHOLT_MAX_SPACE * (i / components) + i % components], out;
        int none = decimals[CRANEHOLT_MAX_SPACE * (i / components)].kind == CRANEHOLT_NONE;
        memcpy(&out, ours.at + lent.list.start + 16 * i, sizeof out);
        if (none)
            in.kind = i % components == 0 ? CRANEHOLT_NONE : CRANEHOLT_NUMBER;
        if (none || in.kind != CRANEHOLT_NUMBER)
            in.number = in.power = 0;
        if (in.number != out.number || in.power != out.power || in.kind != out.kind)
            fail(call, "what was written is not read back");
    }
}

/* A reading of what was written gives back all that went in. */
static void check_read_back(const craneholt_orientation *o, int is_lent)
{
    static struct bytes file;
    uint32_t given = is_lent ? o->given : 0;
    struct answer header;
    uint64_t n;
    file.length = 0;
    put_bytes(&file, ours.at + lent.out.start, lent.out.length);
    lend_nothing();
    lent.file = lend(file.at, file.length);
    header = check(READ_HEADER);
    n = header.numbers[SPACE_AXES];
    if (header.numbers[0] != 0
        || header.numbers[SPACE] != (given & CRANEHOLT_GIVES_SPACE ? o->space : CRANEHOLT_NO_SPACE)
        || (given & CRANEHOLT_GIVES_SPACE_DIMENSION && n != o->spacedimension))
        fail(READ_HEADER, "what was written is not read back");
    check_went_in(ORIGIN, given & CRANEHOLT_GIVES_ORIGIN, o->origin, 1, n);
    check_went_in(DIRECTIONS, given & CRANEHOLT_GIVES_DIRECTIONS, o->directions[0], header.numbers[DIMENSION], n);
    check_went_in(FRAME, given & CRANEHOLT_GIVES_FRAME, o->frame[0], n, n);
}

static void check_write_header(void)
{
    craneholt_orientation o;
    lend_volume(20);
    if (random_chance(60))
        lent.version = 5;
    make_orientation(&o, lent.sizes.length / 8);
    lend_orientation(&o);
    lent.out = lend_room(random_chance(90) ? CRANEHOLT_ORIENTED_ROOM : random_below(400));
    if (check_written(WRITE_HEADER))
        check_read_back(&o, lent.orientation.length > 0);
}

/* ---- lists of settings */

enum { SETTINGS = 20 };

/* The buffer and table that a list carries on, and the settings accepted. */
static struct bytes buffer, table;
static size_t used, count;
static struct setting {
    struct bytes key, value;
    int accepted;
} settings[SETTINGS];

/* The table of the first reading in one that is a little longer, or rarely has no more room. */
static void start_list(const struct answer *header)
{
    buffer.length = table.length = 0;
    used = volume.file.length;
    count = header->numbers[LINES];
    put_bytes(&buffer, volume.file.at, used);
    put_random(&buffer, random_chance(80) ? 600 : random_below(60));
    put_random(&table, 4 * count);
    model.read(buffer.at, used, table.at, table.length);
    put_random(&table, 4 * (random_chance(80) ? SETTINGS : random_below(4)) + random_below(4));
}

/* Changes what is lent so that 22 or 26 comes. */
static void damage_setting(void)
{
    switch (random_below(6)) {
    case 0:
        lent.used = random_chance(50) ? lent.file.length + 1 : lent.file.length | random_bits() << random_below(64);
        return;
    case 1:
        lent.count = random_chance(50) ? lent.count + 1 : random_bits() << random_below(64);
        return;
    case 2:
        lent.count -= 1;
        return;
    case 3:
        lent.table.length = random_below(lent.table.length + 1);
        return;
    case 4:
        lent.used -= random_below(lent.used + 1);
        return;
    default:
        if (lent.table.length > 0)
            block.at[lent.table.start + random_below(lent.table.length)] ^= (uint8_t)(1u << random_below(8));
    }
}

static void keep(struct bytes *b, struct part part)
{
    b->length = 0;
    put_bytes(b, ours.at + part.start, part.length);
}

/* How much longer the header may get, if that is not much, else 0. */
static size_t header_room(void)
{
    uint64_t length = used > 60000 ? model.read_header(buffer.at, used).reading.length : 0;
    return length > 65000 ? 65535 - length : 0;
}

/* One setting on the buffer and table as the one before it left them. */
static void check_setting(struct setting *s, int damaged)
{
    struct answer answer;
    make_key(&s->key);
    make_value(&s->value, header_room());
    lend_nothing();
    lent.file = lend(buffer.at, buffer.length);
    lent.table = lend(table.at, table.length);
    lent.key = lend(s->key.at, s->key.length);
    lent.value = lend(s->value.at, s->value.length);
    lent.used = used;
    lent.count = count;
    if (damaged)
        damage_setting();
    answer = check(SET_KEY);
    s->accepted = answer.numbers[0] == 0 && !damaged;
    if (!s->accepted)
        return;
    keep(&buffer, lent.file);
    keep(&table, lent.table);
    used = answer.numbers[2];
    count = answer.numbers[3];
}

/* True if a later accepted setting has the same key. */
static int is_set_again(const struct setting *s, const struct setting *end)
{
    for (const struct setting *later = s + 1; later < end; later++)
        if (later->accepted && later->key.length == s->key.length
            && memcmp(later->key.at, s->key.at, s->key.length) == 0)
            return 1;
    return 0;
}

/* The file that was left must show the value accepted last for the key. */
static void check_value(const struct setting *s)
{
    struct answer answer;
    lent.key = lend(s->key.at, s->key.length);
    lent.out = lend_room(s->value.length);
    check(FIND_KEY);
    answer = check(COPY_VALUE);
    if (answer.numbers[2] != 1 || answer.numbers[3] != s->value.length
        || memcmp(ours.at + lent.out.start, s->value.at, s->value.length) != 0)
        fail(COPY_VALUE, "the value accepted last does not show");
}

/* The files have the names that they had, under LIST too. */
static void check_names_stay(const struct answer *header)
{
    static struct bytes before, after;
    uint64_t files = header->numbers[DATA_FILES];
    for (int i = 0; i < 3; i++) {
        uint64_t n = i == 0 ? files - 1 : random_below(files);
        before.length = library.file_name(volume.file.at, volume.file.length, n, before.at, sizeof before.at).length;
        after.length = library.file_name(buffer.at, used, n, after.at, sizeof after.at).length;
        if (before.length != after.length || memcmp(before.at, after.at, before.length) != 0)
            fail(FILE_NAME, "a data file has another name after the list");
    }
}

/* True if a label or unit has the text that it had, or is not there now as it was not before. */
static int text_stays(uint32_t place, uint32_t length, uint32_t new_place, uint32_t new_length)
{
    return (place == 0) == (new_place == 0) && length == new_length
           && memcmp(volume.file.at + place, buffer.at + new_place, length) == 0;
}

/* The axes have the records that they had, but for the places of labels and units, whose texts are the same. */
static void check_axes_stay(void)
{
    craneholt_axis before[CRANEHOLT_MAX_AXES], after[CRANEHOLT_MAX_AXES];
    uint64_t count = library.axes(volume.file.at, volume.file.length, before, sizeof before).count;
    lent.list = lend_room(sizeof after);
    if (check(AXES).numbers[2] != count)
        fail(AXES, "the dimension changed");
    memcpy(after, ours.at + lent.list.start, sizeof after);
    for (uint64_t i = 0; i < count; i++) {
        const craneholt_axis *a = &before[i], *b = &after[i];
        if (a->size != b->size || a->centring != b->centring || a->kind != b->kind
            || !text_stays(a->labelplace, a->labellength, b->labelplace, b->labellength)
            || !text_stays(a->unitplace, a->unitlength, b->unitplace, b->unitlength))
            fail(AXES, "an axis has another record after the list");
    }
}

/* A fresh reading after the list, with a table of its own: the carried table
 * is its table, and the bytes after the header are those of the first file. */
static void check_fresh(const struct answer *header)
{
    struct answer fresh;
    size_t end = header->numbers[LENGTH], new_end, rest = volume.file.length - end;
    lend_nothing();
    lent.file = lend(buffer.at, used);
    lent.table = lend_room(4 * (count + 3));
    fresh = check(READ);
    new_end = fresh.numbers[LENGTH];
    if (fresh.numbers[0] != 0)
        fail(READ, "the file is refused after the list");
    if (fresh.numbers[LINES] != count || memcmp(ours.at + lent.table.start, table.at, 4 * count) != 0)
        fail(READ, "the carried table is not that of a fresh reading");
    if (used - new_end != rest || memcmp(buffer.at + new_end, volume.file.at + end, rest) != 0)
        fail(READ, "the bytes after the header changed");
    if (fresh.numbers[DATA_FILES] != header->numbers[DATA_FILES]
        || fresh.numbers[LINES] - fresh.numbers[FIELD_LINES] != header->numbers[LINES] - header->numbers[FIELD_LINES])
        fail(READ, "the data files changed");
    check_names_stay(header);
    check_axes_stay();
}

static void count_settings(int length)
{
    int form = form_of(&volume.file, volume.file.length);
    int strings = has_field(&volume.file, volume.file.length, CRANEHOLT_FIELD_LABELS)
                  || has_field(&volume.file, volume.file.length, CRANEHOLT_FIELD_UNITS);
    for (int i = 0; i < length; i++) {
        named.list_settings += settings[i].accepted && form == LIST;
        named.pattern_settings += settings[i].accepted && form == PATTERN;
        axed.settings += settings[i].accepted && strings;
    }
}

/* A list of settings, and what it must leave; a short list if the header is refused. */
static void check_list(const struct answer *header, int length)
{
    int accepted = header->numbers[0] == 0;
    if (!accepted)
        length = 2;
    start_list(header);
    for (int i = 0; i < length; i++)
        check_setting(&settings[i], random_chance(8));
    if (!accepted)
        return;
    check_fresh(header);
    count_settings(length);
    for (int i = 0; i < length; i++)
        if (settings[i].accepted && !is_set_again(&settings[i], settings + length))
            check_value(&settings[i]);
}

/* ---- the inputs */

enum { ENOUGH = 1000 }; /* inputs, for shares to be judged */

/* Every 250th input is large; every fourth gets a long list of settings. */
static void check_input(void)
{
    int large = input % 250 == 0;
    struct answer header;
    random_start(input);
    if (large)
        make_large_volume(&volume);
    else
        make_volume(&volume);
    header = check_file();
    check_list(&header, 5 + (int)random_below(large || input % 4 != 0 ? 1 : SETTINGS - 4));
    check_write();
    check_write_header();
}

/* How often a number came from each call, with line 0 or with a line. */
static void print_row(int number, int with_line)
{
    unsigned long sum = 0;
    for (int call = 0; call < CALL_COUNT; call++)
        sum += refusals[call][number][with_line];
    if (sum == 0)
        return;
    printf("%2d %6s", number, with_line ? "line n" : "line 0");
    for (int call = 0; call < CALL_COUNT; call++)
        printf(" %13lu", refusals[call][number][with_line]);
    printf("\n");
}

static void print_refusals(void)
{
    printf("%9s", "refusal");
    for (int call = 0; call < CALL_COUNT; call++)
        printf(" %13s", entries[call].name);
    printf("\n");
    for (int number = 0; number < NUMBERS; number++) {
        print_row(number, 0);
        print_row(number, 1);
    }
}

/* A byte skip of -1 has to be in at least one of twenty headers, with each answer that it can have; false if it is not. */
static int print_from_end(uint64_t inputs)
{
    unsigned long found = from_end[0], sum = found + from_end[11] + from_end[16] + from_end[18];
    printf("byte skip -1: %lu headers of %llu (%.1f %%); data found %lu, refused 11 %lu, 16 %lu, 18 %lu\n", sum,
           (unsigned long long)inputs, 100.0 * (double)sum / (double)inputs, found, from_end[11], from_end[16],
           from_end[18]);
    return 20 * sum >= inputs && found > 0 && from_end[11] > 0 && from_end[16] > 0 && from_end[18] > 0;
}

/* At least one of four headers has to be accepted with a space, each of its fields has to be among them, and each refusal. */
static int print_oriented(uint64_t inputs)
{
    printf("orientation: %lu headers of %llu (%.1f %%); origin %lu, directions %lu (with none %lu), frame %lu; "
           "refused 9 %lu, 11 %lu\n",
           oriented.spaces, (unsigned long long)inputs, 100.0 * (double)oriented.spaces / (double)inputs,
           oriented.origins, oriented.directions, oriented.nones, oriented.frames, oriented.second, oriented.bad);
    return 4 * oriented.spaces >= inputs && oriented.origins > 0 && oriented.directions > 0 && oriented.nones > 0
           && oriented.frames > 0 && oriented.second > 0 && oriented.bad > 0;
}

/* At least one of twelve headers has to be that of an accepted sweep, one of fifty of one without a wrong step, one of fifty of
 * one with; a counter that runs through its end, and 28 for the file or the key and for the largest step, in one of a hundred. */
static int print_sweeps(uint64_t inputs)
{
    unsigned long sum = sweeps.right + sweeps.wrong;
    printf("sweeps: %lu headers of %llu (%.1f %%); no wrong step %lu (through the end of the counter %lu), wrong step %lu; "
           "refused 28 %lu, for the largest step %lu\n",
           sum, (unsigned long long)inputs, 100.0 * (double)sum / (double)inputs, sweeps.right, sweeps.wrapped, sweeps.wrong,
           sweeps.no_sweeps, sweeps.no_largest);
    return 12 * sum >= inputs && 50 * sweeps.right >= inputs && 50 * sweeps.wrong >= inputs && 100 * sweeps.wrapped >= inputs
           && 100 * sweeps.no_sweeps >= inputs && 100 * sweeps.no_largest >= inputs;
}

/* At least one of eight headers has to be accepted with LIST or a pattern, one of thirty each with LIST, with a pattern, with one
 * name, and with more than one file; each refusal has to be in one of five hundred, and as many settings as a quarter of the inputs
 * have to be accepted on headers with LIST, and on those with a pattern. */
static int print_named(uint64_t inputs)
{
    unsigned long sum = named.lists + named.patterns;
    printf("LIST and patterns: %lu headers of %llu (%.1f %%); LIST %lu, patterns %lu, more than one file %lu; one name %lu; "
           "refused 8 %lu, 11 %lu, 11 line 0 %lu; settings on LIST %lu, on patterns %lu\n",
           sum, (unsigned long long)inputs, 100.0 * (double)sum / (double)inputs, named.lists, named.patterns, named.several,
           named.names, named.too_early, named.bad, named.unfit, named.list_settings, named.pattern_settings);
    return 8 * sum >= inputs && 30 * named.lists >= inputs && 30 * named.patterns >= inputs && 30 * named.names >= inputs
           && 30 * named.several >= inputs && 500 * named.too_early >= inputs && 500 * named.bad >= inputs
           && 500 * named.unfit >= inputs && 4 * named.list_settings >= inputs && 4 * named.pattern_settings >= inputs;
}

/* At least one of six headers has to be accepted with a field of the axis records, one of twelve with each of the four, one of thirty
 * with a quote inside a string, and with an empty string; 11 at one of these lines has to be in one of fifty, 22 for a short list in
 * one of six; and as many settings as half of the inputs have to be accepted on headers with labels or units. */
static int print_axed(uint64_t inputs)
{
    printf("axis records: %lu headers of %llu (%.1f %%); centers %lu, kinds %lu, labels %lu, units %lu; a quote inside %lu, an empty "
           "string %lu; refused 11 %lu, 22 %lu; settings on labels or units %lu\n",
           axed.headers, (unsigned long long)inputs, 100.0 * (double)axed.headers / (double)inputs, axed.centers, axed.kinds,
           axed.labels, axed.units, axed.quotes, axed.empty, axed.bad, axed.too_short, axed.settings);
    return 6 * axed.headers >= inputs && 12 * axed.centers >= inputs && 12 * axed.kinds >= inputs && 12 * axed.labels >= inputs
           && 12 * axed.units >= inputs && 30 * axed.quotes >= inputs && 30 * axed.empty >= inputs && 50 * axed.bad >= inputs
           && 6 * axed.too_short >= inputs && 2 * axed.settings >= inputs;
}

int main(int arguments, char **argument)
{
    uint64_t first = arguments > 1 ? strtoull(argument[1], NULL, 10) : 0;
    uint64_t inputs = arguments > 2 ? strtoull(argument[2], NULL, 10) : 100000;
    for (input = first; input < first + inputs; input++)
        check_input();
    print_refusals();
    if (!print_from_end(inputs) && inputs >= ENOUGH) {
        printf("too few headers have a byte skip of -1\n");
        return 1;
    }
    if (!print_oriented(inputs) && inputs >= ENOUGH) {
        printf("too few headers have an orientation\n");
        return 1;
    }
    if (!print_sweeps(inputs) && inputs >= ENOUGH) {
        printf("too few files are sweeps, or of one kind\n");
        return 1;
    }
    if (!print_named(inputs) && inputs >= ENOUGH) {
        printf("too few headers have LIST, a pattern or one name, or too few settings are made on them\n");
        return 1;
    }
    if (!print_axed(inputs) && inputs >= ENOUGH) {
        printf("too few headers have fields of the axis records, or too few settings are made on them\n");
        return 1;
    }
    printf("%llu inputs, no difference\n", (unsigned long long)inputs);
    return 0;
}
