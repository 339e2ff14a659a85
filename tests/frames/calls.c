/*
 * The cases of the program that runs the calls on data, samples, coordinates
 * and written files. Its layout stands in that program's main.rt.
 */
#include "cases.h"

#include <inttypes.h>
#include <stdio.h>
#include <stdlib.h>
#include <string.h>

enum { RAW, TEXT, HEX };
enum { UINT8 = 1, INT16 = 2, UINT16 = 3, INT32 = 4, INT64 = 6, UINT64 = 7, FLOAT = 8, DOUBLE = 9 };

static const uint64_t MAX = 4294967295u;

static struct draw chance = {1};

/* ---- a case of each call */

enum call { DATA, SAMPLES, COORDS, WRITE };
enum { MOST_SAMPLES = 1024, MOST_AXES = 32, MOST_WRITTEN = 65536 };

static struct text *call_case(enum call call, craneholt_refusal refusal)
{
    struct text *c = start_case();
    put_number(c, call);
    put_refusal(c, refusal);
    return c;
}

craneholt_data_answer put_data(struct bytes file, struct bytes second)
{
    craneholt_data_answer a = model_data(file.at, file.length, second.at, second.length);
    struct text *c = call_case(DATA, a.refusal);
    put_number(c, a.second);
    put_number(c, a.start);
    put_number(c, a.length);
    put_run(c, file);
    put_run(c, second);
    end_case();
    return a;
}

craneholt_count_answer put_samples(struct bytes file, struct bytes second, uint64_t room)
{
    craneholt_count_answer a = model_check_samples(file.at, file.length, second.at, second.length, room);
    struct text *c = call_case(SAMPLES, a.refusal);
    struct bytes list = filled(8 * MOST_SAMPLES);
    if (a.count > MOST_SAMPLES) {
        free(list.at);
        leave_out();
        return a;
    }
    if (a.refusal.number == 0)
        model_samples(file.at, file.length, second.at, second.length, list.at, list.length);
    put_wide(c, room);
    put_run(c, file);
    put_run(c, second);
    put_run(c, part(list, 0, 8 * a.count));
    free(list.at);
    end_case();
    return a;
}

craneholt_number_answer put_coords(struct bytes file, struct bytes coords)
{
    craneholt_number_answer a = model_sample_number(file.at, file.length, coords.at, coords.length);
    struct text *c = call_case(COORDS, a.refusal);
    put_number(c, a.number);
    put_run(c, file);
    put_run(c, coords);
    if (coords.length <= 8 * MOST_AXES)
        end_case();
    else
        leave_out();
    return a;
}

craneholt_write_answer put_write(uint64_t version, struct bytes sizes, uint64_t type, uint64_t encoding,
                                 uint64_t endian, struct bytes samples, uint64_t room)
{
    const uint64_t numbers[] = {version, type, encoding, endian};
    struct bytes out = filled(room <= MOST_WRITTEN ? room : 0);
    craneholt_write_answer a = model_write(version, sizes.at, sizes.length, type, encoding, endian, samples.at,
                                           samples.length, out.at, out.length);
    struct text *c = call_case(WRITE, a.refusal);
    put_number(c, out.length);
    for (size_t i = 0; i < 4; i++)
        put_wide(c, numbers[i]);
    put_run(c, sizes);
    put_run(c, samples);
    put_run(c, part(out, 0, a.length));
    free(out.at);
    if (room <= MOST_WRITTEN && sizes.length <= 8 * MOST_AXES && samples.length <= 8 * MOST_SAMPLES)
        end_case();
    else
        leave_out();
    return a;
}

/* ---- lists of numbers */

struct list {
    size_t count;
    uint64_t at[MOST_SAMPLES];
};

#define LIST(...) ((struct list){sizeof((uint64_t[]){__VA_ARGS__}) / 8, {__VA_ARGS__}})

static const struct list none;

/* So many times the same number, and one more after them if it is not 0. */
static struct list alike(size_t count, uint64_t number, uint64_t last)
{
    struct list list = none;
    while (list.count < count)
        list.at[list.count++] = number;
    if (last != 0)
        list.at[list.count++] = last;
    return list;
}

/* The numbers as they are lent: 8 bytes each, low byte first. */
static struct bytes lent(const struct list *list, struct text *text)
{
    text->length = 0;
    for (size_t i = 0; i < list->count; i++)
        put_wide(text, list->at[i]);
    return view(text);
}

static void coords_case(struct bytes file, struct list coords)
{
    static struct text text;
    put_coords(file, lent(&coords, &text));
}

/* What is lent to the writer but for the buffer. */
struct volume {
    uint64_t version;
    struct list sizes;
    uint64_t type, encoding, endian;
    struct list samples;
};

static craneholt_write_answer write_case(const struct volume *v, uint64_t room)
{
    static struct text sizes, samples;
    return put_write(v->version, lent(&v->sizes, &sizes), v->type, v->encoding, v->endian,
                     lent(&v->samples, &samples), room);
}

/* ---- types and samples */

static int is_signed(uint64_t type)
{
    return type % 2 == 0;
}

static size_t bits_of(uint64_t type)
{
    return 8 * model_types[type].bytes;
}

static int64_t low(uint64_t type)
{
    return is_signed(type) ? INT64_MIN >> (64 - bits_of(type)) : 0;
}

static int64_t high(uint64_t type)
{
    if (is_signed(type) || bits_of(type) == 64)
        return INT64_MAX >> (is_signed(type) ? 64 - bits_of(type) : 0);
    return ((int64_t)1 << bits_of(type)) - 1;
}

static struct list drawn(uint64_t type, size_t count)
{
    struct list list = none;
    while (list.count < count)
        list.at[list.count++] = (uint64_t)between(&chance, low(type), high(type));
    return list;
}

/* Samples of a type, its least and its largest among them. */
static struct list some(uint64_t type, size_t count)
{
    uint64_t least = (uint64_t)low(type), most = (uint64_t)high(type);
    uint64_t one = (uint64_t)between(&chance, low(type), high(type));
    const uint64_t turn[] = {least, most, most - 1, one, 1, least + 1};
    struct list list = none;
    for (; list.count < count; list.count++)
        list.at[list.count] = turn[list.count % 6];
    return list;
}

static void put_sample(struct text *t, uint64_t type, int encoding, int endian, uint64_t bits)
{
    size_t width = model_types[type].bytes;
    if (encoding == TEXT) {
        int negative = is_signed(type) && bits > INT64_MAX;
        put_format(t, "%s%" PRIu64, negative ? "-" : "", negative ? ~bits + 1 : bits);
        return;
    }
    for (size_t i = 0; i < width; i++) {
        unsigned byte = (unsigned)(bits >> 8 * (endian ? width - 1 - i : i)) & 255;
        if (encoding == RAW)
            put_byte(t, (uint8_t)byte);
        else
            put_format(t, "%02x", byte);
    }
}

/* Samples as data. */
static void put_encoded(struct text *t, uint64_t type, int encoding, int endian, struct list samples)
{
    for (size_t i = 0; i < samples.count; i++) {
        if (encoding == TEXT && i > 0)
            put_byte(t, '\n');
        put_sample(t, type, encoding, endian, samples.at[i]);
    }
}

/* ---- files */

/* A header: uint8 in raw, one sample, until fields are given. */
struct head {
    unsigned version;
    const char *end;
    int closed;
    size_t count;
    struct {
        const char *name, *text;
    } field[24];
};

static struct head plain(void)
{
    return (struct head){4, "\n", 1, 4,
                         {{"type", "uint8"}, {"dimension", NULL}, {"sizes", "1"}, {"encoding", "raw"}}};
}

/* Gives a field, in place of what it had; one with an empty text is left out. */
static void give(struct head *h, const char *name, const char *text)
{
    size_t i = 0;
    while (i < h->count && strcmp(h->field[i].name, name) != 0)
        i++;
    h->field[i].name = name;
    h->field[i].text = text;
    h->count += i == h->count;
}

/* The digits of a number, for some time. */
static const char *digits(uint64_t number)
{
    static char texts[16][24];
    static size_t turn;
    char *text = texts[turn++ % 16];
    snprintf(text, 24, "%" PRIu64, number);
    return text;
}

static const char *spread(const struct list *list)
{
    static char text[512];
    size_t at = 0;
    for (size_t i = 0; i < list->count; i++)
        at += (size_t)snprintf(text + at, sizeof text - at, "%s%" PRIu64, i > 0 ? " " : "", list->at[i]);
    return text;
}

static struct head sized(const char *sizes)
{
    struct head h = plain();
    give(&h, "sizes", sizes);
    return h;
}

static void give_kind(struct head *h, uint64_t type, int encoding, int endian, int detached)
{
    static const char *const encodings[] = {"raw", "ascii", "HEX"};
    give(h, "type", model_types[type].names[0]);
    give(h, "encoding", encodings[encoding]);
    give(h, "endian", endian ? "big" : "little");
    if (detached)
        give(h, "data file", "x");
}

/* The dimension, where none is given: the numbers of the sizes. */
static const char *dimension_of(const char *sizes)
{
    size_t count = 1;
    for (; *sizes != '\0'; sizes++)
        count += *sizes == ' ';
    return digits(count);
}

static void put_head(struct text *t, const struct head *h)
{
    put_format(t, "NRRD000%u%s", h->version, h->end);
    for (size_t i = 0; i < h->count; i++) {
        const char *text = h->field[i].text == NULL ? dimension_of(h->field[i + 1].text) : h->field[i].text;
        if (*text == '\0')
            continue;
        put_string(t, h->field[i].name);
        put_string(t, ": ");
        put_string(t, text);
        put_string(t, h->end);
    }
    if (h->closed)
        put_string(t, h->end);
}

/* A file with this header and data; it is there until the next one is made. */
static struct bytes file_of(const struct head *h, struct bytes data)
{
    static struct text file;
    file.length = 0;
    put_head(&file, h);
    put(&file, data);
    return view(&file);
}

static struct bytes bare(const struct head *h)
{
    return file_of(h, LITERAL(""));
}

/* The two files. A detached header has something after it, and an attached file stands beside some second file. */
struct files {
    struct bytes file, second;
};

static struct files laid(const struct head *h, struct bytes area, int detached)
{
    if (detached)
        return (struct files){file_of(h, LITERAL("5 5 5 5\n")), area};
    return (struct files){file_of(h, area), LITERAL("4 4 4 4\n")};
}

static void both(struct bytes file, struct bytes second, uint64_t room)
{
    put_data(file, second);
    put_samples(file, second, room);
}

/* ---- the trials of the rules (2 is of settings) */

/* The file is refused by each call that takes one. */
static void refused_trial(struct bytes file, uint32_t number, uint32_t line)
{
    craneholt_data_answer a = put_data(file, LITERAL(""));
    put_samples(file, LITERAL(""), 9);
    coords_case(file, LIST(0, 0));
    ensure(a.refusal.number == number && a.refusal.line == line, "a trial of the rules has another refusal");
}

/* The text with the first `old` replaced. */
static struct bytes replaced(struct bytes b, const char *old, const char *new)
{
    static struct text text;
    size_t at = 0;
    text.length = 0;
    while (memcmp(b.at + at, old, strlen(old)) != 0)
        at++;
    put(&text, part(b, 0, at));
    put_string(&text, new);
    put(&text, part(b, at + strlen(old), b.length));
    return view(&text);
}

static void sweep_trials(void)
{
    static struct text sweep;
    struct bytes s;
    sweep.length = 0;
    put_sweep(&sweep);
    put_byte(&sweep, 0);
    for (size_t length = 122; length <= 123; length++) {
        s = part(view(&sweep), 0, length);
        ensure(put_data(s, LITERAL("")).start == 114, "trial 1 has another start");
        ensure(put_samples(s, LITERAL(""), 4).count == 4, "trial 1 has another count");
    }
    s = part(view(&sweep), 0, 121);
    ensure(put_data(s, LITERAL("")).refusal.number == 18, "trial 1 has another refusal");
    put_samples(s, LITERAL(""), 4);
    s = part(view(&sweep), 0, 122);
    refused_trial(replaced(s, "0004", "0001"), 8, 8);
    refused_trial(LITERAL(""), 2, 1);
    refused_trial(replaced(s, "dimension: 2", "dimension:2"), 6, 4);
    refused_trial(replaced(s, "dimension: 2\nsizes: 2 2", "sizes: 2 2\ndimension: 2"), 10, 4);
}

static void extent_trials(void)
{
    struct head h = sized("65535 65537");
    struct volume v = {4, LIST(65535, 65537), UINT8, RAW, 0, none};
    ensure(put_data(file_of(&h, LITERAL("1")), LITERAL("")).refusal.number == 18, "trial 4 has another refusal");
    coords_case(bare(&h), LIST(65534, 65536));
    ensure(write_case(&v, 9).refusal.number == 27, "trial 4 has another refusal");
    h = sized("65536 65536");
    v.sizes = LIST(65536, 65536);
    refused_trial(bare(&h), 15, 0);
    ensure(write_case(&v, 9).refusal.number == 15, "trial 4 has another refusal");
}

static void sample_trials(void)
{
    struct head h = plain();
    give(&h, "type", "int16");
    give(&h, "endian", "big");
    put_samples(file_of(&h, LITERAL("\377\376")), LITERAL(""), 1);
    h = plain();
    give(&h, "type", "int8");
    put_samples(file_of(&h, LITERAL("\200")), LITERAL(""), 1);
    give(&h, "encoding", "txt");
    ensure(put_samples(file_of(&h, LITERAL("-129")), LITERAL(""), 1).refusal.number == 20, "-129 is taken");
}

static void axis_trials(void)
{
    struct list ones = alike(16, 1, 0);
    struct head h = sized("4 3 2");
    coords_case(bare(&h), LIST(1, 2, 1));
    h = sized(spread(&ones));
    coords_case(bare(&h), alike(16, 0, 0));
    h = sized("");
    give(&h, "dimension", "0");
    refused_trial(bare(&h), 11, 3);
    ones = alike(17, 1, 0);
    h = sized(spread(&ones));
    refused_trial(bare(&h), 11, 3);
}

static void trials(void)
{
    static char content[CRANEHOLT_MAX_HEADER];
    struct head h = plain();
    sweep_trials();
    extent_trials();
    sample_trials();
    axis_trials();
    give(&h, "content", "c");
    memset(content, 'c', CRANEHOLT_MAX_HEADER + 1 - bare(&h).length);
    give(&h, "content", content);
    ensure(put_data(file_of(&h, LITERAL("7")), LITERAL("")).start == CRANEHOLT_MAX_HEADER, "trial 7 is refused");
}

/* ---- shapes of files */

static void volume_cases(uint64_t t, int e, int endian, int detached)
{
    static const struct {
        const char *skip;
        struct bytes text;
    } lines[] = {{"", {NULL, 0}}, {"1", {(uint8_t *)"\n", 1}}, {"3", {(uint8_t *)"a\r\n\0 b\n\n", 8}}};
    static const char *const octets[] = {"", "\n\377 \n5"}, *const after[] = {"\7", " x", "zz"};
    static struct text area;
    for (size_t i = 0; i < (t < FLOAT ? 6u : 2u); i++) {
        struct head h = sized("2 2");
        struct files files;
        give_kind(&h, t, e, endian, detached);
        give(&h, "line skip", lines[i / 2].skip);
        give(&h, "byteskip", i % 2 ? "5" : "");
        area.length = 0;
        put(&area, lines[i / 2].text);
        put_string(&area, octets[i % 2]);
        put_encoded(&area, t, e, endian, some(t, 4));
        put_string(&area, after[e]);
        files = laid(&h, view(&area), detached);
        if (!endian)
            put_data(files.file, files.second);
        put_samples(files.file, files.second, 5);
    }
}

/* Each type, encoding, endian, skip and form. */
static void volumes(void)
{
    for (uint64_t t = 0; t < MODEL_TYPES; t++)
        for (int i = 0; i < 12; i++)
            volume_cases(t, i / 4, i / 2 % 2, i % 2);
}

static void skip_cases(const char *encoding, int detached, uint64_t line_skip, const char *byte_skip)
{
    static const char *const areas[] = {"12", "ab\n\n\r\n12\n"};
    for (size_t i = 0; i < 2; i++) {
        struct bytes area = {(uint8_t *)areas[i], strlen(areas[i])};
        struct head h = plain();
        struct files files;
        give(&h, "encoding", encoding);
        give(&h, "line skip", digits(line_skip));
        give(&h, "byte skip", byte_skip);
        give(&h, "data file", detached ? "x" : "");
        files = laid(&h, area, detached);
        put_data(files.file, detached ? files.second : LITERAL("4\n4\n4"));
    }
}

static void length_cases(void)
{
    static const char *const types[] = {"int16", "double"}, *const encodings[] = {"raw", "hex"};
    static uint8_t octets[] = {0, 1, 2, 3, 4, 5, 6, 7};
    for (int i = 0; i < 4; i++) {
        struct head h = plain();
        h.end = "\r\n";
        give(&h, "encoding", encodings[i % 2]);
        give(&h, "byte skip", i / 2 ? "1" : "0");
        both(bare(&h), LITERAL("12"), 1);
    }
    for (size_t i = 0; i < 18; i++) {
        struct head h = sized("3");
        give(&h, "type", types[i % 2]);
        give(&h, "endian", "big");
        both(file_of(&h, (struct bytes){octets, i / 2}), LITERAL("123456"), 3);
    }
}

/* A byte skip of -1: as many bytes as the data takes, one fewer, others before them, and lines to skip. */
static void end_cases(uint64_t t, int detached)
{
    static const struct {
        const char *line_skip, *before;
        size_t missing;
        uint32_t refusal;
    } shapes[] = {{"", "", 0, 0},       {"", "", 1, 18},           {"", "x\n", 0, 0},       {"1", "x\n", 0, 0},
                  {"1", "x\n", 1, 18}, {"1", "x\n\377bc", 0, 0}, {"9", "x\n\nbc", 0, 16}};
    static struct text area;
    for (size_t i = 0; i < COUNT(shapes); i++) {
        struct head h = sized("2 2");
        struct files files;
        give_kind(&h, t, RAW, t % 2, detached);
        give(&h, "line skip", shapes[i].line_skip);
        give(&h, i % 2 ? "byteskip" : "byte skip", "-1");
        area.length = 0;
        put_string(&area, shapes[i].before);
        put_encoded(&area, t, RAW, t % 2, some(t, 4));
        area.length -= shapes[i].missing;
        files = laid(&h, view(&area), detached);
        ensure(put_data(files.file, files.second).refusal.number == shapes[i].refusal,
               "data at the end has another refusal");
        put_samples(files.file, files.second, 4);
    }
}

/* Skips and data about the end of a file. */
static void places(void)
{
    static const uint64_t line_skips[] = {0, 1, 3, 4, 4294967295u};
    static const char *const byte_skips[] = {"0", "1", "2", "3", "6", "7", "4294967295", "-1"};
    struct head h = plain();
    for (int i = 0; i < 4; i++)
        for (size_t j = 0; j < 40; j++)
            skip_cases(i / 2 ? "hex" : "raw", i % 2, line_skips[j / 8], byte_skips[j % 8]);
    length_cases();
    for (uint64_t t = 0; t < MODEL_TYPES; t++)
        for (int detached = 0; detached < 2; detached++)
            end_cases(t, detached);
    give(&h, "data file", "d");
    give(&h, "sizes", "2");
    for (size_t i = 0; i < 8; i++) {
        h.closed = i / 4 == 1;
        both(bare(&h), part(LITERAL("123"), 0, i % 4), 2);
    }
    both(part(bare(&h), 0, bare(&h).length - 2), LITERAL("12"), 2);
}

/* A data file field that names one file, more than one, or a number that does not fit the sizes; without another fault, with a skip
 * past the end, with too few bytes, and with a list that is too short. */
static void named_cases(uint64_t t, int e)
{
    static const struct {
        const char *files;
        uint32_t refusal;
    } shapes[] = {{"x%d.raw 7 7 1 2", 0}, {"%03d 9 4294967295 4294967295 2", 0}, {"LIST 2\nx.raw", 0},
                  {"LIST 2\n# byte skip: 9", 0}, {"x%d.raw 0 1 1", 33}, {"x%3d.raw 9 6 -2", 33}, {"x%d 1 2 1 2", 33},
                  {"LIST\na\nb", 33}, {"LIST 2\nline skip: x\n:=", 33}, {"LIST 1\n \n\t", 33}, {"x%d 0 2 1", 11},
                  {"x%d 0 0 1", 11}, {"LIST 3\na\nb", 11}, {"LIST\na", 11}, {"LIST", 11}};
    static struct text area;
    for (size_t i = 0; i < 4 * COUNT(shapes); i++) {
        struct head h = sized("2 2");
        struct files files;
        uint32_t number;
        give_kind(&h, t, e, 0, 0);
        give(&h, "line skip", i % 4 == 1 ? "9" : "");
        give(&h, "data file", shapes[i / 4].files);
        area.length = 0;
        put_encoded(&area, t, e, 0, some(t, i % 4 == 2 ? 3 : 4));
        files = laid(&h, view(&area), 1);
        number = put_data(files.file, files.second).refusal.number;
        ensure(number == shapes[i / 4].refusal || (shapes[i / 4].refusal == 0 && i % 4 != 0),
               "data in several files has another refusal");
        put_samples(files.file, files.second, i % 4 == 3 ? 3 : 4);
    }
}

static void named_files(void)
{
    named_cases(UINT8, RAW);
    named_cases(INT16, TEXT);
    named_cases(DOUBLE, HEX);
}

/* Lists that are too short, just long enough, longer, and far longer than any that is lent. */
static void rooms(void)
{
    static const uint64_t types[] = {UINT8, INT16, INT64}, most[] = {UINT16, 0, INT32};
    static const uint64_t room[] = {0, 1, 5, 6, 7, 1024, 4294967296u, 4294967301u, UINT64_MAX};
    static struct text area;
    for (int i = 0; i < 9; i++) {
        struct head h = sized("3 1 2");
        struct bytes file;
        give_kind(&h, types[i % 3], i / 3, 1, 0);
        area.length = 0;
        put_encoded(&area, types[i % 3], i / 3, 1, some(types[i % 3], 6));
        file = file_of(&h, view(&area));
        for (size_t j = 0; j < 9; j++)
            put_samples(file, LITERAL(""), room[j]);
    }
    for (int e = RAW; e <= HEX; e++) {
        struct head h = sized("32 32");
        give_kind(&h, most[e], e, 0, 0);
        area.length = 0;
        put_encoded(&area, most[e], e, 0, drawn(most[e], MOST_SAMPLES));
        put_samples(file_of(&h, view(&area)), LITERAL(""), MOST_SAMPLES);
    }
}

/* ---- shapes of samples */

static void text_case(uint64_t type, unsigned count, struct bytes area)
{
    struct head h = sized(digits(count));
    give(&h, "type", model_types[type].names[0]);
    give(&h, "encoding", "txt");
    put_samples(file_of(&h, area), LITERAL(""), count);
}

/* A token alone or after another, by its length. */
static void token_case(uint64_t type, struct bytes token)
{
    static struct text area;
    area.length = 0;
    if (token.length % 2 == 0)
        put_string(&area, "1 ");
    put(&area, token);
    if (token.length % 2 == 0)
        put_byte(&area, '\n');
    text_case(type, token.length % 2 ? 1 : 2, view(&area));
}

static int in_order(const void *a, const void *b)
{
    return strcmp(a, b);
}

/* The digits of a limit of a type and one more or less. */
static void put_edge(char *text, int64_t limit, int more)
{
    uint64_t size = limit < 0 ? ~(uint64_t)limit + 1 : (uint64_t)limit;
    if (limit == 0 && more < 0)
        snprintf(text, 24, "-1");
    else
        snprintf(text, 24, "%s%" PRIu64, limit < 0 ? "-" : "", limit < 0 ? size - (uint64_t)more : size + (uint64_t)more);
}

/* Numbers at the limits of the types, in order, none twice; answers how many. */
static size_t edges(char (*texts)[24])
{
    size_t count = 0, kept = 0;
    for (uint64_t t = 0; t < FLOAT; t++)
        for (int more = -1; more <= 1; more++) {
            put_edge(texts[count++], low(t), more);
            put_edge(texts[count++], high(t), more);
        }
    qsort(texts, count, 24, in_order);
    for (size_t i = 0; i < count; i++)
        if (i == 0 || strcmp(texts[i], texts[kept - 1]) != 0)
            memmove(texts[kept++], texts[i], 24);
    return kept;
}

/* A sign, so many times a digit, and what follows. */
static struct bytes long_token(const char *sign, const char *first, const char *digit, size_t times, const char *last)
{
    static struct text token;
    token.length = 0;
    put_string(&token, sign);
    put_string(&token, first);
    put_times(&token, digit, times);
    put_string(&token, last);
    return view(&token);
}

static void whole_tokens(uint64_t t)
{
    static const char *const plain_tokens[] = {"+7", "-7", "-0", "+0", "-00", "007", "+007", "-007"};
    static const char *const large[] = {"4294967297", "18446744073709551615", "18446744073709551616",
                                        "18446744073709551617", "-18446744073709551615", "-18446744073709551616"};
    for (size_t i = 0; i < 8; i++)
        token_case(t, long_token("", plain_tokens[i], "", 0, ""));
    token_case(t, long_token("", "", "0", 100, "7"));
    token_case(t, long_token("-", "", "0", 100, "7"));
    for (size_t i = 0; i < 6; i++)
        token_case(t, long_token("", large[i], "", 0, ""));
    token_case(t, long_token("", "1", "0", 100, ""));
    token_case(t, long_token("", "", "9", 200, ""));
    token_case(t, long_token("-", "", "9", 200, ""));
}

static void tokens(void)
{
    static char texts[48][24];
    size_t count = edges(texts);
    for (uint64_t t = 0; t < FLOAT; t++) {
        for (size_t i = 0; i < count; i++)
            token_case(t, long_token("", texts[i], "", 0, ""));
        whole_tokens(t);
    }
}

static void bad_tokens(void)
{
    static const struct bytes bad[] = {
        BYTES("+"), BYTES("-"), BYTES("++7"), BYTES("--7"), BYTES("+-7"), BYTES("-+7"), BYTES("7-"), BYTES("7+"),
        BYTES("7.0"), BYTES("7e1"), BYTES("0x7"), BYTES("7,7"), BYTES("7x"), BYTES("x7"), BYTES("7\0"),
        BYTES("\0" "7"), BYTES("\262"), BYTES("7\240")};
    static struct text area;
    for (uint64_t t = 0; t <= UINT64; t += UINT64)
        for (size_t i = 0; i < COUNT(bad); i++) {
            text_case(t, 1, bad[i]);
            area.length = 0;
            put(&area, bad[i]);
            put_string(&area, " 1");
            text_case(t, 2, view(&area));
        }
}

static void texts(void)
{
    static const struct bytes areas[] = {
        BYTES(""), BYTES(" "), BYTES("\t\n\v\f\r "), BYTES("1"), BYTES("1 "), BYTES(" 1\n"), BYTES("1 2"),
        BYTES("\n\n1\v\f2"), BYTES("1 2 "), BYTES("1 2 3"), BYTES("1 2 x"), BYTES("1 2x"), BYTES("1 x"), BYTES("x 1"),
        BYTES("256"), BYTES("1 256 "), BYTES("+ 1"), BYTES("- 1"), BYTES("1 +"), BYTES("1\n2\n\0")};
    tokens();
    bad_tokens();
    for (unsigned b = 0; b < 256; b++) {
        uint8_t area[] = {'1', (uint8_t)b, '2'};
        text_case(UINT8, 1, (struct bytes){area + 1, 1});
        text_case(UINT8, 2, (struct bytes){area, 3});
    }
    for (size_t i = 0; i < COUNT(areas); i++)
        text_case(UINT8, 2, areas[i]);
}

static void hex_case(uint64_t type, int endian, unsigned count, struct bytes area)
{
    struct head h = sized(digits(count));
    give_kind(&h, type, HEX, endian, 0);
    put_samples(file_of(&h, area), LITERAL(""), count);
}

/* The digits with something before each but the first. */
static void put_parted(struct text *t, struct bytes d, const char *between_them)
{
    for (size_t i = 0; i < d.length; i++) {
        put_string(t, i > 0 ? between_them : "");
        put_byte(t, d.at[i]);
    }
}

static void put_upper(struct text *t, struct bytes d)
{
    for (size_t i = 0; i < d.length; i++)
        put_byte(t, d.at[i] >= 'a' ? d.at[i] - 32 : d.at[i]);
}

/* Digits of samples written as they may be. */
static void put_good_area(struct text *t, struct bytes d, int kind)
{
    if (kind == 0)
        put(t, d);
    else if (kind == 1)
        put_upper(t, d);
    else if (kind == 2) {
        put_byte(t, ' ');
        put_parted(t, d, "\n");
        put_byte(t, '\t');
    } else if (kind == 3)
        put_parted(t, d, "\v\f\r");
    else {
        put(t, part(d, 0, 3));
        put_string(t, "  ");
        put_upper(t, part(d, 3, d.length));
    }
}

enum { GOOD_AREAS = 5, OTHER_AREAS = 15 };

/* The first digits, something, and the last digits. */
static void put_other_area(struct text *t, struct bytes d, size_t kind)
{
    const size_t n = d.length;
    const struct {
        size_t to;
        struct bytes text;
        size_t from;
    } shapes[OTHER_AREAS] = {
        {0, BYTES(""), n},      {1, BYTES(""), n},      {2, BYTES(""), n},     {n - 2, BYTES(""), n}, {n - 1, BYTES(""), n},
        {n - 1, BYTES(" "), n}, {n - 2, BYTES(" "), n - 1}, {n, BYTES("g"), n}, {n, BYTES(" zz"), n}, {n - 1, BYTES("g"), n},
        {0, BYTES("g"), 1},     {3, BYTES("g"), n},     {1, BYTES("-"), 2},    {2, BYTES("0x"), 2},   {2, BYTES("\0"), 2}};
    put(t, part(d, 0, shapes[kind].to));
    put(t, shapes[kind].text);
    put(t, part(d, shapes[kind].from, n));
}

static void hex_areas(uint64_t type, int endian)
{
    static struct text d, area;
    d.length = 0;
    put_encoded(&d, type, HEX, endian, some(type, 3));
    for (int kind = 0; kind < GOOD_AREAS + OTHER_AREAS; kind++) {
        area.length = 0;
        if (kind < GOOD_AREAS)
            put_good_area(&area, view(&d), kind);
        else
            put_other_area(&area, view(&d), (size_t)kind - GOOD_AREAS);
        hex_case(type, endian, 3, view(&area));
    }
}

static void hex_top(struct bytes top, uint64_t type, int endian)
{
    static struct text area;
    hex_case(type, endian, 1, top);
    area.length = 0;
    put_times(&area, "0", 16);
    put_parted(&area, top, " ");
    hex_case(type, endian, 2, view(&area));
    area.length = 0;
    put(&area, top);
    put_byte(&area, 'g');
    hex_case(type, endian, 2, view(&area));
}

static void hexes(void)
{
    static const struct bytes tops[] = {
        BYTES("8000000000000000"), BYTES("7fffffffffffffff"), BYTES("ffffffffffffffff"), BYTES("00000000000000ff"),
        BYTES("ff"), BYTES("fffffffffffffff"), BYTES("fffffffffffffffg")};
    for (unsigned b = 0; b < 256; b++) {
        uint8_t area[] = {'a', (uint8_t)b, '0'};
        hex_case(UINT8, 0, 1, (struct bytes){area + 1, 2});
        hex_case(UINT8, 0, 1, (struct bytes){area, 2});
    }
    for (uint64_t t = 0; t < FLOAT; t++)
        for (int endian = 0; endian < 2; endian++)
            hex_areas(t, endian);
    for (size_t i = 0; i < 28; i++)
        hex_top(tops[i / 4], i / 2 % 2 ? UINT64 : INT64, i % 2);
}

/* ---- coordinates */

static void wrong_coordinates(struct bytes file, const struct list *sizes, const struct list *last)
{
    struct list wrong = *last;
    wrong.count--;
    coords_case(file, wrong);
    wrong = *last;
    wrong.at[wrong.count++] = 0;
    coords_case(file, wrong);
    coords_case(file, alike(17, 0, 0));
    coords_case(file, alike(32, 0, 0));
    coords_case(file, none);
    coords_case(file, *sizes);
}

/* The last sample, but for one coordinate. */
static void large_coordinates(struct bytes file, const struct list *sizes, const struct list *last)
{
    const uint64_t large[] = {sizes->at[0], MAX, 4294967296u, (uint64_t)1 << 63, UINT64_MAX};
    const size_t axes[] = {0, sizes->count / 2, sizes->count - 1};
    for (size_t i = 0; i < 3; i++)
        for (size_t j = 0; j < 5 && (i == 0 || axes[i] != axes[i - 1]); j++) {
            struct list coords = *last;
            coords.at[axes[i]] = large[j];
            coords_case(file, coords);
        }
}

static void coordinates_of(struct list sizes)
{
    struct head h = sized(spread(&sizes));
    struct bytes file = bare(&h);
    struct list last = sizes, drawn_coords = sizes;
    for (size_t i = 0; i < sizes.count; i++)
        last.at[i]--;
    coords_case(file, last);
    for (size_t i = 0; i < sizes.count; i++)
        drawn_coords.at[i] = (uint64_t)between(&chance, 0, (int64_t)last.at[i]);
    coords_case(file, drawn_coords);
    wrong_coordinates(file, &sizes, &last);
    large_coordinates(file, &sizes, &last);
}

static void coordinate_forms(void)
{
    for (int i = 0; i < 5; i++) {
        struct head h = sized("2 2");
        give(&h, "encoding", i >= 3 ? "hex" : "raw");
        give(&h, "data file", i < 2 ? "d" : "");
        give(&h, "line skip", i == 2 ? "9" : "");
        give(&h, "byte skip", i == 2 ? "4294967295" : i == 1 || i == 4 ? "-1" : "");
        h.closed = i != 1;
        h.end = i == 3 ? "\r\n" : "\n";
        coords_case(bare(&h), LIST(1, 1));
        coords_case(bare(&h), LIST(2, 0));
        coords_case(bare(&h), LIST(1));
    }
}

static void coordinates(void)
{
    struct head h = sized("4 3 2");
    for (uint64_t i = 0; i < 60; i++)
        coords_case(bare(&h), LIST(i % 5, i / 5 % 4, i / 20));
    for (uint64_t t = 0; t < MODEL_TYPES; t++) {
        h = sized("2 3");
        give_kind(&h, t, RAW, 0, 0);
        coords_case(bare(&h), LIST(1, 2));
    }
    coordinates_of(LIST(MAX));
    coordinates_of(LIST(1, MAX));
    coordinates_of(LIST(MAX, 1, 1));
    coordinates_of(LIST(65535, 65537));
    coordinates_of(LIST(3, 5, 17, 257, 65537));
    coordinates_of(alike(15, 2, 1));
    coordinates_of(alike(16, 3, 0));
    coordinates_of(alike(16, 2, 0));
    coordinate_forms();
}

/* ---- written files */

/* Written to a buffer with so many bytes to spare. */
static void written(const struct volume *v, int spare)
{
    static uint8_t out[MOST_WRITTEN];
    static struct text sizes, samples;
    struct bytes s = lent(&v->sizes, &sizes), z = lent(&v->samples, &samples);
    craneholt_write_answer whole = model_write(v->version, s.at, s.length, v->type, v->encoding, v->endian, z.at,
                                               z.length, out, sizeof out);
    int64_t room = (int64_t)whole.length + spare;
    write_case(v, room < 0 ? 0 : (uint64_t)room);
}

/* With some bytes to spare or none. */
static void written_freely(const struct volume *v)
{
    static const int spares[] = {0, 0, 1, 300};
    written(v, spares[below(&chance, 4)]);
}

/* A sample outside of the type, first and last. */
static void outside(uint64_t t, uint64_t e, uint64_t endian, uint64_t z)
{
    struct volume v = {4, LIST(3), t, e, endian, LIST(z, 0, 1)};
    written_freely(&v);
    v.samples = LIST(0, 1, z);
    written(&v, -1);
}

static void written_kind(uint64_t t, uint64_t e, uint64_t endian)
{
    struct volume v = {4, LIST(2, 3), t, e, endian, none};
    for (uint64_t version = 1; version <= 5; version++) {
        struct volume w = {version, LIST(version), t, e, endian, drawn(t, version)};
        written_freely(&w);
    }
    v.samples = some(t, 6);
    written(&v, 0);
    v.samples = some(t, 6);
    written(&v, -1);
    if (low(t) > INT64_MIN)
        outside(t, e, endian, (uint64_t)low(t) - 1);
    if (high(t) < INT64_MAX)
        outside(t, e, endian, (uint64_t)high(t) + 1);
}

static void written_axes(void)
{
    for (size_t axes = 1; axes <= 16; axes++) {
        struct volume v = {4, alike(axes, 1, 0), UINT16, axes % 3, 0, none};
        size_t product = 1;
        for (size_t i = 0; i < 3 && i < axes; i++)
            product *= v.sizes.at[i] = 1 + below(&chance, 3);
        v.samples = some(UINT16, product);
        written(&v, (int)(axes % 2));
    }
}

static void files(void)
{
    static const int64_t samples[] = {0, 9, 10, 99, 100, 999999999999999999, 1000000000000000000, INT64_MAX,
                                      -1, -9, -10, -1000000000000000000, INT64_MIN};
    static const int spares[] = {-1000, -2, -1, 0, 1};
    struct volume v = {4, LIST(100), INT64, TEXT, 0, none};
    for (uint64_t i = 0; i < 48; i++)
        written_kind(i / 6, i / 2 % 3, i % 2);
    for (uint64_t e = RAW; e <= HEX; e++)
        for (size_t i = 0; i < COUNT(samples); i++) {
            struct volume one = {4, LIST(1), INT64, e, 1, LIST((uint64_t)samples[i])};
            written_freely(&one);
        }
    written_axes();
    for (size_t i = 0; i < 5; i++) {
        v.samples = drawn(INT64, 100);
        written(&v, spares[i]);
    }
    v.sizes = LIST(MOST_SAMPLES);
    v.samples = drawn(INT64, MOST_SAMPLES);
    written_freely(&v);
}

/* ---- orders of refusal */

/* Reasons of refusal as a set: bit n is number n. */
typedef uint32_t reasons;

#define REASON(n) ((reasons)1 << (n))

static const reasons READING = REASON(2) | 0xffe0; /* 2, 5 to 15 */
static const reasons LATER = REASON(16) | 0x7c0000; /* 16, 18 to 22; 23 is of coordinates */
static const reasons FROM_END = REASON(24); /* a byte skip of -1: with text and hex the 11 of line 0 */

/* Gives the header the reason that the reading refuses it. The lines of 6 and 12 are `:=: x` and `k:=\: x`. */
static void give_reason(struct head *h, int number)
{
    static const char *const fields[][2] = {
        [5] = {"content", "\v"}, [6] = {":=", "x"}, [7] = {"contents", "x"}, [8] = {"space", "x"}, [9] = {"byteskip", "0"},
        [10] = {"space units", "x"}, [11] = {"lineskip", "x"}, [12] = {"k:=\\", "x"}, [14] = {"type", ""},
        [15] = {"sizes", "65536 65536"}};
    if (number == 2 || number == 8)
        h->version = number == 2 ? 9 : 3;
    if (number == 13)
        h->closed = 0;
    if (number != 2 && number != 13)
        give(h, fields[number][0], fields[number][1]);
    if (number == 9)
        give(h, "byte skip", "0");
}

/* Cases of a file with these reasons. */
static void faulty(int e, int detached, reasons kind)
{
    static struct text area;
    struct head h = sized("2 2");
    struct list samples = LIST(1, 2, 3, 4);
    struct files files;
    give_kind(&h, kind & REASON(19) ? DOUBLE : UINT64, e, 1, detached);
    for (int n = 2; n <= 15; n++)
        if (kind & READING & REASON(n))
            give_reason(&h, n);
    if (kind & FROM_END)
        give(&h, "byte skip", "-1");
    if (kind & REASON(16))
        give(&h, kind & FROM_END ? "line skip" : "byteskip", "1000");
    if (kind & REASON(20))
        samples.at[1] = (uint64_t)1 << 63;
    samples.count -= (kind & (REASON(18) | REASON(21))) != 0;
    area.length = 0;
    put_encoded(&area, UINT64, e, 1, samples);
    files = laid(&h, view(&area), detached);
    if (kind & REASON(13))
        files.file = bare(&h);
    if ((kind & ~(READING | FROM_END)) == 0 || kind & REASON(23))
        coords_case(files.file, LIST(1, kind & REASON(23) ? 2 : 1));
    if (!(kind & REASON(23)))
        both(files.file, files.second, kind & REASON(22) ? 3 : 4);
}

/* The sets that are tried: one reason, two, several and all. */
static size_t reason_sets(reasons *sets)
{
    static const int reading[] = {11, 13, 15};
    size_t count = 0;
    sets[count++] = 0;
    sets[count++] = REASON(16) | REASON(18) | REASON(22) | REASON(20);
    sets[count++] = REASON(18) | REASON(22) | REASON(20);
    sets[count++] = REASON(19) | REASON(22) | REASON(20) | REASON(21);
    sets[count++] = LATER;
    sets[count++] = READING | LATER;
    sets[count++] = READING | REASON(23);
    for (int n = 2; n <= 23; n++)
        if ((READING | LATER | REASON(23)) & REASON(n))
            sets[count++] = REASON(n);
    for (size_t i = 0; i < 3; i++)
        for (int n = 16; n <= 23; n++)
            if ((LATER | REASON(23)) & REASON(n))
                sets[count++] = REASON(reading[i]) | REASON(n);
    for (int n = 16; n <= 22; n++)
        for (int m = n + 1; m <= 22; m++)
            if (LATER & REASON(n) && LATER & REASON(m))
                sets[count++] = REASON(n) | REASON(m);
    sets[count++] = FROM_END;
    sets[count++] = FROM_END | REASON(14) | REASON(15);
    sets[count++] = FROM_END | LATER;
    for (int n = 9; n <= 23; n++)
        if ((READING | LATER | REASON(23)) & REASON(n))
            sets[count++] = FROM_END | REASON(n);
    return count;
}

/* Files with reasons of refusal, for each encoding and form. */
static void orders(void)
{
    static char content[2 * 1020 + 2] = "c";
    reasons sets[96];
    size_t count = reason_sets(sets);
    struct head h = plain();
    for (int i = 0; i < 6; i++)
        for (size_t j = 0; j < count; j++)
            faulty(i / 2, i % 2, sets[j]);
    for (size_t i = 0; i < 1020; i++)
        memcpy(content + 1 + 2 * i, "\n#", 2);
    give(&h, "content", content);
    put_data(bare(&h), LITERAL(""));
}

/* A number that the writer refuses in place of a good one. */
enum { BAD_NUMBERS = 13 };

static void give_bad_number(struct volume *v, uint64_t i)
{
    static const uint64_t bad[BAD_NUMBERS] = {0, 6, 4294967300u, UINT64_MAX, 10, 4294967296u, UINT64_MAX,
                                              3, 4294967296u, UINT64_MAX, 2, 4294967296u, UINT64_MAX};
    uint64_t *place = i < 4 ? &v->version : i < 7 ? &v->type : i < 10 ? &v->encoding : &v->endian;
    *place = bad[i];
}

static void bad_volumes(void)
{
    const struct list sizes[] = {none, LIST(0), LIST(2, 0), LIST(0, UINT64_MAX), alike(17, 1, 0), alike(32, 1, 0)};
    for (uint64_t i = 0; i < BAD_NUMBERS + 6; i++) {
        struct volume v = {4, LIST(2), 0, RAW, 0, LIST(1, 2)}, w = {4, LIST(2), 0, TEXT, 1, none};
        if (i < BAD_NUMBERS) {
            give_bad_number(&v, i);
            give_bad_number(&w, i);
        } else {
            v.sizes = w.sizes = sizes[i - BAD_NUMBERS];
        }
        written_freely(&v);
        written_freely(&w);
    }
}

enum { LARGE = 8, LARGE_AND_LARGEST = 11 };

/* Sizes whose product is too large, and those whose product is the largest. */
static struct list large_sizes(uint64_t i)
{
    switch (i) {
    case 0: return LIST(MAX + 1);
    case 1: return LIST(65536, 65536);
    case 2: return LIST(MAX + 1, MAX + 1);
    case 3: return LIST((uint64_t)1 << 63, 2);
    case 4: return LIST(UINT64_MAX);
    case 5: return alike(16, UINT64_MAX, 0);
    case 6: return LIST(MAX, 2);
    case 7: return alike(15, 1, (uint64_t)1 << 33);
    case 8: return LIST(MAX);
    case 9: return LIST(65535, 65537);
    default: return LIST(3, 5, 17, 257, 65537);
    }
}

static void large_volumes(void)
{
    static const uint64_t types[] = {1, 3, 5, 7, 8, 9};
    for (uint64_t i = 0; i < 6 * LARGE_AND_LARGEST; i++) {
        struct volume v = {4, large_sizes(i / 6), types[i % 6], RAW, 0, none};
        written_freely(&v);
        v = (struct volume){4, large_sizes(i / 6), types[i % 6], HEX, 1, LIST(1, UINT64_MAX, 300)};
        written_freely(&v);
    }
    for (uint64_t i = 0; i < 16; i++) {
        struct volume v = {4, LIST(MAX / model_types[2 + i / 2].bytes + i % 2), 2 + i / 2, TEXT, 0, LIST(1)};
        written_freely(&v);
    }
}

/* Bits of set, from the highest: a bad number, large sizes, floating samples, one sample more, a bad one, a short buffer. */
static void faulty_volume(uint64_t set, const uint64_t *bad_number)
{
    struct volume v = {5, LIST(2, 2), set & 8 ? DOUBLE : UINT16, TEXT, 1, LIST(1, 65535, 3, 4, 5)};
    if (set & 16)
        v.sizes = large_sizes(below(&chance, LARGE));
    if (bad_number != NULL)
        give_bad_number(&v, *bad_number);
    if (set & 2)
        v.samples.at[1] = UINT64_MAX;
    v.samples.count -= !(set & 4);
    write_case(&v, set & 1 ? 60 : 200);
}

/* One reason of refusal and every choice of several. */
static void writer_orders(void)
{
    bad_volumes();
    large_volumes();
    for (uint64_t set = 0; set < 64; set++) {
        if (set & 32) {
            uint64_t bad = below(&chance, BAD_NUMBERS);
            for (int i = 0; i < 3; i++, bad = (bad + 4) % BAD_NUMBERS)
                faulty_volume(set, &bad);
        } else {
            faulty_volume(set, NULL);
        }
    }
    for (size_t n = 0; n < 8; n++) {
        struct volume v = {4, LIST(2, 3), UINT8, n % 3, 0, alike(n, 7, 0)};
        written_freely(&v);
    }
}

/* ---- groups */

void put_call_groups(void)
{
    static const struct {
        const char *name;
        void (*put)(void);
    } groups[] = {
        {"trials of document 01", trials},       {"shapes of volumes", volumes},
        {"shapes of skips and lengths", places}, {"data in several files", named_files},
        {"shapes of lent lists", rooms},         {"shapes of text", texts},
        {"shapes of hex", hexes},                {"shapes of coordinates", coordinates},
        {"shapes of written files", files},      {"orders of refusal in files", orders},
        {"orders of refusal in the writer", writer_orders},
    };
    for (size_t i = 0; i < COUNT(groups); i++) {
        start_group(groups[i].name);
        groups[i].put();
        end_group();
    }
}
