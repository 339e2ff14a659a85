/* Times every call that touches many bytes beside plain C that does the same job, in one run, on the same buffers. Prints
 * microseconds and the ratio ours / peer: below 1 ours is faster. Both results of decoding and of writing are compared first.
 * Two tables have ours beside ours: names under LIST beside key pairs, and a late name of a pattern beside the first.
 * `make bench` builds and runs it; `make bench ONLY=hex` has the tables with that word in their names only. */
#define _POSIX_C_SOURCE 200809L
#include "../tests/calls.h"
#include "../tests/model.h"
#include "craneholt.h"
#include "peers.h"
#include "timing.h"

/* Samples in a file. Of the short files a job takes as many as have CACHED samples, one after the other and each other than the last: of a
 * file that is read again and again the processor would know the branches. */
enum { CACHED = 200000, LONGEST = 2000000 };
static const size_t counts[] = {100, 1000, CACHED, LONGEST};
static const char *const count_names[] = {"100", "1,000", "200,000", "2,000,000"};

/* What a job works on. */
typedef struct {
    uint8_t *file;
    size_t length;
    size_t n; /* samples in a file */
    size_t width; /* samples in a row of a sweep */
    size_t files;
    size_t starts[CACHED / 100 + 1]; /* of the files, one after the other in `file` */
    int apart; /* each file's result has a place of its own, to be compared; else all have one, which stays in the cache */
    int w, is_signed, big;
    uint64_t encoding;
    int64_t *samples, *list;
    uint8_t *our_bytes, *peer_bytes;
    size_t room;
    uint32_t table[CRANEHOLT_MAX_LINES];
    uint64_t lines;
} bench;

/* ---- Files ---- */

/* Files of so many samples each. */
static void set_length(bench *b, size_t n)
{
    b->n = n;
    b->files = n < CACHED ? CACHED / n : 1;
}

static const char *const type_names[] = {"int8", "uint8", "int16", "uint16", "int32", "uint32", "int64", "uint64"};
static const char *const encoding_names[] = {"raw", "txt", "hex"};

static int type_of(int w, int is_signed)
{
    return (w == 1 ? 0 : w == 2 ? 2 : w == 4 ? 4 : 6) + !is_signed;
}

/* The header of the file to be read or written: its length. */
static size_t put_header(const bench *b, uint8_t *out)
{
    const char *endian = b->w == 1 || b->encoding == CRANEHOLT_TEXT ? NULL : b->big ? "big" : "little";
    return peer_write_header(type_names[type_of(b->w, b->is_signed)], b->n, encoding_names[b->encoding], endian, out);
}

/* Samples of every length that the type has, from a fixed seed. */
static void make_samples(bench *b)
{
    uint64_t x = 88172645463325252u;
    for (size_t k = 0; k < b->files * b->n; k++) {
        x ^= x << 13;
        x ^= x >> 7;
        x ^= x << 17;
        unsigned shift = 64 - 8 * (unsigned)b->w + (unsigned)((x >> 8) % (8 * (unsigned)b->w));
        b->samples[k] = b->is_signed ? (int64_t)x >> shift : (int64_t)(x >> (shift == 0 ? 1 : shift));
    }
}

/* ---- Jobs: the peers read and write the header too. They answer the samples read, or the bytes written. ---- */

static int64_t *list_of(const bench *b, size_t i)
{
    return b->list + (b->apart ? i * b->n : 0);
}

static size_t our_samples(void *on)
{
    bench *b = (bench *)on;
    size_t total = 0;
    for (size_t i = 0; i < b->files; i++)
        total += craneholt_samples(b->file + b->starts[i], b->starts[i + 1] - b->starts[i], NULL, 0, list_of(b, i),
                                   b->n * sizeof *b->list).count;
    return total;
}

static size_t peer_decode(const bench *b, const uint8_t *data, size_t length, int64_t *list)
{
    switch (b->encoding) {
    case CRANEHOLT_RAW: return peer_raw(data, b->n, b->w, b->is_signed, b->big, list);
    case CRANEHOLT_HEX: return peer_hex(data, length, b->n, b->w, b->is_signed, b->big, list);
    default: return peer_text((const char *)data, b->n, b->w, b->is_signed, list);
    }
}

static size_t peer_samples(void *on)
{
    bench *b = (bench *)on;
    size_t total = 0;
    for (size_t i = 0; i < b->files; i++) {
        const uint8_t *file = b->file + b->starts[i];
        craneholt_data_answer a = model_data(file, b->starts[i + 1] - b->starts[i], NULL, 0);
        total += peer_decode(b, file + a.start, a.length, list_of(b, i));
    }
    return total;
}

static size_t our_files(void *on)
{
    bench *b = (bench *)on;
    uint64_t size = b->n;
    size_t total = 0;
    for (size_t i = 0; i < b->files; i++)
        total += craneholt_write(4, &size, sizeof size, (uint64_t)type_of(b->w, b->is_signed), b->encoding, (uint64_t)b->big,
                                 b->samples + i * b->n, b->n * sizeof *b->samples, b->our_bytes + (b->apart ? total : 0),
                                 b->room - total).length;
    return total;
}

static size_t peer_data(const bench *b, const int64_t *samples, uint8_t *out)
{
    switch (b->encoding) {
    case CRANEHOLT_RAW: return peer_write_raw(samples, b->n, b->w, b->is_signed, b->big, out);
    case CRANEHOLT_HEX: return peer_write_hex(samples, b->n, b->w, b->is_signed, b->big, out);
    default: return peer_write_text(samples, b->n, b->w, b->is_signed, out);
    }
}

static size_t peer_files(void *on)
{
    bench *b = (bench *)on;
    size_t total = 0;
    for (size_t i = 0; i < b->files; i++) {
        uint8_t *to = b->peer_bytes + (b->apart ? total : 0);
        size_t header = put_header(b, to);
        total += header + peer_data(b, b->samples + i * b->n, to + header);
    }
    return total;
}

/* ---- Decoding and writing ---- */

/* Whether the job answers this, and decodes all samples. */
static int decodes(bench *b, job *j, size_t answer)
{
    size_t bytes = b->files * b->n * sizeof *b->list;
    memset(b->list, 1, bytes);
    b->apart = 1;
    int right = j(b) == answer && memcmp(b->list, b->samples, bytes) == 0;
    b->apart = 0;
    return right;
}

/* A line feed after each `line` digits of hex, none for 0; a byte 0 after each file, for strtoll. */
static void decode(bench *b, const char *name, size_t line)
{
    make_samples(b);
    uint8_t *to = b->file;
    for (size_t i = 0; i < b->files; i++) {
        b->starts[i] = (size_t)(to - b->file);
        to += put_header(b, to);
        size_t n = peer_data(b, b->samples + i * b->n, b->peer_bytes);
        for (size_t j = 0; j < n; j++) {
            *to++ = b->peer_bytes[j];
            if (line != 0 && (j + 1) % line == 0)
                *to++ = '\n';
        }
        *to++ = 0;
    }
    b->starts[b->files] = (size_t)(to - b->file);
    size_t total = b->files * b->n;
    must_hold(decodes(b, our_samples, total) && decodes(b, peer_samples, total), name);
    compare(name, our_samples, peer_samples, b, b->files);
}

static void write_files(bench *b, const char *name)
{
    make_samples(b);
    b->apart = 1;
    size_t length = our_files(b);
    must_hold(length == peer_files(b) && memcmp(b->our_bytes, b->peer_bytes, length) == 0, name);
    b->apart = 0;
    compare(name, our_files, peer_files, b, b->files);
}

typedef void row_maker(bench *b, const char *name);

static void decode_row(bench *b, const char *name) { decode(b, name, 0); }
static void decode_lines_row(bench *b, const char *name) { decode(b, name, 70); }
static void decode_bytes_row(bench *b, const char *name) { decode(b, name, 2); }

/* A row for each type, and for each byte order where there are two. */
static void each_type(bench *b, row_maker *make)
{
    int orders = b->encoding == CRANEHOLT_TEXT ? 1 : 2;
    for (b->w = 1; b->w <= 8; b->w *= 2)
        for (b->is_signed = 1; b->is_signed >= 0; b->is_signed--)
            for (b->big = 0; b->big < (b->w > 1 ? orders : 1); b->big++) {
                char name[64];
                snprintf(name, sizeof name, "%s%s", type_names[type_of(b->w, b->is_signed)],
                         orders == 1 || b->w == 1 ? "" : b->big ? " big" : " little");
                make(b, name);
            }
    b->big = 0;
}

/* ---- Headers ---- */

static size_t our_header(void *on)
{
    bench *b = (bench *)on;
    return craneholt_read_header(b->file, b->length).reading.lines;
}

static size_t peer_header(void *on)
{
    bench *b = (bench *)on;
    return model_read_header(b->file, b->length).reading.lines;
}

enum { DECIMALS = CRANEHOLT_MAX_AXES * CRANEHOLT_MAX_SPACE };

/* The vectors of the header decoded: how many components they have. */
static size_t vectors(const struct calls *calls, const bench *b)
{
    craneholt_decimal list[DECIMALS];
    return calls->origin(b->file, b->length, list, sizeof list).count
           + calls->directions(b->file, b->length, list, sizeof list).count
           + calls->frame(b->file, b->length, list, sizeof list).count;
}

static size_t our_vectors(void *on)
{
    static const struct calls ours = CALLS(craneholt);
    return vectors(&ours, (bench *)on);
}

static size_t peer_vectors(void *on)
{
    static const struct calls model = CALLS(model);
    return vectors(&model, (bench *)on);
}

/* Headers with so many lines of each kind: what is needed, keys, orientation. That of 17 lines has kinds, units and centers too, which are
 * understood as well. The last has all fields of the orientation that can stand together, with numbers as long as a double's. */
static void headers(bench *b)
{
    static const char needed[] = "type: unsigned short\ndimension: 2\nsizes: 640 480\nencoding: raw\nendian: little\n";
    static const char keys[] = "# sweep\nutc offset:=36\nutc offset:=37\nhead:=left\n";
    static const char space[] = "space: right-anterior-superior\nspace directions: (1,0,0) (0,1,0)\nspace origin: (0,0,0)\n"
                                "kinds: domain domain\nunits: \"mm\" \"mm\"\ncenters: cell cell\n";
    static const char pose[] = "space: left-posterior-superior\nspace origin: (-112.34567890123457,98.765432109876543,-0.00123)\n"
                               "space directions: (0.99984769515639127,-0.017452406437283512,0) (0.0174524064,0.99984769,1e-05)\n"
                               "measurement frame: (1,0,0) (0,0.70710678118654757,-0.70710678118654757) (0,0.70710678,0.70710678)\n";
    static const struct {
        const char *name, *magic, *more[2];
        job *ours, *peer;
    } rows[] = {{"7 lines", "NRRD0004", {"", ""}, our_header, peer_header},
                {"11 lines, 3 keys", "NRRD0004", {keys, ""}, our_header, peer_header},
                {"17 lines, orientation", "NRRD0004", {keys, space}, our_header, peer_header},
                {"11 lines, all orientation", "NRRD0005", {pose, ""}, our_header, peer_header},
                {"its vectors decoded, 3 calls", "NRRD0005", {pose, ""}, our_vectors, peer_vectors}};
    heading("headers", "C");
    for (size_t i = 0; i < sizeof rows / sizeof rows[0]; i++) {
        b->length = (size_t)sprintf((char *)b->file, "%s\n%s%s%s\n", rows[i].magic, needed, rows[i].more[0], rows[i].more[1]);
        must_hold(rows[i].ours(b) == rows[i].peer(b), rows[i].name);
        compare(rows[i].name, rows[i].ours, rows[i].peer, b, 1);
    }
}

/* ---- Axis records ---- */

static size_t our_axes(void *on)
{
    bench *b = (bench *)on;
    craneholt_axis list[CRANEHOLT_MAX_AXES];
    return craneholt_axes(b->file, b->length, list, sizeof list).count;
}

static size_t peer_axes(void *on)
{
    bench *b = (bench *)on;
    craneholt_axis list[CRANEHOLT_MAX_AXES];
    return model_axes(b->file, b->length, list, sizeof list).count;
}

/* Whether both have the same records. */
static int same_axes(const bench *b, size_t count)
{
    craneholt_axis ours[CRANEHOLT_MAX_AXES], peers[CRANEHOLT_MAX_AXES];
    return craneholt_axes(b->file, b->length, ours, sizeof ours).count == count
           && model_axes(b->file, b->length, peers, sizeof peers).count == count && memcmp(ours, peers, count * sizeof *ours) == 0;
}

/* A field that says one of four texts for each axis, in turn. */
static void put_per_axis(bench *b, const char *name, const char *const *texts, size_t axes)
{
    b->length += (size_t)sprintf((char *)b->file + b->length, "%s:", name);
    for (size_t i = 0; i < axes; i++)
        b->length += (size_t)sprintf((char *)b->file + b->length, " %s", texts[i % 4]);
    b->file[b->length++] = '\n';
}

/* A header with all four fields. */
static void put_axes(bench *b, size_t axes)
{
    static const char *const sizes[] = {"3", "4", "4", "2"};
    static const char *const centers[] = {"???", "cell", "cell", "node"};
    static const char *const kinds[] = {"3-vector", "space", "space", "time"};
    static const char *const labels[] = {"\"velocity\"", "\"x\"", "\"y of head \\\"b\\\"\"", "\"\""};
    static const char *const units[] = {"\"mm/s\"", "\"mm\"", "\"mm\"", "\"s\""};
    b->length = (size_t)sprintf((char *)b->file, "NRRD0005\ntype: uint8\ndimension: %zu\nencoding: raw\n", axes);
    put_per_axis(b, "sizes", sizes, axes);
    put_per_axis(b, "centers", centers, axes);
    put_per_axis(b, "kinds", kinds, axes);
    put_per_axis(b, "labels", labels, axes);
    put_per_axis(b, "units", units, axes);
    b->file[b->length++] = '\n';
}

/* The header alone, and the records. */
static void axes(bench *b)
{
    static const size_t dimensions[] = {4, CRANEHOLT_MAX_AXES};
    heading("axis records", "C");
    for (size_t i = 0; i < sizeof dimensions / sizeof dimensions[0]; i++) {
        char name[64];
        put_axes(b, dimensions[i]);
        snprintf(name, sizeof name, "%zu axes, header read", dimensions[i]);
        must_hold(our_header(b) == peer_header(b) && same_axes(b, dimensions[i]), name);
        compare(name, our_header, peer_header, b, 1);
        snprintf(name, sizeof name, "%zu axes, records", dimensions[i]);
        compare(name, our_axes, peer_axes, b, 1);
    }
}

/* ---- Data in several files ---- */

enum { NAMES = 1000 };

/* Two headers, and the numbers of two files that the first names. */
typedef struct {
    uint8_t file[2][32 * NAMES];
    size_t length[2];
    uint64_t early, late;
    uint8_t name[64];
} naming;

static size_t our_first(void *on)
{
    naming *n = (naming *)on;
    return craneholt_read_header(n->file[0], n->length[0]).reading.lines;
}

static size_t our_second(void *on)
{
    naming *n = (naming *)on;
    return craneholt_read_header(n->file[1], n->length[1]).reading.lines;
}

static size_t peer_first(void *on)
{
    naming *n = (naming *)on;
    return model_read_header(n->file[0], n->length[0]).reading.lines;
}

static size_t peer_second(void *on)
{
    naming *n = (naming *)on;
    return model_read_header(n->file[1], n->length[1]).reading.lines;
}

static size_t our_early(void *on)
{
    naming *n = (naming *)on;
    return craneholt_file_name(n->file[0], n->length[0], n->early, n->name, sizeof n->name).length;
}

static size_t our_late(void *on)
{
    naming *n = (naming *)on;
    return craneholt_file_name(n->file[0], n->length[0], n->late, n->name, sizeof n->name).length;
}

static size_t peer_early(void *on)
{
    naming *n = (naming *)on;
    return model_file_name(n->file[0], n->length[0], n->early, n->name, sizeof n->name).length;
}

static size_t peer_late(void *on)
{
    naming *n = (naming *)on;
    return model_file_name(n->file[0], n->length[0], n->late, n->name, sizeof n->name).length;
}

/* Whether both jobs come to the same answer, and the row. */
static void naming_row(const char *name, job *ours, job *peer, naming *n)
{
    must_hold(ours(n) == peer(n) && ours(n) > 0, name);
    compare(name, ours, peer, n, 1);
}

/* A header with names under LIST and one with key pairs: as many lines, and each as long. */
static void put_names_and_pairs(naming *n)
{
    static const char needed[] = "NRRD0004\ntype: unsigned short\ndimension: 3\nsizes: 640 480 1000\nencoding: raw\nendian: little\n";
    n->length[0] = (size_t)sprintf((char *)n->file[0], "%sdata file: LIST\n", needed);
    n->length[1] = (size_t)sprintf((char *)n->file[1], "%sdata file: x\n", needed);
    for (int i = 0; i < NAMES; i++) {
        n->length[0] += (size_t)sprintf((char *)n->file[0] + n->length[0], "slice-%04d.raw\n", i);
        n->length[1] += (size_t)sprintf((char *)n->file[1] + n->length[1], "head%04d:=%04d\n", i, i);
    }
    n->early = 0;
    n->late = NAMES - 1;
}

/* A header with a pattern of as many files as there can be. */
static void put_pattern(naming *n)
{
    n->length[0] = (size_t)sprintf((char *)n->file[0], "NRRD0004\ntype: uint8\ndimension: 2\nsizes: 1 4294967295\nencoding: raw\n"
                                                       "data file: slice%%010d.raw 1 4294967295 1\n");
    n->early = 0;
    n->late = 4294967294u;
}

/* Beside C; then ours beside ours: names beside pairs, the last name beside the first. */
static void names(void)
{
    static naming n;
    put_names_and_pairs(&n);
    heading("names of data files", "C");
    naming_row("header, 1,000 names under LIST", our_first, peer_first, &n);
    naming_row("header, 1,000 key pairs", our_second, peer_second, &n);
    naming_row("name 0 under LIST", our_early, peer_early, &n);
    naming_row("name 999 under LIST", our_late, peer_late, &n);
    put_pattern(&n);
    naming_row("name 0 of a pattern", our_early, peer_early, &n);
    naming_row("name 4,294,967,294 of it", our_late, peer_late, &n);
    put_names_and_pairs(&n);
    heading("names of data files, header", "pairs");
    naming_row("1,000 names beside 1,000 pairs", our_first, our_second, &n);
    put_pattern(&n);
    heading("names of data files, pattern", "name 0");
    naming_row("name 4,294,967,294 beside name 0", our_late, our_early, &n);
}

/* ---- Settings on a file of 64 MB ---- */

enum { LARGE = 64 << 20 };

static size_t set_value(bench *b, const char *value)
{
    craneholt_set_answer a = craneholt_set_key(b->our_bytes, b->room, b->length, b->table, sizeof b->table, b->lines,
                                               (const uint8_t *)"utc offset", 10, (const uint8_t *)value, strlen(value));
    b->length = a.length;
    return a.refusal.number == 0;
}

/* longer and shorter by one byte: the data moves up, then down */
static size_t set_twice(void *on)
{
    bench *b = (bench *)on;
    return set_value(b, "137") && set_value(b, "37");
}

static size_t move_twice(void *on)
{
    bench *b = (bench *)on;
    memmove(b->peer_bytes + 1, b->peer_bytes, LARGE);
    memmove(b->peer_bytes, b->peer_bytes + 1, LARGE);
    return 1;
}

static void settings(bench *b)
{
    heading("setting a key, 64 MB file", "memmove");
    b->length = LARGE + (size_t)sprintf((char *)b->our_bytes,
                                        "NRRD0004\ntype: uint8\ndimension: 1\nsizes: %d\nencoding: raw\nutc offset:=37\n\n", LARGE);
    craneholt_read_answer a = craneholt_read(b->our_bytes, b->length, b->table, sizeof b->table);
    b->lines = a.reading.lines;
    compare("one byte longer, one shorter", set_twice, move_twice, b, 1);
}

/* ---- Sweeps ---- */

enum { LARGEST_STEP = 1000 };

/* Stamps that step by 1 to LARGEST_STEP; about halfway the counter runs through its end. */
static void make_stamps(bench *b)
{
    size_t rows = b->n / b->width;
    make_samples(b);
    for (size_t i = 0; i < b->files; i++) {
        uint32_t stamp = 0 - (uint32_t)(rows / 2 * LARGEST_STEP / 2);
        for (size_t r = 0; r < rows; r++) {
            b->samples[i * b->n + r * b->width] = stamp;
            stamp += 1 + (uint32_t)((r + 1) * 7919 % LARGEST_STEP);
        }
    }
}

static size_t offset_of(size_t sweep)
{
    return sweep % 256;
}

static void make_sweeps(bench *b)
{
    uint8_t *to = b->file;
    make_stamps(b);
    for (size_t i = 0; i < b->files; i++) {
        b->starts[i] = (size_t)(to - b->file);
        to += sprintf((char *)to,
                      "NRRD0004\ntype: uint32\ndimension: 2\nsizes: %zu %zu\nencoding: raw\nendian: little\nutc offset:=%zu\n\n",
                      b->width, b->n / b->width, offset_of(i));
        to += peer_data(b, b->samples + i * b->n, to);
    }
    b->starts[b->files] = (size_t)(to - b->file);
}

/* The job answers the samples of the sweeps that have no wrong step, and the sum of their offsets. */
static size_t our_sweeps(void *on)
{
    bench *b = (bench *)on;
    size_t total = 0;
    for (size_t i = 0; i < b->files; i++) {
        craneholt_sweep_answer a = craneholt_sweep(b->file + b->starts[i], b->starts[i + 1] - b->starts[i], list_of(b, i),
                                                   b->n * sizeof *b->list, LARGEST_STEP);
        if (a.refusal.number == 0 && !a.wrong)
            total += b->n + a.offset;
    }
    return total;
}

/* The peer's reader is asked three times: for the sizes, the key and the data. */
static size_t peer_sweep(const bench *b, const uint8_t *file, size_t length, int64_t *list)
{
    static const uint8_t key[] = "utc offset";
    craneholt_reading r = model_read_header(file, length).reading;
    craneholt_find_answer value = model_find_key(file, length, key, sizeof key - 1);
    craneholt_data_answer data = model_data(file, length, NULL, 0);
    int offset = peer_offset(file + value.start, value.length);
    if (data.refusal.number != 0 || data.second || r.sampletype != CRANEHOLT_UINT32 || r.dimension != 2 || !value.found || offset < 0)
        return 0;
    peer_decode(b, file + data.start, data.length, list);
    return peer_wrong_row(list, r.sizes[1], r.sizes[0], LARGEST_STEP) == r.sizes[1] ? b->n + (size_t)offset : 0;
}

static size_t peer_sweeps(void *on)
{
    bench *b = (bench *)on;
    size_t total = 0;
    for (size_t i = 0; i < b->files; i++)
        total += peer_sweep(b, b->file + b->starts[i], b->starts[i + 1] - b->starts[i], list_of(b, i));
    return total;
}

/* Of at least so many samples, in rows of a width. */
static void sweep_row(bench *b, size_t samples, size_t width)
{
    char name[64];
    snprintf(name, sizeof name, "rows of %zu", width);
    b->width = width;
    set_length(b, (samples + width - 1) / width * width);
    make_sweeps(b);
    size_t answer = b->files * b->n;
    for (size_t i = 0; i < b->files; i++)
        answer += offset_of(i);
    must_hold(decodes(b, our_sweeps, answer) && decodes(b, peer_sweeps, answer), name);
    compare(name, our_sweeps, peer_sweeps, b, b->files);
}

static void sweeps(bench *b, const char *only)
{
    static const size_t samples[] = {100, 100000}, widths[] = {1, 4, 64};
    static const char *const names[] = {"sweep, 100", "sweep, 100,000"};
    b->w = 4;
    b->is_signed = b->big = 0;
    b->encoding = CRANEHOLT_RAW;
    for (size_t c = 0; c < sizeof samples / sizeof samples[0]; c++) {
        if (!strstr(names[c], only))
            continue;
        heading(names[c], "C");
        for (size_t i = 0; i < sizeof widths / sizeof widths[0]; i++)
            sweep_row(b, samples[c], widths[i]);
    }
}

/* The tables with a row for each type. */
static const struct {
    const char *what, *peer;
    uint64_t encoding;
    row_maker *make;
} parts[] = {
    {"raw decoded", "C", CRANEHOLT_RAW, decode_row},
    {"hex decoded", "C table", CRANEHOLT_HEX, decode_row},
    {"hex in lines of 70 decoded", "C table", CRANEHOLT_HEX, decode_lines_row},
    {"hex, a byte a line, decoded", "C table", CRANEHOLT_HEX, decode_bytes_row},
    {"text decoded", "strtoll", CRANEHOLT_TEXT, decode_row},
    {"raw written", "C", CRANEHOLT_RAW, write_files},
    {"hex written", "C", CRANEHOLT_HEX, write_files},
    {"text written", "C", CRANEHOLT_TEXT, write_files},
};

/* With a word, only the tables whose names have it. */
int main(int argc, char **argv)
{
    static bench b;
    const char *only = argc > 1 ? argv[1] : "";
    b.room = LARGE + 4096;
    b.samples = (int64_t *)memory(LONGEST * sizeof *b.samples);
    b.list = (int64_t *)memory(LONGEST * sizeof *b.list);
    b.file = (uint8_t *)memory(b.room);
    b.our_bytes = (uint8_t *)memory(b.room);
    b.peer_bytes = (uint8_t *)memory(b.room);

    if (strstr("headers", only))
        headers(&b);
    if (strstr("axis records", only))
        axes(&b);
    if (strstr("names of data files", only))
        names();
    for (size_t c = 0; c < sizeof counts / sizeof counts[0]; c++)
        for (size_t i = 0; i < sizeof parts / sizeof parts[0]; i++) {
            char what[64];
            snprintf(what, sizeof what, "%s, %s", parts[i].what, count_names[c]);
            if (!strstr(what, only))
                continue;
            heading(what, parts[i].peer);
            set_length(&b, counts[c]);
            b.encoding = parts[i].encoding;
            each_type(&b, parts[i].make);
        }
    sweeps(&b, only);
    if (strstr("settings", only))
        settings(&b);
    return EXIT_SUCCESS;
}
