/* merge FILE FILE: the points of two heads' sweeps, if both were stamped with the same UTC offset. The data of a sweep is in its
 * file, or in one or more files that its header names. Prints a line for each sample: the head, the coordinates, the sample. */
#include <inttypes.h>
#include <string.h>

#include "files.h"

static const char key[] = "utc offset";

typedef struct {
    const char *name;
    whole_file header; /* an attached file, or a detached header */
    craneholt_reading reading;
    uint64_t count; /* of the samples */
    char offset[64];
} sweep;

static sweep load_sweep(const char *name)
{
    sweep s;
    memset(&s, 0, sizeof s);
    s.name = name;
    s.header = load(name, 0);
    craneholt_read_answer read = craneholt_read_header(s.header.bytes, s.header.length);
    must(name, read.refusal);
    s.reading = read.reading;
    s.count = 1;
    for (uint32_t axis = 0; axis < s.reading.dimension; axis++)
        s.count *= s.reading.sizes[axis];

    craneholt_value_answer value = craneholt_copy_value(s.header.bytes, s.header.length, (const uint8_t *)key, strlen(key),
                                                        (uint8_t *)s.offset, sizeof s.offset - 1);
    must(name, value.refusal);
    if (!value.found)
        fail(name, 0, "has no key `utc offset`");
    s.offset[value.length] = '\0';
    return s;
}

/* The path of data file n: in the header's folder, unless its name starts with a slash. */
static void path_of(const sweep *s, uint64_t n, char *path, size_t room)
{
    const char *slash = strrchr(s->name, '/');
    size_t folder = slash == NULL ? 0 : (size_t)(slash - s->name) + 1;
    char name[2048];
    craneholt_write_answer a = craneholt_file_name(s->header.bytes, s->header.length, n, (uint8_t *)name, sizeof name);
    if (a.length > 0 && name[0] == '/')
        folder = 0;
    if (a.refusal.number == CRANEHOLT_LENT_TOO_SHORT || folder + a.length >= room)
        fail(s->name, 0, "the name of a data file is too long");
    must(s->name, a.refusal);
    snprintf(path, room, "%.*s%.*s", (int)folder, s->name, (int)a.length, name);
}

/* A header for one of several data files: its share as an array of one axis, with the skips that hold for each file. */
static whole_file share_header(const sweep *s, uint64_t share)
{
    static uint8_t text[CRANEHOLT_ORIENTED_ROOM + 100];
    const craneholt_reading *r = &s->reading;
    uint64_t endian = r->endian == CRANEHOLT_NO_ENDIAN ? CRANEHOLT_LITTLE : r->endian;
    craneholt_write_answer a =
        craneholt_write_header(4, &share, sizeof share, r->sampletype, r->encoding, endian, NULL, 0, text, sizeof text);
    must(s->name, a.refusal);
    size_t length = (size_t)a.length - 1; /* the lines below take the place of the empty one */
    length += (size_t)snprintf((char *)text + length, sizeof text - length, "line skip: %" PRIu64 "\n", r->lineskip);
    if (r->fromend)
        length += (size_t)snprintf((char *)text + length, sizeof text - length, "byte skip: -1\n");
    else
        length += (size_t)snprintf((char *)text + length, sizeof text - length, "byte skip: %" PRIu64 "\n", r->byteskip);
    length += (size_t)snprintf((char *)text + length, sizeof text - length, "data file: share\n");
    return (whole_file){text, length, sizeof text};
}

/* The list with so many more samples after those that it has. Data that is too short is refused before memory is asked for. */
static int64_t *with_samples(int64_t *list, uint64_t had, uint64_t more, const char *name, whole_file header, whole_file data)
{
    must(name, craneholt_data(header.bytes, header.length, data.bytes, data.length).refusal);
    list = (int64_t *)realloc(list, (had + more) * sizeof *list);
    if (list == NULL)
        fail(name, 0, "does not fit the memory");
    must(name, craneholt_samples(header.bytes, header.length, data.bytes, data.length, list + had, more * sizeof *list).refusal);
    return list;
}

/* All samples: of the file itself, or of its data files one after the other. */
static int64_t *load_samples(const sweep *s)
{
    const whole_file none = {NULL, 0, 0};
    if (s->reading.form == CRANEHOLT_ATTACHED)
        return with_samples(NULL, 0, s->count, s->name, s->header, none);
    uint64_t share = s->count / s->reading.files;
    whole_file header = s->reading.files == 1 ? s->header : share_header(s, share);
    int64_t *list = NULL;
    for (uint64_t n = 0; n < s->reading.files; n++) {
        char path[4096];
        path_of(s, n, path, sizeof path);
        whole_file data = load(path, 0);
        list = with_samples(list, n * share, share, path, header, data);
        free(data.bytes);
    }
    return list;
}

static void print_points(const sweep *s, int head)
{
    int64_t *samples = load_samples(s);
    for (uint64_t n = 0; n < s->count; n++) {
        uint64_t rest = n;
        printf("head %d at", head);
        for (uint32_t axis = 0; axis < s->reading.dimension; axis++) {
            printf(" %" PRIu64, rest % s->reading.sizes[axis]);
            rest /= s->reading.sizes[axis];
        }
        printf(": %" PRId64 "\n", samples[n]);
    }
    free(samples);
}

int main(int argc, char **argv)
{
    if (argc != 3) {
        fprintf(stderr, "usage: merge FILE FILE\n");
        return EXIT_FAILURE;
    }
    sweep heads[2] = {load_sweep(argv[1]), load_sweep(argv[2])};
    if (strcmp(heads[0].offset, heads[1].offset) != 0) {
        fprintf(stderr, "%s has `%s` %s, %s has %s: correct one of them first\n", argv[1], key, heads[0].offset, argv[2],
                heads[1].offset);
        return EXIT_FAILURE;
    }
    for (int i = 0; i < 2; i++) {
        print_points(&heads[i], i + 1);
        free(heads[i].header.bytes);
    }
    return EXIT_SUCCESS;
}
