/*
 * Reads the files that another program made, listed in answers.txt of a
 * folder (tests/peers/README.md). Each is answered as that program says in
 * said/, or with the refusal that is listed.
 *
 *     peers [folder]
 */
#include "bytes.h"
#include "craneholt.h"
#include "model.h"
#include "said.h"

#include <stdio.h>
#include <stdlib.h>
#include <string.h>

/* how many files there are, so that a missing one shows */
enum { FILES = 83 };

/* A file and what is listed of it. */
struct peer {
    struct bytes file, second, said;
    craneholt_refusal refusal;
};

static int same_refusal(craneholt_refusal a, craneholt_refusal b)
{
    return a.number == b.number && a.line == b.line;
}

/* ---- the header: every field and key that the tool says */

struct text {
    const char *at;
    size_t length;
};

static int is_text(struct text text, const char *word)
{
    return word != NULL && strlen(word) == text.length && memcmp(word, text.at, text.length) == 0;
}

/* The number of the field, one past the last if there is none of this name. */
static uint32_t field_number(struct text name)
{
    uint32_t field = 0;
    while (field < MODEL_FIELDS && !is_text(name, model_fields[field].name) && !is_text(name, model_fields[field].other))
        field++;
    return field;
}

/* The tool saves in text, and puts quotes around the sample units each time that it saves; the other fields stay. */
static int field_is_right(struct bytes file, struct text name, struct text want)
{
    uint32_t field = field_number(name);
    craneholt_find_answer place = craneholt_find_field(file.at, file.length, field);
    if (place.refusal.number != 0 || !place.found)
        return 0;
    if (field == CRANEHOLT_FIELD_ENCODING || field == CRANEHOLT_FIELD_SAMPLE_UNITS)
        return 1;
    return place.length == want.length && memcmp(file.at + place.start, want.at, want.length) == 0;
}

/* The bytes that an escaped text means. */
static struct bytes meant(struct text text)
{
    struct bytes b = filled(text.length);
    size_t length = 0;
    for (size_t i = 0; i < text.length; i++) {
        int escaped = text.at[i] == '\\';
        i += (size_t)escaped;
        b.at[length++] = escaped && text.at[i] == 'n' ? '\n' : (uint8_t)text.at[i];
    }
    b.length = length;
    return b;
}

static int pair_is_right(struct bytes file, struct text name, struct text want)
{
    struct bytes key = meant(name), value = meant(want), out = filled(value.length);
    craneholt_value_answer answer =
        craneholt_copy_value(file.at, file.length, key.at, key.length, out.at, out.length);
    int right = answer.refusal.number == 0 && answer.found && answer.length == value.length && same(out, value);
    free(key.at);
    free(value.at);
    free(out.at);
    return right;
}

static int line_is_right(struct bytes file, const char *line, size_t length)
{
    size_t mark = 0;
    struct text name = {line, 0}, want;
    if (line[0] == '#')
        return 1;
    while (mark < length && (line[mark] != ':' || (line[mark + 1] != ' ' && line[mark + 1] != '=')))
        mark++;
    if (mark == length)
        return 0;
    name.length = mark;
    want.at = line + mark + 2;
    want.length = length - (mark + 2);
    return line[mark + 1] == ' ' ? field_is_right(file, name, want) : pair_is_right(file, name, want);
}

/* The lines after the first one, up to the empty one. */
static int lines_are_right(struct bytes file, const char *said)
{
    const char *line = strchr(said, '\n');
    while (line != NULL && line[1] != '\n') {
        size_t length = strcspn(++line, "\n");
        if (!line_is_right(file, line, length))
            return 0;
        line = strchr(line, '\n');
    }
    return line != NULL;
}

/* The tool saves data of several files in one, and then needs no version 4. */
static int header_is_right(const struct peer *p)
{
    craneholt_read_answer answer = craneholt_read_header(p->file.at, p->file.length);
    const craneholt_reading *r = &answer.reading;
    const char *said = (const char *)p->said.at;
    return answer.refusal.number == 0 && said != NULL && (r->files > 1 || said[7] == (char)('0' + r->version))
           && r->form == (p->second.at != NULL)
           && said_shape(said, r->sampletype, r->sizes, r->dimension) && lines_are_right(p->file, said);
}

/* ---- data and samples */

static uint64_t sample_count(const struct peer *p)
{
    craneholt_reading r = craneholt_read_header(p->file.at, p->file.length).reading;
    uint64_t count = 1;
    for (uint32_t axis = 0; axis < r.dimension; axis++)
        count *= r.sizes[axis];
    return count;
}

/* The samples that the tool says, or the refusal that is listed; an entry more is lent, and stays. */
static int samples_are_right(const struct peer *p)
{
    uint64_t count = sample_count(p), read = p->refusal.number == 0 ? count : 0;
    struct bytes list = filled(8 * (size_t)(count + 1)), before = filled(8 * (size_t)(count + 1 - read));
    struct bytes rest = {list.at + 8 * read, before.length};
    craneholt_count_answer answer =
        craneholt_samples(p->file.at, p->file.length, p->second.at, p->second.length, list.at, list.length);
    craneholt_count_answer check =
        craneholt_check_samples(p->file.at, p->file.length, p->second.at, p->second.length, (size_t)count);
    int right = same_refusal(answer.refusal, p->refusal) && same_refusal(check.refusal, p->refusal)
                && answer.count == read && check.count == read && same(rest, before)
                && (read == 0 || said_samples((const char *)p->said.at, (const int64_t *)(void *)list.at, read));
    free(list.at);
    free(before.at);
    return right;
}

/* The samples of one of several files, by a header of its own for it. */
static int read_share(const struct peer *p, struct bytes file, int64_t *list, uint64_t share)
{
    craneholt_reading r = craneholt_read_header(p->file.at, p->file.length).reading;
    uint8_t header[CRANEHOLT_ORIENTED_ROOM + 16];
    size_t length = (size_t)craneholt_write_header(4, &share, sizeof share, r.sampletype, r.encoding, r.endian, NULL, 0, header,
                                                   sizeof header).length;
    length += (size_t)snprintf((char *)header + length - 1, 16, "data file: x\n") - 1; /* in place of the empty line */
    return craneholt_samples(header, length, file.at, file.length, list, share * sizeof *list).count == share;
}

/* The samples that the tool says, of the files one after the other, in the folder of the header. */
static int shares_are_right(const char *folder, const struct peer *p)
{
    uint64_t files = craneholt_files(p->file.at, p->file.length).count, count = sample_count(p), share = count / files;
    int64_t *list = malloc(count * sizeof *list);
    int right = files > 1;
    for (uint64_t n = 0; right && n < files; n++) {
        uint8_t name[64] = {0};
        struct bytes file;
        craneholt_file_name(p->file.at, p->file.length, n, name, sizeof name - 1);
        file = load(folder, (const char *)name);
        right = file.at != NULL && read_share(p, file, list + n * share, share);
        free(file.at);
    }
    right = right && said_samples((const char *)p->said.at, list, count);
    free(list);
    return right;
}

static int data_is_right(const struct peer *p, craneholt_refusal refusal)
{
    craneholt_data_answer answer = craneholt_data(p->file.at, p->file.length, p->second.at, p->second.length);
    return same_refusal(answer.refusal, refusal)
           && answer.second == (refusal.number == 0 && p->second.at != NULL);
}

/* ---- one file of the list */

/* Up to 15 the header is refused; above, the samples are; with 33 they are read file by file. */
static int peer_is_right(const char *folder, const struct peer *p)
{
    static const craneholt_refusal fine;
    if (p->file.at == NULL)
        return 0;
    if (p->refusal.number == CRANEHOLT_SEVERAL_FILES)
        return header_is_right(p) && data_is_right(p, p->refusal) && samples_are_right(p) && shares_are_right(folder, p);
    if (p->refusal.number == 0 || p->refusal.number > CRANEHOLT_EXTENT_TOO_LARGE)
        return header_is_right(p) && data_is_right(p, fine) && samples_are_right(p);
    return same_refusal(craneholt_read_header(p->file.at, p->file.length).refusal, p->refusal)
           && data_is_right(p, p->refusal) && samples_are_right(p);
}

static int line_of_list_is_right(const char *folder, const char *line)
{
    char name[64], second[64], said[80];
    unsigned number, at;
    struct peer p;
    int right;
    if (sscanf(line, "%63s %63s %u %u", name, second, &number, &at) != 4)
        return 0;
    snprintf(said, sizeof said, "said/%s.txt", name);
    p.file = load(folder, name);
    p.second = load(folder, second);
    p.said = load(folder, said);
    p.refusal.number = number;
    p.refusal.line = at;
    right = (strcmp(second, "-") == 0) == (p.second.at == NULL) && peer_is_right(folder, &p);
    free(p.file.at);
    free(p.second.at);
    free(p.said.at);
    return right;
}

int main(int arguments, char **argument)
{
    const char *folder = arguments > 1 ? argument[1] : "tests/peers";
    struct bytes list = load(folder, "answers.txt");
    int passed = 0, failed = 0;
    if (list.at == NULL)
        return 2;
    for (char *line = strtok((char *)list.at, "\n"); line != NULL; line = strtok(NULL, "\n")) {
        if (line[0] == '#')
            continue;
        if (line_of_list_is_right(folder, line)) {
            passed++;
            continue;
        }
        failed++;
        printf("failed: %s\n", line);
    }
    free(list.at);
    printf("files by another program, %d: %d passed, %d failed\n", FILES, passed, failed);
    return passed != FILES || failed != 0;
}
