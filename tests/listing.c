/*
 * Runs the listing program on every listing vector, and on files that are
 * empty, as long as the program takes, and longer, these also by a pipe, in
 * small pieces. What the program prints is compared byte for byte; it has to
 * end with status 0, whether the file is refused or not.
 *
 *     listing program [folder for input and output]
 */
#include "bytes.h"
#include "json.h"
#include "model.h"

#include <stdio.h>
#include <stdlib.h>
#include <string.h>

/* the folders of vectors, and how many there are, so that a missing one shows */
static const struct set {
    const char *folder;
    int files, calls;
} sets[] = {{"tests/vectors", 150, 70},
            {"tests/vectors/w5", 144, 87},
            {"tests/vectors/w4", 147, 33},
            {"tests/vectors/w2", 141, 74},
            {"tests/vectors/w1", 139, 93},
            {"tests/vectors/base", 270, 38}};

static const char *program, *work = "build";
static int passed, failed;

/* ---- one run of the program */

static const char as_file[] = "\"$program\" < \"$in\" > \"$out\"";
static const char by_pipe[] = "dd obs=1000 if=\"$in\" 2> /dev/null | \"$program\" > \"$out\"";

/* True if the program ends with status 0 and prints what is wanted for the input. */
static int prints(const char *way, struct bytes want)
{
    char command[8192];
    struct bytes out;
    int right;
    snprintf(command, sizeof command, "program='%s' in='%s/listing.in' out='%s/listing.out'; %s",
             program, work, work, way);
    right = system(command) == 0;
    out = load(work, "listing.out");
    right = right && out.at != NULL && same(out, want);
    free(out.at);
    return right;
}

static void run(const char *way, const char *name, int number, struct bytes file, struct bytes want)
{
    store(work, "listing.in", file);
    if (prints(way, want)) {
        passed++;
        return;
    }
    failed++;
    printf("listing program failed: %s %d%s\n", name, number, way == by_pipe ? " by a pipe" : "");
}

/* ---- the vectors */

/* True if the folder has a vector of this number. */
static int run_file(const char *vectors, int number)
{
    char name[40];
    struct bytes file, want;
    int there;
    snprintf(name, sizeof name, "listing/%03d.in", number);
    file = load(vectors, name);
    snprintf(name, sizeof name, "listing/%03d.out", number);
    want = load(vectors, name);
    there = file.at != NULL && want.at != NULL;
    if (there)
        run(as_file, "vector", number, file, want);
    free(file.at);
    free(want.at);
    return there;
}

/* Every number of three digits, so that a vector more shows as well; a set that was made earlier has gaps. */
static int run_files(const struct set *set)
{
    int files = 0;
    for (int number = 0; number < 1000; number++)
        files += run_file(set->folder, number);
    return files;
}

/* True if the line is a listing call. */
static int run_call(const char *line, int number)
{
    struct json *v = json_read(line);
    int listing = strcmp(json_member(v, "op")->text, "listing") == 0;
    if (listing) {
        const struct json *file = json_member(v, "file"), *text = json_member(v, "expect")->first->next;
        struct bytes in = of_hex(file->text, file->length), want = {(uint8_t *)text->text, text->length};
        run(as_file, "calls.jsonl line", number, in, want);
        free(in.at);
    }
    json_free(v);
    return listing;
}

static int run_calls(const struct set *set)
{
    struct bytes text = load(set->folder, "calls.jsonl");
    int number = 0, calls = 0;
    if (text.at == NULL)
        return 0;
    for (char *line = strtok((char *)text.at, "\n"); line != NULL; line = strtok(NULL, "\n"))
        calls += run_call(line, ++number);
    free(text.at);
    return calls;
}

static void run_set(const struct set *set)
{
    int files = run_files(set), calls = run_calls(set);
    printf("listing program, %s: %d of %d files, %d of %d calls\n",
           set->folder, files, set->files, calls, set->calls);
    failed += files != set->files || calls != set->calls;
}

/* ---- files of a length */

/* A file and its listing, as they are put together. */
static struct text {
    char at[200001];
    size_t length;
} file, listing;

#define PUT(text, ...) \
    ((text).length += (size_t)snprintf((text).at + (text).length, sizeof (text).at - (text).length, __VA_ARGS__))

/* The lines of both before the key pairs; the data starts at this place. */
static void begin(unsigned samples, unsigned place)
{
    file.length = listing.length = 0;
    PUT(file, "NRRD0004\ntype: uint8\ndimension: 1\nsizes: %u\nencoding: raw\n", samples);
    PUT(listing, "version 4\nform attached\ntype uint8\nsizes %u\nencoding raw\nendian none\nstart %u\nextent %u\n",
        samples, place, samples);
}

/* Bytes up to a length. */
static void fill(size_t length)
{
    while (file.length < length)
        file.at[file.length++] = 'a';
}

/* A line of a key pair, of a length with its ending. */
static void put_pair(unsigned key, size_t length)
{
    size_t value, line = file.length;
    PUT(file, "key %u:=", key);
    PUT(listing, "key key %u=", key);
    value = file.length;
    fill(line + length - 1);
    PUT(listing, "%.*s\n", (int)(file.length - value), file.at + value);
    file.at[file.length++] = '\n';
}

/* The file, and its listing by the model too. */
static void run_length(size_t length, const char *text, size_t text_length)
{
    struct bytes in = {(uint8_t *)file.at, length}, want = {(uint8_t *)text, text_length};
    struct bytes out = filled(CRANEHOLT_MAX_LISTING);
    out.length = model_listing(in.at, in.length, out.at, out.length).length;
    run(as_file, "length", (int)length, in, want);
    run(by_pipe, "length", (int)length, in, want);
    if (!same(out, want)) {
        failed++;
        printf("model failed: length %d\n", (int)length);
    }
    free(out.at);
}

static void run_refused(size_t length, const char *text)
{
    run_length(length, text, strlen(text));
}

static void run_lengths(void)
{
    run_refused(0, "refused 2 line 1\n");

    /* the data reaches to the last byte */
    begin(65474, 62);
    PUT(file, "\n");
    fill(200000);
    run_refused(65535, "refused 18 line 0\n");
    run_length(CRANEHOLT_MAX_LISTED, listing.at, listing.length);
    run_refused(CRANEHOLT_MAX_LISTED + 1, "refused 22 line 0\n");
    run_refused(200000, "refused 22 line 0\n");

    /* the header is as long as it may be, in as many lines, and the data is the last byte */
    begin(1, CRANEHOLT_MAX_HEADER);
    for (unsigned key = 0; key < 1017; key++)
        put_pair(key, 64);
    put_pair(1017, CRANEHOLT_MAX_HEADER - 1 - file.length);
    PUT(file, "\nab");
    run_length(CRANEHOLT_MAX_LISTED, listing.at, listing.length);
    run_refused(CRANEHOLT_MAX_LISTED + 1, "refused 22 line 0\n");
}

int main(int arguments, char **argument)
{
    if (arguments < 2) {
        fprintf(stderr, "usage: listing program [folder for input and output]\n");
        return 2;
    }
    program = argument[1];
    if (arguments > 2)
        work = argument[2];
    for (size_t i = 0; i < sizeof sets / sizeof sets[0]; i++)
        run_set(&sets[i]);
    run_lengths();
    printf("listing program: %d passed, %d failed\n", passed, failed);
    return failed != 0;
}
