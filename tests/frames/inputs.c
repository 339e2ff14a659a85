/*
 * Makes the input of each program that the gate runs, and what it must print:
 * stdin and stdout of its crate. The cases are those of a folder of vectors
 * and our own; the answers are the model's, which has to agree with every
 * vector (`make inputs` asks that first). A vector that the frame of its
 * program cannot carry is left out and counted: tests/vectors.c runs it.
 *
 *     inputs vectors folder-of-headers.txt crates
 */
#include "../json.h"
#include "cases.h"

#include <stdio.h>
#include <stdlib.h>
#include <string.h>

/* ---- a vector of each operation as a case */

static void put_read_vector(const struct json *v)
{
    struct bytes file = hex_member(v, "file");
    put_read(file, number_member(v, "room"));
    free(file.at);
}

static void put_data_vector(const struct json *v)
{
    struct bytes file = hex_member(v, "file"), second = hex_member(v, "second");
    put_data(file, second);
    free(file.at);
    free(second.at);
}

static void put_samples_vector(const struct json *v)
{
    struct bytes file = hex_member(v, "file"), second = hex_member(v, "second");
    put_samples(file, second, number_member(v, "room"));
    free(file.at);
    free(second.at);
}

static void put_coords_vector(const struct json *v)
{
    struct bytes file = hex_member(v, "file"), coords = numbers_member(v, "coords", 8);
    put_coords(file, coords);
    free(file.at);
    free(coords.at);
}

static void put_write_vector(const struct json *v)
{
    struct bytes sizes = numbers_member(v, "sizes", 8), samples = numbers_member(v, "samples", 8);
    put_write(number_member(v, "version"), sizes, number_member(v, "type"), number_member(v, "encoding"),
              number_member(v, "endian"), samples, number_member(v, "room"));
    free(sizes.at);
    free(samples.at);
}

static void put_set_vector(const struct json *v)
{
    static struct lent lent;
    struct bytes buffer = hex_member(v, "buffer"), table = numbers_member(v, "table", 4);
    struct setting setting = {hex_member(v, "key"), hex_member(v, "value")};
    lent.buffer.length = lent.table.length = 0;
    lent.used = number_member(v, "used");
    lent.count = number_member(v, "count");
    if (buffer.length <= sizeof lent.buffer.at && table.length <= sizeof lent.table.at) {
        put(&lent.buffer, buffer);
        put(&lent.table, table);
        put_settings(&lent, &setting, 1, "");
    } else {
        leave_out();
    }
    free(buffer.at);
    free(table.at);
    free(setting.key.at);
    free(setting.value.at);
}

static void put_listing_vector(const struct json *v)
{
    struct bytes file = hex_member(v, "file");
    put_listing(file, CRANEHOLT_MAX_LISTING);
    free(file.at);
}

/* Each operation of the vectors, the group of its cases, and what makes one. An operation that tests/vectors.c alone runs
 * has no group. */
static const struct operation {
    const char *name, *group;
    void (*put)(const struct json *);
} operations[] = {
    {"read", "read vectors", put_read_vector},
    {"data", "data vectors", put_data_vector},
    {"samples", "sample vectors", put_samples_vector},
    {"coords", "coordinate vectors", put_coords_vector},
    {"write", "write vectors", put_write_vector},
    {"set", "set vectors", put_set_vector},
    {"listing", "listing calls", put_listing_vector},
    {"header", NULL, NULL},
    {"roof", NULL, NULL},
    {"files", NULL, NULL},
    {"name", NULL, NULL},
    {"where", NULL, NULL},
    {"axes", NULL, NULL},
};

enum { OPERATIONS = COUNT(operations), MOST_VECTORS = 100000 };

static struct json *vectors[MOST_VECTORS];
static size_t vector_count;
static int was_put[OPERATIONS];
static const char *vectors_folder, *headers_folder, *crates;

static const struct operation *operation_named(const char *name)
{
    for (size_t i = 0; i < OPERATIONS; i++)
        if (strcmp(operations[i].name, name) == 0)
            return &operations[i];
    fprintf(stderr, "inputs: no operation has the name %s\n", name);
    exit(2);
}

static const char *name_of(const struct json *v)
{
    return json_member(v, "op")->text;
}

static void read_vectors(void)
{
    struct bytes text = load(vectors_folder, "calls.jsonl");
    ensure(text.at != NULL, "calls.jsonl is missing");
    for (char *line = strtok((char *)text.at, "\n"); line != NULL; line = strtok(NULL, "\n")) {
        ensure(vector_count < MOST_VECTORS, "too many vectors");
        vectors[vector_count] = json_read(line);
        operation_named(name_of(vectors[vector_count++]));
    }
    free(text.at);
}

/* The group of an operation's vectors. */
static void put_vectors(const char *name)
{
    const struct operation *operation = operation_named(name);
    was_put[operation - operations] = 1;
    start_group(operation->group);
    for (size_t i = 0; i < vector_count; i++)
        if (strcmp(name_of(vectors[i]), name) == 0)
            operation->put(vectors[i]);
    end_group();
}

/* ---- the programs */

static void reading(void)
{
    put_vectors("read");
    put_header_groups(headers_folder);
}

static void calls(void)
{
    put_vectors("data");
    put_vectors("samples");
    put_vectors("coords");
    put_vectors("write");
    put_call_groups();
}

static void settings(void)
{
    put_vectors("set");
    put_setting_groups();
}

static void listings(void)
{
    start_group("listing vectors");
    put_listing_files(vectors_folder);
    end_group();
    put_vectors("listing");
    put_listing_groups(vectors_folder);
}

/* The program that lists a file gets the sweep S of the rules' trials. */
static void put_sweep_listing(const char *program)
{
    static struct text sweep, listing;
    char crate[4096];
    put_sweep(&sweep);
    listing.length = model_listing(sweep.at, sweep.length, listing.at, sizeof listing.at).length;
    snprintf(crate, sizeof crate, "%s/%s", crates, program);
    store(crate, "stdin", view(&sweep));
    store(crate, "stdout", view(&listing));
}

int main(int arguments, char **argument)
{
    /* the crate of a program, the longest case that it takes, and its groups */
    static const struct {
        const char *name;
        size_t longest;
        void (*put)(void);
    } programs[] = {
        {"gate_reading", 131072, reading},
        {"gate_calls", 131072, calls},
        {"gate_settings", 65536, settings},
        {"gate_listings", 147456, listings},
    };
    ensure(arguments == 4, "usage: inputs vectors folder-of-headers.txt crates");
    vectors_folder = argument[1];
    headers_folder = argument[2];
    crates = argument[3];
    read_vectors();
    for (size_t i = 0; i < COUNT(programs); i++) {
        start_program(programs[i].longest);
        programs[i].put();
        end_program(crates, programs[i].name);
    }
    put_sweep_listing("listing");
    for (size_t i = 0; i < OPERATIONS; i++)
        ensure(was_put[i] || operations[i].group == NULL, "an operation has a group that no program runs");
    while (vector_count > 0)
        json_free(vectors[--vector_count]);
    return 0;
}
