/*
 * The cases of the program that runs the listing of a file. Its layout stands
 * in that program's main.rt.
 */
#include "cases.h"

#include <stdio.h>
#include <stdlib.h>
#include <string.h>

enum { BUFFER = 70144 }; /* bytes that the program has for a listing */

/* ---- a case */

void put_listing(struct bytes file, size_t room)
{
    struct text *c = start_case();
    struct bytes out = filled(room);
    craneholt_write_answer a = model_listing(file.at, file.length, out.at, out.length);
    put_number(c, room);
    put_refusal(c, a.refusal);
    put_run(c, file);
    put_run(c, part(out, 0, a.length));
    free(out.at);
    if (room <= BUFFER)
        end_case();
    else
        leave_out();
}

/* ---- the listings of the vectors */

static struct bytes file_of_number(const char *vectors, int number)
{
    char name[40];
    snprintf(name, sizeof name, "listing/%03d.in", number);
    return load(vectors, name);
}

void put_listing_files(const char *vectors)
{
    for (int number = 0;; number++) {
        struct bytes file = file_of_number(vectors, number);
        if (file.at == NULL)
            return;
        put_listing(file, CRANEHOLT_MAX_LISTING);
        free(file.at);
    }
}

/* ---- rooms and limits */

/* Buffers of no byte, a byte too short, just long enough, a byte longer, and whole. */
static void rooms_of(struct bytes file)
{
    static uint8_t out[BUFFER];
    size_t length = model_listing(file.at, file.length, out, sizeof out).length;
    put_listing(file, 0);
    put_listing(file, length - 1);
    put_listing(file, length);
    put_listing(file, length + 1);
    put_listing(file, BUFFER);
}

static void put_head(struct text *t, size_t samples)
{
    t->length = 0;
    put_format(t, "NRRD0005\ntype: uint8\ndimension: 1\nsizes: %zu\nencoding: raw\n", samples);
}

/* The longest file that is listed, with data up to its end, and a byte more. */
static void file_limit(void)
{
    static struct text file;
    size_t samples;
    put_head(&file, CRANEHOLT_MAX_LISTED / 2);
    samples = CRANEHOLT_MAX_LISTED - file.length - 1;
    put_head(&file, samples);
    put_byte(&file, '\n');
    put_times(&file, "d", samples + 1);
    ensure(file.length == CRANEHOLT_MAX_LISTED + 1, "the longest file that is listed has another length");
    put_listing(part(view(&file), 0, CRANEHOLT_MAX_LISTED), CRANEHOLT_MAX_LISTING);
    put_listing(view(&file), CRANEHOLT_MAX_LISTING);
}

/* A header of so many bytes and all lines that it may have, most of them keys, the last one the longest. */
static void put_full_header(struct text *t, size_t length)
{
    enum { KEYS = CRANEHOLT_MAX_LINES - 6 };
    size_t share = (CRANEHOLT_MAX_HEADER - 70) / KEYS - 7;
    put_head(t, 1);
    for (int key = 0; key < KEYS; key++) {
        put_format(t, "%d:=", key);
        put_times(t, "v", share);
        if (key + 1 < KEYS)
            put_byte(t, '\n');
    }
    put_times(t, "x", length - 2 - t->length);
    put_string(t, "\n\n");
}

/* The longest header, whose listing is longer than the file, and a byte more. */
static void header_limit(void)
{
    static uint8_t out[BUFFER];
    static struct text file;
    size_t length;
    put_full_header(&file, CRANEHOLT_MAX_HEADER);
    put_byte(&file, 'd');
    length = model_listing(file.at, file.length, out, sizeof out).length;
    ensure(length > file.length && length <= CRANEHOLT_MAX_LISTING, "the longest header has another listing");
    put_listing(view(&file), length);
    put_full_header(&file, CRANEHOLT_MAX_HEADER + 1);
    put_listing(view(&file), CRANEHOLT_MAX_LISTING);
}

void put_listing_groups(const char *vectors)
{
    start_group("rooms and limits");
    for (int number = 0;; number += 20) {
        struct bytes file = file_of_number(vectors, number);
        if (file.at == NULL)
            break;
        rooms_of(file);
        free(file.at);
    }
    file_limit();
    header_limit();
    end_group();
}
