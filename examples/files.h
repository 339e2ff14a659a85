/* Whole files, for the examples. */
#ifndef FILES_H
#define FILES_H

#include <stdint.h>
#include <stdio.h>
#include <stdlib.h>

#include "craneholt.h"

typedef struct {
    uint8_t *bytes;
    size_t length; /* of the file */
    size_t room;   /* of the memory */
} whole_file;

/* Ends the program with a message. Line 0: the message is not about a line. */
static inline void fail(const char *name, uint32_t line, const char *sentence)
{
    if (line != 0)
        fprintf(stderr, "%s:%u: %s\n", name, (unsigned)line, sentence);
    else
        fprintf(stderr, "%s: %s\n", name, sentence);
    exit(EXIT_FAILURE);
}

/* Ends the program if the call was refused. */
static inline void must(const char *name, craneholt_refusal refusal)
{
    if (refusal.number != CRANEHOLT_FINE)
        fail(name, refusal.line, craneholt_sentence(refusal.number));
}

/* The bytes of a file, with room for so many more. */
static inline whole_file load(const char *name, size_t more)
{
    whole_file file = {NULL, 0, more + 4096};
    FILE *in = fopen(name, "rb");
    if (in == NULL)
        fail(name, 0, "cannot be opened");
    for (;;) {
        uint8_t *bytes = (uint8_t *)realloc(file.bytes, file.room);
        if (bytes == NULL)
            fail(name, 0, "does not fit the memory");
        file.bytes = bytes;
        file.length += fread(file.bytes + file.length, 1, file.room - more - file.length, in);
        if (file.length < file.room - more)
            break;
        file.room *= 2;
    }
    if (ferror(in))
        fail(name, 0, "cannot be read");
    fclose(in);
    return file;
}

#endif
