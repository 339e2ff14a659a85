/* Bytes of a length that is known when they are made, and whole files. */
#ifndef BYTES_H
#define BYTES_H

#include <stddef.h>
#include <stdint.h>

struct bytes {
    uint8_t *at;
    size_t length;
};

/* Bytes of a length, all 0xa5, so that a change shows; one byte more is there, for a zero at the end. */
struct bytes filled(size_t length);

int same(struct bytes a, struct bytes b);

/* The bytes of a string of hexadecimal digits. */
struct bytes of_hex(const char *text, size_t length);

/* The bytes of a file of a folder, and a zero byte after them; at is NULL if there is none. */
struct bytes load(const char *folder, const char *name);

/* Makes a file of a folder; ends the program if it cannot. */
void store(const char *folder, const char *name, struct bytes b);

#endif
