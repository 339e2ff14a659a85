#include "bytes.h"

#include <stdio.h>
#include <stdlib.h>
#include <string.h>

struct bytes filled(size_t length)
{
    struct bytes b = {malloc(length + 1), length};
    memset(b.at, 0xa5, length);
    return b;
}

int same(struct bytes a, struct bytes b)
{
    return a.length == b.length && memcmp(a.at, b.at, a.length) == 0;
}

static unsigned hex_digit(char digit)
{
    static const char digits[] = "0123456789abcdef";
    const char *place = digit == '\0' ? NULL : strchr(digits, digit);
    if (place == NULL) {
        fprintf(stderr, "no hexadecimal digit: %c\n", digit);
        exit(2);
    }
    return (unsigned)(place - digits);
}

struct bytes of_hex(const char *text, size_t length)
{
    struct bytes b = filled(length / 2);
    for (size_t i = 0; i < b.length; i++)
        b.at[i] = (uint8_t)(16 * hex_digit(text[2 * i]) + hex_digit(text[2 * i + 1]));
    return b;
}

static FILE *open_file(const char *folder, const char *name, const char *mode)
{
    char path[4096];
    snprintf(path, sizeof path, "%s/%s", folder, name);
    return fopen(path, mode);
}

struct bytes load(const char *folder, const char *name)
{
    struct bytes b = {NULL, 0};
    FILE *file = open_file(folder, name, "rb");
    long length;
    if (file == NULL)
        return b;
    fseek(file, 0, SEEK_END);
    length = ftell(file);
    rewind(file);
    b = filled((size_t)length);
    if (fread(b.at, 1, b.length, file) != b.length)
        b.length = 0;
    b.at[b.length] = '\0';
    fclose(file);
    return b;
}

void store(const char *folder, const char *name, struct bytes b)
{
    FILE *file = open_file(folder, name, "wb");
    if (file == NULL || fwrite(b.at, 1, b.length, file) != b.length || fclose(file) != 0) {
        fprintf(stderr, "%s/%s cannot be written\n", folder, name);
        exit(2);
    }
}
