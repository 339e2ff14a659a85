/* A reader of the JSON that the vectors use: objects, lists, strings, whole numbers, null. */
#ifndef JSON_H
#define JSON_H

#include "bytes.h"

struct json {
    char *name;                /* of a member of an object */
    enum { JSON_NUMBER, JSON_STRING, JSON_LIST, JSON_OBJECT, JSON_NULL } kind;
    uint64_t number;           /* a negative one as two's complement */
    char *text;                /* of a string; a zero byte follows */
    size_t length;             /* of the text, or the number of items */
    struct json *first, *next; /* items of a list or object, in order */
};

/* Reads one value; ends the program if the text is anything else. */
struct json *json_read(const char *text);

void json_free(struct json *value);

/* The member of an object, or NULL. */
const struct json *json_member(const struct json *object, const char *name);

/* ---- what the members of a vector hold */

uint64_t number_member(const struct json *v, const char *name);

/* The bytes of a string of hexadecimal digits. */
struct bytes of_text(const struct json *text);
struct bytes hex_member(const struct json *v, const char *name);

/* The bytes of a list of numbers, each in so many, low byte first. */
struct bytes of_numbers(const struct json *list, size_t width);
struct bytes numbers_member(const struct json *v, const char *name, size_t width);

#endif
