#include "json.h"

#include <stdio.h>
#include <stdlib.h>
#include <string.h>

static struct json *read_value(const char **at);

static void fail(const char *at)
{
    fprintf(stderr, "not the JSON of a vector: %.40s\n", at);
    exit(2);
}

static void skip_blanks(const char **at)
{
    *at += strspn(*at, " \t\r\n");
}

/* Takes the byte if it comes next. */
static int take(const char **at, char byte)
{
    skip_blanks(at);
    if (**at != byte)
        return 0;
    ++*at;
    return 1;
}

/* The byte that an escape stands for; at is after the backslash. */
static char read_escape(const char **at)
{
    static const char names[] = "\"\\/bfnrt", bytes[] = "\"\\/\b\f\n\r\t";
    const char *place = strchr(names, **at);
    unsigned code;
    if (**at == 'u' && sscanf(*at + 1, "%4x", &code) == 1 && code < 128) {
        *at += 5;
        return (char)code;
    }
    if (**at == '\0' || place == NULL)
        fail(*at);
    ++*at;
    return bytes[place - names];
}

/* A string; at is after its first quote. */
static char *read_text(const char **at, size_t *length)
{
    char *text = malloc(strlen(*at) + 1);
    size_t count = 0;
    while (**at != '"') {
        char byte = *(*at)++;
        if (byte == '\0')
            fail("a string without end");
        text[count++] = byte == '\\' ? read_escape(at) : byte;
    }
    ++*at;
    text[count] = '\0';
    *length = count;
    return text;
}

static uint64_t read_number(const char **at)
{
    int negative = take(at, '-');
    uint64_t number = 0;
    if (**at < '0' || **at > '9')
        fail(*at);
    while (**at >= '0' && **at <= '9')
        number = number * 10 + (uint64_t)(*(*at)++ - '0');
    return negative ? ~number + 1 : number;
}

/* The items of a list or object up to its closing byte. */
static void read_items(const char **at, struct json *parent, char closing)
{
    struct json **end = &parent->first;
    if (take(at, closing))
        return;
    do {
        char *name = NULL;
        size_t length;
        if (parent->kind == JSON_OBJECT) {
            if (!take(at, '"'))
                fail(*at);
            name = read_text(at, &length);
            if (!take(at, ':'))
                fail(*at);
        }
        *end = read_value(at);
        (*end)->name = name;
        end = &(*end)->next;
        parent->length++;
    } while (take(at, ','));
    if (!take(at, closing))
        fail(*at);
}

static struct json *read_value(const char **at)
{
    struct json *value = calloc(1, sizeof *value);
    if (take(at, '"')) {
        value->kind = JSON_STRING;
        value->text = read_text(at, &value->length);
    } else if (take(at, '[')) {
        value->kind = JSON_LIST;
        read_items(at, value, ']');
    } else if (take(at, '{')) {
        value->kind = JSON_OBJECT;
        read_items(at, value, '}');
    } else if (strncmp(*at, "null", 4) == 0) {
        value->kind = JSON_NULL;
        *at += 4;
    } else {
        value->number = read_number(at);
    }
    return value;
}

struct json *json_read(const char *text)
{
    struct json *value = read_value(&text);
    skip_blanks(&text);
    if (*text != '\0')
        fail(text);
    return value;
}

void json_free(struct json *value)
{
    while (value != NULL) {
        struct json *next = value->next;
        json_free(value->first);
        free(value->name);
        free(value->text);
        free(value);
        value = next;
    }
}

const struct json *json_member(const struct json *object, const char *name)
{
    const struct json *item = object->first;
    while (item != NULL && strcmp(item->name, name) != 0)
        item = item->next;
    return item;
}

/* ---- what the members of a vector hold */

/* The member; ends the program if there is none. */
static const struct json *needed(const struct json *v, const char *name)
{
    const struct json *item = json_member(v, name);
    if (item == NULL)
        fail(name);
    return item;
}

uint64_t number_member(const struct json *v, const char *name)
{
    return needed(v, name)->number;
}

struct bytes of_text(const struct json *text)
{
    return of_hex(text->text, text->length);
}

struct bytes hex_member(const struct json *v, const char *name)
{
    return of_text(needed(v, name));
}

struct bytes of_numbers(const struct json *list, size_t width)
{
    struct bytes b = filled(list->length * width);
    size_t at = 0;
    for (const struct json *item = list->first; item != NULL; item = item->next)
        for (size_t i = 0; i < width; i++)
            b.at[at++] = (uint8_t)(item->number >> 8 * i);
    return b;
}

struct bytes numbers_member(const struct json *v, const char *name, size_t width)
{
    return of_numbers(needed(v, name), width);
}
