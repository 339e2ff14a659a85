/* The key pairs of a header that is accepted, taken by their lines. */
#ifndef PAIRS_H
#define PAIRS_H

#include "frame.h"

/* A key as it is meant, and its last line: the key's text, the value's text. */
struct pair {
    uint8_t *key;
    size_t length;
    struct bytes key_text, value_text;
};

enum { MOST_PAIRS = 1024 };

/* Of the first lines of the header those with a key, in the order of the lines that are the last with their key; answers how many.
 * Names under LIST that look like pairs are taken too where the lines go so far. */
size_t take_pairs(struct bytes file, size_t lines, struct pair *pairs);
void free_pairs(struct pair *pairs, size_t count);

/* Puts where each line of the header starts, and answers how many lines it has. */
size_t take_starts(struct bytes file, struct text *starts);

/* LF and backslash as two characters, and these as what they mean. */
void put_escaped(struct text *t, struct bytes b);
void put_unescaped(struct text *t, struct bytes b);

#endif
