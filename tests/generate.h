/* Random numbers, and NRRD files made at random. */
#ifndef GENERATE_H
#define GENERATE_H

#include <stddef.h>
#include <stdint.h>

/* ---- random numbers; the same seed gives the same numbers */

void random_start(uint64_t seed);
uint64_t random_bits(void);
uint64_t random_below(uint64_t limit);
int random_chance(unsigned percent);

/* ---- bytes that are put together */

struct bytes {
    size_t length;
    uint8_t at[1 << 18];
};

void put_bytes(struct bytes *b, const void *bytes, size_t length);
void put_byte(struct bytes *b, uint8_t byte);
void put_number(struct bytes *b, uint64_t number, size_t width); /* low byte first */
void put_random(struct bytes *b, size_t length);

/* ---- files */

/* how a detached header names its data files */
enum { ONE_NAME, PATTERN, LIST };

struct volume {
    uint32_t version, type, encoding, endian; /* endian 2: not given */
    int detached;
    int named;      /* ONE_NAME, PATTERN or LIST */
    uint64_t files; /* how many the pattern or the list has */
    int says_axes;  /* it also says how many axes one file covers */
    uint64_t axes;
    size_t dimension;
    uint64_t sizes[16], count; /* count: the wanted samples, when few */
    uint64_t line_skip, byte_skip;
    int from_end; /* the byte skip is -1, and byte_skip 0 */
    int oriented;  /* some of the five fields of the orientation are given */
    size_t space;  /* the dimension of the space given last, 0 before */
    int axed;      /* some of the four fields of the axis records are given */
    int sweep;      /* a sweep of the roof rig, or nearly one: a key with an offset, and stamps that step */
    uint32_t stamp; /* of the row before */
    struct bytes file, second;
    size_t header; /* the length of the header before damage */
};

/* A file, in most cases right, else with a fault or damage. */
void make_volume(struct volume *v);

/* A file whose header is near the limits of length or lines, also by one long
 * name or label, or which is near the longest file of the listing. */
void make_large_volume(struct volume *v);

/* A key or value, in most cases one that may be set; keys repeat often. Half
 * of the values get near a length, if one is given. */
void make_key(struct bytes *key);
void make_value(struct bytes *value, size_t near);

/* A component of a vector: one that is taken, near a limit now and then, or, by faults in a hundred, one that is not.
 * Without comma and bracket. */
void put_component(struct bytes *b, unsigned faults);

/* A sample of the type, as two's complement. */
uint64_t make_sample(uint64_t type);

#endif
