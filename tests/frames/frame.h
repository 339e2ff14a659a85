/*
 * Bytes that are put together, and the framed input of a program that the gate
 * runs, as crates/gate_frames/src/lib.rt tells it, with what the program must print.
 */
#ifndef FRAME_H
#define FRAME_H

#include "../bytes.h"
#include "craneholt.h"

/* ---- bytes */

struct text {
    size_t length;
    uint8_t at[1 << 18];
};

/* The bytes of a string literal, zeros in it included: as an initializer, and as a value. */
#define BYTES(string) {(uint8_t *)(string), sizeof(string) - 1}
#define LITERAL(string) ((struct bytes)BYTES(string))

#define COUNT(list) (sizeof(list) / sizeof(list)[0])

struct bytes view(struct text *t);
struct bytes part(struct bytes b, size_t from, size_t to);
void put(struct text *t, struct bytes b);
void put_byte(struct text *t, uint8_t byte);
void put_string(struct text *t, const char *string);
void put_times(struct text *t, const char *string, size_t times);
void put_format(struct text *t, const char *format, ...);

/* The file S of the rules' trials. */
void put_sweep(struct text *t);

/* ---- the parts of a frame */

void put_number(struct text *t, uint64_t number); /* 4 bytes; ends the program if it is larger */
void put_wide(struct text *t, uint64_t number);   /* 8 bytes */
void put_run(struct text *t, struct bytes b);
void put_text(struct text *t, int given, struct bytes b);
void put_refusal(struct text *t, craneholt_refusal refusal);

/* ---- a program's input: groups of cases */

void start_program(size_t longest); /* bytes of a case */
void start_group(const char *name);
struct text *start_case(void);
void end_case(void);
void leave_out(void); /* the open case is none: the frame cannot carry it */
void print_case(struct bytes line); /* the program prints this before the line of the group */
void end_group(void);

/* Stores FOLDER/PROGRAM/stdin and FOLDER/PROGRAM/stdout, and tells how many cases there are and were left out. */
void end_program(const char *folder, const char *program);

/* Ends the program if what a case was made for does not hold. */
void ensure(int holds, const char *what);

/* ---- drawn numbers, the same in every run */

struct draw {
    uint64_t state;
};

uint64_t below(struct draw *d, uint64_t limit);
int64_t between(struct draw *d, int64_t low, int64_t high);

#endif
