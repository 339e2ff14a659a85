/* The same jobs in plain C, to compare with. Compiled on their own at -O3. */
#ifndef PEERS_H
#define PEERS_H

#include <stddef.h>
#include <stdint.h>

/* n samples of w bytes to int64_t. Answer how many were decoded: n, or fewer where one is bad. */
size_t peer_raw(const uint8_t *data, size_t n, int w, int is_signed, int big, int64_t *list);
size_t peer_hex(const uint8_t *data, size_t length, size_t n, int w, int is_signed, int big, int64_t *list);
size_t peer_text(const char *data, size_t n, int w, int is_signed, int64_t *list);

/* The value of digits, 0 to 255; -1 where it is anything else. */
int peer_offset(const uint8_t *text, size_t length);

/* The first row whose stamp, its first sample, is not 1 to largest after that of the row before it, around the wrap; rows where there is none. */
size_t peer_wrong_row(const int64_t *list, size_t rows, size_t width, uint32_t largest);

/* The header of an attached file of one axis. Answers its length. */
size_t peer_write_header(const char *type, size_t n, const char *encoding, const char *endian, uint8_t *out);

/* n samples in w bytes each, hex of these, or lines of text. Answer how many bytes were written, 0 where a sample is outside its type. */
size_t peer_write_raw(const int64_t *list, size_t n, int w, int is_signed, int big, uint8_t *out);
size_t peer_write_hex(const int64_t *list, size_t n, int w, int is_signed, int big, uint8_t *out);
size_t peer_write_text(const int64_t *list, size_t n, int w, int is_signed, uint8_t *out);

#endif
