#include "peers.h"

#include <errno.h>
#include <stdio.h>
#include <stdlib.h>
#include <string.h>

/* ---- Raw: a loop for each type and byte order, as a C programmer writes it ---- */

#define SAME(x) (x)

#define DECODE(name, type, bits, turn)                                              \
    static size_t name(const uint8_t *data, size_t n, int64_t *list)                \
    {                                                                               \
        for (size_t k = 0; k < n; k++) {                                            \
            bits x;                                                                 \
            memcpy(&x, data + k * sizeof x, sizeof x);                              \
            list[k] = (type)turn(x);                                                \
        }                                                                           \
        return n;                                                                   \
    }

DECODE(int8_samples, int8_t, uint8_t, SAME)
DECODE(uint8_samples, uint8_t, uint8_t, SAME)
DECODE(int16_little, int16_t, uint16_t, SAME)
DECODE(int16_big, int16_t, uint16_t, __builtin_bswap16)
DECODE(uint16_little, uint16_t, uint16_t, SAME)
DECODE(uint16_big, uint16_t, uint16_t, __builtin_bswap16)
DECODE(int32_little, int32_t, uint32_t, SAME)
DECODE(int32_big, int32_t, uint32_t, __builtin_bswap32)
DECODE(uint32_little, uint32_t, uint32_t, SAME)
DECODE(uint32_big, uint32_t, uint32_t, __builtin_bswap32)
DECODE(int64_little, int64_t, uint64_t, SAME)
DECODE(int64_big, int64_t, uint64_t, __builtin_bswap64)

DECODE(uint64_little_fill, int64_t, uint64_t, SAME)
DECODE(uint64_big_fill, int64_t, uint64_t, __builtin_bswap64)

/* A uint64 above the largest int64_t is refused, and nothing may be stored then: looked at first. */
#define DECODE_UINT64(name, fill, turn)                                             \
    static size_t name(const uint8_t *data, size_t n, int64_t *list)                \
    {                                                                               \
        uint64_t all = 0;                                                           \
        for (size_t k = 0; k < n; k++) {                                            \
            uint64_t x;                                                             \
            memcpy(&x, data + k * sizeof x, sizeof x);                              \
            all |= turn(x);                                                         \
        }                                                                           \
        return all >> 63 ? 0 : fill(data, n, list);                                 \
    }

DECODE_UINT64(uint64_little, uint64_little_fill, SAME)
DECODE_UINT64(uint64_big, uint64_big_fill, __builtin_bswap64)

typedef size_t decoder(const uint8_t *, size_t, int64_t *);

/* 0 to 3 for 1, 2, 4, 8 bytes */
static int row(int w)
{
    return w == 1 ? 0 : w == 2 ? 1 : w == 4 ? 2 : 3;
}

size_t peer_raw(const uint8_t *data, size_t n, int w, int is_signed, int big, int64_t *list)
{
    static decoder *const decoders[4][2][2] = {
        {{uint8_samples, uint8_samples}, {int8_samples, int8_samples}},
        {{uint16_little, uint16_big}, {int16_little, int16_big}},
        {{uint32_little, uint32_big}, {int32_little, int32_big}},
        {{uint64_little, uint64_big}, {int64_little, int64_big}},
    };
    return decoders[row(w)][is_signed][big](data, n, list);
}

/* ---- Hex: one pass with a table of 256 ---- */

enum { BLANK = 16, BAD = 17 };

static uint8_t digit_of[256];

static void make_digits(void)
{
    memset(digit_of, BAD, sizeof digit_of);
    for (int b = 9; b <= 13; b++)
        digit_of[b] = BLANK;
    digit_of[' '] = BLANK;
    for (int d = 0; d < 10; d++)
        digit_of['0' + d] = (uint8_t)d;
    for (int d = 0; d < 6; d++)
        digit_of['a' + d] = digit_of['A' + d] = (uint8_t)(10 + d);
}

static int64_t value_of(uint64_t x, int w, int is_signed)
{
    int shift = 64 - 8 * w;
    return is_signed ? (int64_t)(x << shift) >> shift : (int64_t)x;
}

static inline size_t hex_of_width(const uint8_t *data, size_t length, size_t n, int w, int is_signed, int big, int64_t *list)
{
    size_t at = 0;
    for (size_t k = 0; k < n; k++) {
        uint64_t x = 0;
        for (int j = 0; j < w; j++) {
            unsigned byte = 0;
            for (int i = 0; i < 2; i++) {
                unsigned d = BLANK;
                while (at < length && (d = digit_of[data[at]]) == BLANK)
                    at++;
                if (at == length || d == BAD)
                    return k;
                byte = byte * 16 + d;
                at++;
            }
            x |= (uint64_t)byte << 8 * (big ? w - 1 - j : j);
        }
        if (!is_signed && w == 8 && x >> 63)
            return k;
        list[k] = value_of(x, w, is_signed);
    }
    return n;
}

size_t peer_hex(const uint8_t *data, size_t length, size_t n, int w, int is_signed, int big, int64_t *list)
{
    if (digit_of['f'] != 15)
        make_digits();
    switch (w) {
    case 1: return hex_of_width(data, length, n, 1, is_signed, big, list);
    case 2: return hex_of_width(data, length, n, 2, is_signed, big, list);
    case 4: return hex_of_width(data, length, n, 4, is_signed, big, list);
    default: return hex_of_width(data, length, n, 8, is_signed, big, list);
    }
}

/* ---- Text: a loop over strtoll ---- */

static int64_t lowest(int w, int is_signed)
{
    return is_signed ? INT64_MIN >> (64 - 8 * w) : 0;
}

static int64_t highest(int w, int is_signed)
{
    if (w == 8)
        return INT64_MAX;
    return (INT64_C(1) << (is_signed ? 8 * w - 1 : 8 * w)) - 1;
}

size_t peer_text(const char *data, size_t n, int w, int is_signed, int64_t *list)
{
    int64_t low = lowest(w, is_signed);
    int64_t high = highest(w, is_signed);
    const char *at = data;
    for (size_t k = 0; k < n; k++) {
        char *end;
        errno = 0;
        long long z = strtoll(at, &end, 10);
        if (end == at || errno != 0 || z < low || z > high)
            return k;
        list[k] = z;
        at = end;
    }
    return n;
}

/* ---- Sweeps ---- */

int peer_offset(const uint8_t *text, size_t length)
{
    int offset = 0;
    for (size_t i = 0; i < length; i++) {
        if (text[i] < '0' || text[i] > '9' || offset > 25)
            return -1;
        offset = 10 * offset + (text[i] - '0');
    }
    return length == 0 || offset > 255 ? -1 : offset;
}

size_t peer_wrong_row(const int64_t *list, size_t rows, size_t width, uint32_t largest)
{
    uint32_t before = (uint32_t)list[0];
    for (size_t r = 1; r < rows; r++) {
        uint32_t now = (uint32_t)list[r * width];
        uint32_t step = now - before;
        if (step - 1 >= largest)
            return r;
        before = now;
    }
    return rows;
}

/* ---- Writing ---- */

/* endian is NULL where it is not written */
size_t peer_write_header(const char *type, size_t n, const char *encoding, const char *endian, uint8_t *out)
{
    char *to = (char *)out;
    to += sprintf(to, "NRRD0004\ntype: %s\ndimension: 1\nsizes: %zu\nencoding: %s\n", type, n, encoding);
    if (endian != NULL)
        to += sprintf(to, "endian: %s\n", endian);
    *to++ = '\n';
    return (size_t)((uint8_t *)to - out);
}

static int all_fit(const int64_t *list, size_t n, int w, int is_signed)
{
    int64_t low = lowest(w, is_signed);
    int64_t high = highest(w, is_signed);
    int fit = 1;
    for (size_t k = 0; k < n; k++)
        fit &= list[k] >= low && list[k] <= high;
    return fit;
}

#define ENCODE(name, bits, turn)                                                    \
    static void name(const int64_t *list, size_t n, uint8_t *out)                   \
    {                                                                               \
        for (size_t k = 0; k < n; k++) {                                            \
            bits x = turn((bits)list[k]);                                           \
            memcpy(out + k * sizeof x, &x, sizeof x);                               \
        }                                                                           \
    }

ENCODE(put_1, uint8_t, SAME)
ENCODE(put_2_little, uint16_t, SAME)
ENCODE(put_2_big, uint16_t, __builtin_bswap16)
ENCODE(put_4_little, uint32_t, SAME)
ENCODE(put_4_big, uint32_t, __builtin_bswap32)
ENCODE(put_8_little, uint64_t, SAME)
ENCODE(put_8_big, uint64_t, __builtin_bswap64)

typedef void encoder(const int64_t *, size_t, uint8_t *);

size_t peer_write_raw(const int64_t *list, size_t n, int w, int is_signed, int big, uint8_t *out)
{
    static encoder *const encoders[4][2] = {
        {put_1, put_1}, {put_2_little, put_2_big}, {put_4_little, put_4_big}, {put_8_little, put_8_big},
    };
    if (!all_fit(list, n, w, is_signed))
        return 0;
    encoders[row(w)][big](list, n, out);
    return n * (size_t)w;
}

static inline void hex_words(const int64_t *list, size_t n, int w, int big, uint8_t *out)
{
    static const char digits[] = "0123456789abcdef";
    for (size_t k = 0; k < n; k++)
        for (int j = 0; j < w; j++) {
            unsigned byte = (unsigned)((uint64_t)list[k] >> 8 * (big ? w - 1 - j : j)) & 255;
            *out++ = (uint8_t)digits[byte >> 4];
            *out++ = (uint8_t)digits[byte & 15];
        }
}

size_t peer_write_hex(const int64_t *list, size_t n, int w, int is_signed, int big, uint8_t *out)
{
    if (!all_fit(list, n, w, is_signed))
        return 0;
    switch (w) {
    case 1: hex_words(list, n, 1, big, out); break;
    case 2: hex_words(list, n, 2, big, out); break;
    case 4: hex_words(list, n, 4, big, out); break;
    default: hex_words(list, n, 8, big, out); break;
    }
    out[n * 2 * (size_t)w] = '\n';
    return n * 2 * (size_t)w + 1;
}

size_t peer_write_text(const int64_t *list, size_t n, int w, int is_signed, uint8_t *out)
{
    uint8_t *to = out;
    if (!all_fit(list, n, w, is_signed))
        return 0;
    for (size_t k = 0; k < n; k++) {
        char digits[20];
        int i = 20;
        uint64_t m = list[k] < 0 ? 0 - (uint64_t)list[k] : (uint64_t)list[k];
        do
            digits[--i] = (char)('0' + m % 10);
        while ((m /= 10) != 0);
        if (list[k] < 0)
            *to++ = '-';
        memcpy(to, digits + i, (size_t)(20 - i));
        to += 20 - i;
        *to++ = '\n';
    }
    return (size_t)(to - out);
}
