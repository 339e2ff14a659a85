/* Every byte as a hex digit, over the archive: in both places of every sample of short and of long data, without blanks and with one after
 * each pair, so that it stands in each loop of the reader. What a byte is worth is looked up in the digits as text. */
#include "craneholt.h"

#include <stdio.h>
#include <string.h>

enum { MOST = 300, STOCK = 0x5a };

static int failed;

/* the value of a byte, or -1 */
static int value_of(int byte)
{
    static const char *const digits[] = {"0123456789abcdef", "0123456789ABCDEF"};
    for (int i = 0; i < 2; i++)
        for (int v = 0; v < 16; v++)
            if (digits[i][v] == byte)
                return v;
    return -1;
}

static int is_blank(int byte)
{
    return (byte >= 9 && byte <= 13) || byte == 32;
}

/* n samples of uint8, all `c5` but for the byte at one place of one of them, `step` bytes each; a blank in place of a digit leaves one too few */
static void try_byte(int byte, int n, int sample, int place, int step)
{
    uint8_t file[100 + 3 * MOST];
    int64_t list[MOST];
    int at = sprintf((char *)file, "NRRD0001\ntype: uint8\ndimension: 1\nsizes: %d\nencoding: hex\n\n", n);
    for (int i = 0; i < n; i++)
        memcpy(file + at + i * step, "c5 ", (size_t)step);
    file[at + sample * step + place] = (uint8_t)byte;
    memset(list, STOCK, sizeof list);
    craneholt_count_answer a = craneholt_samples(file, (size_t)(at + n * step), NULL, 0, list, sizeof list);
    int v = value_of(byte);
    uint32_t number = v >= 0 ? 0 : is_blank(byte) ? CRANEHOLT_DATA_ENDS_EARLY : CRANEHOLT_BAD_SAMPLE;
    int right = a.refusal.number == number && a.refusal.line == 0;
    for (int i = 0; i < MOST; i++) {
        int64_t sound = 0xc5, stock;
        memset(&stock, STOCK, sizeof stock);
        if (i == sample)
            sound = place == 0 ? 16 * v + 5 : 16 * 0xc + v;
        right = right && list[i] == (number == 0 && i < n ? sound : stock);
    }
    if (!right) {
        failed++;
        printf("byte %d at place %d of sample %d of %d, %d bytes each: refusal %u\n", byte, place, sample, n, step, (unsigned)a.refusal.number);
    }
}

int main(void)
{
    static const int counts[] = {1, 15, 16, 40, MOST};
    int tried = 0;
    for (int byte = 0; byte < 256; byte++)
        for (int c = 0; c < 5; c++)
            for (int sample = 0; sample < counts[c]; sample += counts[c] > 40 ? 7 : 1)
                for (int place = 0; place < 2; place++)
                    for (int step = 2; step <= 3; step++, tried++)
                        try_byte(byte, counts[c], sample, place, step);
    printf("hex digits: %d passed, %d failed\n", tried - failed, failed);
    return failed != 0;
}
