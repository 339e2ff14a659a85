/* A wrong step at each row of a sweep, over the archive: in 1 to 40 rows, so that it stands at each place of each block of rows and after the
 * last one, in rows of 1 to 3 samples; a step of 0 and one past the largest, alone and with wrong steps at all rows after it. */
#include "craneholt.h"

#include <stdio.h>

enum { ROWS = 40, WIDTH = 3, LARGEST = 5, OFFSET = 37 };

static int failed;

static uint8_t *put_uint32(uint8_t *to, uint32_t n)
{
    for (int i = 0; i < 4; i++)
        *to++ = (uint8_t)(n >> 8 * i);
    return to;
}

/* The right step to a row: all from 1 to the largest. */
static uint32_t right_step(int row)
{
    return 1 + (uint32_t)row % LARGEST;
}

/* A sweep whose counter wraps after some rows. Row `bad`, and with `all` each row after it, has this wrong step; 0 stands for no row. */
static size_t make_sweep(uint8_t *file, int rows, int width, int bad, uint32_t wrong, int all)
{
    uint8_t *to = file;
    uint32_t stamp = 4294967295u - 30;
    to += sprintf((char *)to, "NRRD0004\ntype: uint32\ndimension: 2\nsizes: %d %d\nencoding: raw\nendian: little\nutc offset:=%d\n\n",
                  width, rows, OFFSET);
    for (int row = 0; row < rows; row++) {
        int is_bad = bad > 0 && (row == bad || (all && row > bad));
        if (row > 0)
            stamp += is_bad ? wrong : right_step(row);
        to = put_uint32(to, stamp);
        for (int i = 1; i < width; i++)
            to = put_uint32(to, (uint32_t)(7 * row + i));
    }
    return (size_t)(to - file);
}

static void try_row(int rows, int width, int bad, uint32_t wrong, int all)
{
    uint8_t file[200 + 4 * ROWS * WIDTH];
    int64_t list[ROWS * WIDTH];
    size_t length = make_sweep(file, rows, width, bad, wrong, all);
    craneholt_sweep_answer a = craneholt_sweep(file, length, list, sizeof list, LARGEST);
    if (a.refusal.number != 0 || a.offset != OFFSET || a.wrong != (bad > 0) || a.row != (uint64_t)bad) {
        failed++;
        printf("row %d of %d, width %d, step %u: refusal %u, wrong %u, row %llu\n", bad, rows, width, (unsigned)wrong,
               (unsigned)a.refusal.number, (unsigned)a.wrong, (unsigned long long)a.row);
    }
}

int main(void)
{
    int tried = 0;
    for (int rows = 1; rows <= ROWS; rows++)
        for (int width = 1; width <= WIDTH; width++)
            for (int bad = 0; bad < rows; bad++)
                for (int kind = 0; kind < 4; kind++, tried++)
                    try_row(rows, width, bad, kind % 2 ? LARGEST + 1 : 0, kind / 2);
    printf("rows of sweeps: %d passed, %d failed\n", tried - failed, failed);
    return failed != 0;
}
