/*
 * Writes files of every type, encoding, endian and version, in several shapes,
 * has teem-unu read each, and compares with what went in: the samples as that
 * program prints them in text, and the bytes that it saves in raw.
 *
 *     written [folder for files]
 */
#include "bytes.h"
#include "craneholt.h"
#include "model.h"
#include "said.h"

#include <stdio.h>
#include <stdlib.h>
#include <string.h>

enum { MOST = 200 }; /* samples of a file */

static const struct {
    uint32_t dimension;
    uint64_t sizes[CRANEHOLT_MAX_AXES];
} shapes[] = {
    {1, {1}}, {1, {MOST}}, {2, {3, 4}}, {3, {2, 3, 4}}, {16, {1, 2, 1, 1, 3, 1, 1, 1, 2, 1, 1, 1, 1, 1, 1, 2}},
};

enum { SHAPES = sizeof shapes / sizeof shapes[0] };

static const char *work = "build";

static struct file {
    uint32_t type, encoding, endian, version, shape;
    int64_t samples[MOST];
    uint64_t count;
} file;

/* ---- what is written */

/* A sample of the type: the ends of its range, numbers near them and near 0, bytes that differ, then numbers without order. */
static int64_t sample_at(uint64_t index)
{
    static uint64_t state = 1;
    int64_t low = model_types[file.type].low, high = model_types[file.type].high;
    uint64_t bits;
    switch (index) {
    case 0: return high;
    case 1: return low;
    case 2: return high - 1;
    case 3: return low + 1;
    case 4: return 0;
    case 5: return 1;
    case 6: return low < 0 ? -1 : 2;
    case 7: return high & 0x0102030405060708;
    case 8: return high & 0x0a0d20090a0d2009; /* blanks as bytes */
    }
    state = state * 6364136223846793005u + 1442695040888963407u;
    bits = state >> 1 >> (state >> 59);
    bits &= (uint64_t)high;
    return low < 0 && bits % 2 == 1 ? -(int64_t)bits : (int64_t)bits;
}

static void make_samples(void)
{
    file.count = 1;
    for (uint32_t axis = 0; axis < shapes[file.shape].dimension; axis++)
        file.count *= shapes[file.shape].sizes[axis];
    for (uint64_t n = 0; n < file.count; n++)
        file.samples[n] = sample_at(n + (file.count == 1 ? file.version - 1 : 0));
}

static int write_file(void)
{
    static uint8_t room[512 + 22 * MOST];
    struct bytes out = {room, 0};
    craneholt_write_answer answer =
        craneholt_write(file.version, shapes[file.shape].sizes, shapes[file.shape].dimension * sizeof(uint64_t),
                        file.type, file.encoding, file.endian,
                        file.samples, (size_t)file.count * sizeof(int64_t), room, sizeof room);
    out.length = (size_t)answer.length;
    store(work, "written.nrrd", out);
    return answer.refusal.number == 0;
}

/* ---- what the tool says */

/* What the tool prints; at is NULL if it fails. */
static struct bytes told(const char *command)
{
    char line[8192];
    struct bytes none = {NULL, 0};
    snprintf(line, sizeof line, "cd '%s' && NRRD_STATE_VERBOSE_IO=0 && export NRRD_STATE_VERBOSE_IO && %s > written.out",
             work, command);
    return system(line) == 0 ? load(work, "written.out") : none;
}

static int text_is_right(void)
{
    struct bytes text = told("teem-unu save -f nrrd -e ascii -i written.nrrd");
    const char *said = (const char *)text.at;
    int right = said != NULL && said_shape(said, file.type, shapes[file.shape].sizes, shapes[file.shape].dimension)
                && said_samples(said, file.samples, file.count);
    free(text.at);
    return right;
}

/* The bytes of the samples, low byte first, are the last ones of the file that the tool saves. */
static int bytes_are_right(void)
{
    struct bytes raw = told("teem-unu save -f nrrd -e raw -en little -i written.nrrd");
    size_t width = model_types[file.type].bytes, length = (size_t)file.count * width;
    int right = raw.at != NULL && raw.length > length && memcmp(raw.at + raw.length - length - 2, "\n\n", 2) == 0;
    for (size_t i = 0; right && i < length; i++)
        right = raw.at[raw.length - length + i] == (uint8_t)((uint64_t)file.samples[i / width] >> 8 * (i % width));
    free(raw.at);
    return right;
}

/* ---- every file */

/* The file by a number below FILES. */
enum { FILES = CRANEHOLT_FLOAT * MODEL_ENCODINGS * 2 * 5 * SHAPES };

static int run(uint32_t number)
{
    file.type = number % CRANEHOLT_FLOAT;
    number /= CRANEHOLT_FLOAT;
    file.encoding = number % MODEL_ENCODINGS;
    number /= MODEL_ENCODINGS;
    file.endian = number % 2;
    number /= 2;
    file.version = 1 + number % 5;
    file.shape = number / 5;
    make_samples();
    if (write_file() && text_is_right() && bytes_are_right())
        return 1;
    printf("failed: type %u, encoding %u, endian %u, version %u, shape %u\n", (unsigned)file.type,
           (unsigned)file.encoding, (unsigned)file.endian, (unsigned)file.version, (unsigned)file.shape);
    return 0;
}

int main(int arguments, char **argument)
{
    int passed = 0;
    if (arguments > 1)
        work = argument[1];
    for (uint32_t number = 0; number < FILES; number++)
        passed += run(number);
    printf("our files read by teem-unu: %d passed, %d failed\n", passed, FILES - passed);
    return passed != FILES;
}
