/* Each word of centers and kinds, over the archive: at each axis of a header in turn, with `???` at the others. The number in the record has to be
 * the enumerator that stands beside the word here, so that two exchanged in the header file are noticed. */
#include "craneholt.h"

#include <stdio.h>
#include <string.h>

enum { AXES = 3, STOCK = 0x5a };

struct word {
    const char *text;
    uint32_t number;
};

static const struct word centrings[] = {
    {"???", CRANEHOLT_CENTRING_UNKNOWN},
    {"cell", CRANEHOLT_CENTRING_CELL},
    {"node", CRANEHOLT_CENTRING_NODE}};

static const struct word kinds[] = {
    {"???", CRANEHOLT_KIND_UNKNOWN},
    {"none", CRANEHOLT_KIND_UNKNOWN},
    {"domain", CRANEHOLT_KIND_DOMAIN},
    {"space", CRANEHOLT_KIND_SPACE},
    {"time", CRANEHOLT_KIND_TIME},
    {"list", CRANEHOLT_KIND_LIST},
    {"point", CRANEHOLT_KIND_POINT},
    {"vector", CRANEHOLT_KIND_VECTOR},
    {"covariant-vector", CRANEHOLT_KIND_COVARIANT_VECTOR},
    {"normal", CRANEHOLT_KIND_NORMAL},
    {"stub", CRANEHOLT_KIND_STUB},
    {"scalar", CRANEHOLT_KIND_SCALAR},
    {"complex", CRANEHOLT_KIND_COMPLEX},
    {"2-vector", CRANEHOLT_KIND_2_VECTOR},
    {"3-color", CRANEHOLT_KIND_3_COLOR},
    {"RGB-color", CRANEHOLT_KIND_RGB_COLOR},
    {"HSV-color", CRANEHOLT_KIND_HSV_COLOR},
    {"XYZ-color", CRANEHOLT_KIND_XYZ_COLOR},
    {"4-color", CRANEHOLT_KIND_4_COLOR},
    {"RGBA-color", CRANEHOLT_KIND_RGBA_COLOR},
    {"3-vector", CRANEHOLT_KIND_3_VECTOR},
    {"3-gradient", CRANEHOLT_KIND_3_GRADIENT},
    {"3-normal", CRANEHOLT_KIND_3_NORMAL},
    {"4-vector", CRANEHOLT_KIND_4_VECTOR},
    {"quaternion", CRANEHOLT_KIND_QUATERNION},
    {"2D-symmetric-matrix", CRANEHOLT_KIND_2D_SYMMETRIC_MATRIX},
    {"2D-masked-symmetric-matrix", CRANEHOLT_KIND_2D_MASKED_SYMMETRIC_MATRIX},
    {"2D-matrix", CRANEHOLT_KIND_2D_MATRIX},
    {"2D-masked-matrix", CRANEHOLT_KIND_2D_MASKED_MATRIX},
    {"3D-symmetric-matrix", CRANEHOLT_KIND_3D_SYMMETRIC_MATRIX},
    {"3D-masked-symmetric-matrix", CRANEHOLT_KIND_3D_MASKED_SYMMETRIC_MATRIX},
    {"3D-matrix", CRANEHOLT_KIND_3D_MATRIX},
    {"3D-masked-matrix", CRANEHOLT_KIND_3D_MASKED_MATRIX}};

static int failed;

/* The word at one axis of this field, centers or kinds; the other field is not given. */
static void try_word(int is_kind, const struct word *word, int axis)
{
    char file[200];
    craneholt_axis list[AXES];
    int length = sprintf(file, "NRRD0005\ntype: uint8\ndimension: %d\nsizes: 1 2 3\nencoding: raw\n%s:", AXES, is_kind ? "kinds" : "centers");
    for (int i = 0; i < AXES; i++)
        length += sprintf(file + length, " %s", i == axis ? word->text : "???");
    length += sprintf(file + length, "\n\n");
    memset(list, STOCK, sizeof list);
    craneholt_count_answer a = craneholt_axes((const uint8_t *)file, (size_t)length, list, sizeof list);
    int right = a.refusal.number == CRANEHOLT_FINE && a.count == AXES;
    for (int i = 0; i < AXES; i++) {
        uint32_t centring = !is_kind && i == axis ? word->number : CRANEHOLT_CENTRING_UNKNOWN;
        uint32_t kind = is_kind && i == axis ? word->number : CRANEHOLT_KIND_UNKNOWN;
        right = right && list[i].centring == centring && list[i].kind == kind;
    }
    if (!right) {
        failed++;
        printf("%s at axis %d of %s: refusal %u, centring %u, kind %u\n", word->text, axis, is_kind ? "kinds" : "centers",
               (unsigned)a.refusal.number, (unsigned)list[axis].centring, (unsigned)list[axis].kind);
    }
}

static int try_words(int is_kind, const struct word *words, size_t count)
{
    for (size_t i = 0; i < count; i++)
        for (int axis = 0; axis < AXES; axis++)
            try_word(is_kind, &words[i], axis);
    return (int)count * AXES;
}

int main(void)
{
    int tried = try_words(0, centrings, sizeof centrings / sizeof centrings[0]);
    tried += try_words(1, kinds, sizeof kinds / sizeof kinds[0]);
    printf("kinds: %d passed, %d failed\n", tried - failed, failed);
    return failed != 0;
}
