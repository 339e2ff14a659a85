/* axes FILE: a table of the axes of a file: size, centring, kind, label and unit, as a tool would look at them before it merges
 * sweeps. */
#include <inttypes.h>
#include <string.h>

#include "files.h"

static const char *const centrings[] = {
    [CRANEHOLT_CENTRING_UNKNOWN] = "unknown",
    [CRANEHOLT_CENTRING_CELL] = "cell",
    [CRANEHOLT_CENTRING_NODE] = "node"};

static const char *const kinds[] = {
    [CRANEHOLT_KIND_UNKNOWN] = "unknown",
    [CRANEHOLT_KIND_DOMAIN] = "domain",
    [CRANEHOLT_KIND_SPACE] = "space",
    [CRANEHOLT_KIND_TIME] = "time",
    [CRANEHOLT_KIND_LIST] = "list",
    [CRANEHOLT_KIND_POINT] = "point",
    [CRANEHOLT_KIND_VECTOR] = "vector",
    [CRANEHOLT_KIND_COVARIANT_VECTOR] = "covariant-vector",
    [CRANEHOLT_KIND_NORMAL] = "normal",
    [CRANEHOLT_KIND_STUB] = "stub",
    [CRANEHOLT_KIND_SCALAR] = "scalar",
    [CRANEHOLT_KIND_COMPLEX] = "complex",
    [CRANEHOLT_KIND_2_VECTOR] = "2-vector",
    [CRANEHOLT_KIND_3_COLOR] = "3-color",
    [CRANEHOLT_KIND_RGB_COLOR] = "RGB-color",
    [CRANEHOLT_KIND_HSV_COLOR] = "HSV-color",
    [CRANEHOLT_KIND_XYZ_COLOR] = "XYZ-color",
    [CRANEHOLT_KIND_4_COLOR] = "4-color",
    [CRANEHOLT_KIND_RGBA_COLOR] = "RGBA-color",
    [CRANEHOLT_KIND_3_VECTOR] = "3-vector",
    [CRANEHOLT_KIND_3_GRADIENT] = "3-gradient",
    [CRANEHOLT_KIND_3_NORMAL] = "3-normal",
    [CRANEHOLT_KIND_4_VECTOR] = "4-vector",
    [CRANEHOLT_KIND_QUATERNION] = "quaternion",
    [CRANEHOLT_KIND_2D_SYMMETRIC_MATRIX] = "2D-symmetric-matrix",
    [CRANEHOLT_KIND_2D_MASKED_SYMMETRIC_MATRIX] = "2D-masked-symmetric-matrix",
    [CRANEHOLT_KIND_2D_MATRIX] = "2D-matrix",
    [CRANEHOLT_KIND_2D_MASKED_MATRIX] = "2D-masked-matrix",
    [CRANEHOLT_KIND_3D_SYMMETRIC_MATRIX] = "3D-symmetric-matrix",
    [CRANEHOLT_KIND_3D_MASKED_SYMMETRIC_MATRIX] = "3D-masked-symmetric-matrix",
    [CRANEHOLT_KIND_3D_MATRIX] = "3D-matrix",
    [CRANEHOLT_KIND_3D_MASKED_MATRIX] = "3D-masked-matrix"};

/* A label or a unit lies in the file, between its quotes: they are printed with it. A dash where the field is not given. */
static int width_of(uint32_t place, uint32_t length)
{
    return place == 0 ? 1 : (int)length + 2;
}

static void print_string(const whole_file *file, uint32_t place, uint32_t length, int width)
{
    const char *text = place == 0 ? "-" : (const char *)file->bytes + place - 1;
    printf(" %-*.*s", width, width_of(place, length), text);
}

static int larger(int a, int b)
{
    return a > b ? a : b;
}

static void print_axes(const whole_file *file, const craneholt_axis *axes, uint64_t count)
{
    int kind = 4, label = 5;
    for (uint64_t i = 0; i < count; i++) {
        kind = larger(kind, (int)strlen(kinds[axes[i].kind]));
        label = larger(label, width_of(axes[i].labelplace, axes[i].labellength));
    }
    printf("axis %10s centring %-*s %-*s unit\n", "size", kind, "kind", label, "label");
    for (uint64_t i = 0; i < count; i++) {
        printf("%4" PRIu64 " %10" PRIu64 " %-8s %-*s", i, axes[i].size, centrings[axes[i].centring], kind, kinds[axes[i].kind]);
        print_string(file, axes[i].labelplace, axes[i].labellength, label);
        print_string(file, axes[i].unitplace, axes[i].unitlength, 0);
        printf("\n");
    }
}

int main(int argc, char **argv)
{
    if (argc != 2) {
        fprintf(stderr, "usage: axes FILE\n");
        return EXIT_FAILURE;
    }
    craneholt_axis axes[CRANEHOLT_MAX_AXES]; /* always enough */
    whole_file file = load(argv[1], 0);
    craneholt_count_answer answer = craneholt_axes(file.bytes, file.length, axes, sizeof axes);
    must(argv[1], answer.refusal);
    print_axes(&file, axes, answer.count);
    free(file.bytes);
    return EXIT_SUCCESS;
}
