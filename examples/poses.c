/* poses FILE: how the array of a file lies in space, in doubles, as a tool that merges sweeps would use it.
 * Prints the origin, the direction of each axis and where the last sample lies. Each number of the origin and the directions is
 * the double nearest to the exact decimal of the library, and is compared with strtod of the text in the header. */
#include <inttypes.h>
#include <string.h>

#include "files.h"

typedef struct {
    const char *name;
    whole_file file;
    craneholt_reading reading;
    double origin[CRANEHOLT_MAX_SPACE];
    double directions[CRANEHOLT_MAX_AXES][CRANEHOLT_MAX_SPACE]; /* zeros for an axis that has none */
    int has_direction[CRANEHOLT_MAX_AXES];
} pose;

/* strtod of the exact text: the nearest double, and the same in every locale. */
static double value_of(craneholt_decimal d)
{
    static const char *const marks[] = {"0", "nan", "inf", "-inf", "0"};
    char text[32];
    if (d.kind != CRANEHOLT_NUMBER)
        return strtod(marks[d.kind], NULL);
    snprintf(text, sizeof text, "%" PRId64 "e%" PRId32, d.number, d.power);
    return strtod(text, NULL);
}

/* ---- What the header says ---- */

/* The text of a field that is there. */
static char *text_of(const pose *p, uint32_t field)
{
    craneholt_find_answer place = craneholt_find_field(p->file.bytes, p->file.length, field);
    must(p->name, place.refusal);
    char *text = (char *)malloc(place.length + 1);
    if (text == NULL)
        fail(p->name, 0, "does not fit the memory");
    memcpy(text, p->file.bytes + place.start, place.length);
    text[place.length] = '\0';
    return text;
}

/* Ends the program if the next numbers of the text are not these. */
static char *must_say(const pose *p, char *text, const double *numbers)
{
    for (uint32_t i = 0; i < p->reading.spacedimension; i++) {
        double said = strtod(text + strspn(text, " \t(,)"), &text);
        if (said != numbers[i] && (said == said || numbers[i] == numbers[i]))
            fail(p->name, 0, "the header says another number");
    }
    return text;
}

static void must_be_said(const pose *p)
{
    if (p->reading.origin) {
        char *text = text_of(p, CRANEHOLT_FIELD_SPACE_ORIGIN);
        must_say(p, text, p->origin);
        free(text);
    }
    if (p->reading.directions) {
        char *text = text_of(p, CRANEHOLT_FIELD_SPACE_DIRECTIONS), *at = text;
        for (uint32_t axis = 0; axis < p->reading.dimension; axis++)
            at = p->has_direction[axis] ? must_say(p, at, p->directions[axis]) : at + strspn(at, " \t)") + strlen("none");
        free(text);
    }
}

/* ---- The pose ---- */

static pose load_pose(const char *name)
{
    craneholt_decimal origin[CRANEHOLT_MAX_SPACE], directions[CRANEHOLT_MAX_AXES * CRANEHOLT_MAX_SPACE];
    pose p;
    memset(&p, 0, sizeof p);
    p.name = name;
    p.file = load(name, 0);
    craneholt_read_answer read = craneholt_read_header(p.file.bytes, p.file.length);
    must(name, read.refusal);
    p.reading = read.reading;

    craneholt_count_answer count = craneholt_origin(p.file.bytes, p.file.length, origin, sizeof origin);
    must(name, count.refusal);
    for (uint64_t i = 0; i < count.count; i++)
        p.origin[i] = value_of(origin[i]);

    count = craneholt_directions(p.file.bytes, p.file.length, directions, sizeof directions);
    must(name, count.refusal);
    for (uint64_t i = 0; i < count.count; i++) {
        uint64_t axis = i / p.reading.spacedimension, component = i % p.reading.spacedimension;
        p.directions[axis][component] = value_of(directions[i]);
        if (component == 0)
            p.has_direction[axis] = directions[i].kind != CRANEHOLT_NONE;
    }
    return p;
}

static void print_numbers(const pose *p, const double *numbers)
{
    for (uint32_t i = 0; i < p->reading.spacedimension; i++)
        printf(" %.17g", numbers[i]);
    printf("\n");
}

/* The origin and, for each axis with a direction, as many steps as the last sample is away. */
static void print_last(const pose *p)
{
    double at[CRANEHOLT_MAX_SPACE];
    memcpy(at, p->origin, sizeof at);
    for (uint32_t axis = 0; axis < p->reading.dimension; axis++)
        for (uint32_t i = 0; i < p->reading.spacedimension; i++)
            at[i] += (double)(p->reading.sizes[axis] - 1) * p->directions[axis][i];
    printf("last sample:");
    print_numbers(p, at);
}

int main(int argc, char **argv)
{
    if (argc != 2) {
        fprintf(stderr, "usage: poses FILE\n");
        return EXIT_FAILURE;
    }
    pose p = load_pose(argv[1]);
    if (!p.reading.origin || !p.reading.directions)
        fail(p.name, 0, "has no space origin, or no space directions");
    must_be_said(&p);
    printf("origin:");
    print_numbers(&p, p.origin);
    for (uint32_t axis = 0; axis < p.reading.dimension; axis++) {
        printf("axis %" PRIu32 ":", axis);
        if (p.has_direction[axis])
            print_numbers(&p, p.directions[axis]);
        else
            printf(" none\n");
    }
    print_last(&p);
    free(p.file.bytes);
    return EXIT_SUCCESS;
}
