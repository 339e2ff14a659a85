/* roof FILE LARGEST: checks a sweep of the roof rig. Prints its UTC offset, and the first row whose stamp is not 1 to LARGEST ticks
 * after that of the row before it. */
#include <inttypes.h>

#include "files.h"

/* The samples are stored where a step is wrong, too: the two stamps are among them. */
static void print_row(const int64_t *samples, uint64_t row, uint64_t width)
{
    uint32_t before = (uint32_t)samples[(row - 1) * width], stamp = (uint32_t)samples[row * width];
    printf("row %" PRIu64 " has a wrong step: %" PRIu32 " after %" PRIu32 ", a step of %" PRIu32 "\n", row, stamp, before,
           stamp - before);
}

int main(int argc, char **argv)
{
    char *end = NULL;
    uint64_t largest = argc == 3 ? strtoull(argv[2], &end, 10) : 0;
    /* strtoull takes a sign too */
    if (argc != 3 || argv[2][0] < '0' || argv[2][0] > '9' || *end != '\0') {
        fprintf(stderr, "usage: roof FILE LARGEST\n");
        return EXIT_FAILURE;
    }
    const char *name = argv[1];
    whole_file file = load(name, 0);

    /* what is wrong with the samples is refused before memory is asked for */
    craneholt_count_answer check = craneholt_check_samples(file.bytes, file.length, NULL, 0, SIZE_MAX);
    must(name, check.refusal);
    int64_t *samples = (int64_t *)malloc(check.count * sizeof *samples);
    if (samples == NULL)
        fail(name, 0, "does not fit the memory");

    craneholt_sweep_answer sweep =
        craneholt_sweep(file.bytes, file.length, samples, check.count * sizeof *samples, largest);
    must(name, sweep.refusal);
    printf("utc offset: %" PRIu32 "\n", sweep.offset);
    if (sweep.wrong)
        print_row(samples, sweep.row, craneholt_read_header(file.bytes, file.length).reading.sizes[0]);
    else
        printf("no row has a wrong step\n");
    free(samples);
    free(file.bytes);
    return EXIT_SUCCESS;
}
