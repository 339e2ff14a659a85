/* Every call with NULL and length 0 wherever it takes a pointer: an empty file is refused with 2 at line 1. */
#include "craneholt.h"

#include <stdio.h>

static int passed, failed;

static void expect(const char *name, craneholt_refusal refusal, uint32_t number, uint32_t line)
{
    if (refusal.number == number && refusal.line == line) {
        passed++;
        return;
    }
    failed++;
    printf("%s: refusal %u line %u\n", name, (unsigned)refusal.number, (unsigned)refusal.line);
}

int main(void)
{
    expect("read_header", craneholt_read_header(NULL, 0).refusal, CRANEHOLT_NO_MAGIC, 1);
    expect("read", craneholt_read(NULL, 0, NULL, 0).refusal, CRANEHOLT_NO_MAGIC, 1);
    expect("find_field", craneholt_find_field(NULL, 0, CRANEHOLT_FIELD_TYPE).refusal, CRANEHOLT_NO_MAGIC, 1);
    expect("find_key", craneholt_find_key(NULL, 0, NULL, 0).refusal, CRANEHOLT_NO_MAGIC, 1);
    expect("copy_value", craneholt_copy_value(NULL, 0, NULL, 0, NULL, 0).refusal, CRANEHOLT_NO_MAGIC, 1);
    expect("data", craneholt_data(NULL, 0, NULL, 0).refusal, CRANEHOLT_NO_MAGIC, 1);
    expect("check_samples", craneholt_check_samples(NULL, 0, NULL, 0, SIZE_MAX).refusal, CRANEHOLT_NO_MAGIC, 1);
    expect("samples", craneholt_samples(NULL, 0, NULL, 0, NULL, 0).refusal, CRANEHOLT_NO_MAGIC, 1);
    expect("sample_number", craneholt_sample_number(NULL, 0, NULL, 0).refusal, CRANEHOLT_NO_MAGIC, 1);
    expect("write", craneholt_write(4, NULL, 0, CRANEHOLT_INT8, CRANEHOLT_RAW, CRANEHOLT_LITTLE, NULL, 0, NULL, 0).refusal,
           CRANEHOLT_BAD_DESCRIPTOR, 0);
    expect("origin", craneholt_origin(NULL, 0, NULL, 0).refusal, CRANEHOLT_NO_MAGIC, 1);
    expect("directions", craneholt_directions(NULL, 0, NULL, 0).refusal, CRANEHOLT_NO_MAGIC, 1);
    expect("frame", craneholt_frame(NULL, 0, NULL, 0).refusal, CRANEHOLT_NO_MAGIC, 1);
    expect("write_header",
           craneholt_write_header(4, NULL, 0, CRANEHOLT_FLOAT, CRANEHOLT_RAW, CRANEHOLT_LITTLE, NULL, 0, NULL, 0).refusal,
           CRANEHOLT_BAD_DESCRIPTOR, 0);
    expect("set_key", craneholt_set_key(NULL, 0, 0, NULL, 0, 0, NULL, 0, NULL, 0).refusal, CRANEHOLT_NO_MAGIC, 1);
    expect("set_key past the buffer", craneholt_set_key(NULL, 0, SIZE_MAX, NULL, 0, SIZE_MAX, NULL, 0, NULL, 0).refusal,
           CRANEHOLT_LENT_TOO_SHORT, 0);
    expect("listing", craneholt_listing(NULL, 0, NULL, 0).refusal, CRANEHOLT_LENT_TOO_SHORT, 0);
    expect("sweep", craneholt_sweep(NULL, 0, NULL, 0, CRANEHOLT_MAX_STEP).refusal, CRANEHOLT_NO_MAGIC, 1);
    expect("files", craneholt_files(NULL, 0).refusal, CRANEHOLT_NO_MAGIC, 1);
    expect("file_name", craneholt_file_name(NULL, 0, 0, NULL, 0).refusal, CRANEHOLT_NO_MAGIC, 1);
    expect("sample_file", craneholt_sample_file(NULL, 0, 0).refusal, CRANEHOLT_NO_MAGIC, 1);
    expect("axes", craneholt_axes(NULL, 0, NULL, 0).refusal, CRANEHOLT_NO_MAGIC, 1);
    printf("empty: %d passed, %d failed\n", passed, failed);
    return failed != 0;
}
