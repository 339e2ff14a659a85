/*
 * What teem-unu says of a file that it has read, as text: the file saved by
 * `teem-unu save -f nrrd -e ascii`, its header, an empty line, the samples.
 */
#ifndef SAID_H
#define SAID_H

#include <stddef.h>
#include <stdint.h>

/* True if it says these sizes, axis 0 first, and the type of this number. */
int said_shape(const char *said, uint32_t sampletype, const uint64_t *sizes, uint32_t dimension);

/* True if it says these samples, and no others. */
int said_samples(const char *said, const int64_t *samples, uint64_t count);

#endif
