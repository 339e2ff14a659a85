#include "said.h"

#include <errno.h>
#include <stdio.h>
#include <stdlib.h>
#include <string.h>

/* the tool's names of the types, by number */
static const char *const types[] = {
    "signed char", "unsigned char", "short", "unsigned short", "int", "unsigned int",
    "long long int", "unsigned long long int", "float", "double",
};

int said_shape(const char *said, uint32_t sampletype, const uint64_t *sizes, uint32_t dimension)
{
    char type[64], line[512];
    int length = snprintf(line, sizeof line, "\nsizes:");
    for (uint32_t axis = 0; axis < dimension; axis++)
        length += snprintf(line + length, sizeof line - (size_t)length, " %llu", (unsigned long long)sizes[axis]);
    snprintf(line + length, sizeof line - (size_t)length, "\n");
    snprintf(type, sizeof type, "\ntype: %s\n", types[sampletype]);
    return strstr(said, line) != NULL && strstr(said, type) != NULL;
}

int said_samples(const char *said, const int64_t *samples, uint64_t count)
{
    const char *at = strstr(said, "\n\n");
    if (at == NULL)
        return 0;
    for (uint64_t n = 0; n < count; n++) {
        char *end;
        long long number;
        errno = 0;
        number = strtoll(at, &end, 10);
        if (end == at || errno != 0 || number != samples[n])
            return 0;
        at = end;
    }
    return at[strspn(at, " \n")] == '\0';
}
