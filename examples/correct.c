/* correct FILE OFFSET: sets the key `utc offset` of a sweep file, as the time daemon does after a leap second.
 * The file is replaced whole or not at all: the corrected one is written beside it and then takes its name. */
#define _POSIX_C_SOURCE 200809L
#include <string.h>
#include <sys/stat.h>
#include <unistd.h>

#include "files.h"

static const char key[] = "utc offset";

/* Writes the bytes to a new file beside `name`, to the disk, with the mode of `name`, and gives it that name. */
static void replace(const char *name, const uint8_t *bytes, size_t length)
{
    size_t room = strlen(name) + sizeof ".XXXXXX";
    char *temporary = (char *)malloc(room);
    if (temporary == NULL)
        fail(name, 0, "does not fit the memory");
    snprintf(temporary, room, "%s.XXXXXX", name);

    struct stat old;
    int new = stat(name, &old) == 0 ? mkstemp(temporary) : -1;
    FILE *out = new < 0 ? NULL : fdopen(new, "wb");
    if (out == NULL)
        fail(name, 0, "no file can be created beside it");
    int written = fchmod(new, old.st_mode & 07777) == 0 && fwrite(bytes, 1, length, out) == length && fflush(out) == 0
                  && fsync(new) == 0;
    if (fclose(out) != 0 || !written || rename(temporary, name) != 0) {
        remove(temporary);
        fail(name, 0, "cannot be replaced");
    }
    free(temporary);
}

int main(int argc, char **argv)
{
    if (argc != 3) {
        fprintf(stderr, "usage: correct FILE OFFSET\n");
        return EXIT_FAILURE;
    }
    const char *name = argv[1];
    const char *value = argv[2];

    /* escapes may double the value; the line needs its key, ":=" and ending too */
    whole_file file = load(name, 2 * strlen(value) + sizeof key + 4);
    uint32_t table[CRANEHOLT_MAX_LINES];
    craneholt_read_answer read = craneholt_read(file.bytes, file.length, table, sizeof table);
    must(name, read.refusal);

    craneholt_set_answer set = craneholt_set_key(file.bytes, file.room, file.length, table, sizeof table, read.reading.lines,
                                                 (const uint8_t *)key, strlen(key), (const uint8_t *)value, strlen(value));
    must(name, set.refusal);

    replace(name, file.bytes, set.length);
    printf("%s: %s is %s\n", name, key, value);
    free(file.bytes);
    return EXIT_SUCCESS;
}
