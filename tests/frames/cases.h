/* The cases of the programs that the gate runs: from vectors, and of our own. Answers are the model's. */
#ifndef CASES_H
#define CASES_H

#include "../model.h"
#include "frame.h"

/* One case each. */
void put_read(struct bytes file, uint64_t room);
craneholt_data_answer put_data(struct bytes file, struct bytes second);
craneholt_count_answer put_samples(struct bytes file, struct bytes second, uint64_t room);
craneholt_number_answer put_coords(struct bytes file, struct bytes coords);
craneholt_write_answer put_write(uint64_t version, struct bytes sizes, uint64_t type, uint64_t encoding,
                                 uint64_t endian, struct bytes samples, uint64_t room);
void put_listing(struct bytes file, size_t room);

/* What a setting is lent, and what it leaves. */
struct lent {
    struct text buffer, table;
    uint64_t used, count;
};

struct setting {
    struct bytes key, value;
};

/* The most settings of a list. */
enum { MOST_SETTINGS = 16 };

/* A list of settings, each lent what the one before it left. Answers their numbers of refusal. If the name is not empty
 * the program prints under it what a reading shows then. */
const uint32_t *put_settings(struct lent *first, const struct setting *settings, size_t count, const char *name);

/* The groups of our own. */
void put_header_groups(const char *folder);
void put_call_groups(void);
void put_setting_groups(void);
void put_listing_groups(const char *vectors);

/* The listings of a folder of vectors, each in a buffer that is always enough. */
void put_listing_files(const char *vectors);

#endif
