/* A second implementation of every call, for comparing. See model.c. */
#ifndef MODEL_H
#define MODEL_H

#include "craneholt.h"

enum {
    MODEL_FIELDS = 30,
    MODEL_TYPES = 10,
    MODEL_ENCODINGS = 3,
    MODEL_SPACES = 12,
    MODEL_CENTRINGS = 3,
    MODEL_KINDS = 32
};

/* what a field comes after, and whether it is understood */
enum {
    MODEL_PER_AXIS = 1,  /* after dimension */
    MODEL_IN_SPACE = 2,  /* after space or space dimension */
    MODEL_UNDERSTOOD = 4 /* or else carried as text */
};

/* the fields by number: name, other spelling or NULL, first version, order and understood */
struct model_field {
    const char *name, *other;
    uint32_t version;
    int flags;
};

/* the types by number: names (the first is the one that is written), bytes and
 * values of a sample */
struct model_type {
    const char *names[8];
    size_t bytes;
    int64_t low, high;
};

/* the spaces by number: the full name, which is written, an abbreviation or NULL, and the dimension */
struct model_space {
    const char *names[2];
    uint32_t dimension;
};

extern const struct model_field model_fields[MODEL_FIELDS];
extern const struct model_type model_types[MODEL_TYPES];
extern const char *const model_encodings[MODEL_ENCODINGS][3];
extern const struct model_space model_spaces[MODEL_SPACES];

/* the centrings and the kinds by number, each with another word for it or NULL; 0 is unknown */
extern const char *const model_centrings[MODEL_CENTRINGS][2];
extern const char *const model_kinds[MODEL_KINDS][2];

craneholt_read_answer model_read_header(const uint8_t *file, size_t file_length);
craneholt_read_answer model_read(const uint8_t *file, size_t file_length, void *table, size_t table_length);
craneholt_find_answer model_find_field(const uint8_t *file, size_t file_length, uint32_t field);
craneholt_find_answer model_find_key(const uint8_t *file, size_t file_length,
                                     const uint8_t *key, size_t key_length);
craneholt_value_answer model_copy_value(const uint8_t *file, size_t file_length,
                                        const uint8_t *key, size_t key_length,
                                        uint8_t *out, size_t out_length);
craneholt_data_answer model_data(const uint8_t *file, size_t file_length,
                                 const uint8_t *second, size_t second_length);
craneholt_count_answer model_check_samples(const uint8_t *file, size_t file_length,
                                           const uint8_t *second, size_t second_length, size_t room);
craneholt_count_answer model_samples(const uint8_t *file, size_t file_length,
                                     const uint8_t *second, size_t second_length,
                                     void *list, size_t list_length);
craneholt_number_answer model_sample_number(const uint8_t *file, size_t file_length,
                                            const void *coords, size_t coords_length);
craneholt_count_answer model_files(const uint8_t *file, size_t file_length);
craneholt_write_answer model_file_name(const uint8_t *file, size_t file_length, uint64_t n,
                                       uint8_t *out, size_t out_length);
craneholt_share_answer model_sample_file(const uint8_t *file, size_t file_length, uint64_t sample);
craneholt_write_answer model_write(uint64_t version, const void *sizes, size_t sizes_length,
                                   uint64_t sampletype, uint64_t encoding, uint64_t endian,
                                   const void *samples, size_t samples_length,
                                   uint8_t *out, size_t out_length);
craneholt_count_answer model_origin(const uint8_t *file, size_t file_length, void *list, size_t list_length);
craneholt_count_answer model_directions(const uint8_t *file, size_t file_length, void *list, size_t list_length);
craneholt_count_answer model_frame(const uint8_t *file, size_t file_length, void *list, size_t list_length);
craneholt_count_answer model_axes(const uint8_t *file, size_t file_length, void *list, size_t list_length);
craneholt_write_answer model_write_header(uint64_t version, const void *sizes, size_t sizes_length,
                                          uint64_t sampletype, uint64_t encoding, uint64_t endian,
                                          const void *orientation, size_t orientation_length,
                                          uint8_t *out, size_t out_length);
craneholt_set_answer model_set_key(uint8_t *buf, size_t buf_length, size_t used,
                                   void *table, size_t table_length, size_t count,
                                   const uint8_t *key, size_t key_length,
                                   const uint8_t *value, size_t value_length);
craneholt_write_answer model_listing(const uint8_t *file, size_t file_length, uint8_t *out, size_t out_length);
craneholt_sweep_answer model_sweep(const uint8_t *file, size_t file_length, void *list, size_t list_length,
                                   uint64_t largest);

#endif
