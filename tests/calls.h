/* The calls as a table, so that one test runs the library or the model. */
#ifndef CALLS_H
#define CALLS_H

#include "craneholt.h"

struct calls {
    craneholt_read_answer (*read_header)(const uint8_t *, size_t);
    craneholt_read_answer (*read)(const uint8_t *, size_t, void *, size_t);
    craneholt_find_answer (*find_field)(const uint8_t *, size_t, uint32_t);
    craneholt_find_answer (*find_key)(const uint8_t *, size_t, const uint8_t *, size_t);
    craneholt_value_answer (*copy_value)(const uint8_t *, size_t, const uint8_t *, size_t, uint8_t *, size_t);
    craneholt_data_answer (*data)(const uint8_t *, size_t, const uint8_t *, size_t);
    craneholt_count_answer (*check_samples)(const uint8_t *, size_t, const uint8_t *, size_t, size_t);
    craneholt_count_answer (*samples)(const uint8_t *, size_t, const uint8_t *, size_t, void *, size_t);
    craneholt_number_answer (*sample_number)(const uint8_t *, size_t, const void *, size_t);
    craneholt_write_answer (*write)(uint64_t, const void *, size_t, uint64_t, uint64_t, uint64_t,
                                    const void *, size_t, uint8_t *, size_t);
    craneholt_count_answer (*origin)(const uint8_t *, size_t, void *, size_t);
    craneholt_count_answer (*directions)(const uint8_t *, size_t, void *, size_t);
    craneholt_count_answer (*frame)(const uint8_t *, size_t, void *, size_t);
    craneholt_write_answer (*write_header)(uint64_t, const void *, size_t, uint64_t, uint64_t, uint64_t,
                                           const void *, size_t, uint8_t *, size_t);
    craneholt_set_answer (*set_key)(uint8_t *, size_t, size_t, void *, size_t, size_t,
                                    const uint8_t *, size_t, const uint8_t *, size_t);
    craneholt_write_answer (*listing)(const uint8_t *, size_t, uint8_t *, size_t);
    craneholt_sweep_answer (*sweep)(const uint8_t *, size_t, void *, size_t, uint64_t);
    craneholt_count_answer (*files)(const uint8_t *, size_t);
    craneholt_write_answer (*file_name)(const uint8_t *, size_t, uint64_t, uint8_t *, size_t);
    craneholt_share_answer (*sample_file)(const uint8_t *, size_t, uint64_t);
    craneholt_count_answer (*axes)(const uint8_t *, size_t, void *, size_t);
};

/* the table of craneholt_ or model_ */
#define CALLS(prefix)                                                                       \
    {                                                                                       \
        prefix##_read_header, prefix##_read, prefix##_find_field, prefix##_find_key,        \
        prefix##_copy_value, prefix##_data, prefix##_check_samples, prefix##_samples,       \
        prefix##_sample_number, prefix##_write, prefix##_origin, prefix##_directions,       \
        prefix##_frame, prefix##_write_header, prefix##_set_key, prefix##_listing,          \
        prefix##_sweep, prefix##_files, prefix##_file_name, prefix##_sample_file,           \
        prefix##_axes                                                                       \
    }

/* The structs as the archive has them: their sizes, and where members lie. What does not hold does not compile. */
#define STRUCT_IS(type, bytes) typedef char type##_is_##bytes##_bytes[sizeof(type) == (bytes) ? 1 : -1]
#define MEMBER_IS(type, member, place) \
    typedef char type##_##member##_is_at_##place[offsetof(type, member) == (place) ? 1 : -1]

STRUCT_IS(craneholt_refusal, 8);
STRUCT_IS(craneholt_reading, 208);
MEMBER_IS(craneholt_reading, sizes, 24);
MEMBER_IS(craneholt_reading, lineskip, 152);
MEMBER_IS(craneholt_reading, lines, 184);
MEMBER_IS(craneholt_reading, fromend, 188);
MEMBER_IS(craneholt_reading, origin, 189);
MEMBER_IS(craneholt_reading, directions, 190);
MEMBER_IS(craneholt_reading, frame, 191);
MEMBER_IS(craneholt_reading, space, 192);
MEMBER_IS(craneholt_reading, spacedimension, 196);
MEMBER_IS(craneholt_reading, files, 200);
MEMBER_IS(craneholt_reading, fieldlines, 204);
STRUCT_IS(craneholt_read_answer, 216);
STRUCT_IS(craneholt_find_answer, 32);
STRUCT_IS(craneholt_value_answer, 24);
STRUCT_IS(craneholt_data_answer, 32);
STRUCT_IS(craneholt_count_answer, 16);
STRUCT_IS(craneholt_number_answer, 16);
STRUCT_IS(craneholt_write_answer, 16);
STRUCT_IS(craneholt_set_answer, 24);
STRUCT_IS(craneholt_share_answer, 24);
MEMBER_IS(craneholt_share_answer, file, 8);
MEMBER_IS(craneholt_share_answer, byte, 16);
STRUCT_IS(craneholt_sweep_answer, 24);
MEMBER_IS(craneholt_sweep_answer, offset, 8);
MEMBER_IS(craneholt_sweep_answer, wrong, 12);
MEMBER_IS(craneholt_sweep_answer, row, 16);
STRUCT_IS(craneholt_axis, 32);
MEMBER_IS(craneholt_axis, centring, 8);
MEMBER_IS(craneholt_axis, kind, 12);
MEMBER_IS(craneholt_axis, labelplace, 16);
MEMBER_IS(craneholt_axis, labellength, 20);
MEMBER_IS(craneholt_axis, unitplace, 24);
MEMBER_IS(craneholt_axis, unitlength, 28);
typedef char axes_room_is_all_records[CRANEHOLT_AXES_ROOM == CRANEHOLT_MAX_AXES * sizeof(craneholt_axis) ? 1 : -1];
STRUCT_IS(craneholt_decimal, 16);
MEMBER_IS(craneholt_decimal, power, 8);
MEMBER_IS(craneholt_decimal, kind, 12);
STRUCT_IS(craneholt_orientation, 3232);
MEMBER_IS(craneholt_orientation, spacedimension, 8);
MEMBER_IS(craneholt_orientation, given, 16);
MEMBER_IS(craneholt_orientation, components, 20);
MEMBER_IS(craneholt_orientation, axes, 24);
MEMBER_IS(craneholt_orientation, columns, 28);
MEMBER_IS(craneholt_orientation, origin, 32);
MEMBER_IS(craneholt_orientation, directions, 160);
MEMBER_IS(craneholt_orientation, frame, 2208);

#endif
