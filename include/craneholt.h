/* craneholt.h: NRRD files from C. Every call below is proved to answer as the rules say, on every input.
 *
 * It reads headers of versions 1 to 5, with their data in the same file (attached) or in one or more others (detached), finds
 * the data and decodes integer samples (raw, text, hex). It names the files of data in several files. It tells how the array
 * lies in space, in exact decimals, and what each axis is: centring, kind, label and unit. It writes attached files, and headers
 * that say how an array lies in space. It corrects the value of a key in place. It checks the stamps of the roof rig's sweeps.
 *
 * How the calls work
 * - A call takes bytes and numbers and answers numbers, by value. It allocates nothing, keeps nothing, opens no file, and
 *   uses a few kilobytes of stack whatever the input, craneholt_write_header about 20. Calls on separate buffers may run in separate threads.
 * - There is no wrong input: whatever is lent, the call ends and answers. A pointer may be NULL if its length is 0. What
 *   has to be true is that the lengths are those of the memory lent, and that memory that a call writes overlaps nothing
 *   else lent to it.
 * - Every answer starts with a refusal. Number 0: nothing is refused. Otherwise the number says why, the line where (0 if no
 *   line is meant), and NOTHING that was lent has changed; the other numbers of the answer are 0 (a refused
 *   setting answers the length and the count that it was lent).
 * - Lengths are in bytes. In a table an entry is 4 bytes; samples, sizes and coordinates are 8 bytes each, a decimal is 16, an
 *   axis record 32; the low byte first. On the machines that the archive is made for these are arrays of uint32_t, int64_t,
 *   uint64_t, craneholt_decimal and craneholt_axis: lend `list, sizeof list`. A rest too short for an entry, a number or a record
 *   is not used and not changed.
 *
 * A file is lent whole: the header and what follows it. A detached header's data is in a second file, which the calls for
 * data take as well; for an attached header lend NULL, 0 there (it is not looked at). Data in more than one file is read file
 * by file: see "Data in several files".
 *
 *     craneholt_read_answer a = craneholt_read_header(file, length);
 *     if (a.refusal.number != 0)
 *         fprintf(stderr, "refused %u line %u: %s\n", (unsigned)a.refusal.number, (unsigned)a.refusal.line,
 *                 craneholt_sentence(a.refusal.number));
 */
#ifndef CRANEHOLT_H
#define CRANEHOLT_H

#include <stddef.h>
#include <stdint.h>

#ifdef __cplusplus
extern "C" {
#endif

#define CRANEHOLT_VERSION "1.5"

/* ---- Limits ---- */

#define CRANEHOLT_MAX_FILE   4294967295u /* bytes of a file, and of the data by its sizes */
#define CRANEHOLT_MAX_HEADER 65535       /* bytes of a header, its closing line included */
#define CRANEHOLT_MAX_LINES  1024        /* lines of a header: a table of so many entries is always enough */
#define CRANEHOLT_MAX_AXES   16
#define CRANEHOLT_MAX_SPACE  8           /* the largest dimension of a space */
#define CRANEHOLT_MAX_LISTED 65536       /* bytes of a file that craneholt_listing takes */
#define CRANEHOLT_MAX_LISTING 70111      /* bytes of a listing: so much room is always enough */
#define CRANEHOLT_HEADER_ROOM 512        /* bytes for a written file, with CRANEHOLT_SAMPLE_ROOM for each sample: */
#define CRANEHOLT_SAMPLE_ROOM 22         /* so much room is always enough */
#define CRANEHOLT_NAME_ROOM  65634       /* bytes for the name of a data file: so much room is always enough */
#define CRANEHOLT_ORIENTED_ROOM 8192     /* bytes for what craneholt_write_header writes: so much room is always enough */
#define CRANEHOLT_AXES_ROOM  512         /* bytes for axis records, CRANEHOLT_MAX_AXES of them: so much room is always enough */
#define CRANEHOLT_MAX_STEP   2147483647  /* the largest step that craneholt_sweep can be asked to allow */

/* ---- Refusals ---- */

enum craneholt_refusal_number {
    CRANEHOLT_FINE             = 0,  /* nothing is refused */
    CRANEHOLT_FILE_TOO_LONG    = 1,  /* a file has more than CRANEHOLT_MAX_FILE bytes */
    CRANEHOLT_NO_MAGIC         = 2,  /* line 1 is no NRRD magic, or has no ending */
    CRANEHOLT_HEADER_TOO_LONG  = 3,  /* a header line ends past byte CRANEHOLT_MAX_HEADER */
    CRANEHOLT_TOO_MANY_LINES   = 4,  /* the header has more than CRANEHOLT_MAX_LINES lines */
    CRANEHOLT_BAD_BYTE         = 5,  /* a line that is no comment holds a byte that is neither tab nor printable ASCII */
    CRANEHOLT_NO_MARK          = 6,  /* a line has neither ": " nor ":=", or its key is empty */
    CRANEHOLT_UNKNOWN_FIELD    = 7,  /* no field has this name */
    CRANEHOLT_NOT_IN_VERSION   = 8,  /* this version has no such field, or no key pairs; or a data file field with a
                                        pattern or LIST before version 4 */
    CRANEHOLT_REPEATED_FIELD   = 9,  /* the field was given before, in either spelling; or it is space after space
                                        dimension, or space dimension after space */
    CRANEHOLT_OUT_OF_ORDER     = 10, /* a per-axis field before dimension, or space units, space origin, space
                                        directions or measurement frame before space and space dimension */
    CRANEHOLT_BAD_DESCRIPTOR   = 11, /* the field may not say this, or no name follows LIST; with line 0: a byte skip of -1
                                        with text or hex, or data files that do not fit the sizes; writer: a number that
                                        cannot be written */
    CRANEHOLT_BAD_BACKSLASH    = 12, /* a backslash in a key or value that is neither "\n" nor "\\" */
    CRANEHOLT_NO_END           = 13, /* the bytes end before the header does, and there is no data file field */
    CRANEHOLT_MISSING_FIELD    = 14, /* dimension, type, encoding or sizes is missing, or endian where it matters */
    CRANEHOLT_EXTENT_TOO_LARGE = 15, /* sizes and type ask for more than CRANEHOLT_MAX_FILE bytes of data */
    CRANEHOLT_SKIP_PAST_END    = 16, /* line skip or byte skip passes the end of the file */
    CRANEHOLT_PLACE_TOO_LARGE  = 17, /* start and extent of the data do not fit 64 bits; with these limits it cannot be */
    CRANEHOLT_DATA_TOO_SHORT   = 18, /* raw: after the skips the file has fewer bytes than the data takes */
    CRANEHOLT_FLOAT_SAMPLES    = 19, /* samples of type float or double are not decoded, nor written */
    CRANEHOLT_BAD_SAMPLE       = 20, /* no number, out of its type's range, or more than 9223372036854775807 */
    CRANEHOLT_DATA_ENDS_EARLY  = 21, /* text or hex: the data ends before the last sample */
    CRANEHOLT_LENT_TOO_SHORT   = 22, /* the lent buffer, list or table is too short */
    CRANEHOLT_BAD_COORDINATES  = 23, /* not one coordinate for each axis, or one is not below its size; or a number of a
                                        sample that is not below the product of the sizes */
    CRANEHOLT_BAD_KEY          = 24, /* a key that no line can hold: empty, '#' first, bad byte, or with ": " or ":=" */
    CRANEHOLT_BAD_VALUE        = 25, /* a value with a byte that is neither tab, LF nor printable ASCII */
    CRANEHOLT_WRONG_TABLE      = 26, /* the lent line table is not that of the file */
    CRANEHOLT_WRONG_COUNT      = 27, /* writer: there are not as many samples as the sizes ask for */
    CRANEHOLT_NO_SWEEP         = 28, /* the file is no sweep of the roof rig, its key "utc offset" is missing or is not
                                        0 to 255 in digits alone, or the largest step is not 1 to CRANEHOLT_MAX_STEP */
    CRANEHOLT_NO_SUCH_FILE     = 29, /* there is no data file of this number */
    CRANEHOLT_SEVERAL_FILES    = 33  /* the data is in more than one file */
};

/* The line is that of the header (from 1) for the numbers 2 to 12 of a reading, or of the reading that craneholt_write_header
 * makes of its text, else 0. It is 0 also for the 11 of a byte skip of -1 with text or hex, and for that of data files that do
 * not fit the sizes. */
typedef struct craneholt_refusal {
    uint32_t number;
    uint32_t line;
} craneholt_refusal;

/* ---- Reading a header ---- */

enum { CRANEHOLT_ATTACHED = 0, CRANEHOLT_DETACHED = 1 };

enum {
    CRANEHOLT_INT8, CRANEHOLT_UINT8, CRANEHOLT_INT16, CRANEHOLT_UINT16, CRANEHOLT_INT32, CRANEHOLT_UINT32,
    CRANEHOLT_INT64, CRANEHOLT_UINT64, CRANEHOLT_FLOAT, CRANEHOLT_DOUBLE
};

enum { CRANEHOLT_RAW, CRANEHOLT_TEXT, CRANEHOLT_HEX };

enum { CRANEHOLT_LITTLE, CRANEHOLT_BIG, CRANEHOLT_NO_ENDIAN };

/* The spaces that have a name. Their dimension is 4 with time, else 3. */
enum {
    CRANEHOLT_RIGHT_ANTERIOR_SUPERIOR, CRANEHOLT_LEFT_ANTERIOR_SUPERIOR, CRANEHOLT_LEFT_POSTERIOR_SUPERIOR,
    CRANEHOLT_RIGHT_ANTERIOR_SUPERIOR_TIME, CRANEHOLT_LEFT_ANTERIOR_SUPERIOR_TIME, CRANEHOLT_LEFT_POSTERIOR_SUPERIOR_TIME,
    CRANEHOLT_SCANNER_XYZ, CRANEHOLT_SCANNER_XYZ_TIME,
    CRANEHOLT_3D_RIGHT_HANDED, CRANEHOLT_3D_LEFT_HANDED, CRANEHOLT_3D_RIGHT_HANDED_TIME, CRANEHOLT_3D_LEFT_HANDED_TIME,
    CRANEHOLT_NO_SPACE
};

typedef struct craneholt_reading {
    uint32_t version;    /* 1 to 5 */
    uint32_t form;       /* CRANEHOLT_ATTACHED or CRANEHOLT_DETACHED */
    uint32_t dimension;  /* 1 to 16 */
    uint32_t sampletype; /* CRANEHOLT_INT8 to CRANEHOLT_DOUBLE */
    uint32_t encoding;   /* CRANEHOLT_RAW, CRANEHOLT_TEXT or CRANEHOLT_HEX */
    uint32_t endian;     /* CRANEHOLT_LITTLE, CRANEHOLT_BIG, or CRANEHOLT_NO_ENDIAN where none is given */
    uint64_t sizes[CRANEHOLT_MAX_AXES]; /* axis 0, the fastest, first; 0 past the dimension */
    uint64_t lineskip;
    uint64_t byteskip;   /* 0 if it is -1: see fromend */
    uint64_t extent;     /* the product of the sizes times the bytes of a sample */
    uint64_t length;     /* bytes of the header, its closing empty line included */
    uint32_t lines;      /* lines of the header, its closing empty line included */
    uint8_t fromend;     /* 1: the byte skip is -1, so that the data is the last bytes of its file; else 0 */
    uint8_t origin;      /* 1: space origin is given: craneholt_origin; else 0 */
    uint8_t directions;  /* 1: space directions is given: craneholt_directions; else 0 */
    uint8_t frame;       /* 1: measurement frame is given: craneholt_frame; else 0 */
    uint32_t space;      /* CRANEHOLT_RIGHT_ANTERIOR_SUPERIOR to CRANEHOLT_3D_LEFT_HANDED_TIME, or CRANEHOLT_NO_SPACE where
                            the field space is not given */
    uint32_t spacedimension; /* 1 to 8, by the space's name or by space dimension; 0 where neither is given */
    uint32_t files;      /* how many data files there are: 1 where the header is attached or names one file */
    uint32_t fieldlines; /* lines before the names under LIST, the line of LIST included; as `lines` where there is no LIST */
} craneholt_reading;

typedef struct craneholt_read_answer {
    craneholt_refusal refusal;
    craneholt_reading reading;
} craneholt_read_answer;

/* The reading of a file's header. Refuses 1 to 15, in this order: 1, 2; line by line 3 to 12, for a name under LIST only 3, 4
 * and 5; 13; 11 at the line of LIST if no name follows it; 14; 11 with line 0 for a byte skip of -1 with text or hex; 15; 11 with
 * line 0 for data files that do not fit the sizes. */
craneholt_read_answer craneholt_read_header(const uint8_t *file, size_t file_length);

/* The same, and the line table: for each line of the header, the magic and the closing line included, the byte at which it
 * starts, `reading.lines` entries from the front of the table on; the rest of the table stays. Refuses also 22, if the
 * table has fewer entries (CRANEHOLT_MAX_LINES are always enough). The table is what craneholt_set_key asks for. */
craneholt_read_answer craneholt_read(const uint8_t *file, size_t file_length, void *table, size_t table_length);

/* ---- Fields and keys ---- */

enum craneholt_field {
    CRANEHOLT_FIELD_DIMENSION, CRANEHOLT_FIELD_TYPE, CRANEHOLT_FIELD_ENCODING, CRANEHOLT_FIELD_ENDIAN,
    CRANEHOLT_FIELD_SIZES, CRANEHOLT_FIELD_LINE_SKIP, CRANEHOLT_FIELD_BYTE_SKIP, CRANEHOLT_FIELD_DATA_FILE,
    CRANEHOLT_FIELD_BLOCK_SIZE, CRANEHOLT_FIELD_CONTENT, CRANEHOLT_FIELD_MIN, CRANEHOLT_FIELD_MAX,
    CRANEHOLT_FIELD_OLD_MIN, CRANEHOLT_FIELD_OLD_MAX, CRANEHOLT_FIELD_NUMBER, CRANEHOLT_FIELD_SAMPLE_UNITS,
    CRANEHOLT_FIELD_SPACE, CRANEHOLT_FIELD_SPACE_DIMENSION, CRANEHOLT_FIELD_SPACE_UNITS,
    CRANEHOLT_FIELD_SPACE_ORIGIN, CRANEHOLT_FIELD_SPACE_DIRECTIONS, CRANEHOLT_FIELD_MEASUREMENT_FRAME,
    CRANEHOLT_FIELD_SPACINGS, CRANEHOLT_FIELD_THICKNESSES, CRANEHOLT_FIELD_AXIS_MINS, CRANEHOLT_FIELD_AXIS_MAXS,
    CRANEHOLT_FIELD_CENTERS, CRANEHOLT_FIELD_LABELS, CRANEHOLT_FIELD_UNITS, CRANEHOLT_FIELD_KINDS
};

/* Where bytes lie in the file. `found` is 0, and start and length are 0, if the header has none. */
typedef struct craneholt_find_answer {
    craneholt_refusal refusal;
    uint8_t found;
    uint64_t start;
    uint64_t length;
} craneholt_find_answer;

/* The descriptor of a field, without spaces and tabs at its end; in the understood fields, which are dimension, type, encoding,
 * endian, sizes, line skip, byte skip, data file, space, space dimension, space origin, space directions, measurement frame,
 * centers, labels, units and kinds, also without those at its start. What an understood field may not say, nothing at all
 * included, is refused with 11; the other fields are carried, whatever they say. A number past the last field is answered as not
 * found, and a line under LIST gives no field. Refuses 1 to 15. */
craneholt_find_answer craneholt_find_field(const uint8_t *file, size_t file_length, uint32_t field);

/* The text of a key's value as it stands in the file: in the last line with the key, LF as "\n" and backslash as "\\".
 * The key is lent as it is meant, without escapes. A line under LIST is a name and holds no key. Refuses 1 to 15. */
craneholt_find_answer craneholt_find_key(const uint8_t *file, size_t file_length,
                                         const uint8_t *key, size_t key_length);

typedef struct craneholt_value_answer {
    craneholt_refusal refusal;
    uint8_t found;   /* 0: no line has the key, which is no refusal */
    uint64_t length; /* of the value */
} craneholt_value_answer;

/* The value of a key, escapes resolved, to the front of `out`; the bytes past it stay. Refuses 1 to 15, 22. A buffer of the
 * length that craneholt_find_key tells is always enough. */
craneholt_value_answer craneholt_copy_value(const uint8_t *file, size_t file_length,
                                            const uint8_t *key, size_t key_length,
                                            uint8_t *out, size_t out_length);

/* ---- Data and samples ---- */

typedef struct craneholt_data_answer {
    craneholt_refusal refusal;
    uint8_t second; /* 1: the data is in the second file */
    uint64_t start; /* in the file that holds it */
    uint64_t length;
} craneholt_data_answer;

/* Where the data lies: after the skips, `extent` bytes in raw, all the rest in text and hex. With a byte skip of -1, which only
 * raw may have, it is the last `extent` bytes of the file; 18 if fewer are left after the header and the skipped lines.
 * Refuses 1 to 15, 33 if there is more than one data file, 1 for the second file, 16, 18. */
craneholt_data_answer craneholt_data(const uint8_t *file, size_t file_length,
                                     const uint8_t *second, size_t second_length);

typedef struct craneholt_count_answer {
    craneholt_refusal refusal;
    uint64_t count; /* of samples: the product of the sizes; of decimals; of files; of axis records */
} craneholt_count_answer;

/* All samples, axis 0 fastest, to the front of `list`; what is past them stays. Refuses as craneholt_data, with 19 before 16,
 * then 22, then the earlier in the data of 20 and 21. The count is known before: the product of the first `reading.dimension`
 * numbers in `reading.sizes`; a list of so many samples is always enough. */
craneholt_count_answer craneholt_samples(const uint8_t *file, size_t file_length,
                                         const uint8_t *second, size_t second_length,
                                         void *list, size_t list_length);

/* What craneholt_samples would answer with a list of `room` samples; nothing is stored. */
craneholt_count_answer craneholt_check_samples(const uint8_t *file, size_t file_length,
                                               const uint8_t *second, size_t second_length, size_t room);

typedef struct craneholt_number_answer {
    craneholt_refusal refusal;
    uint64_t number; /* from 0, in the order of craneholt_samples */
} craneholt_number_answer;

/* The number of the sample at these coordinates, axis 0 first. Refuses 1 to 15, 23. */
craneholt_number_answer craneholt_sample_number(const uint8_t *file, size_t file_length,
                                                const void *coords, size_t coords_length);

/* ---- Data in several files ----
 *
 * The field data file of a detached header has three forms, the last two from version 4 on:
 *
 *     data file: sweep.raw               one file: the text is its name
 *     data file: slice%03d.raw 1 12 1    a pattern: slice001.raw, slice002.raw, up to slice012.raw
 *     data file: LIST                    a list: each line after this one is a name
 *
 * The text `LIST`, in capitals, and one that starts with `LIST ` are a list; another text with a `%` is a pattern; all else is a
 * name. A list and a pattern may end with one more number: how many axes one file covers.
 * - A pattern has no blank and one `%`, as `%d`, `%Nd` or `%0Nd` with N from 1 to 99 without leading zeros of its own. After it
 *   come first, last and step: at most 4294967295 each, the step not 0, with a `-` if it goes down. The name of file n has the
 *   number first + n * step in place of the `%` and what belongs to it; where there is an N, filled up on its left to N
 *   characters, by spaces or, after the 0, by zeros; it is never cut. The last file is that of the last number that does not go
 *   past `last`; there has to be at least one.
 * - A list ends where the header does, at its empty line or at the end of the bytes. A line of it is a name as it stands, blanks
 *   at both ends included. What looks like a field, a key pair or a comment there is a name too, and nothing else. Each is a line
 *   of the header, in its table and for its limits; there has to be at least one.
 * - All files have the same number of samples, which is their share; file 0 has the first ones. One file covers as many axes as
 *   the field says, else one less than the dimension; with a single axis the field has to say 1. If one file covers fewer axes
 *   than there are, there have to be as many files as the product of the sizes of the other axes, which are the slowest; if it
 *   covers all, the number of files has to divide the size of the slowest. Where this does not hold the header is refused with 11
 *   and line 0, also if a list or a pattern comes to one file.
 * - Line skip, byte skip, encoding and endian hold for each file by itself.
 *
 * A name that does not start with `/` is meant from the folder of the header, in every version; to open the files is left to
 * the caller. Where there is more than one, craneholt_data and the calls for samples refuse with 33: examples/merge.c shows how
 * to read the samples file by file. */

/* How many data files there are: `reading.files`. Refuses 1 to 15. */
craneholt_count_answer craneholt_files(const uint8_t *file, size_t file_length);

typedef struct craneholt_write_answer {
    craneholt_refusal refusal;
    uint64_t length; /* bytes written */
} craneholt_write_answer;

/* The name of data file n, counted from 0, to the front of `out`; the bytes past it stay, and no byte 0 is put after it. For an
 * attached header it is empty. Refuses 1 to 15, 29 if n is not below the number of files, 22 if the name does not fit
 * (CRANEHOLT_NAME_ROOM bytes are always enough). */
craneholt_write_answer craneholt_file_name(const uint8_t *file, size_t file_length, uint64_t n,
                                           uint8_t *out, size_t out_length);

typedef struct craneholt_share_answer {
    craneholt_refusal refusal;
    uint64_t file; /* the number of the data file, from 0 */
    uint64_t byte; /* where the sample starts in that file's share */
} craneholt_share_answer;

/* Which data file has the sample of this number, counted as by craneholt_sample_number, and at which byte of its share. The bytes
 * are those of raw, whatever the encoding, and skips are not counted in. Where there is one file, or the header is attached, it
 * is file 0 and the byte is the number times the bytes of a sample. Refuses 1 to 15, 23 if the number is not below the product of
 * the sizes. */
craneholt_share_answer craneholt_sample_file(const uint8_t *file, size_t file_length, uint64_t sample);

/* ---- Orientation ----
 *
 * A header says how its array lies in space by a space or a space dimension, which have to come before the others, and by
 * vectors: `space origin: (0.0,1.0,0.3)`, `space directions: none (1,0,0) (0,1,0) (0,0,3)`, `measurement frame:` with as many
 * vectors as the space has dimensions. A vector is in round brackets, its components parted by commas, with spaces and tabs
 * beside them as one likes; at least one blank stands between two vectors. A component is a decimal as strtod takes it, or nan,
 * inf or infinity with a sign or none, in any case; no hex, and no brackets after nan. */

enum { CRANEHOLT_NUMBER = 0, CRANEHOLT_NAN = 1, CRANEHOLT_INF = 2, CRANEHOLT_MINUS_INF = 3, CRANEHOLT_NONE = 4 };

/* A component of a vector, exactly as the header has it. Of the kind CRANEHOLT_NUMBER it is `number` times ten to the `power`:
 * the number has the digits that are written, zeros in front not counted and at most 18; the point is folded into the power,
 * which is then from -400 to 400. So `-1.50` is -150 and -2, `1e3` is 1 and 3, `0.0` is 0 and -1; minus zero is zero. With the other
 * kinds, for `nan`, `inf` and `-inf`, number and power are 0. A component that has more digits or another power is refused, so
 * nothing is rounded. The nearest double is what strtod makes of this text, which is the same in every locale:
 *
 *     char text[32];
 *     snprintf(text, sizeof text, "%llde%d", (long long)d.number, (int)d.power);
 *     double x = strtod(text, NULL);
 */
typedef struct craneholt_decimal {
    int64_t number;
    int32_t power;
    uint32_t kind; /* CRANEHOLT_NUMBER to CRANEHOLT_MINUS_INF; CRANEHOLT_NONE only where it is named below */
} craneholt_decimal;

/* Space origin: its components, `reading.spacedimension` decimals, to the front of `list`; what is past them stays. The count
 * is 0 where the field is not given. Refuses 1 to 15, 22. CRANEHOLT_MAX_SPACE decimals are always enough. */
craneholt_count_answer craneholt_origin(const uint8_t *file, size_t file_length, void *list, size_t list_length);

/* Space directions in the same way: for each axis, axis 0 first, `reading.spacedimension` decimals. Of an axis that has no
 * direction, `none` in the header, the first decimal is of the kind CRANEHOLT_NONE, and all else of them is 0.
 * CRANEHOLT_MAX_AXES times CRANEHOLT_MAX_SPACE decimals are always enough. */
craneholt_count_answer craneholt_directions(const uint8_t *file, size_t file_length, void *list, size_t list_length);

/* Measurement frame in the same way: a square matrix, column after column, each of `reading.spacedimension` decimals. What
 * stands in row j of column i is list[i * reading.spacedimension + j]. CRANEHOLT_MAX_SPACE times CRANEHOLT_MAX_SPACE decimals
 * are always enough. */
craneholt_count_answer craneholt_frame(const uint8_t *file, size_t file_length, void *list, size_t list_length);

/* ---- Axes ----
 *
 * What a header says of each axis beside its size. Each of these fields has to say it of every axis, axis 0 first, with spaces and
 * tabs between two axes:
 *
 *     centers: ??? cell cell node                   a centring each; centerings is the same field
 *     kinds: 3-vector space space time              a kind each; from version 3 on
 *     labels: "v" "x" "row \"b\"" ""                a string each
 *     units: "m/s" "mm" "mm" "s"                    a string each; space units is another field, which is carried
 *
 * - The centrings are `cell` and `node`, and `???` where it is not known. The kinds are the names of CRANEHOLT_KIND_DOMAIN to
 *   CRANEHOLT_KIND_3D_MASKED_MATRIX with `-` for `_`, as `2D-masked-symmetric-matrix`; `???` and `none` say that the kind is not
 *   known. All these words are taken in any case. That an axis has as many samples as its kind asks for is not looked at.
 * - A string stands in double quotes and may be empty. A quote right after a backslash is inside, so that `\"` does not end the
 *   string, and neither does the quote of `\\"`. There has to be a blank between two strings, and nothing else may stand beside
 *   them.
 * - 11 is refused at the line of the field for a count other than the dimension, also if the field says nothing at all, for a
 *   word that is not among these, for a quote that is not closed, for two strings without a blank between them, and for anything
 *   else beside a string. */

enum { CRANEHOLT_CENTRING_UNKNOWN, CRANEHOLT_CENTRING_CELL, CRANEHOLT_CENTRING_NODE };

enum {
    CRANEHOLT_KIND_UNKNOWN, CRANEHOLT_KIND_DOMAIN, CRANEHOLT_KIND_SPACE, CRANEHOLT_KIND_TIME, CRANEHOLT_KIND_LIST,
    CRANEHOLT_KIND_POINT, CRANEHOLT_KIND_VECTOR, CRANEHOLT_KIND_COVARIANT_VECTOR, CRANEHOLT_KIND_NORMAL, CRANEHOLT_KIND_STUB,
    CRANEHOLT_KIND_SCALAR, CRANEHOLT_KIND_COMPLEX, CRANEHOLT_KIND_2_VECTOR, CRANEHOLT_KIND_3_COLOR, CRANEHOLT_KIND_RGB_COLOR,
    CRANEHOLT_KIND_HSV_COLOR, CRANEHOLT_KIND_XYZ_COLOR, CRANEHOLT_KIND_4_COLOR, CRANEHOLT_KIND_RGBA_COLOR,
    CRANEHOLT_KIND_3_VECTOR, CRANEHOLT_KIND_3_GRADIENT, CRANEHOLT_KIND_3_NORMAL, CRANEHOLT_KIND_4_VECTOR,
    CRANEHOLT_KIND_QUATERNION, CRANEHOLT_KIND_2D_SYMMETRIC_MATRIX, CRANEHOLT_KIND_2D_MASKED_SYMMETRIC_MATRIX,
    CRANEHOLT_KIND_2D_MATRIX, CRANEHOLT_KIND_2D_MASKED_MATRIX, CRANEHOLT_KIND_3D_SYMMETRIC_MATRIX,
    CRANEHOLT_KIND_3D_MASKED_SYMMETRIC_MATRIX, CRANEHOLT_KIND_3D_MATRIX, CRANEHOLT_KIND_3D_MASKED_MATRIX
};

/* The record of an axis. A label or a unit is told by the place of its first byte in the file lent and by its length, without its
 * quotes and with its backslashes; its closing quote follows it, and no byte 0. Where the field is not given both are 0, and an
 * empty string has the place after its first quote and length 0. A setting of a key moves the places with the lines before them:
 * ask again after it. */
typedef struct craneholt_axis {
    uint64_t size;     /* as in `reading.sizes` */
    uint32_t centring; /* CRANEHOLT_CENTRING_UNKNOWN to CRANEHOLT_CENTRING_NODE */
    uint32_t kind;     /* CRANEHOLT_KIND_UNKNOWN to CRANEHOLT_KIND_3D_MASKED_MATRIX */
    uint32_t labelplace;
    uint32_t labellength;
    uint32_t unitplace;
    uint32_t unitlength;
} craneholt_axis;

/* The records of all axes, axis 0 first, to the front of `list`; what is past them stays. The count is `reading.dimension`.
 * Refuses 1 to 15, 22 if the list has fewer records. CRANEHOLT_MAX_AXES records, which are CRANEHOLT_AXES_ROOM bytes, are always
 * enough. */
craneholt_count_answer craneholt_axes(const uint8_t *file, size_t file_length, void *list, size_t list_length);

/* ---- Writing ---- */

/* An attached file with these samples to the front of `out`; the bytes past it stay. Endian counts only where samples of more
 * than one byte are written in raw or hex, but has to be CRANEHOLT_LITTLE or CRANEHOLT_BIG. Refuses 11 (version, type,
 * encoding, endian; sizes: none, over 16, or one that is 0), 15, 19, 27, 20, 1, 22, in this order. What is written is
 * read back by the calls above as it was given. CRANEHOLT_HEADER_ROOM bytes, and CRANEHOLT_SAMPLE_ROOM for each sample,
 * are always enough. */
craneholt_write_answer craneholt_write(uint64_t version, const void *sizes, size_t sizes_length,
                                       uint64_t sampletype, uint64_t encoding, uint64_t endian,
                                       const void *samples, size_t samples_length,
                                       uint8_t *out, size_t out_length);

/* What craneholt_write_header is given of the orientation: lend `&o, sizeof o`. The three counts have to be in their bounds; all
 * else of a field that is not given, and decimals past the counts, may be anything, but for the first decimal of a direction: of
 * the kind CRANEHOLT_NONE it says that the axis has none, whatever the count of components. Vectors are CRANEHOLT_MAX_SPACE
 * decimals apart here, and `reading.spacedimension` apart in the lists of the calls above: copy them one by one,
 *
 *     for (uint32_t i = 0; i < reading.dimension; i++)
 *         memcpy(o.directions[i], list + i * reading.spacedimension, reading.spacedimension * sizeof *list);
 */
enum {
    CRANEHOLT_GIVES_SPACE = 1, CRANEHOLT_GIVES_SPACE_DIMENSION = 2, CRANEHOLT_GIVES_ORIGIN = 4,
    CRANEHOLT_GIVES_DIRECTIONS = 8, CRANEHOLT_GIVES_FRAME = 16
};

typedef struct craneholt_orientation {
    uint64_t space;          /* CRANEHOLT_RIGHT_ANTERIOR_SUPERIOR to CRANEHOLT_3D_LEFT_HANDED_TIME */
    uint64_t spacedimension;
    uint32_t given;          /* which are: the sum of CRANEHOLT_GIVES_SPACE to CRANEHOLT_GIVES_FRAME */
    uint32_t components;     /* of each vector, at most 8; a vector ends earlier at a decimal of the kind CRANEHOLT_NONE */
    uint32_t axes;           /* how many directions, at most 16 */
    uint32_t columns;        /* how many columns of the frame, at most 8 */
    craneholt_decimal origin[CRANEHOLT_MAX_SPACE];
    craneholt_decimal directions[CRANEHOLT_MAX_AXES][CRANEHOLT_MAX_SPACE]; /* CRANEHOLT_NONE as an axis' first: it has none */
    craneholt_decimal frame[CRANEHOLT_MAX_SPACE][CRANEHOLT_MAX_SPACE];     /* columns first */
} craneholt_orientation;

/* The header that craneholt_write writes, with a line for each field given in the craneholt_orientation before its empty line,
 * to the front of `out`; the bytes past it stay. Lend NULL, 0 as orientation to give none. Float and double can be written too.
 * Refuses, in this order:
 * - 11 with line 0 as craneholt_write; also for a space given by a number past the last, for more components, axes or columns
 *   than there can be, for any other bit in `given`, and for an orientation of another length than 0 and its own;
 * - 8 with line 0 for a field that is not in the version;
 * - what craneholt_read_header refuses of the text, with the line there: 9 for both space and space dimension, 10 for vectors
 *   without either, 11 for a number of 19 digits, a power above 400 or below -400, a wrong number of vectors or components, a
 *   space dimension that is not 1 to 8, a component of an unknown kind, a size above 4294967295; 15;
 * - 22. CRANEHOLT_ORIENTED_ROOM bytes are always enough.
 * What is written is read back by the calls above as it was given: all of it up to a CRANEHOLT_NONE, with number and power 0
 * beside nan and the infinities, and the endian where it is needed. */
craneholt_write_answer craneholt_write_header(uint64_t version, const void *sizes, size_t sizes_length,
                                              uint64_t sampletype, uint64_t encoding, uint64_t endian,
                                              const void *orientation, size_t orientation_length,
                                              uint8_t *out, size_t out_length);

/* ---- Setting a key ---- */

typedef struct craneholt_set_answer {
    craneholt_refusal refusal;
    uint64_t length; /* of the file now: the used length for the next call */
    uint64_t count;  /* of the lines now: the count for the next call */
} craneholt_set_answer;

/* Sets a key to a value in the file in the first `used` bytes of a buffer; `table` and `count` are its line table and how
 * many lines it has, by craneholt_read or by the setting before. If the header has the key, the text of the last line with it
 * becomes key, ":=" and value, escaped; if not, such a line is put in after line 1, with line 1's ending. Everything else
 * stays as it is and in its order, names under LIST and the data too, moved if the length changes; the table is brought up to
 * date. Bytes that the file no longer takes become 0; bytes past the old and the new length stay, as do entries past the new count.
 * After any number of settings, some of them refused, a reading of the file gives each key the value accepted for it last.
 * Refuses: 22 if `used` passes the buffer; 1 to 15; 8 (version 1), 24, 25, 26; of the file as it would become 3, 4, 1, and 22
 * if it does not fit the buffer or its lines do not fit the table (CRANEHOLT_MAX_LINES entries are always enough, with a
 * buffer of `used` bytes, two for each byte of key and value, and 4). */
craneholt_set_answer craneholt_set_key(uint8_t *buffer, size_t buffer_length, size_t used,
                                       void *table, size_t table_length, size_t count,
                                       const uint8_t *key, size_t key_length,
                                       const uint8_t *value, size_t value_length);

/* ---- Listing ---- */

/* What the program `listing` prints for a file: lines of version, form, type, sizes, encoding, endian, start and extent of the
 * data, and each key with its value, or one line for a refusal, to the front of `out`; the bytes past it stay.
 * Refuses 22 if the text does not fit (CRANEHOLT_MAX_LISTING bytes are always enough). A file that is refused is no refusal of this call. */
craneholt_write_answer craneholt_listing(const uint8_t *file, size_t file_length, uint8_t *out, size_t out_length);

/* ---- The roof rig's sweeps ----
 *
 * A sweep is an attached file of two axes and type uint32, in any encoding. By the reading of its header it has
 * `reading.sizes[1]` rows of `reading.sizes[0]` samples each. A row starts with a stamp of a counter that wraps from 4294967295
 * to 0. The step to a row is its stamp less that of the row before it, around the wrap: `(uint32_t)(after - before)`, so that
 * from 4294967295 to 0 it is 1. It is right from 1 to the largest step that the caller allows, and wrong otherwise; equal stamps
 * are a step of 0, which is wrong. The first row has no step. The key `utc offset` has to say the offset: digits alone, zeros in
 * front as one likes, 0 to 255. The call is in an archive of its own: link with `-lcraneholt_roof`, and with `-lcraneholt` for
 * the other calls. */

typedef struct craneholt_sweep_answer {
    craneholt_refusal refusal;
    uint32_t offset; /* the value of the key: 0 to 255 */
    uint8_t wrong;   /* 1: a row has a wrong step; else 0 */
    uint64_t row;    /* the first row that has one, counted from 0: its stamp is sample row * reading.sizes[0]; 0 if none has */
} craneholt_sweep_answer;

/* The offset of a sweep and the first row with a wrong step; all samples, as craneholt_samples has them, to the front of `list`,
 * also where a step is wrong; what is past them stays. Refuses as craneholt_samples with no second file, in its order and with its
 * lines; then 28 if the file is not a sweep, if the last line with the key says no offset or no line has it, or if `largest` is not
 * 1 to CRANEHOLT_MAX_STEP. A list of as many samples as the product of the two sizes is always enough. */
craneholt_sweep_answer craneholt_sweep(const uint8_t *file, size_t file_length, void *list, size_t list_length,
                                       uint64_t largest);

#ifdef __cplusplus
}
#endif

/* A sentence for a number of refusal. */
static inline const char *craneholt_sentence(uint32_t number)
{
    switch (number) {
    case CRANEHOLT_FINE:             return "nothing is refused";
    case CRANEHOLT_FILE_TOO_LONG:    return "the file is longer than 4,294,967,295 bytes";
    case CRANEHOLT_NO_MAGIC:         return "the first line is not the magic of an NRRD file";
    case CRANEHOLT_HEADER_TOO_LONG:  return "the header is longer than 65,535 bytes";
    case CRANEHOLT_TOO_MANY_LINES:   return "the header has more than 1,024 lines";
    case CRANEHOLT_BAD_BYTE:         return "the line holds a byte that is neither tab nor printable ASCII";
    case CRANEHOLT_NO_MARK:          return "the line has neither ': ' nor ':=', or its key is empty";
    case CRANEHOLT_UNKNOWN_FIELD:    return "no field has this name";
    case CRANEHOLT_NOT_IN_VERSION:   return "this version of the format has no such field, no key pairs, or no pattern or LIST of data files";
    case CRANEHOLT_REPEATED_FIELD:   return "the field was given before, or space and space dimension are both given";
    case CRANEHOLT_OUT_OF_ORDER:     return "the field comes before the one that it needs (dimension; space or space dimension)";
    case CRANEHOLT_BAD_DESCRIPTOR:   return "the field cannot have this value, no name follows LIST, a byte skip of -1 stands "
                                            "with text or hex, or the number of data files does not fit the sizes";
    case CRANEHOLT_BAD_BACKSLASH:    return "a backslash is followed neither by 'n' nor by a backslash";
    case CRANEHOLT_NO_END:           return "the header has no end";
    case CRANEHOLT_MISSING_FIELD:    return "a needed field is missing (dimension, type, encoding, sizes, endian)";
    case CRANEHOLT_EXTENT_TOO_LARGE: return "the sizes ask for more than 4,294,967,295 bytes of data";
    case CRANEHOLT_SKIP_PAST_END:    return "line skip or byte skip passes the end of the file";
    case CRANEHOLT_PLACE_TOO_LARGE:  return "the end of the data does not fit 64 bits";
    case CRANEHOLT_DATA_TOO_SHORT:   return "the file has fewer bytes than its sizes ask for";
    case CRANEHOLT_FLOAT_SAMPLES:    return "samples of type float and double are not supported";
    case CRANEHOLT_BAD_SAMPLE:       return "a sample is not a number, is outside its type, or is above 9,223,372,036,854,775,807";
    case CRANEHOLT_DATA_ENDS_EARLY:  return "the data ends before the last sample";
    case CRANEHOLT_LENT_TOO_SHORT:   return "the lent buffer, list or table is too short";
    case CRANEHOLT_BAD_COORDINATES:  return "the coordinates are not one for each axis, each below its size, or the number of "
                                            "the sample is not below the product of the sizes";
    case CRANEHOLT_BAD_KEY:          return "no header line can hold this key";
    case CRANEHOLT_BAD_VALUE:        return "the value holds a byte that is neither tab, line feed nor printable ASCII";
    case CRANEHOLT_WRONG_TABLE:      return "the line table is not that of the file";
    case CRANEHOLT_WRONG_COUNT:      return "there are not as many samples as the sizes ask for";
    case CRANEHOLT_NO_SWEEP:         return "the file is not a sweep (attached, uint32, two axes), its key 'utc offset' is "
                                            "missing or is not 0 to 255 in digits alone, or the largest step is "
                                            "not 1 to 2,147,483,647";
    case CRANEHOLT_NO_SUCH_FILE:     return "there is no data file of this number";
    case CRANEHOLT_SEVERAL_FILES:    return "the data is in more than one file";
    default: return "no such refusal";
    }
}

#endif
