/*
 * A second implementation of every call of craneholt.h, written from the
 * rules and requests W1, W2, W4, W5 and W6 alone, to compare the library with.
 * It is plain and slow on purpose and allocates memory where that is the
 * simplest way. The parts below stand in the order of the rules' sections and
 * cite them; points that these leave open are taken as docs/DECISIONS.md says.
 */
#include "model.h"

#include <stdlib.h>
#include <string.h>

enum {
    AXES = 16,             /* the largest dimension */
    SPACE_AXES = 8,        /* the largest dimension of a space (W2) */
    DIGITS = 18,           /* the most digits of a decimal (W2) */
    POWER = 400,           /* its largest power, and with a minus its least */
    WIDTH = 99,            /* the most places that a number in a name is padded to (W5) */
    HEADER_LIMIT = 65535,  /* refusal 3 */
    LINE_LIMIT = 1024,     /* refusal 4 */
    LISTING_LIMIT = 65536  /* bytes of a file that is listed ("Trials") */
};

static const uint64_t LIMIT32 = 4294967295u; /* refusals 1 and 15, sizes, skips; where stamps wrap (W4); numbers of a pattern (W5) */
static const uint64_t OFFSET_LIMIT = 255;    /* refusal 28 (W4) */
static const uint64_t STEP_LIMIT = 2147483647;

/* ---- What is read, written and corrected: numbers in lent bytes */

/* Numbers as callers lend them ("What is read, written and corrected"). */
static uint64_t load(const void *bytes, size_t index, size_t width)
{
    const uint8_t *b = (const uint8_t *)bytes + index * width;
    uint64_t number = 0;
    for (size_t i = width; i > 0; i--)
        number = number << 8 | b[i - 1];
    return number;
}

static void store(void *bytes, size_t index, size_t width, uint64_t number)
{
    uint8_t *b = (uint8_t *)bytes + index * width;
    for (size_t i = 0; i < width; i++)
        b[i] = (uint8_t)(number >> 8 * i);
}

/* two's complement, without relying on the compiler's conversion */
static int64_t as_signed(uint64_t bits)
{
    return bits <= INT64_MAX ? (int64_t)bits : -(int64_t)(~bits) - 1;
}

/* ---- Lines and headers: lines */

/* A line: its text from start to text, its ending from text to end. */
struct line {
    size_t start, text, end;
};

/* "Lines and headers", point 1; start is below length. */
static struct line line_at(const uint8_t *file, size_t length, size_t start)
{
    const uint8_t *lf = memchr(file + start, '\n', length - start);
    struct line line = {start, length, length};
    if (lf == NULL)
        return line;
    line.text = (size_t)(lf - file);
    line.end = line.text + 1;
    if (line.text > start && file[line.text - 1] == '\r')
        line.text--;
    return line;
}

static int has_ending(struct line line)
{
    return line.text < line.end;
}

/* ---- Lines and headers: words and numbers */

static uint8_t lower(uint8_t byte)
{
    return byte >= 'A' && byte <= 'Z' ? (uint8_t)(byte + 32) : byte;
}

/* Without regard to case. */
static int is_word(const uint8_t *text, size_t length, const char *word)
{
    size_t i = 0;
    while (i < length && lower(text[i]) == lower((uint8_t)word[i]))
        i++;
    return i == length && word[i] == '\0';
}

static int is_digit(uint8_t byte)
{
    return byte >= '0' && byte <= '9';
}

/* True of no bytes too. */
static int all_digits(const uint8_t *text, size_t length)
{
    for (size_t i = 0; i < length; i++)
        if (!is_digit(text[i]))
            return 0;
    return 1;
}

static int is_space_or_tab(uint8_t byte)
{
    return byte == ' ' || byte == '\t';
}

/* The value of digits; whatever is above 64 bits counts as the largest. */
static uint64_t value_of_digits(const uint8_t *digits, size_t length)
{
    uint64_t value = 0;
    for (size_t i = 0; i < length; i++) {
        uint64_t digit = (uint64_t)(digits[i] - '0');
        if (value > (UINT64_MAX - digit) / 10)
            return UINT64_MAX;
        value = value * 10 + digit;
    }
    return value;
}

/* True if the text is exactly count numbers from low to high ("Understood fields"). */
static int read_numbers(const uint8_t *text, size_t length, size_t count,
                        uint64_t low, uint64_t high, uint64_t *numbers)
{
    size_t at = 0, found = 0;
    while (at < length) {
        size_t start = at;
        while (at < length && is_digit(text[at]))
            at++;
        if (at == start || (at < length && !is_space_or_tab(text[at])))
            return 0;
        uint64_t number = value_of_digits(text + start, at - start);
        if (found == count || number < low || number > high)
            return 0;
        numbers[found++] = number;
        while (at < length && is_space_or_tab(text[at]))
            at++;
    }
    return found == count;
}

/* ---- W2: decimals and vectors */

/* A numeral as it is read: digits without leading zeros, and how many follow the point. */
struct numeral {
    int64_t number;
    size_t digits, counted, after_point; /* all digits; those that count; those after the point */
};

/* The digits at a place of a text; the next place. More than DIGITS of them are counted but not kept. */
static size_t take_digits(const uint8_t *text, size_t length, size_t at, struct numeral *n)
{
    for (; at < length && is_digit(text[at]); at++) {
        n->digits++;
        n->counted += n->counted > 0 || text[at] != '0';
        if (n->counted <= DIGITS)
            n->number = 10 * n->number + (text[at] - '0');
    }
    return at;
}

static size_t after_sign(const uint8_t *text, size_t length, size_t at)
{
    return at < length && (text[at] == '-' || text[at] == '+') ? at + 1 : at;
}

/* What follows the digits and the point: nothing, or `e`, a sign or none, and digits. False if it is anything else. */
static int read_exponent(const uint8_t *text, size_t length, int64_t *exponent)
{
    enum { LARGE = 1000000 }; /* out of range, also less the digits after a point: no header has so many */
    size_t start = after_sign(text, length, 1);
    uint64_t size;
    *exponent = 0;
    if (length == 0)
        return 1;
    if (lower(text[0]) != 'e' || start >= length || !all_digits(text + start, length - start))
        return 0;
    size = value_of_digits(text + start, length - start);
    *exponent = size < LARGE ? (int64_t)size : LARGE;
    if (text[1] == '-')
        *exponent = -*exponent;
    return 1;
}

/* The digits as a whole number, the point folded into the power; false for nineteen digits or a power out of range. */
static int read_numeral(const uint8_t *text, size_t length, int negative, craneholt_decimal *decimal)
{
    struct numeral n = {0, 0, 0, 0};
    size_t at = take_digits(text, length, 0, &n);
    int64_t exponent, power;
    if (at < length && text[at] == '.') {
        size_t before = n.digits;
        at = take_digits(text, length, at + 1, &n);
        n.after_point = n.digits - before;
    }
    if (n.digits == 0 || !read_exponent(text + at, length - at, &exponent))
        return 0;
    power = exponent - (int64_t)n.after_point;
    if (n.counted > DIGITS || power < -POWER || power > POWER)
        return 0;
    decimal->number = negative ? -n.number : n.number;
    decimal->power = (int32_t)power;
    return 1;
}

/* A component: a decimal that strtod takes, not hex, or a mark. */
static int read_component(const uint8_t *text, size_t length, craneholt_decimal *decimal)
{
    size_t sign = after_sign(text, length, 0);
    int negative = sign == 1 && text[0] == '-';
    const uint8_t *rest = text + sign;
    *decimal = (craneholt_decimal){0, 0, CRANEHOLT_NUMBER};
    length -= sign;
    if (is_word(rest, length, "nan"))
        decimal->kind = CRANEHOLT_NAN;
    else if (is_word(rest, length, "inf") || is_word(rest, length, "infinity"))
        decimal->kind = negative ? CRANEHOLT_MINUS_INF : CRANEHOLT_INF;
    else
        return read_numeral(rest, length, negative, decimal);
    return 1;
}

/* The components between the brackets of a vector, blanks allowed beside each. */
static int read_components(const uint8_t *text, size_t length, size_t count, craneholt_decimal *decimals)
{
    size_t at = 0, found = 0;
    for (;;) {
        size_t start = at, end;
        while (at < length && text[at] != ',')
            at++;
        end = at;
        while (start < end && is_space_or_tab(text[start]))
            start++;
        while (start < end && is_space_or_tab(text[end - 1]))
            end--;
        if (found == count || !read_component(text + start, end - start, &decimals[found++]))
            return 0;
        if (at == length)
            return found == count;
        at++;
    }
}

/* A vector, or, in space directions, `none` for an axis without one. */
static int read_vector(const uint8_t *text, size_t length, size_t components, int may_be_none,
                       craneholt_decimal *decimals)
{
    if (may_be_none && is_word(text, length, "none")) {
        memset(decimals, 0, components * sizeof *decimals);
        decimals[0].kind = CRANEHOLT_NONE;
        return 1;
    }
    return length >= 2 && text[0] == '(' && text[length - 1] == ')'
           && read_components(text + 1, length - 2, components, decimals);
}

/* True if the text is exactly count vectors, parted by blanks; those between brackets do not part. */
static int read_vectors(const uint8_t *text, size_t length, size_t count, size_t components, int may_be_none,
                        craneholt_decimal *decimals)
{
    size_t at = 0, found = 0;
    while (at < length) {
        size_t start = at;
        int inside = 0;
        for (; at < length && (inside || !is_space_or_tab(text[at])); at++)
            inside = text[at] == '(' || (inside && text[at] != ')');
        if (found == count
            || !read_vector(text + start, at - start, components, may_be_none, decimals + components * found++))
            return 0;
        while (at < length && is_space_or_tab(text[at]))
            at++;
    }
    return found == count;
}

/* ---- Lines and headers: the fields */

enum field {
    DIMENSION, TYPE, ENCODING, ENDIAN, SIZES, LINE_SKIP, BYTE_SKIP, DATA_FILE,
    SPACE = 16, SPACE_DIMENSION, SPACE_UNITS, SPACE_ORIGIN, SPACE_DIRECTIONS, MEASUREMENT_FRAME,
    CENTERS = 26, LABELS, UNITS, KINDS
};

/* "Understood fields", "Carried fields", "Versions", "Order" */
const struct model_field model_fields[MODEL_FIELDS] = {
    {"dimension", NULL, 1, MODEL_UNDERSTOOD},
    {"type", NULL, 1, MODEL_UNDERSTOOD},
    {"encoding", NULL, 1, MODEL_UNDERSTOOD},
    {"endian", NULL, 1, MODEL_UNDERSTOOD},
    {"sizes", NULL, 1, MODEL_PER_AXIS | MODEL_UNDERSTOOD},
    {"line skip", "lineskip", 1, MODEL_UNDERSTOOD},
    {"byte skip", "byteskip", 1, MODEL_UNDERSTOOD},
    {"data file", "datafile", 1, MODEL_UNDERSTOOD},
    {"block size", "blocksize", 1, 0},
    {"content", NULL, 1, 0},
    {"min", NULL, 1, 0},
    {"max", NULL, 1, 0},
    {"old min", "oldmin", 1, 0},
    {"old max", "oldmax", 1, 0},
    {"number", NULL, 1, 0},
    {"sample units", "sampleunits", 4, 0},
    {"space", NULL, 4, MODEL_UNDERSTOOD},
    {"space dimension", NULL, 4, MODEL_UNDERSTOOD},
    {"space units", NULL, 4, MODEL_IN_SPACE},
    {"space origin", NULL, 4, MODEL_IN_SPACE | MODEL_UNDERSTOOD},
    {"space directions", NULL, 4, MODEL_PER_AXIS | MODEL_IN_SPACE | MODEL_UNDERSTOOD},
    {"measurement frame", NULL, 5, MODEL_IN_SPACE | MODEL_UNDERSTOOD},
    {"spacings", NULL, 1, MODEL_PER_AXIS},
    {"thicknesses", NULL, 4, MODEL_PER_AXIS},
    {"axis mins", "axismins", 1, MODEL_PER_AXIS},
    {"axis maxs", "axismaxs", 1, MODEL_PER_AXIS},
    {"centers", "centerings", 1, MODEL_PER_AXIS | MODEL_UNDERSTOOD},
    {"labels", NULL, 1, MODEL_PER_AXIS | MODEL_UNDERSTOOD},
    {"units", NULL, 1, MODEL_PER_AXIS | MODEL_UNDERSTOOD},
    {"kinds", NULL, 3, MODEL_PER_AXIS | MODEL_UNDERSTOOD},
};

enum { UINT32 = 5, FLOAT = 8 }; /* the type of a sweep (W4); the first without integer samples */

/* "Types (bytes)", with the values of each; a uint64 sample is none above
 * 9,223,372,036,854,775,807 (refusal 20) */
const struct model_type model_types[MODEL_TYPES] = {
    {{"int8", "signed char", "int8_t"}, 1, INT8_MIN, INT8_MAX},
    {{"uint8", "uchar", "unsigned char", "uint8_t"}, 1, 0, UINT8_MAX},
    {{"int16", "short", "short int", "signed short", "signed short int", "int16_t"},
     2, INT16_MIN, INT16_MAX},
    {{"uint16", "ushort", "unsigned short", "unsigned short int", "uint16_t"}, 2, 0, UINT16_MAX},
    {{"int32", "int", "signed int", "int32_t"}, 4, INT32_MIN, INT32_MAX},
    {{"uint32", "uint", "unsigned int", "uint32_t"}, 4, 0, UINT32_MAX},
    {{"int64", "longlong", "long long", "long long int", "signed long long",
      "signed long long int", "int64_t"}, 8, INT64_MIN, INT64_MAX},
    {{"uint64", "ulonglong", "unsigned long long", "unsigned long long int", "uint64_t"},
     8, 0, INT64_MAX},
    {{"float"}, 4, 0, 0},
    {{"double"}, 8, 0, 0},
};

enum { RAW, TEXT, HEX };
enum { LITTLE, BIG, NOT_GIVEN };

const char *const model_encodings[MODEL_ENCODINGS][3] = {{"raw"}, {"txt", "text", "ascii"}, {"hex"}};
static const char *const endians[] = {"little", "big"};

/* section 4 of the format's definition */
const struct model_space model_spaces[MODEL_SPACES] = {
    {{"right-anterior-superior", "RAS"}, 3},
    {{"left-anterior-superior", "LAS"}, 3},
    {{"left-posterior-superior", "LPS"}, 3},
    {{"right-anterior-superior-time", "RAST"}, 4},
    {{"left-anterior-superior-time", "LAST"}, 4},
    {{"left-posterior-superior-time", "LPST"}, 4},
    {{"scanner-xyz"}, 3},
    {{"scanner-xyz-time"}, 4},
    {{"3D-right-handed"}, 3},
    {{"3D-left-handed"}, 3},
    {{"3D-right-handed-time"}, 4},
    {{"3D-left-handed-time"}, 4},
};

/* W6 has these words itself: `none` is not among them */
const char *const model_centrings[MODEL_CENTRINGS][2] = {{"???"}, {"cell"}, {"node"}};

/* section 6 of the format's definition, its last row first */
const char *const model_kinds[MODEL_KINDS][2] = {
    {"???", "none"},
    {"domain"},
    {"space"},
    {"time"},
    {"list"},
    {"point"},
    {"vector"},
    {"covariant-vector"},
    {"normal"},
    {"stub"},
    {"scalar"},
    {"complex"},
    {"2-vector"},
    {"3-color"},
    {"RGB-color"},
    {"HSV-color"},
    {"XYZ-color"},
    {"4-color"},
    {"RGBA-color"},
    {"3-vector"},
    {"3-gradient"},
    {"3-normal"},
    {"4-vector"},
    {"quaternion"},
    {"2D-symmetric-matrix"},
    {"2D-masked-symmetric-matrix"},
    {"2D-matrix"},
    {"2D-masked-matrix"},
    {"3D-symmetric-matrix"},
    {"3D-masked-symmetric-matrix"},
    {"3D-matrix"},
    {"3D-masked-matrix"},
};

/* Whether endian is needed ("Needed"). */
static int needs_endian(uint64_t type, uint64_t encoding)
{
    return model_types[type].bytes > 1 && encoding != TEXT;
}

/* The extent ("Data and samples"), or anything above the limit once it is above. */
static uint64_t extent_of(const uint64_t *sizes, size_t count, size_t bytes)
{
    uint64_t extent = bytes;
    for (size_t i = 0; i < count; i++) {
        if (sizes[i] > LIMIT32 / extent)
            return LIMIT32 + 1;
        extent *= sizes[i];
    }
    return extent;
}

/* ---- Lines and headers: keys and values */

/* True if every backslash is one of the two escapes. */
static int escapes_are_good(const uint8_t *text, size_t length)
{
    for (size_t i = 0; i < length; i++)
        if (text[i] == '\\') {
            i++;
            if (i == length || (text[i] != 'n' && text[i] != '\\'))
                return 0;
        }
    return 1;
}

/* The bytes that an escaped text means, into out if it is given; answers how many. */
static size_t unescape(const uint8_t *text, size_t length, uint8_t *out)
{
    size_t count = 0;
    for (size_t i = 0; i < length; i++) {
        uint8_t byte = text[i];
        if (byte == '\\') {
            i++;
            byte = text[i] == 'n' ? '\n' : '\\';
        }
        if (out != NULL)
            out[count] = byte;
        count++;
    }
    return count;
}

/* ---- W5: the data file field */

enum { ONE_NAME, PATTERN, LIST };

/* What a data file field says. Of a pattern: the place of its `%`, the bytes of its conversion, to how many places a number is
 * padded and by what, and the numbers. */
struct files {
    int form;
    const uint8_t *text; /* the name, or the pattern */
    size_t length;
    size_t percent, conversion, width;
    uint8_t pad;
    uint64_t first, last, step; /* the step without its sign */
    int down;                   /* the step has a minus */
    int says_axes;
    uint64_t axes; /* that one file covers, if it says so */
};

/* "A data file descriptor that is LIST ..." tells the forms apart, LIST first. */
static int form_of_files(const uint8_t *text, size_t length)
{
    if (length >= 4 && memcmp(text, "LIST", 4) == 0 && (length == 4 || text[4] == ' '))
        return LIST;
    return memchr(text, '%', length) != NULL ? PATTERN : ONE_NAME;
}

/* What is left of a descriptor, to be taken token by token. */
struct tokens {
    const uint8_t *text;
    size_t length, at;
};

/* The next token, parted by blanks; false if there is none. */
static int next_token(struct tokens *t, const uint8_t **token, size_t *length)
{
    size_t start;
    while (t->at < t->length && is_space_or_tab(t->text[t->at]))
        t->at++;
    for (start = t->at; t->at < t->length && !is_space_or_tab(t->text[t->at]); )
        t->at++;
    *token = t->text + start;
    *length = t->at - start;
    return *length > 0;
}

/* The next token as a number in digits alone, up to a limit. */
static int next_number(struct tokens *t, uint64_t most, uint64_t *number)
{
    const uint8_t *token;
    size_t length;
    if (!next_token(t, &token, &length) || !all_digits(token, length))
        return 0;
    *number = value_of_digits(token, length);
    return *number <= most;
}

/* The step: perhaps a minus, then digits; not 0. */
static int next_step(struct tokens *t, struct files *f)
{
    const uint8_t *token;
    size_t length;
    if (!next_token(t, &token, &length))
        return 0;
    f->down = token[0] == '-';
    token += f->down;
    length -= (size_t)f->down;
    if (length == 0 || !all_digits(token, length))
        return 0;
    f->step = value_of_digits(token, length);
    return f->step > 0 && f->step <= LIMIT32;
}

/* Nothing more, or one number, of any size: how many axes one file covers. */
static int last_axes(struct tokens *t, struct files *f)
{
    const uint8_t *token;
    size_t length;
    if (!next_token(t, &token, &length))
        return 1;
    f->says_axes = 1;
    f->axes = value_of_digits(token, length);
    return all_digits(token, length) && !next_token(t, &token, &length);
}

/* The pattern's only `%`: `%d`, `%Nd` or `%0Nd`, N from 1 to 99 without leading zeros. */
static int understand_conversion(struct files *f)
{
    size_t at, digits;
    for (at = 0; at < f->length && f->text[at] != '%'; )
        at++;
    if (at == f->length || memchr(f->text + at + 1, '%', f->length - at - 1) != NULL)
        return 0;
    f->percent = at++;
    f->pad = at < f->length && f->text[at] == '0' ? '0' : ' ';
    if (f->pad == '0')
        at++;
    for (digits = at; at < f->length && is_digit(f->text[at]); )
        at++;
    f->width = (size_t)value_of_digits(f->text + digits, at - digits);
    f->conversion = at + 1 - f->percent;
    if (at == f->length || f->text[at] != 'd')
        return 0;
    if (at == digits)
        return f->pad == ' '; /* `%d`, not `%0d` */
    return f->text[digits] != '0' && f->width <= WIDTH;
}

/* How many numbers a pattern has, from first by the step up to last. */
static uint64_t pattern_count(const struct files *f)
{
    uint64_t low = f->down ? f->last : f->first, high = f->down ? f->first : f->last;
    return low > high ? 0 : (high - low) / f->step + 1;
}

/* refusal 11 of a data file field */
static int understand_files(struct files *f, const uint8_t *text, size_t length)
{
    struct tokens t = {text, length, 0};
    memset(f, 0, sizeof *f);
    f->form = form_of_files(text, length);
    f->text = text;
    f->length = length;
    if (f->form == ONE_NAME)
        return length > 0;
    next_token(&t, &f->text, &f->length); /* LIST, or the pattern */
    if (f->form == LIST)
        return last_axes(&t, f);
    return understand_conversion(f) && next_number(&t, LIMIT32, &f->first) && next_number(&t, LIMIT32, &f->last)
           && next_step(&t, f) && last_axes(&t, f) && pattern_count(f) > 0;
}

/* ---- W6: words and strings, one for each axis */

/* The row that has the word, or the number of rows. */
static uint32_t row_of(const uint8_t *word, size_t length, const char *const (*names)[2], uint32_t rows)
{
    uint32_t row = 0;
    while (row < rows && !is_word(word, length, names[row][0])
           && (names[row][1] == NULL || !is_word(word, length, names[row][1])))
        row++;
    return row;
}

/* True if the text is exactly count words of the rows, parted by blanks. */
static int read_words(const uint8_t *text, size_t length, size_t count, const char *const (*names)[2], uint32_t rows,
                      uint32_t *numbers)
{
    struct tokens t = {text, length, 0};
    const uint8_t *word;
    size_t word_length, found = 0;
    while (next_token(&t, &word, &word_length)) {
        uint32_t row = row_of(word, word_length, names, rows);
        if (found == count || row == rows)
            return 0;
        numbers[found++] = row;
    }
    return found == count;
}

/* A string: where it starts in its descriptor, after the quote, and its length. */
struct string {
    size_t start, length;
};

/* True if the text is exactly count strings in double quotes, parted by blanks; a quote right after a backslash is inside. */
static int read_strings(const uint8_t *text, size_t length, size_t count, struct string *strings)
{
    size_t at = 0, found = 0;
    while (at < length) {
        size_t start = at + 1;
        if (found == count || text[at] != '"')
            return 0;
        for (at = start; at < length && (text[at] != '"' || text[at - 1] == '\\'); )
            at++;
        if (at == length)
            return 0;
        strings[found++] = (struct string){start, at - start};
        at++;
        if (at < length && !is_space_or_tab(text[at]))
            return 0;
        while (at < length && is_space_or_tab(text[at]))
            at++;
    }
    return found == count;
}

/* ---- Lines and headers: reading */

struct pair {
    size_t key, mark, end; /* key text to the mark, value text from mark + 2 to end */
};

struct header {
    craneholt_refusal refusal;
    craneholt_reading reading;
    size_t starts[LINE_LIMIT]; /* of reading.lines lines */
    int present[MODEL_FIELDS];
    size_t descriptor[MODEL_FIELDS], descriptor_length[MODEL_FIELDS];
    struct pair pairs[LINE_LIMIT];
    size_t pair_count;
    craneholt_decimal origin[SPACE_AXES], directions[AXES * SPACE_AXES], frame[SPACE_AXES * SPACE_AXES];
    struct files files;
    struct line names[LINE_LIMIT]; /* under LIST */
    size_t name_count;
    uint32_t centrings[AXES], kinds[AXES]; /* 0 where the field is not given */
    struct string labels[AXES], units[AXES];
};

/* The version that the first line tells, or 0. */
static uint32_t version_of_magic(const uint8_t *text, size_t length)
{
    if (length == 9 && memcmp(text, "NRRD00.01", 9) == 0)
        return 1;
    if (length == 8 && memcmp(text, "NRRD000", 7) == 0 && text[7] >= '1' && text[7] <= '5')
        return (uint32_t)(text[7] - '0');
    return 0;
}

/* refusal 5 */
static int bytes_are_good(const uint8_t *text, size_t length)
{
    for (size_t i = 0; i < length; i++)
        if (text[i] != '\t' && (text[i] < 32 || text[i] > 126))
            return 0;
    return 1;
}

/* Where the line's mark stands, or end. */
static size_t find_mark(const uint8_t *file, size_t start, size_t end)
{
    for (size_t i = start; i + 1 < end; i++)
        if (file[i] == ':' && (file[i + 1] == ' ' || file[i + 1] == '='))
            return i;
    return end;
}

static int field_named(const uint8_t *name, size_t length)
{
    for (int f = 0; f < MODEL_FIELDS; f++)
        if (is_word(name, length, model_fields[f].name)
            || (model_fields[f].other != NULL && is_word(name, length, model_fields[f].other)))
            return f;
    return -1;
}

/* "Order" */
static int in_order(const struct header *h, int field)
{
    if ((model_fields[field].flags & MODEL_PER_AXIS) && !h->present[DIMENSION])
        return 0;
    if ((model_fields[field].flags & MODEL_IN_SPACE) && !h->present[SPACE] && !h->present[SPACE_DIMENSION])
        return 0;
    return 1;
}

static int understand_type(const uint8_t *text, size_t length, uint32_t *type)
{
    for (uint32_t t = 0; t < MODEL_TYPES; t++)
        for (size_t i = 0; i < 8 && model_types[t].names[i] != NULL; i++)
            if (is_word(text, length, model_types[t].names[i])) {
                *type = t;
                return 1;
            }
    return 0;
}

static int understand_encoding(const uint8_t *text, size_t length, uint32_t *encoding)
{
    for (uint32_t e = 0; e < MODEL_ENCODINGS; e++)
        for (size_t i = 0; i < 3 && model_encodings[e][i] != NULL; i++)
            if (is_word(text, length, model_encodings[e][i])) {
                *encoding = e;
                return 1;
            }
    return 0;
}

static int understand_endian(const uint8_t *text, size_t length, uint32_t *endian)
{
    for (uint32_t e = LITTLE; e <= BIG; e++)
        if (is_word(text, length, endians[e])) {
            *endian = e;
            return 1;
        }
    return 0;
}

static int understand_space(const uint8_t *text, size_t length, craneholt_reading *r)
{
    for (uint32_t s = 0; s < MODEL_SPACES; s++)
        for (size_t i = 0; i < 2 && model_spaces[s].names[i] != NULL; i++)
            if (is_word(text, length, model_spaces[s].names[i])) {
                r->space = s;
                r->spacedimension = model_spaces[s].dimension;
                return 1;
            }
    return 0;
}

/* The fields of the axis records (W6). */
static int understand_axes(struct header *h, int field, const uint8_t *text, size_t length)
{
    size_t axes = h->reading.dimension;
    if (field == CENTERS)
        return read_words(text, length, axes, model_centrings, MODEL_CENTRINGS, h->centrings);
    if (field == KINDS)
        return read_words(text, length, axes, model_kinds, MODEL_KINDS, h->kinds);
    return read_strings(text, length, axes, field == LABELS ? h->labels : h->units);
}

/* The fields of the orientation (W2). */
static int understand_orientation(struct header *h, int field, const uint8_t *text, size_t length)
{
    craneholt_reading *r = &h->reading;
    uint64_t number;
    switch (field) {
    case SPACE:
        return understand_space(text, length, r);
    case SPACE_DIMENSION:
        if (!read_numbers(text, length, 1, 1, SPACE_AXES, &number))
            return 0;
        r->spacedimension = (uint32_t)number;
        return 1;
    case SPACE_ORIGIN:
        return r->origin = read_vectors(text, length, 1, r->spacedimension, 0, h->origin);
    case SPACE_DIRECTIONS:
        return r->directions = read_vectors(text, length, r->dimension, r->spacedimension, 1, h->directions);
    default:
        return r->frame = read_vectors(text, length, r->spacedimension, r->spacedimension, 0, h->frame);
    }
}

/* refusal 11: takes the meaning of an understood field from its trimmed descriptor */
static int understand(struct header *h, int field, const uint8_t *text, size_t length)
{
    craneholt_reading *r = &h->reading;
    uint64_t number;
    switch (field) {
    case DIMENSION:
        if (!read_numbers(text, length, 1, 1, AXES, &number))
            return 0;
        r->dimension = (uint32_t)number;
        return 1;
    case TYPE:
        return understand_type(text, length, &r->sampletype);
    case ENCODING:
        return understand_encoding(text, length, &r->encoding);
    case ENDIAN:
        return understand_endian(text, length, &r->endian);
    case SIZES:
        return read_numbers(text, length, r->dimension, 1, LIMIT32, r->sizes);
    case LINE_SKIP:
        return read_numbers(text, length, 1, 0, LIMIT32, &r->lineskip);
    case BYTE_SKIP:
        r->fromend = length == 2 && text[0] == '-' && text[1] == '1'; /* W1 */
        return r->fromend || read_numbers(text, length, 1, 0, LIMIT32, &r->byteskip);
    case DATA_FILE:
        return understand_files(&h->files, text, length);
    case CENTERS:
    case LABELS:
    case UNITS:
    case KINDS:
        return understand_axes(h, field, text, length);
    default:
        return understand_orientation(h, field, text, length);
    }
}

/* Given before; of space and space dimension only one may stand (W2). */
static int is_second(const struct header *h, int field)
{
    return h->present[field] || (field == SPACE && h->present[SPACE_DIMENSION])
           || (field == SPACE_DIMENSION && h->present[SPACE]);
}

/* The first version with this field; of data file, with this form of it (W5). */
static uint32_t version_of_field(int field, const uint8_t *text, size_t length)
{
    return field == DATA_FILE && form_of_files(text, length) != ONE_NAME ? 4 : model_fields[field].version;
}

/* A field line: refusals 7 to 11 in this order, or 0. */
static uint32_t read_field(struct header *h, const uint8_t *file, struct line line, size_t mark)
{
    int field = field_named(file + line.start, mark - line.start);
    size_t start = mark + 2, end = line.text;
    if (field < 0)
        return 7;
    int understood = model_fields[field].flags & MODEL_UNDERSTOOD;
    /* blanks at the end drop, in understood fields also those in front */
    while (end > start && is_space_or_tab(file[end - 1]))
        end--;
    while (understood && start < end && is_space_or_tab(file[start]))
        start++;
    if (h->reading.version < version_of_field(field, file + start, end - start))
        return 8;
    if (is_second(h, field))
        return 9;
    if (!in_order(h, field))
        return 10;
    if (understood && !understand(h, field, file + start, end - start))
        return 11;
    h->present[field] = 1;
    h->descriptor[field] = start;
    h->descriptor_length[field] = end - start;
    return 0;
}

/* A key pair: refusals 8 and 12, or 0. */
static uint32_t read_pair(struct header *h, const uint8_t *file, struct line line, size_t mark)
{
    struct pair pair = {line.start, mark, line.text};
    if (h->reading.version < 2)
        return 8;
    if (!escapes_are_good(file + line.start, mark - line.start)
        || !escapes_are_good(file + mark + 2, line.text - (mark + 2)))
        return 12;
    h->pairs[h->pair_count++] = pair;
    return 0;
}

/* A line that is neither empty nor a comment: refusals 5 to 12, or 0. */
static uint32_t read_line(struct header *h, const uint8_t *file, struct line line)
{
    size_t mark = find_mark(file, line.start, line.text);
    if (!bytes_are_good(file + line.start, line.text - line.start))
        return 5;
    if (mark == line.text || (file[mark + 1] == '=' && mark == line.start))
        return 6;
    if (file[mark + 1] == ' ')
        return read_field(h, file, line, mark);
    return read_pair(h, file, line, mark);
}

/* True if the lines from here on are names (W5). */
static int names_follow(const struct header *h)
{
    return h->present[DATA_FILE] && h->files.form == LIST;
}

/* A name under LIST: refusal 5, or 0. */
static uint32_t read_name(struct header *h, const uint8_t *file, struct line line)
{
    if (!bytes_are_good(file + line.start, line.text - line.start))
        return 5;
    h->names[h->name_count++] = line;
    return 0;
}

/* The lines from the second on: refusals 3 to 13. */
static craneholt_refusal read_lines(struct header *h, const uint8_t *file, size_t length)
{
    craneholt_refusal refusal = {0, 0};
    craneholt_reading *r = &h->reading;
    while (r->length < length) {
        struct line line = line_at(file, length, r->length);
        refusal.line = r->lines + 1;
        refusal.number = line.end > HEADER_LIMIT ? 3 : refusal.line > LINE_LIMIT ? 4 : 0;
        if (refusal.number != 0)
            return refusal;
        h->starts[r->lines++] = line.start;
        r->length = line.end;
        if (line.text == line.start && has_ending(line))
            return (craneholt_refusal){0, 0};
        if (names_follow(h)) {
            refusal.number = read_name(h, file, line);
        } else {
            if (file[line.start] != '#')
                refusal.number = read_line(h, file, line);
            r->fieldlines = r->lines;
        }
        if (refusal.number != 0)
            return refusal;
    }
    /* a detached header needs no closing line */
    return (craneholt_refusal){h->present[DATA_FILE] ? 0 : 13, 0};
}

/* How many data files there are (W5). */
static uint64_t file_count(const struct header *h)
{
    if (names_follow(h))
        return h->name_count;
    return h->present[DATA_FILE] && h->files.form == PATTERN ? pattern_count(&h->files) : 1;
}

/* Whether the files fit the sizes, by the rule of section 3 of the format's definition; asked of a pattern and of LIST (W5). */
static int files_fit(const struct header *h)
{
    const craneholt_reading *r = &h->reading;
    uint64_t axes = h->files.says_axes ? h->files.axes : r->dimension - 1, files = file_count(h), not_covered = 1;
    if (axes < 1 || axes > r->dimension)
        return 0;
    for (size_t i = axes; i < r->dimension; i++)
        not_covered *= r->sizes[i];
    return (axes < r->dimension ? files == not_covered : r->sizes[axes - 1] % files == 0)
           && r->extent / model_types[r->sampletype].bytes % files == 0;
}

/* "Needed" */
static int needed_are_present(const struct header *h)
{
    return h->present[DIMENSION] && h->present[TYPE] && h->present[ENCODING] && h->present[SIZES]
           && (h->present[ENDIAN] || !needs_endian(h->reading.sampletype, h->reading.encoding));
}

/* The reading, refusals in the order of "Numbers of refusal". */
static craneholt_refusal read_refusal(struct header *h, const uint8_t *file, size_t length)
{
    craneholt_refusal refusal = {0, 0};
    craneholt_reading *r = &h->reading;
    if (length > LIMIT32)
        return (craneholt_refusal){1, 0};
    if (length > 0) {
        struct line line = line_at(file, length, 0);
        if (has_ending(line))
            r->version = version_of_magic(file, line.text);
        r->length = line.end;
    }
    if (r->version == 0)
        return (craneholt_refusal){2, 1};
    h->starts[r->lines++] = 0;
    refusal = read_lines(h, file, length);
    if (refusal.number != 0)
        return refusal;
    if (!names_follow(h))
        r->fieldlines = r->lines;
    else if (h->name_count == 0) /* W5: LIST without a name */
        return (craneholt_refusal){11, r->fieldlines};
    if (!needed_are_present(h))
        return (craneholt_refusal){14, 0};
    if (r->fromend && r->encoding != RAW) /* W1 */
        return (craneholt_refusal){11, 0};
    r->form = h->present[DATA_FILE] ? 1 : 0;
    r->extent = extent_of(r->sizes, r->dimension, model_types[r->sampletype].bytes);
    if (r->extent > LIMIT32)
        return (craneholt_refusal){15, 0};
    if (r->form == 1 && h->files.form != ONE_NAME && !files_fit(h)) /* W5 */
        return (craneholt_refusal){11, 0};
    r->files = (uint32_t)file_count(h); /* they divide the samples, which are below 2^32 */
    return (craneholt_refusal){0, 0};
}

/* The reading alone; true if it is not refused. */
static int read_header(struct header *h, const uint8_t *file, size_t length)
{
    memset(&h->reading, 0, sizeof h->reading);
    memset(h->present, 0, sizeof h->present);
    memset(h->centrings, 0, sizeof h->centrings);
    memset(h->kinds, 0, sizeof h->kinds);
    h->pair_count = h->name_count = 0;
    h->reading.endian = NOT_GIVEN;
    h->reading.space = MODEL_SPACES; /* not given */
    h->refusal = read_refusal(h, file, length);
    return h->refusal.number == 0;
}

craneholt_read_answer model_read_header(const uint8_t *file, size_t file_length)
{
    struct header h;
    craneholt_read_answer answer = {0};
    if (read_header(&h, file, file_length))
        answer.reading = h.reading;
    answer.refusal = h.refusal;
    return answer;
}

/* Stores the starts of the header's lines. */
craneholt_read_answer model_read(const uint8_t *file, size_t file_length, void *table, size_t table_length)
{
    struct header h;
    craneholt_read_answer answer = {0};
    if (read_header(&h, file, file_length) && h.reading.lines > table_length / 4)
        h.refusal.number = 22;
    answer.refusal = h.refusal;
    if (h.refusal.number != 0)
        return answer;
    answer.reading = h.reading;
    for (size_t i = 0; i < h.reading.lines; i++)
        store(table, i, 4, h.starts[i]);
    return answer;
}

craneholt_find_answer model_find_field(const uint8_t *file, size_t file_length, uint32_t field)
{
    struct header h;
    craneholt_find_answer answer = {0};
    if (read_header(&h, file, file_length) && field < MODEL_FIELDS && h.present[field]) {
        answer.found = 1;
        answer.start = h.descriptor[field];
        answer.length = h.descriptor_length[field];
    }
    answer.refusal = h.refusal;
    return answer;
}

static int pair_has_key(const uint8_t *file, const struct pair *pair, const uint8_t *key, size_t length)
{
    size_t text_length = pair->mark - pair->key;
    uint8_t *own;
    int same;
    if (text_length < length || text_length > 2 * length)
        return 0;
    own = malloc(text_length);
    same = unescape(file + pair->key, text_length, own) == length && memcmp(own, key, length) == 0;
    free(own);
    return same;
}

/* The last pair with the key, or NULL. */
static const struct pair *last_pair(const struct header *h, const uint8_t *file,
                                    const uint8_t *key, size_t length)
{
    for (size_t i = h->pair_count; i > 0; i--)
        if (pair_has_key(file, &h->pairs[i - 1], key, length))
            return &h->pairs[i - 1];
    return NULL;
}

craneholt_find_answer model_find_key(const uint8_t *file, size_t file_length,
                                     const uint8_t *key, size_t key_length)
{
    struct header h;
    const struct pair *pair = NULL;
    craneholt_find_answer answer = {0};
    if (read_header(&h, file, file_length))
        pair = last_pair(&h, file, key, key_length);
    answer.refusal = h.refusal;
    if (pair != NULL) {
        answer.found = 1;
        answer.start = pair->mark + 2;
        answer.length = pair->end - (pair->mark + 2);
    }
    return answer;
}

craneholt_value_answer model_copy_value(const uint8_t *file, size_t file_length,
                                        const uint8_t *key, size_t key_length,
                                        uint8_t *out, size_t out_length)
{
    craneholt_find_answer place = model_find_key(file, file_length, key, key_length);
    craneholt_value_answer answer = {place.refusal, 0, 0};
    size_t length;
    if (!place.found)
        return answer;
    length = unescape(file + place.start, place.length, NULL);
    if (length > out_length) {
        answer.refusal.number = 22;
        return answer;
    }
    answer.found = 1;
    answer.length = unescape(file + place.start, place.length, out);
    return answer;
}

/* ---- Data and samples: the place of the data */

/* The bytes not yet used of the file that holds the data. */
struct rest {
    const uint8_t *file;
    size_t at, length;
};

/* Passes the lines and bytes to skip; false if they pass the end. */
static int skip(struct rest *rest, uint64_t lines, uint64_t bytes)
{
    for (; lines > 0; lines--) {
        struct line line;
        if (rest->at == rest->length)
            return 0;
        line = line_at(rest->file, rest->length, rest->at);
        if (!has_ending(line))
            return 0;
        rest->at = line.end;
    }
    if (bytes > rest->length - rest->at)
        return 0;
    rest->at += bytes;
    return 1;
}

/* The data's place, refusals in the order of "Numbers of refusal". */
static int find_data(struct header *h, const uint8_t *file, size_t file_length,
                     const uint8_t *second, size_t second_length, int samples, struct rest *data)
{
    const craneholt_reading *r = &h->reading;
    if (!read_header(h, file, file_length))
        return 0;
    *data = (struct rest){file, r->length, file_length};
    if (r->form == 1)
        *data = (struct rest){second, 0, second_length};
    if (r->files > 1)
        h->refusal.number = 33; /* W5 */
    else if (data->length > LIMIT32)
        h->refusal.number = 1;
    else if (samples && r->sampletype >= FLOAT)
        h->refusal.number = 19;
    else if (!skip(data, r->lineskip, r->byteskip))
        h->refusal.number = 16;
    else if (r->encoding == RAW && data->length - data->at < r->extent)
        h->refusal.number = 18; /* 17 cannot come: both are below 2^32 */
    else if (r->fromend)
        data->at = data->length - r->extent; /* W1: the last bytes of the rest */
    else if (r->encoding == RAW)
        data->length = data->at + r->extent; /* raw has the extent, the others all the rest */
    return h->refusal.number == 0;
}

craneholt_data_answer model_data(const uint8_t *file, size_t file_length,
                                 const uint8_t *second, size_t second_length)
{
    struct header h;
    struct rest data;
    craneholt_data_answer answer = {0};
    if (find_data(&h, file, file_length, second, second_length, 0, &data)) {
        answer.second = h.reading.form == 1;
        answer.start = data.at;
        answer.length = data.length - data.at;
    }
    answer.refusal = h.refusal;
    return answer;
}

/* ---- Data and samples: the samples */

/* Blanks of text and hex data. */
static int is_blank(uint8_t byte)
{
    return (byte >= 9 && byte <= 13) || byte == 32;
}

static void skip_blanks(struct rest *rest)
{
    while (rest->at < rest->length && is_blank(rest->file[rest->at]))
        rest->at++;
}

static int hex_digit(uint8_t byte)
{
    if (is_digit(byte))
        return byte - '0';
    byte = lower(byte);
    return byte >= 'a' && byte <= 'f' ? byte - 'a' + 10 : -1;
}

/* The next hex byte: 0, 20 or 21. */
static uint32_t hex_byte(struct rest *rest, uint8_t *byte)
{
    int value = 0;
    for (int i = 0; i < 2; i++) {
        skip_blanks(rest);
        if (rest->at == rest->length)
            return 21;
        int digit = hex_digit(rest->file[rest->at]);
        if (digit < 0)
            return 20;
        value = value * 16 + digit;
        rest->at++;
    }
    *byte = (uint8_t)value;
    return 0;
}

/* The value of a sample's bytes, judged when they are all there. */
static uint32_t sample_of_bytes(const craneholt_reading *r, const uint8_t *bytes, int64_t *sample)
{
    size_t width = model_types[r->sampletype].bytes;
    uint64_t bits = 0;
    for (size_t i = 0; i < width; i++)
        bits = bits << 8 | bytes[r->endian == BIG ? i : width - 1 - i];
    if (model_types[r->sampletype].low == 0)
        return (*sample = as_signed(bits)) < 0 ? 20 : 0;
    if (bits >> (8 * width - 1) != 0)
        bits |= ~(uint64_t)0 << (8 * width - 1);
    *sample = as_signed(bits);
    return 0;
}

/* A token: 0, or 20 if it is no number or outside the type. */
static uint32_t sample_of_token(const craneholt_reading *r, const uint8_t *token, size_t length, int64_t *sample)
{
    int negative = token[0] == '-';
    size_t sign = negative || token[0] == '+';
    uint64_t low = (uint64_t)model_types[r->sampletype].low, high = (uint64_t)model_types[r->sampletype].high;
    uint64_t value, most = negative ? ~low + 1 : high; /* the type's largest without sign; -0 is 0 */
    if (length == sign || !all_digits(token + sign, length - sign))
        return 20;
    value = value_of_digits(token + sign, length - sign);
    if (value > most)
        return 20;
    *sample = as_signed(negative ? ~value + 1 : value);
    return 0;
}

/* The next sample of the data: 0, 20 or 21. */
static uint32_t next_sample(const craneholt_reading *r, struct rest *rest, int64_t *sample)
{
    size_t width = model_types[r->sampletype].bytes, start;
    uint8_t bytes[8];
    if (r->encoding == TEXT) {
        /* blanks, then a token up to the next blank */
        skip_blanks(rest);
        for (start = rest->at; rest->at < rest->length && !is_blank(rest->file[rest->at]); )
            rest->at++;
        if (rest->at == start)
            return 21;
        return sample_of_token(r, rest->file + start, rest->at - start, sample);
    }
    for (size_t i = 0; i < width; i++) {
        uint32_t refused = 0;
        if (r->encoding == HEX)
            refused = hex_byte(rest, &bytes[i]);
        else
            bytes[i] = rest->file[rest->at++];
        if (refused)
            return refused;
    }
    return sample_of_bytes(r, bytes, sample);
}

/* Reads the wanted samples, and stores them if a list is given: 0, 20 or 21. */
static uint32_t read_samples(const craneholt_reading *r, struct rest rest, uint64_t wanted, void *list)
{
    for (uint64_t i = 0; i < wanted; i++) {
        int64_t sample;
        uint32_t refused = next_sample(r, &rest, &sample);
        if (refused)
            return refused;
        if (list != NULL)
            store(list, i, 8, (uint64_t)sample);
    }
    return 0;
}

/* The samples once the data is found; the list, if given, is written only after
 * all of them are known to be good. */
static craneholt_count_answer take_samples(const uint8_t *file, size_t file_length,
                                           const uint8_t *second, size_t second_length,
                                           size_t room, void *list)
{
    struct header h;
    struct rest data;
    uint64_t wanted = 0;
    if (find_data(&h, file, file_length, second, second_length, 1, &data)) {
        wanted = h.reading.extent / model_types[h.reading.sampletype].bytes;
        h.refusal.number = wanted > room ? 22 : read_samples(&h.reading, data, wanted, NULL);
    }
    if (h.refusal.number != 0)
        return (craneholt_count_answer){h.refusal, 0};
    if (list != NULL)
        read_samples(&h.reading, data, wanted, list);
    return (craneholt_count_answer){h.refusal, wanted};
}

craneholt_count_answer model_check_samples(const uint8_t *file, size_t file_length,
                                           const uint8_t *second, size_t second_length, size_t room)
{
    return take_samples(file, file_length, second, second_length, room, NULL);
}

craneholt_count_answer model_samples(const uint8_t *file, size_t file_length,
                                     const uint8_t *second, size_t second_length,
                                     void *list, size_t list_length)
{
    return take_samples(file, file_length, second, second_length, list_length / 8, list);
}

/* ---- Data and samples: coordinates */

/* The number of a sample, slowest axis first. */
craneholt_number_answer model_sample_number(const uint8_t *file, size_t file_length,
                                            const void *coords, size_t coords_length)
{
    struct header h;
    uint64_t number = 0;
    if (read_header(&h, file, file_length) && coords_length / 8 != h.reading.dimension)
        h.refusal.number = 23;
    for (size_t axis = h.reading.dimension; axis > 0 && h.refusal.number == 0; axis--) {
        uint64_t coord = load(coords, axis - 1, 8), size = h.reading.sizes[axis - 1];
        if (coord >= size)
            h.refusal.number = 23;
        number = coord + size * number;
    }
    return (craneholt_number_answer){h.refusal, h.refusal.number == 0 ? number : 0};
}

/* ---- W2: the orientation */

/* Stores decimals as callers have them; refusal 22 if the list is too short. */
static craneholt_count_answer hand_decimals(craneholt_refusal refusal, const craneholt_decimal *decimals, size_t count,
                                            void *list, size_t list_length)
{
    if (refusal.number == 0 && count > list_length / 16)
        refusal.number = 22;
    if (refusal.number != 0)
        return (craneholt_count_answer){refusal, 0};
    for (size_t i = 0; i < count; i++) {
        store(list, 2 * i, 8, (uint64_t)decimals[i].number);
        store(list, 4 * i + 2, 4, (uint32_t)decimals[i].power);
        store(list, 4 * i + 3, 4, decimals[i].kind);
    }
    return (craneholt_count_answer){refusal, count};
}

craneholt_count_answer model_origin(const uint8_t *file, size_t file_length, void *list, size_t list_length)
{
    struct header h;
    size_t count = read_header(&h, file, file_length) && h.reading.origin ? h.reading.spacedimension : 0;
    return hand_decimals(h.refusal, h.origin, count, list, list_length);
}

craneholt_count_answer model_directions(const uint8_t *file, size_t file_length, void *list, size_t list_length)
{
    struct header h;
    size_t count = read_header(&h, file, file_length) && h.reading.directions ? h.reading.spacedimension : 0;
    return hand_decimals(h.refusal, h.directions, count * h.reading.dimension, list, list_length);
}

craneholt_count_answer model_frame(const uint8_t *file, size_t file_length, void *list, size_t list_length)
{
    struct header h;
    size_t count = read_header(&h, file, file_length) && h.reading.frame ? h.reading.spacedimension : 0;
    return hand_decimals(h.refusal, h.frame, count * count, list, list_length);
}

/* ---- W6: the axis records */

/* Place in the file and length of the string of an axis; 0 and 0 where the field is not given. */
static struct string string_in_file(const struct header *h, int field, const struct string *strings, size_t axis)
{
    if (!h->present[field])
        return (struct string){0, 0};
    return (struct string){h->descriptor[field] + strings[axis].start, strings[axis].length};
}

/* A record: 8 bytes, and six numbers of 4. */
static void store_axis(const struct header *h, size_t axis, void *list)
{
    struct string label = string_in_file(h, LABELS, h->labels, axis), unit = string_in_file(h, UNITS, h->units, axis);
    const uint64_t numbers[] = {h->centrings[axis], h->kinds[axis], label.start, label.length, unit.start, unit.length};
    store(list, 4 * axis, 8, h->reading.sizes[axis]);
    for (size_t i = 0; i < 6; i++)
        store(list, 8 * axis + 2 + i, 4, numbers[i]);
}

craneholt_count_answer model_axes(const uint8_t *file, size_t file_length, void *list, size_t list_length)
{
    struct header h;
    if (read_header(&h, file, file_length) && h.reading.dimension > list_length / 32)
        h.refusal.number = 22;
    if (h.refusal.number != 0)
        return (craneholt_count_answer){h.refusal, 0};
    for (size_t axis = 0; axis < h.reading.dimension; axis++)
        store_axis(&h, axis, list);
    return (craneholt_count_answer){h.refusal, h.reading.dimension};
}

/* ---- Texts that are put together */

struct text {
    uint8_t *bytes;
    size_t length;
};

/* A text with room for as many bytes as will ever be put. */
static struct text new_text(size_t room)
{
    return (struct text){malloc(room), 0};
}

static void put_bytes(struct text *text, const uint8_t *bytes, size_t length)
{
    memcpy(text->bytes + text->length, bytes, length);
    text->length += length;
}

static void put_byte(struct text *text, uint8_t byte)
{
    put_bytes(text, &byte, 1);
}

static void put_word(struct text *text, const char *word)
{
    put_bytes(text, (const uint8_t *)word, strlen(word));
}

static void put_number(struct text *text, uint64_t number)
{
    if (number >= 10)
        put_number(text, number / 10);
    put_byte(text, (uint8_t)('0' + number % 10));
}

static void put_signed(struct text *text, int64_t number)
{
    if (number < 0)
        put_byte(text, '-');
    put_number(text, number < 0 ? ~(uint64_t)number + 1 : (uint64_t)number);
}

/* A line of one word. */
static void put_line(struct text *text, const char *name, const char *word)
{
    put_word(text, name);
    put_word(text, word);
    put_byte(text, '\n');
}

/* A line of numbers, each after a blank. */
static void put_numbers(struct text *text, const char *name, const uint64_t *numbers, size_t count)
{
    put_word(text, name);
    for (size_t i = 0; i < count; i++) {
        put_byte(text, ' ');
        put_number(text, numbers[i]);
    }
    put_byte(text, '\n');
}

/* Hands a text over: 22 if out is too short; what is past it stays. */
static craneholt_write_answer hand_over(struct text text, uint8_t *out, size_t out_length)
{
    craneholt_write_answer answer = {{0, 0}, 0};
    if (text.length > LIMIT32)
        answer.refusal.number = 1;
    else if (text.length > out_length)
        answer.refusal.number = 22;
    else {
        memcpy(out, text.bytes, text.length);
        answer.length = text.length;
    }
    free(text.bytes);
    return answer;
}

/* ---- W5: data in several files */

craneholt_count_answer model_files(const uint8_t *file, size_t file_length)
{
    struct header h;
    uint64_t files = read_header(&h, file, file_length) ? h.reading.files : 0;
    return (craneholt_count_answer){h.refusal, files};
}

/* A number, padded on the left, never cut. */
static void put_padded(struct text *text, uint64_t number, size_t width, uint8_t pad)
{
    uint8_t digits[20];
    struct text own = {digits, 0};
    put_number(&own, number);
    for (size_t places = own.length; places < width; places++)
        put_byte(text, pad);
    put_bytes(text, digits, own.length);
}

/* The name of a file that is there; an attached header's is empty. */
static void put_name(struct text *text, const struct header *h, const uint8_t *file, uint64_t n)
{
    const struct files *f = &h->files;
    if (h->reading.form == 0)
        return;
    if (f->form == LIST) {
        put_bytes(text, file + h->names[n].start, h->names[n].text - h->names[n].start);
        return;
    }
    if (f->form == PATTERN) {
        size_t rest = f->percent + f->conversion;
        put_bytes(text, f->text, f->percent);
        put_padded(text, f->down ? f->first - n * f->step : f->first + n * f->step, f->width, f->pad);
        put_bytes(text, f->text + rest, f->length - rest);
        return;
    }
    put_bytes(text, f->text, f->length);
}

craneholt_write_answer model_file_name(const uint8_t *file, size_t file_length, uint64_t n,
                                       uint8_t *out, size_t out_length)
{
    struct header h;
    struct text text;
    if (read_header(&h, file, file_length) && n >= h.reading.files)
        h.refusal.number = 29;
    if (h.refusal.number != 0)
        return (craneholt_write_answer){h.refusal, 0};
    text = new_text(HEADER_LIMIT + WIDTH); /* a name or a pattern is shorter than the header, and a number has at most WIDTH places */
    put_name(&text, &h, file, n);
    return hand_over(text, out, out_length);
}

/* All shares are equal. */
craneholt_share_answer model_sample_file(const uint8_t *file, size_t file_length, uint64_t sample)
{
    struct header h;
    uint64_t bytes, samples, share;
    if (!read_header(&h, file, file_length))
        return (craneholt_share_answer){h.refusal, 0, 0};
    bytes = model_types[h.reading.sampletype].bytes;
    samples = h.reading.extent / bytes;
    share = samples / h.reading.files;
    if (sample >= samples) {
        h.refusal.number = 23;
        return (craneholt_share_answer){h.refusal, 0, 0};
    }
    return (craneholt_share_answer){h.refusal, sample / share, sample % share * bytes};
}

/* ---- Writer */

/* What the writer is given, numbers loaded from their bytes but for the samples. */
struct volume {
    uint64_t version, type, encoding, endian;
    size_t axes;
    uint64_t sizes[AXES];
    const void *samples;
    size_t sample_count;
};

/* The writer's 11. */
static int volume_is_bad(const struct volume *v)
{
    if (v->version < 1 || v->version > 5 || v->axes < 1 || v->axes > AXES)
        return 1;
    if (v->type >= MODEL_TYPES || v->encoding >= MODEL_ENCODINGS || v->endian > BIG)
        return 1;
    for (size_t i = 0; i < v->axes; i++)
        if (v->sizes[i] == 0)
            return 1;
    return 0;
}

/* What the writer refuses before it knows the length. */
static uint32_t volume_refusal(const struct volume *v)
{
    uint64_t extent;
    if (volume_is_bad(v))
        return 11;
    extent = extent_of(v->sizes, v->axes, model_types[v->type].bytes);
    if (extent > LIMIT32)
        return 15;
    if (v->type >= FLOAT)
        return 19;
    if (v->sample_count != extent / model_types[v->type].bytes)
        return 27;
    for (size_t i = 0; i < v->sample_count; i++) {
        int64_t sample = as_signed(load(v->samples, i, 8));
        if (sample < model_types[v->type].low || sample > model_types[v->type].high)
            return 20;
    }
    return 0;
}

/* The written header, but for its empty line. */
static void put_fields(struct text *text, const struct volume *v)
{
    uint64_t dimension = v->axes;
    put_word(text, "NRRD000");
    put_number(text, v->version);
    put_byte(text, '\n');
    put_line(text, "type: ", model_types[v->type].names[0]);
    put_numbers(text, "dimension:", &dimension, 1);
    put_numbers(text, "sizes:", v->sizes, v->axes);
    put_line(text, "encoding: ", model_encodings[v->encoding][0]);
    if (needs_endian(v->type, v->encoding))
        put_line(text, "endian: ", endians[v->endian]);
}

/* One sample: its bytes in raw, two digits each in hex, one line in text. */
static void put_sample(struct text *text, const struct volume *v, uint64_t bits)
{
    static const char digits[] = "0123456789abcdef";
    size_t width = model_types[v->type].bytes;
    if (v->encoding == TEXT) {
        put_signed(text, as_signed(bits));
        put_byte(text, '\n');
        return;
    }
    for (size_t i = 0; i < width; i++) {
        uint8_t byte = (uint8_t)(bits >> 8 * (v->endian == BIG ? width - 1 - i : i));
        if (v->encoding == RAW) {
            put_byte(text, byte);
        } else {
            put_byte(text, (uint8_t)digits[byte / 16]);
            put_byte(text, (uint8_t)digits[byte % 16]);
        }
    }
}

static void load_sizes(struct volume *v, const void *sizes, size_t sizes_length)
{
    v->axes = sizes_length / 8;
    for (size_t i = 0; i < v->axes && i < AXES; i++)
        v->sizes[i] = load(sizes, i, 8);
}

craneholt_write_answer model_write(uint64_t version, const void *sizes, size_t sizes_length,
                                   uint64_t sampletype, uint64_t encoding, uint64_t endian,
                                   const void *samples, size_t samples_length,
                                   uint8_t *out, size_t out_length)
{
    struct volume v = {version, sampletype, encoding, endian, 0, {0}, samples, samples_length / 8};
    craneholt_write_answer refused = {{0, 0}, 0};
    struct text text;
    load_sizes(&v, sizes, sizes_length);
    refused.refusal.number = volume_refusal(&v);
    if (refused.refusal.number != 0)
        return refused;
    text = new_text(1024 + v.sample_count * 21); /* a text sample has at most 21 bytes */
    put_fields(&text, &v);
    put_byte(&text, '\n');
    for (size_t i = 0; i < v.sample_count; i++)
        put_sample(&text, &v, load(samples, i, 8));
    if (encoding == HEX)
        put_byte(&text, '\n'); /* the line ending of hex data */
    return hand_over(text, out, out_length);
}

/* ---- W2: the header writer */

/* The lent orientation: nothing is given where nothing is lent; false where it is 11. */
static int load_orientation(craneholt_orientation *o, const void *lent, size_t length)
{
    memset(o, 0, sizeof *o);
    if (length == sizeof *o)
        memcpy(o, lent, length);
    else if (length != 0)
        return 0;
    return o->given < 32 && o->components <= SPACE_AXES && o->axes <= AXES && o->columns <= SPACE_AXES
           && (!(o->given & CRANEHOLT_GIVES_SPACE) || o->space < MODEL_SPACES);
}

/* refusal 8 of the header writer: the measurement frame came later than the other four */
static int is_in_version(const craneholt_orientation *o, uint64_t version)
{
    int field = o->given & CRANEHOLT_GIVES_FRAME ? MEASUREMENT_FRAME : SPACE;
    return o->given == 0 || version >= model_fields[field].version;
}

static void put_component(struct text *text, const craneholt_decimal *decimal)
{
    static const char *const marks[] = {"nan", "inf", "-inf"};
    if (decimal->kind == CRANEHOLT_NUMBER) {
        put_signed(text, decimal->number);
        put_byte(text, 'e');
        put_signed(text, decimal->power);
    } else {
        put_word(text, decimal->kind <= CRANEHOLT_MINUS_INF ? marks[decimal->kind - 1] : "none"); /* no decimal */
    }
}

/* A vector of so many components, or up to the first that is none. */
static void put_vector(struct text *text, const craneholt_decimal *decimals, size_t count)
{
    put_byte(text, '(');
    for (size_t i = 0; i < count && decimals[i].kind != CRANEHOLT_NONE; i++) {
        if (i > 0)
            put_byte(text, ',');
        put_component(text, &decimals[i]);
    }
    put_byte(text, ')');
}

/* A line of vectors with one space between two of them. */
static void put_vectors(struct text *text, const char *name, const craneholt_decimal (*vectors)[SPACE_AXES],
                        size_t count, size_t components, int may_be_none)
{
    put_word(text, name);
    for (size_t i = 0; i < count; i++) {
        if (i > 0)
            put_byte(text, ' ');
        if (may_be_none && vectors[i][0].kind == CRANEHOLT_NONE)
            put_word(text, "none");
        else
            put_vector(text, vectors[i], components);
    }
    put_byte(text, '\n');
}

static void put_orientation(struct text *text, const craneholt_orientation *o)
{
    if (o->given & CRANEHOLT_GIVES_SPACE)
        put_line(text, "space: ", model_spaces[o->space].names[0]);
    if (o->given & CRANEHOLT_GIVES_SPACE_DIMENSION)
        put_numbers(text, "space dimension:", &o->spacedimension, 1);
    if (o->given & CRANEHOLT_GIVES_ORIGIN)
        put_vectors(text, "space origin: ", &o->origin, 1, o->components, 0);
    if (o->given & CRANEHOLT_GIVES_DIRECTIONS)
        put_vectors(text, "space directions: ", o->directions, o->axes, o->components, 1);
    if (o->given & CRANEHOLT_GIVES_FRAME)
        put_vectors(text, "measurement frame: ", o->frame, o->columns, o->components, 0);
}

craneholt_write_answer model_write_header(uint64_t version, const void *sizes, size_t sizes_length,
                                          uint64_t sampletype, uint64_t encoding, uint64_t endian,
                                          const void *orientation, size_t orientation_length,
                                          uint8_t *out, size_t out_length)
{
    struct volume v = {version, sampletype, encoding, endian, 0, {0}, NULL, 0};
    craneholt_orientation o;
    craneholt_write_answer refused = {{0, 0}, 0};
    struct header h;
    struct text text;
    load_sizes(&v, sizes, sizes_length);
    if (!load_orientation(&o, orientation, orientation_length) || volume_is_bad(&v))
        refused.refusal.number = 11;
    else if (!is_in_version(&o, version))
        refused.refusal.number = 8;
    if (refused.refusal.number != 0)
        return refused;
    text = new_text(16384); /* a component has at most 32 bytes, and there are at most 200 */
    put_fields(&text, &v);
    put_orientation(&text, &o);
    put_byte(&text, '\n');
    if (read_header(&h, text.bytes, text.length))
        return hand_over(text, out, out_length);
    free(text.bytes);
    refused.refusal = h.refusal;
    return refused;
}

/* ---- Setting a key */

/* A byte that neither a key nor a value may have. */
static int is_settable(const uint8_t *bytes, size_t length)
{
    for (size_t i = 0; i < length; i++)
        if (bytes[i] != '\n' && !bytes_are_good(&bytes[i], 1))
            return 0;
    return 1;
}

/* Text with its escapes. */
static void put_escaped(struct text *text, const uint8_t *bytes, size_t length)
{
    for (size_t i = 0; i < length; i++) {
        if (bytes[i] == '\n' || bytes[i] == '\\')
            put_byte(text, '\\');
        put_byte(text, bytes[i] == '\n' ? 'n' : bytes[i]);
    }
}

/* refusal 24 */
static int key_is_bad(const uint8_t *key, size_t length)
{
    struct text text;
    int bad;
    if (length == 0 || key[0] == '#' || !is_settable(key, length))
        return 1;
    text = new_text(2 * length);
    put_escaped(&text, key, length);
    bad = find_mark(text.bytes, 0, text.length) < text.length;
    free(text.bytes);
    return bad;
}

/* True if the lent table is not that of the file. */
static int table_is_bad(const struct header *h, const void *table, size_t table_length, size_t count)
{
    if (count != h->reading.lines || count > table_length / 4)
        return 1;
    for (size_t i = 0; i < count; i++)
        if (load(table, i, 4) != h->starts[i])
            return 1;
    return 0;
}

/* The new header: the key's last line rewritten, or a second line put in. */
static struct text new_file(const struct header *h, const uint8_t *file, size_t used,
                            const uint8_t *key, size_t key_length,
                            const uint8_t *value, size_t value_length)
{
    const struct pair *pair = last_pair(h, file, key, key_length);
    struct line first = line_at(file, used, 0);
    struct text text = new_text(used + 2 * (key_length + value_length) + 4);
    size_t rest = pair != NULL ? pair->end : first.end;
    put_bytes(&text, file, pair != NULL ? pair->key : first.end);
    put_escaped(&text, key, key_length);
    put_word(&text, ":=");
    put_escaped(&text, value, value_length);
    if (pair == NULL)
        put_bytes(&text, file + first.text, first.end - first.text);
    put_bytes(&text, file + rest, used - rest);
    return text;
}

/* The table of a file whose header has count lines. */
static void store_table(const struct text *text, size_t count, void *table)
{
    size_t start = 0;
    for (size_t i = 0; i < count; i++) {
        store(table, i, 4, start);
        start = line_at(text->bytes, text->length, start).end;
    }
}

/* What a setting is refused for before the new file is made. */
static craneholt_refusal set_refusal(struct header *h, const uint8_t *buf, size_t buf_length, size_t used,
                                     const void *table, size_t table_length, size_t count,
                                     const uint8_t *key, size_t key_length,
                                     const uint8_t *value, size_t value_length)
{
    craneholt_refusal refusal = {0, 0};
    if (used > buf_length)
        refusal.number = 22;
    else if (!read_header(h, buf, used))
        refusal = h->refusal;
    else if (h->reading.version == 1)
        refusal.number = 8;
    else if (key_is_bad(key, key_length))
        refusal.number = 24;
    else if (!is_settable(value, value_length))
        refusal.number = 25;
    else if (table_is_bad(h, table, table_length, count))
        refusal.number = 26;
    return refusal;
}

/* What the new file is refused for. */
static uint32_t new_file_refusal(const struct header *h, size_t used, size_t buf_length, size_t table_length,
                                 size_t new_used, size_t new_count)
{
    if (h->reading.length + new_used - used > HEADER_LIMIT)
        return 3;
    if (new_count > LINE_LIMIT)
        return 4;
    if (new_used > LIMIT32)
        return 1;
    return new_used > buf_length || new_count > table_length / 4 ? 22 : 0;
}

craneholt_set_answer model_set_key(uint8_t *buf, size_t buf_length, size_t used,
                                   void *table, size_t table_length, size_t count,
                                   const uint8_t *key, size_t key_length,
                                   const uint8_t *value, size_t value_length)
{
    struct header h;
    struct text text;
    size_t new_count;
    craneholt_set_answer answer = {{0, 0}, used, count};
    answer.refusal = set_refusal(&h, buf, buf_length, used, table, table_length, count,
                                 key, key_length, value, value_length);
    if (answer.refusal.number != 0)
        return answer;
    text = new_file(&h, buf, used, key, key_length, value, value_length);
    new_count = last_pair(&h, buf, key, key_length) != NULL ? count : count + 1;
    answer.refusal.number = new_file_refusal(&h, used, buf_length, table_length, text.length, new_count);
    if (answer.refusal.number == 0) {
        answer.length = text.length;
        answer.count = new_count;
        memcpy(buf, text.bytes, text.length);
        /* what the file no longer takes */
        if (text.length < used)
            memset(buf + text.length, 0, used - text.length);
        store_table(&text, new_count, table);
    }
    free(text.bytes);
    return answer;
}

/* ---- Trials: the listing program */

static void put_refused(struct text *text, craneholt_refusal refusal)
{
    put_word(text, "refused ");
    put_number(text, refusal.number);
    put_word(text, " line ");
    put_number(text, refusal.line);
    put_byte(text, '\n');
}

/* Each key once, at its last line. Both texts stand in the file escaped; equal
 * keys have equal texts. */
static void put_keys(struct text *text, const struct header *h, const uint8_t *file)
{
    for (size_t i = 0; i < h->pair_count; i++) {
        const struct pair *p = &h->pairs[i];
        size_t length = p->mark - p->key, later = i + 1;
        while (later < h->pair_count
               && (h->pairs[later].mark - h->pairs[later].key != length
                   || memcmp(file + h->pairs[later].key, file + p->key, length) != 0))
            later++;
        if (later < h->pair_count)
            continue;
        put_word(text, "key ");
        put_bytes(text, file + p->key, length);
        put_byte(text, '=');
        put_bytes(text, file + p->mark + 2, p->end - (p->mark + 2));
        put_byte(text, '\n');
    }
}

static void put_reading(struct text *text, const struct header *h, uint64_t start)
{
    const craneholt_reading *r = &h->reading;
    uint64_t version = r->version;
    put_numbers(text, "version", &version, 1);
    put_line(text, "form ", r->form == 1 ? "detached" : "attached");
    put_line(text, "type ", model_types[r->sampletype].names[0]);
    put_numbers(text, "sizes", r->sizes, r->dimension);
    put_line(text, "encoding ", model_encodings[r->encoding][0]);
    put_line(text, "endian ", r->endian == NOT_GIVEN ? "none" : endians[r->endian]);
    put_numbers(text, "start", &start, 1);
    put_numbers(text, "extent", &r->extent, 1);
}

/* The listing ("Trials"); the data of an attached file is looked for, that of a
 * detached one is not. */
craneholt_write_answer model_listing(const uint8_t *file, size_t file_length, uint8_t *out, size_t out_length)
{
    struct header h;
    struct rest data = {NULL, 0, 0};
    struct text text = new_text(1024 + 4 * (file_length <= LISTING_LIMIT ? file_length : 0));
    if (file_length > LISTING_LIMIT)
        h.refusal = (craneholt_refusal){22, 0};
    else if (read_header(&h, file, file_length) && h.reading.form == 0)
        find_data(&h, file, file_length, NULL, 0, 0, &data);
    if (h.refusal.number != 0) {
        put_refused(&text, h.refusal);
    } else {
        put_reading(&text, &h, data.at);
        put_keys(&text, &h, file);
    }
    return hand_over(text, out, out_length);
}

/* ---- W4: the roof rig's sweeps */

/* The value of the key; true if it is there with digits alone, and not too large. */
static int read_offset(const struct header *h, const uint8_t *file, uint64_t *offset)
{
    static const char key[] = "utc offset";
    const struct pair *pair = last_pair(h, file, (const uint8_t *)key, strlen(key));
    size_t start, length;
    if (pair == NULL)
        return 0;
    start = pair->mark + 2;
    length = pair->end - start;
    if (length == 0 || !all_digits(file + start, length))
        return 0;
    *offset = value_of_digits(file + start, length);
    return *offset <= OFFSET_LIMIT;
}

/* The step to a row from the row before it, around the wrap. */
static uint64_t step_to(const void *list, uint64_t row, uint64_t width)
{
    uint64_t before = load(list, (row - 1) * width, 8), after = load(list, row * width, 8);
    return after >= before ? after - before : after + LIMIT32 + 1 - before;
}

/* The first row with a wrong step; 0, as that row has no step, if none has. */
static uint64_t first_wrong(const void *list, const uint64_t *sizes, uint64_t largest)
{
    for (uint64_t row = 1; row < sizes[1]; row++) {
        uint64_t step = step_to(list, row, sizes[0]);
        if (step < 1 || step > largest)
            return row;
    }
    return 0;
}

/* The samples are stored when nothing can be refused any more. */
craneholt_sweep_answer model_sweep(const uint8_t *file, size_t file_length, void *list, size_t list_length,
                                   uint64_t largest)
{
    struct header h;
    const craneholt_reading *r = &h.reading;
    uint64_t offset;
    craneholt_sweep_answer answer = {{0, 0}, 0, 0, 0};
    answer.refusal = model_check_samples(file, file_length, NULL, 0, list_length / 8).refusal;
    if (answer.refusal.number != 0)
        return answer;
    read_header(&h, file, file_length);
    if (r->form != 0 || r->sampletype != UINT32 || r->dimension != 2 || !read_offset(&h, file, &offset) || largest < 1
        || largest > STEP_LIMIT) {
        answer.refusal.number = 28;
        return answer;
    }
    model_samples(file, file_length, NULL, 0, list, list_length);
    answer.offset = (uint32_t)offset;
    answer.row = first_wrong(list, r->sizes, largest);
    answer.wrong = answer.row > 0;
    return answer;
}
