/* Reading beside libteem, the format's first library: headers of four kinds, and raw data. libteem reads from memory by
 * fmemopen. `make bench` runs it if libteem is installed. */
#define _POSIX_C_SOURCE 200809L
#include <teem/nrrd.h>

#include "craneholt.h"
#include "timing.h"

typedef struct {
    uint8_t *file;
    size_t length;
    uint8_t *copy;
    int64_t *list;
    size_t samples;
} volume;

static uint32_t table[CRANEHOLT_MAX_LINES];

/* ---- Jobs ---- */

static size_t our_header(void *on)
{
    volume *v = (volume *)on;
    return craneholt_read(v->file, v->length, table, sizeof table).reading.lines;
}

/* the header, and the vectors of its orientation, which libteem decodes with the header: one reading each */
static size_t our_vectors(void *on)
{
    volume *v = (volume *)on;
    craneholt_decimal list[CRANEHOLT_MAX_AXES * CRANEHOLT_MAX_SPACE];
    size_t decoded = craneholt_origin(v->file, v->length, list, sizeof list).count;
    decoded += craneholt_directions(v->file, v->length, list, sizeof list).count;
    decoded += craneholt_frame(v->file, v->length, list, sizeof list).count;
    return our_header(on) * decoded;
}

static Nrrd *teem_read(volume *v, int header_only)
{
    FILE *in = fmemopen(v->file, v->length, "rb");
    Nrrd *nrrd = nrrdNew();
    NrrdIoState *state = nrrdIoStateNew();
    nrrdIoStateSet(state, nrrdIoStateSkipData, header_only);
    must_hold(nrrdRead(nrrd, in, state) == 0, "libteem");
    nrrdIoStateNix(state);
    fclose(in);
    return nrrd;
}

static size_t teem_header(void *on)
{
    nrrdNuke(teem_read((volume *)on, AIR_TRUE));
    return 1;
}

static size_t teem_data(void *on)
{
    nrrdNuke(teem_read((volume *)on, AIR_FALSE));
    return 1;
}

static size_t teem_samples(void *on)
{
    Nrrd *nrrd = teem_read((volume *)on, AIR_FALSE);
    Nrrd *wide = nrrdNew();
    must_hold(nrrdConvert(wide, nrrd, nrrdTypeLLong) == 0, "libteem");
    nrrdNuke(wide);
    nrrdNuke(nrrd);
    return 1;
}

/* the data where it lies */
static size_t our_place(void *on)
{
    volume *v = (volume *)on;
    return craneholt_data(v->file, v->length, NULL, 0).length;
}

/* a copy of the data, as libteem makes one */
static size_t our_copy(void *on)
{
    volume *v = (volume *)on;
    craneholt_data_answer a = craneholt_data(v->file, v->length, NULL, 0);
    memcpy(v->copy, v->file + a.start, a.length);
    return a.length;
}

/* all samples as int64_t */
static size_t our_samples(void *on)
{
    volume *v = (volume *)on;
    return craneholt_samples(v->file, v->length, NULL, 0, v->list, v->samples * sizeof *v->list).count;
}

/* ---- Files ---- */

/* A header of so many lines, key pairs of so many bytes for the most part. */
static void make_header(volume *v, int lines, int value)
{
    char *to = (char *)v->file;
    to += sprintf(to, "NRRD0004\ntype: uint16\ndimension: 2\nsizes: 2 2\nencoding: raw\nendian: little\n");
    for (int i = 7; i < lines; i++)
        to += sprintf(to, "key %04d:=%0*d\n", i, value, i);
    to += sprintf(to, "\n");
    memset(to, 1, 8);
    v->length = (size_t)(to + 8 - (char *)v->file);
}

/* A header with all fields of the orientation that can stand together. */
static void make_pose(volume *v)
{
    static const char header[] =
        "NRRD0005\ntype: uint16\ndimension: 2\nspace: left-posterior-superior\nsizes: 2 2\n"
        "space directions: (0.99984769515639127,-0.017452406437283512,0) (0.0174524064,0.99984769,1e-05)\n"
        "endian: little\nencoding: raw\nspace origin: (-112.34567890123457,98.765432109876543,-0.00123)\n"
        "measurement frame: (1,0,0) (0,0.70710678118654757,-0.70710678118654757) (0,0.70710678,0.70710678)\n\n";
    v->length = sizeof header - 1 + 8;
    memcpy(v->file, header, sizeof header - 1);
    memset(v->file + sizeof header - 1, 1, 8);
}

static void make_volume(volume *v)
{
    char *to = (char *)v->file;
    to += sprintf(to, "NRRD0004\ntype: uint16\ndimension: 2\nsizes: %zu 1000\nencoding: raw\nendian: little\n\n", v->samples / 1000);
    memset(to, 7, 2 * v->samples);
    v->length = (size_t)(to - (char *)v->file) + 2 * v->samples;
}

int main(void)
{
    volume v = {NULL, 0, NULL, NULL, 2000000};
    v.file = (uint8_t *)memory(2 * v.samples + 65536);
    v.copy = (uint8_t *)memory(2 * v.samples);
    v.list = (int64_t *)memory(v.samples * sizeof *v.list);

    heading("headers beside libteem", "libteem");
    make_header(&v, 9, 4);
    compare("9 lines", our_header, teem_header, &v, 1);
    make_header(&v, 1000, 4);
    compare("1,000 lines", our_header, teem_header, &v, 1);
    make_header(&v, 900, 54);
    compare("900 lines, 60 KB", our_header, teem_header, &v, 1);
    make_pose(&v);
    compare("11 lines, all orientation", our_header, teem_header, &v, 1);
    compare("the same, vectors decoded", our_vectors, teem_header, &v, 1);

    heading("4 MB of raw uint16 beside libteem", "libteem");
    make_volume(&v);
    compare("its place (nothing is copied)", our_place, teem_data, &v, 1);
    compare("a copy, as libteem makes one", our_copy, teem_data, &v, 1);
    compare("all samples as int64_t", our_samples, teem_samples, &v, 1);
    return EXIT_SUCCESS;
}
