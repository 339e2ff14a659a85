/*
 * Runs the vectors of a folder: calls.jsonl, one call a line, and
 * listing/NNN.in with the text NNN.out. With USE_MODEL the model is run in
 * place of the library: it has to agree with the vectors as well. A set from
 * before a request says nothing of what came with it: the byte skip of each
 * reading with W1, the orientation and the header writer with W2, the roof
 * rig's sweeps with W4, data in several files with W5, axis records with W6.
 *
 *     vectors [folder [before-w1, before-w2, before-w4, before-w5 or before-w6]]
 */
#include "bytes.h"
#include "calls.h"
#include "json.h"
#include "model.h"

#include <stdio.h>
#include <stdlib.h>
#include <string.h>

#ifdef USE_MODEL
static const struct calls calls = CALLS(model);
#else
static const struct calls calls = CALLS(craneholt);
#endif

enum { BASE, W1, W2, W4, W5, W6 };

static int last = W6; /* the last request that the vectors know */

/* ---- bytes */

/* True if all bytes from start on are as filled. */
static int untouched(struct bytes b, size_t start)
{
    for (size_t i = start; i < b.length; i++)
        if (b.at[i] != 0xa5)
            return 0;
    return 1;
}

/* True if the bytes wanted are in front, and those past them are as filled. */
static int holds(struct bytes b, struct bytes want)
{
    return want.length <= b.length && memcmp(b.at, want.at, want.length) == 0 && untouched(b, want.length);
}

/* ---- what is expected */

/* The item of "expect" by its index. */
static const struct json *expected(const struct json *v, int index)
{
    const struct json *item = json_member(v, "expect")->first;
    while (index-- > 0)
        item = item->next;
    return item;
}

static int is_accepted(const struct json *v)
{
    return strcmp(expected(v, 0)->text, "ok") == 0;
}

/* True if the refusal, or that there is none, is the expected one. */
static int same_refusal(const struct json *v, craneholt_refusal refusal)
{
    if (is_accepted(v))
        return refusal.number == 0 && refusal.line == 0;
    return refusal.number == expected(v, 1)->number && refusal.line == expected(v, 2)->number;
}

/* ---- read */

static int field_is_right(struct bytes file, uint32_t field, const struct json *text)
{
    craneholt_find_answer place = calls.find_field(file.at, file.length, field);
    struct bytes found = {file.at + place.start, place.length}, want;
    int right;
    if (place.refusal.number != 0)
        return 0;
    if (text == NULL)
        return !place.found && place.start == 0 && place.length == 0;
    want = of_text(text);
    right = place.found == 1 && same(found, want);
    free(want.at);
    return right;
}

static int fields_are_right(const struct json *v, struct bytes file)
{
    const struct json *texts = json_member(v, "expect_fields");
    for (uint32_t field = 0; field < MODEL_FIELDS; field++)
        if (!field_is_right(file, field, json_member(texts, model_fields[field].name)))
            return 0;
    return field_is_right(file, MODEL_FIELDS, NULL);
}

/* True if the key has this value; start is where the value of the key before it starts. */
static int key_is_right(struct bytes file, const struct json *pair, uint64_t *start)
{
    struct bytes key = of_text(pair->first), value = of_text(pair->first->next);
    struct bytes out = filled(value.length);
    craneholt_find_answer place = calls.find_key(file.at, file.length, key.at, key.length);
    craneholt_value_answer copy =
        calls.copy_value(file.at, file.length, key.at, key.length, out.at, out.length);
    int right = place.refusal.number == 0 && place.found == 1 && place.start > *start
                && copy.refusal.number == 0 && copy.found == 1 && copy.length == value.length
                && same(out, value);
    *start = place.start;
    free(key.at);
    free(value.at);
    free(out.at);
    return right;
}

/* Keys stand in the order of their last lines. */
static int keys_are_right(const struct json *v, struct bytes file)
{
    const struct json *pair = json_member(v, "expect_keys")->first;
    uint64_t start = 0;
    for (; pair != NULL; pair = pair->next)
        if (!key_is_right(file, pair, &start))
            return 0;
    return 1;
}

static int table_is_right(const struct json *v, struct bytes table, uint32_t lines)
{
    struct bytes want = of_numbers(json_member(v, "expect_table"), 4);
    int right = want.length == 4 * (size_t)lines && holds(table, want);
    free(want.at);
    return right;
}

static int same_reading(const craneholt_reading *a, const craneholt_reading *b)
{
    return a->version == b->version && a->form == b->form && a->dimension == b->dimension
           && a->sampletype == b->sampletype && a->encoding == b->encoding && a->endian == b->endian
           && memcmp(a->sizes, b->sizes, sizeof a->sizes) == 0 && a->lineskip == b->lineskip
           && a->byteskip == b->byteskip && a->extent == b->extent && a->length == b->length
           && a->lines == b->lines && a->fromend == b->fromend && a->origin == b->origin
           && a->directions == b->directions && a->frame == b->frame && a->space == b->space
           && a->spacedimension == b->spacedimension && a->files == b->files && a->fieldlines == b->fieldlines;
}

/* A byte skip is told as a number, or as the text "from the end". */
static int byte_skip_is_right(const struct json *v, const craneholt_reading *r)
{
    const struct json *skip = json_member(v, "expect_byte_skip");
    if (skip == NULL)
        return last < W1 && !r->fromend;
    if (skip->kind == JSON_NUMBER)
        return r->byteskip == skip->number && r->fromend == 0;
    return strcmp(skip->text, "from the end") == 0 && r->byteskip == 0 && r->fromend == 1;
}

/* ---- orientation */

/* A decimal is [number, power], or a word for what is no number. */
static craneholt_decimal decimal_of(const struct json *v)
{
    static const char *const words[] = {"nan", "inf", "-inf", "none"};
    craneholt_decimal decimal = {0, 0, CRANEHOLT_NUMBER};
    if (v->kind == JSON_LIST) {
        decimal.number = (int64_t)v->first->number;
        decimal.power = (int32_t)v->first->next->number;
        return decimal;
    }
    while (strcmp(v->text, words[decimal.kind++]) != 0)
        continue;
    return decimal;
}

/* The components of a vector to the front of a list of zeros; of an axis without direction the first is told so. */
static void take_vector(const struct json *v, craneholt_decimal *to)
{
    if (v->kind == JSON_STRING)
        *to = decimal_of(v);
    else
        for (const struct json *item = v->first; item != NULL; item = item->next)
            *to++ = decimal_of(item);
}

typedef craneholt_count_answer decimals_call(const uint8_t *, size_t, void *, size_t);

/* The decimals into a list that is long enough, exactly but for a rest, and one too short; none at all need no list. */
static int decimals_are_right(decimals_call *call, struct bytes file, const craneholt_decimal *decimals, size_t count)
{
    struct bytes want = {(uint8_t *)decimals, count * sizeof *decimals}, nothing = {(uint8_t *)decimals, 0};
    for (int more = count > 0 ? -1 : 0; more <= 1; more++) {
        struct bytes list = filled((size_t)((int)count + more) * sizeof *decimals + (more == 0 ? 15 : 0));
        craneholt_count_answer answer = call(file.at, file.length, list.at, list.length);
        int right = answer.refusal.number == (more < 0 ? 22 : 0) && answer.refusal.line == 0
                    && answer.count == (more < 0 ? 0 : count) && holds(list, more < 0 ? nothing : want);
        free(list.at);
        if (!right)
            return 0;
    }
    return 1;
}

/* The vectors of a field, each of so many components; a field that is not given has none. */
static int vectors_are_right(decimals_call *call, struct bytes file, const struct json *list, uint8_t given,
                             size_t components)
{
    static craneholt_decimal decimals[CRANEHOLT_MAX_AXES * CRANEHOLT_MAX_SPACE];
    size_t count = 0;
    memset(decimals, 0, sizeof decimals);
    for (const struct json *item = list == NULL ? NULL : list->first; item != NULL; item = item->next) {
        take_vector(item, decimals + count);
        count += components;
    }
    return given == (list != NULL) && decimals_are_right(call, file, decimals, count);
}

/* An origin is a vector alone. */
static int origin_is_right(struct bytes file, const struct json *origin, const craneholt_reading *r)
{
    static craneholt_decimal decimals[CRANEHOLT_MAX_SPACE];
    if (origin != NULL)
        take_vector(origin, decimals);
    return r->origin == (origin != NULL) && (origin == NULL || origin->length == r->spacedimension)
           && decimals_are_right(calls.origin, file, decimals, origin == NULL ? 0 : origin->length);
}

static int space_is_right(const struct json *v, const craneholt_reading *r)
{
    const struct json *space = json_member(v, "expect_space"), *dimension = json_member(v, "expect_space_dimension");
    if (space != NULL)
        return dimension == NULL && r->space == space->number && r->space < MODEL_SPACES
               && r->spacedimension == model_spaces[r->space].dimension;
    return r->space == CRANEHOLT_NO_SPACE && r->spacedimension == (dimension == NULL ? 0 : dimension->number);
}

static int orientation_is_right(const struct json *v, struct bytes file, const craneholt_reading *r)
{
    if (last < W2)
        return 1;
    return space_is_right(v, r) && origin_is_right(file, json_member(v, "expect_space_origin"), r)
           && vectors_are_right(calls.directions, file, json_member(v, "expect_space_directions"), r->directions,
                                r->spacedimension)
           && vectors_are_right(calls.frame, file, json_member(v, "expect_measurement_frame"), r->frame,
                                r->spacedimension);
}

/* The calls for the orientation refuse what the reading refuses. */
static int orientation_is_refused(const struct json *v, struct bytes file)
{
    decimals_call *const asked[] = {calls.origin, calls.directions, calls.frame};
    for (size_t i = 0; i < 3; i++) {
        struct bytes list = filled(64);
        craneholt_count_answer answer = asked[i](file.at, file.length, list.at, list.length);
        int right = same_refusal(v, answer.refusal) && answer.count == 0 && untouched(list, 0);
        free(list.at);
        if (!right)
            return 0;
    }
    return 1;
}

/* ---- data in several files */

/* A name into a buffer that is long enough, exactly, and one byte too short; an empty one needs no buffer. */
static int name_is_right(struct bytes file, uint64_t n, struct bytes want)
{
    struct bytes nothing = {want.at, 0};
    for (int more = want.length > 0 ? -1 : 0; more <= 1; more++) {
        struct bytes out = filled(want.length + (size_t)more);
        craneholt_write_answer answer = calls.file_name(file.at, file.length, n, out.at, out.length);
        int right = answer.refusal.number == (more < 0 ? 22 : 0) && answer.refusal.line == 0
                    && answer.length == (more < 0 ? 0 : want.length) && holds(out, more < 0 ? nothing : want);
        free(out.at);
        if (!right)
            return 0;
    }
    return 1;
}

/* The names under LIST, each in the line that the table has for it; then comes the closing line, or nothing. */
static int names_are_right(const struct json *names, struct bytes file, struct bytes table, const craneholt_reading *r)
{
    uint64_t n = 0;
    for (const struct json *item = names->first; item != NULL; item = item->next) {
        struct bytes want = of_text(item);
        uint32_t start;
        int right;
        memcpy(&start, table.at + 4 * (r->fieldlines + n), sizeof start);
        right = name_is_right(file, n++, want) && want.length <= file.length - start
                && memcmp(file.at + start, want.at, want.length) == 0;
        free(want.at);
        if (!right)
            return 0;
    }
    return r->files == n && (r->lines == r->fieldlines + n || r->lines == r->fieldlines + n + 1);
}

/* Where there is no LIST, no line is a name. A set from before W5 knows one file alone. */
static int files_are_right(const struct json *v, struct bytes file, struct bytes table, const craneholt_reading *r)
{
    const struct json *names = json_member(v, "expect_names");
    craneholt_count_answer answer = calls.files(file.at, file.length);
    if (answer.refusal.number != 0 || answer.count != r->files || (names == NULL) != (last < W5))
        return 0;
    if (names != NULL && names->length > 0)
        return names_are_right(names, file, table, r);
    return r->fieldlines == r->lines && r->files >= 1 && (names != NULL || r->files == 1);
}

/* The calls for the files refuse what the reading refuses. */
static int files_are_refused(const struct json *v, struct bytes file)
{
    struct bytes out = filled(64);
    craneholt_count_answer count = calls.files(file.at, file.length);
    craneholt_write_answer name = calls.file_name(file.at, file.length, 0, out.at, out.length);
    craneholt_share_answer share = calls.sample_file(file.at, file.length, 0);
    int right = same_refusal(v, count.refusal) && count.count == 0 && same_refusal(v, name.refusal) && name.length == 0
                && same_refusal(v, share.refusal) && share.file == 0 && share.byte == 0 && untouched(out, 0);
    free(out.at);
    return right;
}

/* ---- axis records */

/* Of a header that is accepted: the size as the reading has it, strings between quotes. */
static int axis_is_right(struct bytes file, const craneholt_axis *axis, uint64_t size)
{
    const uint32_t strings[][2] = {{axis->labelplace, axis->labellength}, {axis->unitplace, axis->unitlength}};
    for (int i = 0; i < 2; i++) {
        uint32_t place = strings[i][0], length = strings[i][1];
        if (place == 0 ? length != 0
                       : length >= file.length || place >= file.length - length || file.at[place - 1] != '"'
                             || file.at[place + length] != '"')
            return 0;
    }
    return axis->size == size && axis->centring < MODEL_CENTRINGS && axis->kind < MODEL_KINDS;
}

/* The records into a list that is long enough, exactly but for a rest, and one too short. */
static int axes_are_right(struct bytes file, const craneholt_reading *r)
{
    for (int more = -1; more <= 1; more++) {
        craneholt_axis axes[CRANEHOLT_MAX_AXES + 2];
        size_t records = r->dimension + (size_t)more, written = more < 0 ? 0 : r->dimension;
        struct bytes list = filled(records * sizeof *axes + (more <= 0 ? 31 : 0));
        craneholt_count_answer answer = calls.axes(file.at, file.length, list.at, list.length);
        int right = answer.refusal.number == (more < 0 ? 22 : 0) && answer.refusal.line == 0 && answer.count == written
                    && untouched(list, written * sizeof *axes);
        memcpy(axes, list.at, written * sizeof *axes);
        for (size_t i = 0; i < written; i++)
            right = right && axis_is_right(file, &axes[i], r->sizes[i]);
        free(list.at);
        if (!right)
            return 0;
    }
    return 1;
}

/* The call for the axes refuses what the reading refuses. */
static int axes_are_refused(const struct json *v, struct bytes file)
{
    struct bytes list = filled(CRANEHOLT_AXES_ROOM);
    craneholt_count_answer answer = calls.axes(file.at, file.length, list.at, list.length);
    int right = same_refusal(v, answer.refusal) && answer.count == 0 && untouched(list, 0);
    free(list.at);
    return right;
}

/* ---- reading */

/* What both reading calls must answer for a header that is accepted. */
static int reading_is_right(const struct json *v, struct bytes file, struct bytes table, const craneholt_reading *r)
{
    const char *form = json_member(v, "expect_form")->text;
    craneholt_read_answer again = calls.read_header(file.at, file.length);
    return again.refusal.number == 0 && same_reading(&again.reading, r)
           && r->version == number_member(v, "expect_version")
           && r->form == (strcmp(form, "detached") == 0)
           && r->length == number_member(v, "expect_header_length") && byte_skip_is_right(v, r)
           && fields_are_right(v, file) && keys_are_right(v, file) && orientation_is_right(v, file, r)
           && table_is_right(v, table, r->lines) && files_are_right(v, file, table, r) && axes_are_right(file, r);
}

/* What both reading calls must answer for a refused header. */
static int no_reading_is_right(const struct json *v, struct bytes file, const craneholt_reading *r)
{
    static const craneholt_reading blank;
    craneholt_read_answer without = calls.read_header(file.at, file.length);
    if (!same_reading(r, &blank))
        return 0;
    if (expected(v, 1)->number == 22)
        return without.refusal.number == 0;
    return same_refusal(v, without.refusal) && same_reading(&without.reading, &blank)
           && orientation_is_refused(v, file) && files_are_refused(v, file) && axes_are_refused(v, file);
}

static int run_read(const struct json *v)
{
    struct bytes file = hex_member(v, "file"), table = filled(4 * number_member(v, "room"));
    craneholt_read_answer answer = calls.read(file.at, file.length, table.at, table.length);
    int right = same_refusal(v, answer.refusal);
    if (right && is_accepted(v))
        right = reading_is_right(v, file, table, &answer.reading);
    else if (right)
        right = no_reading_is_right(v, file, &answer.reading) && untouched(table, 0);
    free(file.at);
    free(table.at);
    return right;
}

/* ---- the other calls */

static int run_data(const struct json *v)
{
    struct bytes file = hex_member(v, "file"), second = hex_member(v, "second");
    craneholt_data_answer answer = calls.data(file.at, file.length, second.at, second.length);
    int right = same_refusal(v, answer.refusal);
    if (is_accepted(v))
        right = right && answer.second == (strcmp(expected(v, 1)->text, "second") == 0)
                && answer.start == expected(v, 2)->number && answer.length == expected(v, 3)->number;
    else
        right = right && answer.second == 0 && answer.start == 0 && answer.length == 0;
    free(file.at);
    free(second.at);
    return right;
}

static int run_samples(const struct json *v)
{
    struct bytes file = hex_member(v, "file"), second = hex_member(v, "second");
    struct bytes list = filled(8 * number_member(v, "room")), want = filled(0);
    craneholt_count_answer check =
        calls.check_samples(file.at, file.length, second.at, second.length, number_member(v, "room"));
    craneholt_count_answer answer =
        calls.samples(file.at, file.length, second.at, second.length, list.at, list.length);
    int right;
    if (is_accepted(v)) {
        free(want.at);
        want = of_numbers(expected(v, 1), 8);
    }
    right = same_refusal(v, answer.refusal) && same_refusal(v, check.refusal)
            && answer.count == want.length / 8 && check.count == answer.count
            && holds(list, want);
    free(file.at);
    free(second.at);
    free(list.at);
    free(want.at);
    return right;
}

static int run_coords(const struct json *v)
{
    struct bytes file = hex_member(v, "file"), coords = of_numbers(json_member(v, "coords"), 8);
    craneholt_number_answer answer = calls.sample_number(file.at, file.length, coords.at, coords.length);
    int right = same_refusal(v, answer.refusal)
                && answer.number == (is_accepted(v) ? expected(v, 1)->number : 0);
    free(file.at);
    free(coords.at);
    return right;
}

static int run_write(const struct json *v)
{
    struct bytes sizes = of_numbers(json_member(v, "sizes"), 8), out = filled(number_member(v, "room"));
    struct bytes samples = of_numbers(json_member(v, "samples"), 8);
    struct bytes want = is_accepted(v) ? of_text(expected(v, 1)) : filled(0);
    craneholt_write_answer answer =
        calls.write(number_member(v, "version"), sizes.at, sizes.length, number_member(v, "type"),
                    number_member(v, "encoding"), number_member(v, "endian"),
                    samples.at, samples.length, out.at, out.length);
    int right = same_refusal(v, answer.refusal) && answer.length == want.length
                && holds(out, want);
    free(sizes.at);
    free(samples.at);
    free(out.at);
    free(want.at);
    return right;
}

/* The member, counted among those given; NULL if it is null. */
static const struct json *given_member(const struct json *v, const char *name, uint32_t bit, craneholt_orientation *o)
{
    const struct json *item = json_member(v, name);
    if (item->kind == JSON_NULL)
        return NULL;
    o->given += bit;
    return item;
}

/* A vector that goes in: what ends it stands after its last component. */
static void give_vector(const struct json *v, craneholt_decimal *to)
{
    take_vector(v, to);
    if (v->kind == JSON_LIST && v->length < CRANEHOLT_MAX_SPACE)
        to[v->length].kind = CRANEHOLT_NONE;
}

static uint32_t give_vectors(const struct json *list, craneholt_decimal (*to)[CRANEHOLT_MAX_SPACE])
{
    uint32_t count = 0;
    for (const struct json *item = list->first; item != NULL; item = item->next)
        give_vector(item, to[count++]);
    return count;
}

/* Of the vectors none has more than 8 components. */
static craneholt_orientation orientation_of(const struct json *v)
{
    craneholt_orientation o;
    const struct json *item;
    memset(&o, 0, sizeof o);
    o.components = CRANEHOLT_MAX_SPACE;
    if ((item = given_member(v, "space", CRANEHOLT_GIVES_SPACE, &o)) != NULL)
        o.space = item->number;
    if ((item = given_member(v, "space_dimension", CRANEHOLT_GIVES_SPACE_DIMENSION, &o)) != NULL)
        o.spacedimension = item->number;
    if ((item = given_member(v, "origin", CRANEHOLT_GIVES_ORIGIN, &o)) != NULL)
        give_vector(item, o.origin);
    if ((item = given_member(v, "directions", CRANEHOLT_GIVES_DIRECTIONS, &o)) != NULL)
        o.axes = give_vectors(item, o.directions);
    if ((item = given_member(v, "frame", CRANEHOLT_GIVES_FRAME, &o)) != NULL)
        o.columns = give_vectors(item, o.frame);
    return o;
}

/* An orientation of which nothing is given may be lent or not. */
static int run_header(const struct json *v)
{
    struct bytes sizes = of_numbers(json_member(v, "sizes"), 8);
    struct bytes want = is_accepted(v) ? of_text(expected(v, 1)) : filled(0);
    craneholt_orientation o = orientation_of(v);
    int right = 1;
    for (int lent = o.given == 0 ? 0 : 1; lent <= 1; lent++) {
        struct bytes out = filled(number_member(v, "room"));
        craneholt_write_answer answer =
            calls.write_header(number_member(v, "version"), sizes.at, sizes.length, number_member(v, "type"),
                               number_member(v, "encoding"), number_member(v, "endian"),
                               lent ? &o : NULL, lent ? sizeof o : 0, out.at, out.length);
        right = right && same_refusal(v, answer.refusal) && answer.length == want.length && holds(out, want);
        free(out.at);
    }
    free(sizes.at);
    free(want.at);
    return right;
}

/* A list of whole samples, and one with a rest too short for a sample. A row of null is none. */
static int run_roof(const struct json *v)
{
    struct bytes file = hex_member(v, "file");
    struct bytes want = is_accepted(v) ? of_numbers(expected(v, 3), 8) : filled(0);
    uint64_t offset = is_accepted(v) ? expected(v, 1)->number : 0;
    int wrong = is_accepted(v) && expected(v, 2)->kind == JSON_NUMBER;
    int right = json_member(v, "second")->length == 0;
    for (size_t rest = 0; rest < 8; rest += 7) {
        struct bytes list = filled(8 * number_member(v, "room") + rest);
        craneholt_sweep_answer answer =
            calls.sweep(file.at, file.length, list.at, list.length, number_member(v, "largest"));
        right = right && same_refusal(v, answer.refusal) && answer.offset == offset && answer.wrong == wrong
                && answer.row == (wrong ? expected(v, 2)->number : 0) && holds(list, want);
        free(list.at);
    }
    free(file.at);
    free(want.at);
    return right;
}

static int run_files(const struct json *v)
{
    struct bytes file = hex_member(v, "file");
    craneholt_count_answer answer = calls.files(file.at, file.length);
    int right = same_refusal(v, answer.refusal) && answer.count == (is_accepted(v) ? expected(v, 1)->number : 0);
    free(file.at);
    return right;
}

static int run_name(const struct json *v)
{
    struct bytes file = hex_member(v, "file"), out = filled(number_member(v, "room"));
    struct bytes want = is_accepted(v) ? of_text(expected(v, 1)) : filled(0);
    craneholt_write_answer answer =
        calls.file_name(file.at, file.length, number_member(v, "n"), out.at, out.length);
    int right = same_refusal(v, answer.refusal) && answer.length == want.length && holds(out, want);
    free(file.at);
    free(out.at);
    free(want.at);
    return right;
}

static int run_where(const struct json *v)
{
    struct bytes file = hex_member(v, "file");
    craneholt_share_answer answer = calls.sample_file(file.at, file.length, number_member(v, "sample"));
    int right = same_refusal(v, answer.refusal) && answer.file == (is_accepted(v) ? expected(v, 1)->number : 0)
                && answer.byte == (is_accepted(v) ? expected(v, 2)->number : 0);
    free(file.at);
    return right;
}

/* The bytes of a list of axis records: the size in 8, the others in 4 each. */
static struct bytes of_axes(const struct json *list)
{
    struct bytes b = filled(list->length * sizeof(craneholt_axis));
    size_t at = 0;
    for (const struct json *axis = list->first; axis != NULL; axis = axis->next)
        for (const struct json *item = axis->first; item != NULL; item = item->next)
            for (size_t i = 0; i < (item == axis->first ? 8 : 4); i++)
                b.at[at++] = (uint8_t)(item->number >> 8 * i);
    return b;
}

/* A list of whole records, and one with a rest too short for a record. */
static int run_axes(const struct json *v)
{
    struct bytes file = hex_member(v, "file"), want = is_accepted(v) ? of_axes(expected(v, 1)) : filled(0);
    int right = 1;
    for (size_t rest = 0; rest < 32; rest += 31) {
        struct bytes list = filled(number_member(v, "room") * sizeof(craneholt_axis) + rest);
        craneholt_count_answer answer = calls.axes(file.at, file.length, list.at, list.length);
        right = right && same_refusal(v, answer.refusal) && answer.count == want.length / sizeof(craneholt_axis)
                && holds(list, want);
        free(list.at);
    }
    free(file.at);
    free(want.at);
    return right;
}

static int run_set(const struct json *v)
{
    struct bytes buffer = hex_member(v, "buffer"), want_buffer = hex_member(v, "expect_buffer");
    struct bytes table = of_numbers(json_member(v, "table"), 4);
    struct bytes want_table = of_numbers(json_member(v, "expect_table"), 4);
    struct bytes key = hex_member(v, "key"), value = hex_member(v, "value");
    uint64_t used = number_member(v, "used"), count = number_member(v, "count");
    craneholt_set_answer answer =
        calls.set_key(buffer.at, buffer.length, used, table.at, table.length, count,
                      key.at, key.length, value.at, value.length);
    int right = same_refusal(v, answer.refusal)
                && answer.length == (is_accepted(v) ? expected(v, 1)->number : used)
                && answer.count == (is_accepted(v) ? expected(v, 2)->number : count)
                && same(buffer, want_buffer) && same(table, want_table);
    free(buffer.at);
    free(want_buffer.at);
    free(table.at);
    free(want_table.at);
    free(key.at);
    free(value.at);
    return right;
}

/* ---- listings */

/* The listing into a buffer that is long enough, exactly, and one byte too short. */
static int listing_is_right(struct bytes file, struct bytes want)
{
    for (int more = -1; more <= 1; more++) {
        struct bytes out = filled(want.length + (size_t)more);
        craneholt_write_answer answer = calls.listing(file.at, file.length, out.at, out.length);
        uint64_t length = more < 0 ? 0 : want.length;
        int right = answer.refusal.number == (more < 0 ? 22 : 0) && answer.refusal.line == 0
                    && answer.length == length && memcmp(out.at, want.at, length) == 0
                    && untouched(out, length);
        free(out.at);
        if (!right)
            return 0;
    }
    return 1;
}

static int run_listing(const struct json *v)
{
    struct bytes file = hex_member(v, "file");
    struct bytes want = {(uint8_t *)expected(v, 1)->text, expected(v, 1)->length};
    int right = listing_is_right(file, want);
    free(file.at);
    return right;
}

/* ---- files and counts */

/* Each operation of the vectors, what runs one, and the request that it came with. */
static struct operation {
    const char *name;
    int (*run)(const struct json *);
    int request, passed, total;
} operations[] = {
    {"read", run_read, BASE, 0, 0},
    {"data", run_data, BASE, 0, 0},
    {"samples", run_samples, BASE, 0, 0},
    {"coords", run_coords, BASE, 0, 0},
    {"write", run_write, BASE, 0, 0},
    {"set", run_set, BASE, 0, 0},
    {"listing", run_listing, BASE, 0, 0},
    {"header", run_header, W2, 0, 0},
    {"roof", run_roof, W4, 0, 0},
    {"files", run_files, W5, 0, 0},
    {"name", run_name, W5, 0, 0},
    {"where", run_where, W5, 0, 0},
    {"axes", run_axes, W6, 0, 0},
};

enum { OPERATIONS = sizeof operations / sizeof operations[0] };

static struct operation listing_files = {"listing files", NULL, BASE, 0, 0};

/* The operation; ends the program if there is none of this name. */
static struct operation *operation_named(const char *name)
{
    for (int i = 0; i < OPERATIONS; i++)
        if (strcmp(operations[i].name, name) == 0)
            return &operations[i];
    fprintf(stderr, "vectors: no operation has the name %s\n", name);
    exit(2);
}

static void count(struct operation *operation, int passed, const char *where, int number)
{
    operation->total++;
    operation->passed += passed;
    if (!passed)
        printf("failed: %s, %s %d\n", operation->name, where, number);
}

static void run_line(const char *text, int number)
{
    struct json *v = json_read(text);
    struct operation *operation = operation_named(json_member(v, "op")->text);
    count(operation, operation->run(v), "line", number);
    json_free(v);
}

/* The lines of calls.jsonl. */
static void run_calls(const char *folder)
{
    struct bytes text = load(folder, "calls.jsonl");
    int number = 0;
    if (text.at == NULL)
        return;
    for (char *line = strtok((char *)text.at, "\n"); line != NULL; line = strtok(NULL, "\n"))
        run_line(line, ++number);
    free(text.at);
}

/* The listing of one file, if there is one of this number. */
static void run_listing_file(const char *folder, int number)
{
    char name[40];
    struct bytes in, out;
    snprintf(name, sizeof name, "listing/%03d.in", number);
    in = load(folder, name);
    if (in.at == NULL)
        return;
    snprintf(name, sizeof name, "listing/%03d.out", number);
    out = load(folder, name);
    count(&listing_files, out.at != NULL && listing_is_right(in, out), "file", number);
    free(in.at);
    free(out.at);
}

/* Prints the counts; true if there is a vector of this kind, and all passed. An operation that came later has none. */
static int tell(const struct operation *operation)
{
    if (operation->request > last)
        return operation->total == 0;
    printf("%s: %d of %d\n", operation->name, operation->passed, operation->total);
    /* a kind of vector of which there is none was not run */
    return operation->total > 0 && operation->passed == operation->total;
}

/* The last request that vectors know which were made before another; ends the program if the word is none of these. */
static int last_before(const char *word)
{
    /* in the order of the requests */
    static const char *const words[] = {"before-w1", "before-w2", "before-w4", "before-w5", "before-w6"};
    for (int request = BASE; request < W6; request++)
        if (strcmp(words[request], word) == 0)
            return request;
    fprintf(stderr, "vectors: before-w1, before-w2, before-w4, before-w5 or before-w6, not %s\n", word);
    exit(2);
}

int main(int arguments, char **argument)
{
    const char *folder = arguments > 1 ? argument[1] : "tests/vectors";
    int right;
    if (arguments > 2)
        last = last_before(argument[2]);
    run_calls(folder);
    for (int number = 0; number < 1000; number++)
        run_listing_file(folder, number);
    right = tell(&listing_files);
    for (int i = 0; i < OPERATIONS; i++)
        right = tell(&operations[i]) && right;
    printf("vectors %s\n", right ? "passed" : "failed");
    return right ? 0 : 1;
}
