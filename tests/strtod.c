/*
 * Compares the components of vectors with strtod of C: every text of up to six
 * bytes out of a small alphabet, and random ones. A component is put into the
 * space origin of a header. It has to be taken exactly when strtod takes all
 * of it, hex and nan with brackets apart, unless it passes a limit: eighteen
 * digits, a power from -400 to 400. The exact value has to round to the double
 * that strtod makes of the text. With USE_MODEL the model is run in place of
 * the library.
 *
 *     strtod [first input] [number of inputs]
 */
#include "calls.h"
#include "generate.h"
#include "model.h"

#include <math.h>
#include <stdio.h>
#include <stdlib.h>
#include <string.h>

#ifdef USE_MODEL
static const struct calls calls = CALLS(model);
#else
static const struct calls calls = CALLS(craneholt);
#endif

enum { LONGEST = 200 }; /* bytes of a component */

static unsigned long taken, limited, refused, marks;

/* ---- what strtod says */

/* True if strtod takes all of the text, and it is none of the forms that a header may not have. */
static int is_taken(const char *text, double *value)
{
    char *end;
    *value = strtod(text, &end);
    return end != text && *end == '\0' && strpbrk(text, "xX(") == NULL && text[strspn(text, " \t\n\v\f\r")] == text[0];
}

/* The number after `e`, of any length, or 0. */
static long exponent_of(const char *text)
{
    const char *e = strpbrk(text, "eE");
    return e == NULL ? 0 : strtol(e + 1, NULL, 10);
}

/* True if a numeral that strtod takes has too many digits, or too large a power once the point is folded in. */
static int passes_limit(const char *text)
{
    size_t counted = 0, after = 0;
    int pointed = 0;
    long exponent = exponent_of(text);
    for (; *text != '\0' && *text != 'e' && *text != 'E'; text++) {
        int digit = *text >= '0' && *text <= '9';
        pointed |= *text == '.';
        after += (size_t)(digit && pointed);
        counted += (size_t)(digit && (counted > 0 || *text != '0'));
    }
    /* an exponent past what a long holds is the nearest long */
    return counted > 18 || exponent > 100000 || exponent < -100000 || labs(exponent - (long)after) > 400;
}

/* ---- what the header says */

/* The refusal of a header with this component as its origin, or 0 and its decimal. */
static craneholt_refusal read_component(const char *text, craneholt_decimal *decimal)
{
    char file[LONGEST + 200];
    int length = snprintf(file, sizeof file,
                          "NRRD0004\ntype: int8\ndimension: 1\nsizes: 1\nencoding: raw\n"
                          "space dimension: 1\nspace origin: (%s)\n\n",
                          text);
    craneholt_count_answer answer = calls.origin((const uint8_t *)file, (size_t)length, decimal, sizeof *decimal);
    if (answer.refusal.number == 0 && answer.count != 1)
        answer.refusal.number = 22;
    return answer.refusal;
}

/* The double by the exact text, as craneholt.h says it is made. */
static double value_of(craneholt_decimal d)
{
    char text[25];
    int length = snprintf(text, sizeof text, "%llde%d", (long long)d.number, (int)d.power);
    return length < (int)sizeof text ? strtod(text, NULL) : nan("");
}

static int is_mark(const char *text)
{
    return strpbrk(text, "nN") != NULL; /* nan, inf, infinity */
}

static int same_value(const char *text, double value, craneholt_decimal d)
{
    if (is_mark(text))
        return d.number == 0 && d.power == 0
               && d.kind == (uint32_t)(isnan(value) ? CRANEHOLT_NAN : value > 0 ? CRANEHOLT_INF : CRANEHOLT_MINUS_INF);
    return d.kind == CRANEHOLT_NUMBER && value_of(d) == value;
}

/* ---- one component */

static void fail(const char *text, const char *what)
{
    printf("component `%s`: %s\n", text, what);
    exit(1);
}

static void check_refused(const char *text, craneholt_refusal refusal, unsigned long *count)
{
    if (refusal.number != 11 || refusal.line != 7)
        fail(text, "is not refused with 11 at its line");
    ++*count;
}

static void check(const char *text)
{
    craneholt_decimal decimal = {0, 0, 0};
    craneholt_refusal refusal = read_component(text, &decimal);
    double value;
    if (!is_taken(text, &value)) {
        check_refused(text, refusal, &refused);
    } else if (!is_mark(text) && passes_limit(text)) {
        check_refused(text, refusal, &limited);
    } else if (refusal.number != 0) {
        fail(text, "is refused, and strtod takes it");
    } else if (!same_value(text, value, decimal)) {
        fail(text, "has another value");
    } else {
        taken++;
        marks += (unsigned long)is_mark(text);
    }
}

/* ---- the components */

/* Every text of so many bytes of the alphabet after those that are there. */
static void check_all(char *text, size_t length, size_t longest)
{
    text[length] = '\0';
    check(text);
    for (const char *byte = "05.eE+-"; length < longest && *byte != '\0'; byte++) {
        text[length] = *byte;
        check_all(text, length + 1, longest);
    }
}

/* A byte more, less or other, up to twice; never a comma, a bracket or a blank. */
static void change(char *text)
{
    static const char bytes[] = "0123456789..eeE+-naifytx";
    for (int i = random_chance(50) ? 0 : 1 + (int)random_below(2); i > 0; i--) {
        size_t length = strlen(text), at = random_below(length + 1);
        char byte = bytes[random_below(sizeof bytes - 1)];
        if (random_chance(30) && at < length) {
            memmove(text + at, text + at + 1, length - at);
        } else if (random_chance(50) && at < length) {
            text[at] = byte;
        } else if (length < LONGEST) {
            memmove(text + at + 1, text + at, length - at + 1);
            text[at] = byte;
        }
    }
}

/* Digits of any number around a point, with an exponent near the limits or near nothing. */
static void put_long(struct bytes *b)
{
    static const char digits[] = "00123456789";
    for (size_t i = random_below(24); i > 0; i--)
        put_byte(b, (uint8_t)digits[random_below(11)]);
    if (random_chance(70))
        put_byte(b, '.');
    for (size_t i = random_below(24); i > 0; i--)
        put_byte(b, (uint8_t)digits[random_below(11)]);
    if (random_chance(60)) {
        char exponent[24];
        long size = random_chance(50) ? (long)random_below(30) : 370 + (long)random_below(60);
        snprintf(exponent, sizeof exponent, "e%s%0*ld", random_chance(50) ? "-" : random_chance(50) ? "+" : "",
                 1 + (int)random_below(8), size);
        put_bytes(b, exponent, strlen(exponent));
    }
}

static void check_random(uint64_t input)
{
    static struct bytes component;
    char text[LONGEST + 1];
    random_start(input);
    component.length = 0;
    if (random_chance(50))
        put_component(&component, 20);
    else
        put_long(&component);
    if (component.length > LONGEST || memchr(component.at, ' ', component.length) != NULL)
        return;
    memcpy(text, component.at, component.length);
    text[component.length] = '\0';
    change(text);
    check(text);
}

int main(int arguments, char **argument)
{
    uint64_t first = arguments > 1 ? strtoull(argument[1], NULL, 10) : 0;
    uint64_t inputs = arguments > 2 ? strtoull(argument[2], NULL, 10) : 200000;
    char text[8];
    check_all(text, 0, 6);
    for (uint64_t input = first; input < first + inputs; input++)
        check_random(input);
    printf("components beside strtod: %lu taken (%lu nan or infinite), %lu past a limit, %lu that strtod does not take; "
           "no difference\n",
           taken, marks, limited, refused);
    return taken == 0 || marks == 0 || limited == 0 || refused == 0;
}
