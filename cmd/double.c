/* The shortest digits that read back as the same double. */
#include "command.h"

#include <string.h>

/* The digits that every double keeps, and the largest power of ten that is a double. */
#define KEPT 15
#define POWERS 22

/* Digits that mean d.ddd times ten to the exponent. */
struct digits {
    char text[24];
    int count;
    int exponent;
};

static const double powers[POWERS + 1] = {1e0,  1e1,  1e2,  1e3,  1e4,  1e5,  1e6,  1e7,  1e8,  1e9,  1e10, 1e11,
                                          1e12, 1e13, 1e14, 1e15, 1e16, 1e17, 1e18, 1e19, 1e20, 1e21, 1e22};

/* The exponent of ten of a double that is above zero, or one less. */
static int estimate_exponent(double x)
{
    uint64_t bits;
    memcpy(&bits, &x, sizeof bits);
    return (((int)(bits >> 52) - 1023) * 1233 + 4096 * 400) / 4096 - 400;
}

/* The digits of n times ten to the scale, without zeros at their end. */
static void set_digits(struct digits *d, uint64_t n, int scale)
{
    int at = (int)sizeof d->text;
    for (; n % 10 == 0; n /= 10)
        scale++;
    for (; n > 0; n /= 10)
        d->text[--at] = (char)('0' + n % 10);
    d->count = (int)sizeof d->text - at;
    memmove(d->text, d->text + at, (size_t)d->count);
    d->exponent = d->count - 1 + scale;
}

/* x divided by ten to the scale, with one rounding. */
static double unscale(double x, int scale)
{
    return scale < 0 ? x * powers[-scale] : x / powers[scale];
}

/*
 * Finds up to 15 digits by one product or quotient with a power of ten. Both sides of the last comparison are exact but
 * for one rounding, so it holds just where the digits read back as x; and then no fewer do, since different numbers of
 * up to 15 digits are different doubles.
 */
static bool find_digits(struct digits *d, double x)
{
    int scale = estimate_exponent(x) - (KEPT - 1);
    uint64_t n;
    if (scale < -POWERS)
        scale = -POWERS;
    if (scale <= POWERS && unscale(x, scale) > powers[KEPT] - 1)
        scale++;
    if (scale > POWERS)
        return false;
    n = (uint64_t)(unscale(x, scale) + 0.5);
    if (n == 0 || (scale < 0 ? (double)n / powers[-scale] : (double)n * powers[scale]) != x)
        return false;
    set_digits(d, n, scale);
    return true;
}

static char *put(char *to, const char *from, int count)
{
    memcpy(to, from, (size_t)count);
    return to + count;
}

/* Lays the digits out as %.17g does. */
static int lay_out(char *to, const struct digits *d)
{
    static const char zeros[] = "0000000000000000";
    int whole = d->exponent + 1;
    char *at = to;
    if (whole < -3 || whole > 17)
        return sprintf(to, "%c%s%.*se%+03d", d->text[0], d->count > 1 ? "." : "", d->count - 1, d->text + 1, d->exponent);
    if (whole <= 0) {
        at = put(put(at, "0.", 2), zeros, -whole);
        at = put(at, d->text, d->count);
    } else if (whole >= d->count)
        at = put(put(at, d->text, d->count), zeros, whole - d->count);
    else {
        at = put(put(at, d->text, whole), ".", 1);
        at = put(at, d->text + whole, d->count - whole);
    }
    return (int)(at - to);
}

/* A field of a 58 has room for 15 digits, so that no value needs the last line's 17. */
int spell_double(char *to, double x)
{
    struct digits d;
    uint64_t bits;
    memcpy(&bits, &x, sizeof bits);
    if (x == 0)
        return sprintf(to, "%s", bits >> 63 ? "-0" : "0");
    if (!find_digits(&d, x < 0 ? -x : x))
        return sprintf(to, "%.17g", x);
    if (x < 0)
        *to++ = '-';
    return (x < 0) + lay_out(to, &d);
}
