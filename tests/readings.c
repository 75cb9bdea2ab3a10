/* The call of include/readings.h from C, linked with the archive of the crate `readings_c` alone: both faces of
 * floats at every edge of paper 1 of document 02, around every whole number, and at a stride over all bits.
 * What is due is worked out from the bits in whole numbers. The last line is `N passed, M failed`.
 *
 * No float is turned into a whole number here: C leaves that undefined for a NaN or a great float. */
#include "readings.h"

#include <inttypes.h>
#include <stdbool.h>
#include <stdio.h>
#include <string.h>

#define SIGN UINT32_C(0x80000000)
#define MILLION UINT32_C(0x49742400) /* the bits of 1,000,000 */

static int passed, failed;

static void expect(const char *what, uint32_t bits, int64_t got, int64_t want)
{
    if (got == want) {
        passed++;
        return;
    }
    failed++;
    printf("%s %08" PRIx32 ": %" PRId64 " where %" PRId64 " is due\n", what, bits, got, want);
}

static int64_t side(uint32_t bits, uint32_t face)
{
    float value;
    memcpy(&value, &bits, sizeof value);
    return reading_side(value, face);
}

/* ---- what is due, from the bits */

/* Whether the magnitude is a number up to 1,000,000: bits without their sign ascend with the magnitude, and
 * infinity and the NaNs are above all numbers. */
static bool is_near(uint32_t bits)
{
    return (bits & ~SIGN) <= MILLION;
}

/* The bits without their sign are exponent * 2^23 + fraction. The magnitude is digits * 2^(exponent - 150),
 * where the digits of all but the least exponent have 2^23 beside the fraction. Up to 1,000,000 the exponent
 * is below 150. */
static int64_t due_side(uint32_t bits, bool upper)
{
    if (!is_near(bits))
        return READING_REFUSED;
    uint32_t exponent = bits >> 23 & 0xff, fraction = bits & 0x7fffff;
    uint64_t digits = exponent == 0 ? fraction : fraction + 0x800000;
    uint32_t below_one = 150 - (exponent == 0 ? 1 : exponent); /* how many digits stand behind the point */
    int64_t whole = below_one > 24 ? 0 : (int64_t)(digits >> below_one);
    bool rest = below_one > 24 ? digits != 0 : (digits & ((UINT64_C(1) << below_one) - 1)) != 0;
    bool negative = (bits & SIGN) != 0;
    int64_t magnitude = whole + (rest && negative != upper);
    return negative ? -magnitude : magnitude;
}

/* ---- named floats, of both signs */

static const struct {
    uint32_t bits;
    int32_t below, above;
} edges[] = {
    {0x00000000, 0, 0},             /* 0 */
    {0x00000001, 0, 1},             /* the least number above 0 */
    {0x00000002, 0, 1},
    {0x007fffff, 0, 1},             /* the greatest subnormal number */
    {0x00800000, 0, 1},             /* the least normal number */
    {0x3e800000, 0, 1},             /* 0.25 */
    {0x3effffff, 0, 1},             /* below 0.5 */
    {0x3f000000, 0, 1},             /* 0.5 */
    {0x3f000001, 0, 1},
    {0x3f7fffff, 0, 1},             /* below 1 */
    {0x3f800000, 1, 1},             /* 1 */
    {0x3f800001, 1, 2},
    {0x3fc00000, 1, 2},             /* 1.5 */
    {0x3fffffff, 1, 2},
    {0x40000000, 2, 2},             /* 2 */
    {0x40000001, 2, 3},
    {0x40200000, 2, 3},             /* 2.5 */
    {0x42f6e666, 123, 124},         /* close to 123.45 */
    {0x447a0000, 1000, 1000},       /* 1,000 */
    {0x447a0001, 1000, 1001},
    {0x477fff00, 65535, 65535},     /* 65,535 */
    {0x477fff80, 65535, 65536},     /* 65,535.5 */
    {0x47800000, 65536, 65536},     /* 65,536 */
    {0x48ffffff, 524287, 524288},   /* 2^19 - 1/32 */
    {0x49000000, 524288, 524288},   /* 2^19 */
    {0x49000001, 524288, 524289},   /* 2^19 + 1/16 */
    {0x497423f0, 999999, 999999},   /* 999,999 */
    {0x497423f1, 999999, 1000000},  /* 999,999.0625 */
    {0x497423f8, 999999, 1000000},  /* 999,999.5 */
    {0x497423ff, 999999, 1000000},  /* 999,999.9375 */
    {0x49742400, 1000000, 1000000}, /* 1,000,000 */
};

/* Refused with either sign. */
static const uint32_t beyond[] = {
    0x49742401,                                     /* 1,000,000.0625 */
    0x49742410,                                     /* 1,000,001 */
    0x49800000, 0x4affffff, 0x4b000000, 0x4b000001, /* 2^20, 2^23 - 0.5, 2^23, 2^23 + 1 */
    0x4b7fffff, 0x4b800000, 0x4b800001,             /* around 2^24 */
    0x4effffff, 0x4f000000, 0x4f7fffff, 0x4f800000, /* around 2^31 and 2^32 */
    0x5effffff, 0x5f000000, 0x5f800000,             /* around 2^63 and 2^64 */
    0x7f7fffff, 0x7f800000,                         /* the greatest number, infinity */
    0x7f800001, 0x7fbfffff, 0x7fc00000, 0x7fc12345, 0x7fffffff, /* NaNs of both kinds */
};

/* Every face but the lower one is the upper one. */
static const uint32_t upper_faces[] = {READING_UPPER, 2, 3, 255, 256, 65536, 0x7fffffff, SIGN, UINT32_MAX};

static void expect_sides(const char *what, uint32_t bits, int64_t below, int64_t above)
{
    expect(what, bits, side(bits, READING_LOWER), below);
    for (size_t i = 0; i < sizeof upper_faces / sizeof *upper_faces; i++)
        expect(what, bits, side(bits, upper_faces[i]), above);
    expect("due below", bits, due_side(bits, false), below);
    expect("due above", bits, due_side(bits, true), above);
}

static void named_floats(void)
{
    for (size_t i = 0; i < sizeof edges / sizeof *edges; i++) {
        expect_sides("edge", edges[i].bits, edges[i].below, edges[i].above);
        expect_sides("edge", edges[i].bits | SIGN, -edges[i].above, -edges[i].below);
    }
    for (size_t i = 0; i < sizeof beyond / sizeof *beyond; i++) {
        expect_sides("beyond", beyond[i], READING_REFUSED, READING_REFUSED);
        expect_sides("beyond", beyond[i] | SIGN, READING_REFUSED, READING_REFUSED);
    }
}

/* As the guard has the refusal with 19; no side is as great. */
static void refusal(void)
{
    expect("refusal", 0, READING_REFUSED, (int64_t)((UINT64_C(3) << 48) | (UINT64_C(19) << 32)));
    expect("refusal", 0, READING_REFUSED > 1000000, 1);
    expect("lower face", 0, READING_LOWER, 0);
    expect("upper face", 0, READING_UPPER, 1);
}

/* ---- many floats: how many are right, and how many of each kind there are */

static struct tally {
    uint32_t floats, right, refused, whole, between;
} tally;

/* Both sides are due, and by the floats themselves the value lies between them: a double has every float and
 * every side exactly. */
static bool is_right(uint32_t bits)
{
    float value;
    memcpy(&value, &bits, sizeof value);
    int64_t below = side(bits, READING_LOWER), above = side(bits, READING_UPPER);
    if (below != due_side(bits, false) || above != due_side(bits, true))
        return false;
    if (!is_near(bits))
        return true;
    return (double)below <= value && value < (double)below + 1 && value <= (double)above && (double)above - 1 < value;
}

static void try_float(uint32_t bits)
{
    bool right = is_right(bits);
    int64_t below = due_side(bits, false), above = due_side(bits, true);
    if (!right && tally.right == tally.floats)
        printf("float %08" PRIx32 " is the first that is wrong\n", bits);
    tally.floats++;
    tally.right += right;
    tally.refused += below == READING_REFUSED;
    tally.whole += below != READING_REFUSED && below == above;
    tally.between += below != READING_REFUSED && below != above;
}

static void begin(void)
{
    memset(&tally, 0, sizeof tally);
}

/* All were right, and each kind was there as often as is asked. */
static void end(const char *what, uint32_t refused, uint32_t whole, uint32_t between)
{
    printf("%s: %" PRIu32 " floats, %" PRIu32 " refused, %" PRIu32 " whole, %" PRIu32 " between\n", what,
           tally.floats, tally.refused, tally.whole, tally.between);
    expect(what, 0, tally.right, tally.floats);
    expect(what, 1, tally.refused >= refused, 1);
    expect(what, 2, tally.whole >= whole, 1);
    expect(what, 3, tally.between >= between, 1);
}

/* Every whole number up to a million and the floats beside it, of both signs; the next one after the last is
 * refused. */
static void whole_numbers(void)
{
    begin();
    for (int32_t number = 0; number <= 1000000; number++) {
        float value = (float)number;
        uint32_t bits;
        memcpy(&bits, &value, sizeof bits);
        for (uint32_t at = number == 0 ? bits : bits - 1; at <= bits + 1; at++) {
            try_float(at);
            try_float(at | SIGN);
        }
    }
    end("whole numbers", 2, 2000002, 4000000);
}

/* Each sign and exponent is met some 32,000 times. */
static void stride(void)
{
    enum { STRIDE = 257 };
    begin();
    for (uint64_t bits = 0; bits <= UINT32_MAX; bits += STRIDE)
        try_float((uint32_t)bits);
    end("stride", 7000000, 4000, 8000000);
}

/* For each sign and exponent its first and last bits, and each single digit. */
static void exponents(void)
{
    begin();
    for (uint32_t exponent = 0; exponent < 512; exponent++)
        for (uint32_t digit = 0; digit <= 23; digit++) {
            try_float(exponent << 23 | ((UINT32_C(1) << digit) - 1));
            try_float(exponent << 23 | (UINT32_C(1) << digit & 0x7fffff));
            try_float(exponent << 23 | (0x7fffff >> digit << digit));
        }
    end("exponents", 10000, 500, 10000);
}

int main(void)
{
    refusal();
    named_floats();
    whole_numbers();
    stride();
    exponents();
    printf("%d passed, %d failed\n", passed, failed);
    return failed != 0;
}
