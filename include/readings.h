/* The whole numbers next to a float from C, for products that decide nothing: the archive of the crate
 * `readings_c` alone, libreadings.a, which tests/archives.sh proves and writes. The rule is that of paper 1 of
 * "document 02" for one side of a measured box. */
#ifndef READINGS_H
#define READINGS_H

#include <stdint.h>

#ifdef __cplusplus
extern "C" {
#endif

/* The faces of reading_side. */
enum {
    READING_LOWER = 0, /* rounded down */
    READING_UPPER = 1  /* rounded up */
};

/* What reading_side answers where it refuses: the refusal with the number 19 (GUARD_REFUSED_READING of
 * guard.h), as an answer of the guard has it. No side is as great. */
#define READING_REFUSED (INT64_C(3) * (INT64_C(1) << 48) + INT64_C(19) * (INT64_C(1) << 32))

/* The greatest whole number that is not above the value where face is READING_LOWER, and the least that is not
 * below it for every other face. It is that of the float's exact value, and minus zero is zero: -0.25 has the
 * sides -1 and 0, 3 has 3 and 3. A side lies within +-1,000,000. A NaN, an infinity and a magnitude over
 * 1,000,000 are refused; no float is undefined. */
int64_t reading_side(float value, uint32_t face);

#ifdef __cplusplus
}
#endif

#endif
