/* The greatest counts of a sheet, the slots of its numbers, and lengths in bytes ("document 01", "Sheet
 * layout"; what is asked of the no-go boxes: "document 02", papers 2 and 8; the question about a span of
 * commands: its paper 4; six variables, and a plain law that follows the state: its paper 9). guard.h and
 * sheet.h include this file, and bindings/ reads it for Rust; no other file outside the archive and the two
 * guards of reference/ has these numbers.
 *
 * For bindings/ each name stands in an enum with its value: numbers, earlier names, +, * and brackets. */
#ifndef GUARD_FORMAT_H
#define GUARD_FORMAT_H

#include <stddef.h>

#ifdef __cplusplus
extern "C" {
#endif

/* ---- the greatest counts ---------------------------------------------------------------------- */

enum {
    GUARD_VARIABLES = 6,
    GUARD_BANDS = 8,
    GUARD_UNSAFE_BOXES = 8 /* no-go boxes */
};

/* ---- slots -------------------------------------------------------------------------------------
 *
 * A sheet's numbers stand at fixed slots, whatever its counts are. */

enum {
    GUARD_SLOT_N = 0,
    GUARD_SLOT_BANDS = 1,
    GUARD_SLOT_UNSAFE_BOXES = 2,
    GUARD_SLOT_BAND_VARIABLE = 3,
    GUARD_SLOT_DELTA = 4,
    GUARD_SLOT_ALPHA = 5,
    GUARD_SLOT_RHO = 6,
    GUARD_SLOT_LEAST_COMMAND = 7,
    GUARD_SLOT_GREATEST_COMMAND = 8,
    GUARD_SLOT_CAPS = 9, /* GUARD_VARIABLES caps */

    GUARD_ROW_SIZE = GUARD_VARIABLES + 4, /* coefficients, then b, c, d, q */
    GUARD_BOX_SIZE = 2 * GUARD_VARIABLES, /* lower sides, then upper sides */

    /* of a law: its coefficients, then */
    GUARD_LAW_CONSTANT = GUARD_VARIABLES,
    GUARD_LAW_DIVISOR = GUARD_LAW_CONSTANT + 1,
    GUARD_LAW_SIZE = GUARD_LAW_DIVISOR + 1,

    /* of a band: its edge, the least and the greatest command of its safety range, then */
    GUARD_BAND_LAW = 3,
    GUARD_BAND_ROWS = GUARD_BAND_LAW + GUARD_LAW_SIZE,
    GUARD_BAND_SIZE = GUARD_BAND_ROWS + GUARD_VARIABLES * GUARD_ROW_SIZE,

    GUARD_SLOT_BAND = GUARD_SLOT_CAPS + GUARD_VARIABLES,                   /* the first band */
    GUARD_SLOT_RECOVERY = GUARD_SLOT_BAND + GUARD_BANDS * GUARD_BAND_SIZE, /* the recovery box */
    GUARD_SLOT_UNSAFE = GUARD_SLOT_RECOVERY + GUARD_BOX_SIZE,              /* the first no-go box */

    /* how many numbers a sheet has; guard_numbers and sheet_numbers answer the archive's */
    GUARD_NUMBERS = GUARD_SLOT_UNSAFE + GUARD_UNSAFE_BOXES * GUARD_BOX_SIZE
};

/* Band k's edge; the least and the greatest command of its safety range are the next two. */
static inline size_t guard_slot_band(size_t k)
{
    return GUARD_SLOT_BAND + GUARD_BAND_SIZE * k;
}

/* The first coefficient of band k's law; the constant and the divisor stand GUARD_LAW_CONSTANT and
 * GUARD_LAW_DIVISOR further. The first band's divisor says of which kind a sheet is: 0 where its bands are
 * marked `BD`, whose plain law is the safety range and which have no law numbers, and otherwise `BF`. */
static inline size_t guard_slot_law(size_t k)
{
    return guard_slot_band(k) + GUARD_BAND_LAW;
}

/* The first coefficient of band k's row for variable i; b, c, d, q stand GUARD_VARIABLES further. */
static inline size_t guard_slot_row(size_t k, size_t i)
{
    return guard_slot_band(k) + GUARD_BAND_ROWS + GUARD_ROW_SIZE * i;
}

/* No-go box j's first lower side; its upper sides stand GUARD_VARIABLES further. Each box is greater than
 * the one before, compared by first lower side, first upper side, second lower side and so on over the n
 * variables, and none shares a state with the recovery box. */
static inline size_t guard_slot_unsafe(size_t j)
{
    return GUARD_SLOT_UNSAFE + GUARD_BOX_SIZE * j;
}

/* ---- lengths in bytes -------------------------------------------------------------------------- */

enum {
    GUARD_PAIR = 8, /* a lower and an upper side */

    GUARD_QUESTION_HEAD = 10,      /* mark, allowance, command */
    GUARD_SPAN_QUESTION_HEAD = 14, /* mark, allowance, least and greatest command */
    GUARD_LONGEST_QUESTION = GUARD_SPAN_QUESTION_HEAD + GUARD_PAIR * GUARD_VARIABLES,

    GUARD_LONGEST_REACH = 2 * GUARD_PAIR * GUARD_VARIABLES, /* pairs of the end box and of the swept box */

    /* a sheet with every count at its greatest */
    GUARD_SHEET_HEAD = 20 + 2 * GUARD_VARIABLES,               /* mark, counts, times, commands, caps */
    GUARD_LAW_BYTES = 2 * GUARD_VARIABLES + 6,                 /* coefficients, constant, divisor */
    GUARD_ROW_BYTES = 2 * GUARD_VARIABLES + 12,                /* coefficients, then b, c, d, q */
    GUARD_BAND_BYTES = 14 + GUARD_VARIABLES * GUARD_ROW_BYTES, /* BD: mark, edge, safety range, rows */
    GUARD_FOLLOWING_BAND_BYTES = GUARD_BAND_BYTES + GUARD_LAW_BYTES, /* BF: a law before the rows */
    GUARD_BOX_BYTES = 2 + GUARD_PAIR * GUARD_VARIABLES,              /* mark, pairs of sides */
    GUARD_LONGEST_SHEET = GUARD_SHEET_HEAD + GUARD_BANDS * GUARD_FOLLOWING_BAND_BYTES
                          + (GUARD_UNSAFE_BOXES + 1) * GUARD_BOX_BYTES
};

/* The length of a question of n variables about one command. */
static inline size_t guard_question_length(size_t n)
{
    return GUARD_QUESTION_HEAD + GUARD_PAIR * n;
}

/* The length of a question of n variables about a span of commands. */
static inline size_t guard_span_question_length(size_t n)
{
    return GUARD_SPAN_QUESTION_HEAD + GUARD_PAIR * n;
}

/* The length of what a reach of n variables writes: the pairs of the end box and of the swept box. */
static inline size_t guard_reach_length(size_t n)
{
    return 2 * GUARD_PAIR * n;
}

#ifdef __cplusplus
}
#endif

#endif
