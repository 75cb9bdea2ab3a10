/* The guard's calls for C. The rules behind them are those of "document 01", the scope paper, and of
 * papers 3 (tighter rates near a band edge), 2 (no-go boxes in a set order), 8 (no recovery box on a
 * no-go box), 4 (a span of commands), 9 (six variables, a plain law that follows the state) and 1 (readings
 * as floats) of "document 02".
 *
 * A drive calls guard_recovery once for its sheet and, once for each period, guard_decide or
 * guard_decide_readings; guard_sheet tests a sheet's format alone. The others serve set-up tools, other
 * products and tests.
 *
 * Every slice is a pointer and a length, which counts bytes, or floats where the slice is of floats. A
 * pointer may be NULL where its length is 0. An array of a sheet's numbers is a pointer to GUARD_NUMBERS
 * numbers and is never NULL. What a call writes to must not overlap its other arguments. No call keeps a
 * pointer, allocates, prints or has any state of its own: the same arguments give the same answer, from any
 * thread.
 *
 * All numbers in slices of bytes are big-endian, signed ones in two's complement; those in an array and
 * floats are the machine's own. guard_format.h has the slots of the numbers and the lengths of sheets and
 * questions. */
#ifndef GUARD_H
#define GUARD_H

#include "guard_format.h"

#include <stdbool.h>
#include <stddef.h>
#include <stdint.h>

#ifdef __cplusplus
extern "C" {
#endif

/* ---- answers -------------------------------------------------------------------------------------
 *
 * Every call but guard_numbers answers with one number: code * 2^48 + width * 2^32 + rounds. */

/* The code of guard_decide's and guard_decide_readings' answer; guard_recovery uses GUARD_PASS, GUARD_FAIL
 * and GUARD_REFUSED. */
enum {
    GUARD_KEEP = 0,    /* the command, or any of the span at each tick, is safe for the next period */
    GUARD_FINEST = 1,  /* no width shows that it is safe: hand over to the plain law */
    GUARD_SPENT = 2,   /* the allowance ended first: hand over to the plain law */
    GUARD_REFUSED = 3, /* the sheet, the question or a reading is at fault; guard_refusal has the number */

    GUARD_PASS = 0, /* the recovery box passes its check */
    GUARD_FAIL = 1  /* it does not: do not run on this sheet */
};

/* The number of a refusal, which guard_refusal gives. A refused call leaves every buffer and array as
 * it was. 21 is not in use. */
enum {
    GUARD_REFUSED_HEAD = 1,      /* sheet: under 20 bytes, or mark not SH */
    GUARD_REFUSED_COUNTS = 2,    /* sheet: n (1 to 6), a count or the band variable out of range */
    GUARD_REFUSED_TIMES = 3,     /* sheet: delta, alpha or rho */
    GUARD_REFUSED_COMMANDS = 4,  /* sheet: the head's least and greatest command */
    GUARD_REFUSED_LENGTH = 5,    /* sheet: not the length that its counts and its first band's mark have */
    GUARD_REFUSED_CAP = 6,       /* sheet: a cap */
    GUARD_REFUSED_MARK = 7,      /* sheet: a later record's mark; a band's that is not the first band's */
    GUARD_REFUSED_EDGE = 8,      /* sheet: a band's edge */
    GUARD_REFUSED_SAFETY = 9,    /* sheet: a band's safety range */
    GUARD_REFUSED_ROW = 10,      /* sheet: a number of a band's law or of a row */
    GUARD_REFUSED_SIDE = 11,     /* sheet: a side of a no-go box or of the recovery box */
    GUARD_REFUSED_QUESTION = 12, /* question: length or mark */
    GUARD_REFUSED_ALLOWANCE = 13,
    GUARD_REFUSED_COMMAND = 14, /* question or reach: command outside the head's range; span reversed */
    GUARD_REFUSED_START = 15,   /* question or reach: a side of the measured or start box */
    GUARD_REFUSED_REACH = 16,   /* reach: ticks or width */
    GUARD_REFUSED_ROOM = 17,    /* write or reach: too little room in the buffer */
    GUARD_REFUSED_MISSING = 18, /* readings: a variable has none */
    GUARD_REFUSED_READING = 19, /* readings: no number, too great, a bad tolerance, or a reversed pair */
    GUARD_REFUSED_ORDER = 20,   /* sheet: a no-go box not greater than the one before */
    GUARD_REFUSED_OVERLAP = 22  /* sheet: the recovery box shares a state with a no-go box */
};

static inline uint32_t guard_code(uint64_t answer)
{
    return (uint32_t)(answer >> 48);
}

/* The width, or the number of the refusal. */
static inline uint32_t guard_width(uint64_t answer)
{
    return (uint32_t)(answer >> 32) & 0xffffu;
}

/* The rounds, 0 where the call is refused. */
static inline uint32_t guard_rounds(uint64_t answer)
{
    return (uint32_t)answer;
}

static inline bool guard_is_refused(uint64_t answer)
{
    return guard_code(answer) == GUARD_REFUSED;
}

/* The number of the refusal (GUARD_REFUSED_..), 0 where the call is not refused. */
static inline uint32_t guard_refusal(uint64_t answer)
{
    return guard_is_refused(answer) ? guard_width(answer) : 0;
}

/* Of an answer of guard_sheet_read or guard_sheet_write: the length of the sheet that was read or
 * written, 0 where the call is refused. No sheet has the length 0. */
static inline size_t guard_length(uint64_t answer)
{
    return guard_is_refused(answer) ? 0 : (size_t)guard_rounds(answer);
}

/* ---- the drive's calls ------------------------------------------------------------------------- */

/* Is this a sheet? 0 where it is accepted, or refused with 1 to 11, 20 or 22. Up to 6 the first in the
 * order of the numbers counts, then the first in the order of the file; of a no-go box first its mark (7),
 * then its sides (11), then whether it is greater than the box before (20). The last test, after the sides
 * of the recovery box (11), is whether that box shares a state with a no-go box (22). Both sides of a box
 * count: 5..9 and 9..12 share a value, 5..9 and 10..12 do not.
 *
 * The bands are marked `BD` or `BF`, all of them as the first one. Under the plain law a `BD` band has any
 * command of its safety range. A `BF` band has a law before its rows: n coefficients (i16, within
 * +-1,000), a constant (i32, within +-100,000,000) and a divisor (u16, 1 to 4,096); 10 where one is out of
 * range. At a state it has any command from floor to ceil of (sum of coefficient * variable + constant) /
 * divisor, both cut to the safety range. If the file reaches the first band's mark, at byte 20 + 2n, and
 * that reads `BF`, the length (5) is that of `BF` bands, 2n + 6 bytes more for each, otherwise that of `BD`
 * bands; then a band with another mark is 7. */
uint64_t guard_sheet(const uint8_t *sheet, size_t sheet_length);

/* The recovery check: under the plain law, does every state of the recovery box stay out of the no-go
 * boxes for rho ticks and end in the recovery box? GUARD_PASS or GUARD_FAIL with width and rounds, or
 * refused with 1 to 11, 20 or 22. There is no allowance: a sheet is checked at set-up, not in a period.
 * A pass counts for the archive that gave it: check each sheet again with a new one. */
uint64_t guard_recovery(const uint8_t *sheet, size_t sheet_length);

/* The decision on one question. GUARD_KEEP, GUARD_FINEST or GUARD_SPENT with the width and the rounds
 * over all widths (never above the question's allowance), or refused with 1 to 11, 20 or 22 for the
 * sheet, then with 12 to 15 for the question.
 *
 * A question is about one command or about a span of commands, and its mark says which (12: another mark,
 * or not the length that its mark has):
 *
 *     'Q' 'S', allowance, command, sides                          10 + 8n bytes (guard_question)
 *     'Q' 'R', allowance, least command, greatest command, sides  14 + 8n bytes (guard_span_question)
 *
 * The allowance is a u32, at most 1,000,000 (13). A command is an i32 within the head's commands, and the
 * least of a span is not above its greatest (14). The sides are, for each variable, the lower and the upper
 * side of the measured box (i32, lower <= upper, within +-1,000,000: 15).
 *
 * The keep of a span lets the coach use any one command of the span at each tick of the period, the same
 * for all variables, and another one at the next tick if it likes. A span whose ends are equal has the
 * answer of its one command: the same code, width and rounds.
 *
 * The decision does not repeat the recovery check: ask only on a sheet that passed it. */
uint64_t guard_decide(const uint8_t *sheet, size_t sheet_length,
                      const uint8_t *question, size_t question_length);

/* What kind of reading a variable has. Every other number means the same as GUARD_READING_NONE. */
enum {
    GUARD_READING_NONE = 0,  /* no reading */
    GUARD_READING_POINT = 1, /* a value and a tolerance */
    GUARD_READING_PAIR = 2   /* a lower and an upper value */
};

/* The decision on a question whose measured box comes of readings in floats. head is the bytes before a
 * question's pairs: 10 bytes where its mark is `QS` (guard_head), 14 where it is `QR` (guard_span_head).
 * kinds[i] is the kind of variable i's reading, values[2i] and values[2i + 1] are its two numbers, and
 * values_length counts floats (struct guard_readings, below, has both arrays). The unit of a float is that of
 * the sheet's numbers. Variable i gets these sides:
 *
 *     GUARD_READING_POINT  value, tolerance  floor(value) - ceil(tolerance) .. ceil(value) + ceil(tolerance)
 *     GUARD_READING_PAIR   lower, upper      floor(lower) .. ceil(upper)
 *
 * Floor and ceil are of the float's exact value, and minus zero is zero. So the box always holds what the
 * drive meant: every number from value - tolerance to value + tolerance, or from lower to upper. The answer is
 * that of guard_decide on the head followed by the n pairs of sides: the same code, width and rounds.
 *
 * Refused with 1 to 11, 20 or 22 for the sheet, then for the head with 12 (another mark, or not the length
 * that its mark has), 13 and 14, all as by guard_decide. Then variable by variable, from the first on, with
 *
 *     18  where it has no reading: another kind than these two, or kinds has no number i, or values does not
 *         have both numbers (kinds_length <= i, values_length < 2i + 2); then neither number is looked at;
 *     19  where its value, lower or upper is a NaN, an infinity or of a magnitude over 1,000,000, its
 *         tolerance is a NaN, below 0 or over 1,000, or its lower is above its upper.
 *
 * Last, once no variable has such a fault, with 15 where a side is beyond +-1,000,000: the value 1,000,000
 * with the tolerance 0.5 has the upper side 1,000,001.
 *
 * All tests are on the exact value: the next float above 1,000,000 is refused, and so is the next one below 0
 * as a tolerance. No float is undefined here, whatever its bits are: a NaN of any kind is refused with 19. What
 * kinds and values have beyond the sheet's n variables is not looked at. Nothing is written. */
uint64_t guard_decide_readings(const uint8_t *sheet, size_t sheet_length,
                               const uint8_t *head, size_t head_length,
                               const uint8_t *kinds, size_t kinds_length,
                               const float *values, size_t values_length);

/* ---- calls for set-up tools, other products and tests ------------------------------------------ */

/* How many numbers the arrays of the next two calls have in this archive. A program whose header may be
 * of another version than its archive compares it with GUARD_NUMBERS before it uses them. */
uint64_t guard_numbers(void);

/* Puts the sheet's numbers at their slots (guard_format.h) and answers the sheet's length (guard_length).
 * Numbers beyond the sheet's counts are 0, and so is every law number where the bands are marked `BD`.
 * Refused with 1 to 11, 20 or 22. */
uint64_t guard_sheet_read(const uint8_t *sheet, size_t sheet_length, int32_t numbers[GUARD_NUMBERS]);

/* Writes the sheet whose numbers are given, at their slots, into buffer from place on, and answers the
 * sheet's length (guard_length). Numbers beyond the counts are not looked at. The first band's law divisor
 * says which mark the bands get: 0 is `BD`, and then no law number of any band is looked at; any other is
 * `BF`, and one outside 1 to 4,096 is refused with 10 as that of each band is. Bytes of buffer outside the
 * sheet remain. Refused with 2, 3, 4, 6, 8, 9, 10, 11 or 20 in the order of the file, then with 22, then
 * with 17 where buffer has too little room from place on; GUARD_LONGEST_SHEET bytes are enough for every
 * sheet. */
uint64_t guard_sheet_write(const int32_t numbers[GUARD_NUMBERS], uint8_t *buffer, size_t buffer_length,
                           uint64_t place);

/* A reach of a number of ticks (0 to 1,000) at a width (1 to 1,000) from a start box. Law 0 is the plain
 * law (command is then not looked at), any other law is the command, the same at each tick; a span of
 * commands has no law here. start is n pairs of lower and upper side, as in a question. out gets the n
 * pairs of the end box and then those of the swept box: its first 16n bytes, and no others. Answers the
 * rounds. Refused with 1 to 11, 20 or 22, then 16, 14, 15 (also for another length of start), then 17
 * where out is shorter than 16n bytes. */
uint64_t guard_reach(const uint8_t *sheet, size_t sheet_length, uint32_t ticks, uint32_t width,
                     uint32_t law, int32_t command, const uint8_t *start, size_t start_length,
                     uint8_t *out, size_t out_length);

/* ---- the plain law's commands ------------------------------------------------------------------
 *
 * What a drive may send to the motor under the plain law, worked out from a sheet's numbers as
 * guard_sheet_read gives them. The next functions are C: they are tested, not proved. */

/* The commands from least to greatest; none where the least is above the greatest. */
struct guard_commands {
    int32_t least, greatest;
};

/* Whether the plain law follows the state: the bands are marked `BF`. */
static inline bool guard_follows(const int32_t numbers[GUARD_NUMBERS])
{
    return numbers[guard_slot_law(0) + GUARD_LAW_DIVISOR] != 0;
}

/* A quotient by a divisor above 0, rounded down and rounded up; C's own division rounds toward 0. */
static inline int64_t guard_floor(int64_t value, int64_t divisor)
{
    return value / divisor - (value % divisor < 0);
}

static inline int64_t guard_ceil(int64_t value, int64_t divisor)
{
    return value / divisor + (value % divisor > 0);
}

/* The least or the greatest, over a box, of a law's sum of coefficient * variable and constant. */
static inline int64_t guard_law_sum(const int32_t *law, const int32_t *sides, size_t n, bool greatest)
{
    int64_t sum = law[GUARD_LAW_CONSTANT];
    for (size_t i = 0; i < n; i++)
        sum += (int64_t)law[i] * sides[2 * i + ((law[i] > 0) == greatest)];
    return sum;
}

static inline int32_t guard_cut(int64_t value, struct guard_commands range)
{
    return value < range.least ? range.least : value > range.greatest ? range.greatest : (int32_t)value;
}

/* The commands that band k's plain law has at every state of a box, whose states the band has. */
static inline struct guard_commands guard_band_commands(const int32_t numbers[GUARD_NUMBERS], size_t k,
                                                        const int32_t *sides)
{
    const int32_t *band = numbers + guard_slot_band(k), *law = numbers + guard_slot_law(k);
    size_t n = (size_t)numbers[GUARD_SLOT_N];
    struct guard_commands safety = {band[1], band[2]};
    if (!guard_follows(numbers))
        return safety;
    int64_t least = guard_floor(guard_law_sum(law, sides, n, true), law[GUARD_LAW_DIVISOR]);
    int64_t greatest = guard_ceil(guard_law_sum(law, sides, n, false), law[GUARD_LAW_DIVISOR]);
    struct guard_commands commands = {guard_cut(least, safety), guard_cut(greatest, safety)};
    return commands;
}

/* Cuts the band variable's pair of a box to band k, which is counted as without a lower end where k is 0;
 * false where the band has no state of the box. */
static inline bool guard_cut_to_band(const int32_t numbers[GUARD_NUMBERS], size_t k, int32_t *pair)
{
    bool last = k + 1 == (size_t)numbers[GUARD_SLOT_BANDS];
    if (k > 0 && pair[0] < numbers[guard_slot_band(k)])
        pair[0] = numbers[guard_slot_band(k)];
    if (!last && pair[1] >= numbers[guard_slot_band(k + 1)])
        pair[1] = numbers[guard_slot_band(k + 1)] - 1;
    return pair[0] <= pair[1];
}

/* The commands that the plain law has at every state of a box: with any one of them a drive obeys the plain
 * law wherever in the box the state is. Side 2i is variable i's lower side, side 2i + 1 its upper side, not
 * below it. There may be none, where the law has other commands at one end of the box than at the other. */
static inline struct guard_commands guard_plain_common(const int32_t numbers[GUARD_NUMBERS],
                                                       const int32_t *sides)
{
    size_t bands = (size_t)numbers[GUARD_SLOT_BANDS], n = (size_t)numbers[GUARD_SLOT_N];
    size_t by = 2 * (size_t)numbers[GUARD_SLOT_BAND_VARIABLE];
    struct guard_commands common = {numbers[GUARD_SLOT_LEAST_COMMAND],
                                    numbers[GUARD_SLOT_GREATEST_COMMAND]};
    int32_t part[2 * GUARD_VARIABLES];
    for (size_t k = 0; k < bands; k++) {
        for (size_t i = 0; i < 2 * n; i++)
            part[i] = sides[i];
        if (!guard_cut_to_band(numbers, k, part + by))
            continue;
        struct guard_commands here = guard_band_commands(numbers, k, part);
        common.least = here.least > common.least ? here.least : common.least;
        common.greatest = here.greatest < common.greatest ? here.greatest : common.greatest;
    }
    return common;
}

/* The commands that the plain law has at a state of n numbers: in a `BD` band those of its safety range, in
 * a `BF` band one or two. A state below the first edge, where the sheet has no band, counts to the first. */
static inline struct guard_commands guard_plain_commands(const int32_t numbers[GUARD_NUMBERS],
                                                         const int32_t *state)
{
    int32_t sides[2 * GUARD_VARIABLES];
    for (size_t i = 0; i < (size_t)numbers[GUARD_SLOT_N]; i++)
        sides[2 * i] = sides[2 * i + 1] = state[i];
    return guard_plain_common(numbers, sides);
}

/* ---- numbers in slices ------------------------------------------------------------------------- */

/* Number i of a slice; for guard_reach's out, side i. */
static inline int32_t guard_get(const uint8_t *slice, size_t i)
{
    const uint8_t *at = slice + 4 * i;
    uint32_t bits = (uint32_t)at[0] << 24 | (uint32_t)at[1] << 16 | (uint32_t)at[2] << 8 | at[3];
    return bits <= INT32_MAX ? (int32_t)bits : -(int32_t)(UINT32_MAX - bits) - 1;
}

/* Puts the bits of number i of a slice. */
static inline void guard_put_bits(uint8_t *slice, size_t i, uint32_t bits)
{
    for (size_t j = 0; j < 4; j++)
        slice[4 * i + j] = (uint8_t)(bits >> (24 - 8 * j));
}

/* Puts number i of a slice. */
static inline void guard_put(uint8_t *slice, size_t i, int32_t value)
{
    guard_put_bits(slice, i, (uint32_t)value);
}

/* ---- questions -----------------------------------------------------------------------------------
 *
 * The next functions test nothing: guard_decide and guard_decide_readings refuse what is out of range. */

/* Writes what all heads begin with, the mark with this second letter and the allowance, and gives the place
 * behind it, where the commands stand. */
static inline uint8_t *guard_put_allowance(uint8_t *head, char letter, uint32_t allowance)
{
    head[0] = 'Q';
    head[1] = (uint8_t)letter;
    guard_put_bits(head + 2, 0, allowance);
    return head + 6;
}

/* Writes the head of a question about one command, the 10 bytes before its pairs, and gives its length. */
static inline size_t guard_head(uint8_t *head, uint32_t allowance, int32_t command)
{
    uint8_t *commands = guard_put_allowance(head, 'S', allowance);
    guard_put(commands, 0, command);
    return GUARD_QUESTION_HEAD;
}

/* Writes the head of a question about a span of commands, the 14 bytes before its pairs, and gives its
 * length. */
static inline size_t guard_span_head(uint8_t *head, uint32_t allowance, int32_t least, int32_t greatest)
{
    uint8_t *commands = guard_put_allowance(head, 'R', allowance);
    guard_put(commands, 0, least);
    guard_put(commands, 1, greatest);
    return GUARD_SPAN_QUESTION_HEAD;
}

/* Writes n pairs: side 2i is variable i's lower side, side 2i + 1 its upper side. */
static inline void guard_put_sides(uint8_t *pairs, const int32_t *sides, size_t n)
{
    for (size_t i = 0; i < 2 * n; i++)
        guard_put(pairs, i, sides[i]);
}

/* Writes what both questions have: the mark with this second letter, the allowance, and from sides_at on
 * the sides. Gives the place between them, where the commands stand. */
static inline uint8_t *guard_put_question(uint8_t *question, char letter, uint32_t allowance,
                                          const int32_t *sides, size_t n, size_t sides_at)
{
    guard_put_sides(question + sides_at, sides, n);
    return guard_put_allowance(question, letter, allowance);
}

/* Writes a question about one command, of 10 + 8n bytes, and gives its length; the sides are as above. */
static inline size_t guard_question(uint8_t *question, uint32_t allowance, int32_t command,
                                    const int32_t *sides, size_t n)
{
    size_t head = guard_head(question, allowance, command);
    guard_put_sides(question + head, sides, n);
    return guard_question_length(n);
}

/* Writes a question about a span of commands, of 14 + 8n bytes, and gives its length; else likewise. */
static inline size_t guard_span_question(uint8_t *question, uint32_t allowance, int32_t least,
                                         int32_t greatest, const int32_t *sides, size_t n)
{
    size_t head = guard_span_head(question, allowance, least, greatest);
    guard_put_sides(question + head, sides, n);
    return guard_span_question_length(n);
}

/* ---- readings ------------------------------------------------------------------------------------
 *
 * The kinds and values that guard_decide_readings takes, for as many variables as a sheet may have:
 *
 *     struct guard_readings readings = {0};     every variable is missing
 *     guard_set_point(&readings, 0, value, tolerance);
 *     guard_decide_readings(sheet, sheet_length, head, head_length,
 *                           readings.kinds, GUARD_VARIABLES, readings.values, 2 * GUARD_VARIABLES);
 *
 * The functions store the floats as they are. They do nothing for a variable that no sheet has. */

struct guard_readings {
    uint8_t kinds[GUARD_VARIABLES];
    float values[2 * GUARD_VARIABLES];
};

static inline void guard_set_reading(struct guard_readings *readings, size_t i, uint8_t kind, float first,
                                     float second)
{
    if (i >= GUARD_VARIABLES)
        return;
    readings->kinds[i] = kind;
    readings->values[2 * i] = first;
    readings->values[2 * i + 1] = second;
}

/* Variable i has a value with a tolerance. */
static inline void guard_set_point(struct guard_readings *readings, size_t i, float value, float tolerance)
{
    guard_set_reading(readings, i, GUARD_READING_POINT, value, tolerance);
}

/* Variable i lies from lower to upper. */
static inline void guard_set_pair(struct guard_readings *readings, size_t i, float lower, float upper)
{
    guard_set_reading(readings, i, GUARD_READING_PAIR, lower, upper);
}

/* Variable i has no reading. */
static inline void guard_set_missing(struct guard_readings *readings, size_t i)
{
    guard_set_reading(readings, i, GUARD_READING_NONE, 0, 0);
}

#ifdef __cplusplus
}
#endif

#endif
