/* Reading a sheet from C, for products that decide nothing: the archive of the crate `sheet_c` alone,
 * libsheet.a, which tests/archives.sh proves and writes. The format is that of "document 01", the scope paper, with
 * the no-go boxes in the order that paper 2 of "document 02" sets and, by its paper 8, none of them on the
 * recovery box; by its paper 9 with up to six variables, and with bands marked `BD` or `BF`. */
#ifndef SHEET_H
#define SHEET_H

#include "guard_format.h"

#include <stddef.h>
#include <stdint.h>

#ifdef __cplusplus
extern "C" {
#endif

/* How many numbers a sheet has, whatever its counts are. */
enum { SHEET_NUMBERS = GUARD_NUMBERS };

/* The same of this archive. A program whose header may be of another version than its archive compares
 * the two before it calls sheet_read. */
uint64_t sheet_numbers(void);

/* Reads the sheet's numbers to their slots, which guard_format.h names (GUARD_SLOT_..), and answers 0;
 * numbers beyond the sheet's counts are 0, and so is every law number where the bands are marked `BD`.
 * Where the sheet is refused the answer is the number of the refusal, 1 to 11, 20 or 22 (GUARD_REFUSED_..
 * of guard.h), and numbers is as it was. sheet may be NULL where sheet_length is 0. */
uint8_t sheet_read(const uint8_t *sheet, size_t sheet_length, int32_t numbers[SHEET_NUMBERS]);

#ifdef __cplusplus
}
#endif

#endif
