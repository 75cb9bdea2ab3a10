/* The calls of include/sheet.h from C, linked with the archive of the crate `sheet_c` beside that of the
 * guard: sheet A's numbers at each slot, and the refusal, with the array as it was, for each shorter file,
 * for each byte of it changed, for no-go boxes out of order, for a recovery box on a no-go box, and for marks
 * and law numbers of sheets whose plain law follows the state, as guard_sheet and guard_sheet_read answer. The
 * last line is `N passed, M failed`. */
#include "guard.h"
#include "sheet.h"

#include <stdio.h>
#include <string.h>

enum {
    SHEET = 70,    /* the bytes of sheet A */
    RECOVERY = 62, /* where the sides of its recovery box stand */
    FILL = 77
};

static const uint8_t sheet_a[SHEET] = {
    'S', 'H', 1, 1, 1, 0, 0, 4, 0, 4, 0, 4, 255, 255, 255, 231, 0, 0, 0, 25, 0, 5,
    'B', 'D', 255, 225, 123, 128, 0, 0, 0, 0, 0, 0, 0, 0, 255, 255, 0, 4, 0, 0, 0, 0, 0, 0, 0, 0, 0, 20,
    'N', 'G', 0, 0, 0, 130, 0, 30, 132, 128,
    'R', 'C', 255, 255, 255, 156, 0, 0, 0, 100};

static int passed, failed;

static void expect(const char *what, size_t number, int64_t got, int64_t want)
{
    if (got == want) {
        passed++;
        return;
    }
    failed++;
    printf("%s %zu: %lld where %lld is due\n", what, number, (long long)got, (long long)want);
}

/* Reads a file with both archives: the same refusal, and the same number at each slot, or none written. */
static void compare(const char *what, size_t number, const uint8_t *sheet, size_t length)
{
    static int32_t numbers[SHEET_NUMBERS + 1], others[GUARD_NUMBERS + 1];
    for (size_t i = 0; i <= SHEET_NUMBERS; i++)
        numbers[i] = others[i] = FILL;
    uint8_t refusal = sheet_read(sheet, length, numbers);
    uint64_t answer = guard_sheet(sheet, length);
    uint64_t read = guard_sheet_read(sheet, length, others);
    expect(what, number, refusal, guard_refusal(answer));
    expect(what, number, guard_refusal(read), refusal);
    expect(what, number, (int64_t)guard_length(read), refusal == 0 ? (int64_t)length : 0);
    int same = 1, kept = 1;
    for (size_t i = 0; i <= SHEET_NUMBERS; i++) {
        same &= numbers[i] == others[i];
        kept &= numbers[i] == FILL;
    }
    expect(what, number, same, 1);
    expect(what, number, kept, refusal != 0);
    expect(what, number, numbers[SHEET_NUMBERS], FILL);
}

/* The refusal is the one that is due, from both archives. */
static void expect_refusal(const char *what, size_t number, const uint8_t *sheet, size_t length, uint8_t due)
{
    int32_t numbers[SHEET_NUMBERS];
    expect(what, number, sheet_read(sheet, length, numbers), due);
    compare(what, number, sheet, length);
}

/* Sheet A with two no-go boxes: refused with 20 unless the second one is greater, and then with 22 if the
 * recovery box is on them. */
static void two_boxes(void)
{
    enum { BOX = 50, RECORD = 10, BOTH = SHEET + RECORD };
    static const int32_t ascending[][2] = {{-300, -200}, {130, 131}, {130, 256}, {131, 131}, {255, 300}, {256, 256}};
    static const size_t count = sizeof ascending / sizeof *ascending;
    for (size_t pair = 0; pair < count * count; pair++) {
        size_t first = pair / count, second = pair % count;
        uint8_t sheet[BOTH];
        memcpy(sheet, sheet_a, BOX + RECORD);
        memcpy(sheet + BOX + RECORD, sheet_a + BOX, 2 * RECORD);
        sheet[4] = 2;
        for (size_t side = 0; side < 2; side++) {
            guard_put(sheet + BOX + 2, side, ascending[first][side]);
            guard_put(sheet + BOX + RECORD + 2, side, ascending[second][side]);
        }
        expect_refusal("two boxes", pair, sheet, BOTH, first < second ? 0 : GUARD_REFUSED_ORDER);
        guard_put(sheet + RECOVERY + RECORD, 0, -1000);
        guard_put(sheet + RECOVERY + RECORD, 1, 1000);
        expect_refusal("overlap and order", pair, sheet, BOTH,
                       first < second ? GUARD_REFUSED_OVERLAP : GUARD_REFUSED_ORDER);
    }
}

/* Sheet A's recovery box is changed, and a byte before its sides: 22 comes after each other fault. */
static void overlap_and_byte(void)
{
    for (size_t at = 0; at < RECOVERY; at++) {
        int32_t numbers[SHEET_NUMBERS];
        uint8_t sheet[SHEET];
        memcpy(sheet, sheet_a, SHEET);
        sheet[at] ^= 0x80;
        uint8_t other = sheet_read(sheet, SHEET, numbers);
        guard_put(sheet + RECOVERY, 1, 1000000);
        expect_refusal("overlap and byte", at, sheet, SHEET, other != 0 ? other : GUARD_REFUSED_OVERLAP);
    }
}

/* Sheet A with other recovery boxes, whole and cut short; its no-go box begins at 130. */
static void recovery_boxes(void)
{
    static const struct {
        int32_t low, high;
        uint8_t number;
    } boxes[] = {{-100, 129, 0}, {-100, 130, GUARD_REFUSED_OVERLAP}, {130, 130, GUARD_REFUSED_OVERLAP},
                 {200, 300, GUARD_REFUSED_OVERLAP}, {-1000000, 1000000, GUARD_REFUSED_OVERLAP},
                 {-1000001, 130, GUARD_REFUSED_SIDE}, {-100, 1000001, GUARD_REFUSED_SIDE},
                 {300, 200, GUARD_REFUSED_SIDE}};
    for (size_t i = 0; i < sizeof boxes / sizeof *boxes; i++) {
        uint8_t sheet[SHEET];
        memcpy(sheet, sheet_a, SHEET);
        guard_put(sheet + RECOVERY, 0, boxes[i].low);
        guard_put(sheet + RECOVERY, 1, boxes[i].high);
        expect_refusal("recovery box", i, sheet, SHEET, boxes[i].number);
        expect_refusal("overlap and length", i, sheet, SHEET - 1, GUARD_REFUSED_LENGTH);
        expect_refusal("overlap and head", i, sheet, 19, GUARD_REFUSED_HEAD);
    }
}

/* The numbers of a sheet of n variables. No-go box j is 100j..100j + 20 in each, the recovery box far from all. */
static void numbers_of_wider(int32_t *numbers, size_t n, size_t count)
{
    sheet_read(sheet_a, SHEET, numbers);
    numbers[GUARD_SLOT_N] = (int32_t)n;
    numbers[GUARD_SLOT_UNSAFE_BOXES] = (int32_t)count;
    for (size_t i = 0; i < n; i++) {
        numbers[GUARD_SLOT_CAPS + i] = 5;
        numbers[guard_slot_row(0, i) + GUARD_VARIABLES + 3] = 20;
        numbers[GUARD_SLOT_RECOVERY + i] = -1000;
        numbers[GUARD_SLOT_RECOVERY + GUARD_VARIABLES + i] = -900;
        for (size_t j = 0; j < count; j++) {
            numbers[guard_slot_unsafe(j) + i] = 100 * (int32_t)j;
            numbers[guard_slot_unsafe(j) + GUARD_VARIABLES + i] = 100 * (int32_t)j + 20;
        }
    }
}

static size_t wider(uint8_t *sheet, size_t n, size_t count)
{
    int32_t numbers[SHEET_NUMBERS];
    numbers_of_wider(numbers, n, count);
    return guard_length(guard_sheet_write(numbers, sheet, GUARD_LONGEST_SHEET, 0));
}

/* The recovery box is around no-go box j, but in variable i below, at, in, around or above it. */
static void beside_a_box(uint8_t *sheet, size_t length, size_t n, size_t j, size_t i)
{
    static const struct {
        int32_t low, high;
        uint8_t number;
    } places[] = {{-30, -1, 0}, {-30, 0, GUARD_REFUSED_OVERLAP}, {5, 15, GUARD_REFUSED_OVERLAP},
                  {-30, 50, GUARD_REFUSED_OVERLAP}, {20, 50, GUARD_REFUSED_OVERLAP}, {21, 50, 0}};
    uint8_t *sides = sheet + length - GUARD_PAIR * n;
    int32_t from = 100 * (int32_t)j;
    for (size_t at = 0; at < sizeof places / sizeof *places; at++) {
        for (size_t other = 0; other < n; other++) {
            guard_put(sides, 2 * other, from + (other == i ? places[at].low : -30));
            guard_put(sides, 2 * other + 1, from + (other == i ? places[at].high : 50));
        }
        expect_refusal("beside a box", at, sheet, length, places[at].number);
    }
}

/* In variable i around the last no-go box, in the others around the first: on none if these are two. */
static void at_two_boxes(uint8_t *sheet, size_t length, size_t n, size_t count)
{
    uint8_t *sides = sheet + length - GUARD_PAIR * n;
    for (size_t i = 0; i < n; i++) {
        for (size_t other = 0; other < n; other++) {
            int32_t from = other == i ? 100 * (int32_t)(count - 1) : 0;
            guard_put(sides, 2 * other, from - 30);
            guard_put(sides, 2 * other + 1, from + 50);
        }
        expect_refusal("at two boxes", i, sheet, length, n > 1 && count > 1 ? 0 : GUARD_REFUSED_OVERLAP);
    }
}

static void wider_sheets(void)
{
    static const size_t counts[] = {1, 2, GUARD_UNSAFE_BOXES};
    uint8_t sheet[GUARD_LONGEST_SHEET];
    for (size_t n = 1; n <= GUARD_VARIABLES; n++)
        for (size_t k = 0; k < sizeof counts / sizeof *counts; k++) {
            size_t length = wider(sheet, n, counts[k]);
            expect_refusal("far", n, sheet, length, 0);
            for (size_t j = 0; j < counts[k]; j++)
                for (size_t i = 0; i < n; i++)
                    beside_a_box(sheet, length, n, j, i);
            at_two_boxes(sheet, length, n, counts[k]);
        }
}

/* The numbers of a sheet of two bands with a law each: 100(k + 1) + j and the opposite are coefficients. */
static void numbers_of_following(int32_t *numbers, size_t n)
{
    numbers_of_wider(numbers, n, 1);
    numbers[GUARD_SLOT_BANDS] = 2;
    memcpy(numbers + guard_slot_band(1), numbers + guard_slot_band(0), GUARD_BAND_SIZE * sizeof *numbers);
    numbers[guard_slot_band(1)] = 7;
    for (size_t k = 0; k < 2; k++) {
        int32_t *law = numbers + guard_slot_law(k), sign = k == 0 ? 1 : -1;
        for (size_t j = 0; j < n; j++)
            law[j] = sign * (100 * (int32_t)(k + 1) + (int32_t)j);
        law[GUARD_LAW_CONSTANT] = sign * 99999999;
        law[GUARD_LAW_DIVISOR] = 4095 + (int32_t)k;
    }
}

/* Where the two bands of such a sheet stand, with a law or without. */
static size_t band_at(size_t n, size_t k, bool follows)
{
    return 20 + 2 * n + k * (14 + n * (2 * n + 12) + (follows ? 2 * n + 6 : 0));
}

/* A number of the file is changed, and the refusal is the one that is due. */
static void change(uint8_t *sheet, size_t length, size_t place, size_t size, int32_t value, uint8_t due)
{
    uint8_t old[4];
    memcpy(old, sheet + place, size);
    for (size_t i = 0; i < size; i++)
        sheet[place + i] = (uint8_t)((uint32_t)value >> 8 * (size - 1 - i));
    expect_refusal("changed", place, sheet, length, due);
    memcpy(sheet + place, old, size);
}

/* Law numbers at their ends and past them. */
static void law_numbers(uint8_t *sheet, size_t length, size_t n, size_t k)
{
    size_t law = band_at(n, k, true) + 14;
    for (size_t j = 0; j < n; j++)
        for (int32_t sign = -1; sign <= 1; sign += 2) {
            change(sheet, length, law + 2 * j, 2, sign * 1000, 0);
            change(sheet, length, law + 2 * j, 2, sign * 1001, GUARD_REFUSED_ROW);
        }
    for (int32_t sign = -1; sign <= 1; sign += 2) {
        change(sheet, length, law + 2 * n, 4, sign * 100000000, 0);
        change(sheet, length, law + 2 * n, 4, sign * 100000001, GUARD_REFUSED_ROW);
    }
    change(sheet, length, law + 2 * n + 4, 2, 1, 0);
    change(sheet, length, law + 2 * n + 4, 2, 4096, 0);
    change(sheet, length, law + 2 * n + 4, 2, 0, GUARD_REFUSED_ROW);
    change(sheet, length, law + 2 * n + 4, 2, 4097, GUARD_REFUSED_ROW);
}

/* Every mark of either band: the first fixes the length, the second is that of the first. */
static void band_marks(uint8_t *sheet, size_t length, size_t n, bool follows)
{
    char own = follows ? 'F' : 'D', other = follows ? 'D' : 'F';
    size_t first = band_at(n, 0, follows), second = band_at(n, 1, follows);
    change(sheet, length, first, 2, 'B' << 8 | own, 0);
    change(sheet, length, first, 2, 'B' << 8 | other, GUARD_REFUSED_LENGTH);
    change(sheet, length, first, 2, 'b' << 8 | own, follows ? GUARD_REFUSED_LENGTH : GUARD_REFUSED_MARK);
    change(sheet, length, first, 2, 'F' << 8 | 'B', follows ? GUARD_REFUSED_LENGTH : GUARD_REFUSED_MARK);
    change(sheet, length, second, 2, 'B' << 8 | other, GUARD_REFUSED_MARK);
    change(sheet, length, second, 2, 'b' << 8 | own, GUARD_REFUSED_MARK);
}

/* Each length up to one beyond that of either kind, and each byte changed. */
static void cut_and_changed(uint8_t *sheet, size_t length, size_t n)
{
    for (size_t cut = 0; cut <= length + 2 * (2 * n + 6) + 1; cut++) {
        uint8_t due = cut < 20 ? GUARD_REFUSED_HEAD : cut == length ? 0 : GUARD_REFUSED_LENGTH;
        expect_refusal("cut", cut, sheet, cut, due);
    }
    for (size_t at = 0; at < length; at++) {
        sheet[at] ^= 0x80;
        compare("byte", at, sheet, length);
        sheet[at] ^= 0x80;
    }
}

/* The reader has each number that was written, and none of a law where the bands have none. */
static void both_kinds(size_t n, bool follows)
{
    int32_t numbers[SHEET_NUMBERS], read[SHEET_NUMBERS];
    uint8_t sheet[GUARD_LONGEST_SHEET + 1] = {0};
    numbers_of_following(numbers, n);
    if (!follows)
        numbers[guard_slot_law(0) + GUARD_LAW_DIVISOR] = 0;
    size_t length = guard_length(guard_sheet_write(numbers, sheet, sizeof sheet, 0));
    expect("length", n, (int64_t)length, (int64_t)(band_at(n, 2, follows) + 2 * (2 + GUARD_PAIR * n)));
    expect("read", n, sheet_read(sheet, length, read), 0);
    for (size_t k = 0; !follows && k < 2; k++)
        memset(numbers + guard_slot_law(k), 0, GUARD_LAW_SIZE * sizeof *numbers);
    for (size_t slot = 0; slot < SHEET_NUMBERS; slot++)
        expect("slot", slot, read[slot], numbers[slot]);
    for (size_t k = 0; follows && k < 2; k++)
        law_numbers(sheet, length, n, k);
    band_marks(sheet, length, n, follows);
    cut_and_changed(sheet, length, n);
}

int main(void)
{
    int32_t numbers[SHEET_NUMBERS];
    if (sheet_numbers() != SHEET_NUMBERS || guard_numbers() != GUARD_NUMBERS) {
        printf("sheet.h or guard.h is not that of its archive\n0 passed, 1 failed\n");
        return 1;
    }
    expect("sheet A", 0, sheet_read(sheet_a, SHEET, numbers), 0);
    expect("variables", 0, numbers[GUARD_SLOT_N], 1);
    expect("least command", 0, numbers[GUARD_SLOT_LEAST_COMMAND], -25);
    expect("first edge", 0, numbers[GUARD_SLOT_BAND], -2000000);
    expect("recovery box", 0, numbers[GUARD_SLOT_RECOVERY], -100);
    expect("no sheet", 0, sheet_read(NULL, 0, numbers), GUARD_REFUSED_HEAD);
    for (size_t length = 0; length <= SHEET; length++)
        compare("length", length, sheet_a, length);
    for (size_t at = 0; at < SHEET; at++) {
        uint8_t changed[SHEET];
        memcpy(changed, sheet_a, SHEET);
        changed[at] ^= 0x80;
        compare("byte", at, changed, SHEET);
    }
    two_boxes();
    overlap_and_byte();
    recovery_boxes();
    wider_sheets();
    for (size_t n = 1; n <= GUARD_VARIABLES; n++) {
        both_kinds(n, true);
        both_kinds(n, false);
    }
    printf("%d passed, %d failed\n", passed, failed);
    return failed != 0;
}
