/* The calls of include/guard.h from C, linked with the archive alone: sheet A's answers, every refusal
 * with the lent buffers and arrays compared, empty, missing, overlong and overlapping slices, the slots and
 * lengths of include/guard_format.h, no-go boxes in and out of order, recovery boxes on and beside no-go
 * boxes, questions about a span of commands, sheets of up to six variables whose plain law follows the
 * state, and measured boxes from readings in floats. The last line is `N passed, M failed`. */
#define _DEFAULT_SOURCE /* for MAP_ANONYMOUS */

#include "guard.h"

#include <stdio.h>
#include <stdlib.h>
#include <string.h>
#include <sys/mman.h>

enum {
    SHEET = 70,               /* the bytes of sheet A */
    QUESTION = 18,            /* of a question of one variable */
    ROOM = GUARD_LONGEST_SHEET + 8,
    BEHIND = 16,              /* bytes or numbers behind a buffer's end, which have to remain */
    FILL = 0xa5
};

static const uint8_t sheet_a[SHEET] = {
    'S', 'H', 1, 1, 1, 0, 0, 4, 0, 4, 0, 4, 255, 255, 255, 231, 0, 0, 0, 25, 0, 5,
    'B', 'D', 255, 225, 123, 128, 0, 0, 0, 0, 0, 0, 0, 0, 255, 255, 0, 4, 0, 0, 0, 0, 0, 0, 0, 0, 0, 20,
    'N', 'G', 0, 0, 0, 130, 0, 30, 132, 128,
    'R', 'C', 255, 255, 255, 156, 0, 0, 0, 100};

static int passed, failed;

static void expect(const char *what, int number, uint64_t got, uint64_t want)
{
    if (got == want) {
        passed++;
        return;
    }
    failed++;
    printf("%s %d: code %u, width %u, rounds %u\n", what, number, guard_code(got), guard_width(got),
           guard_rounds(got));
}

static uint64_t answer(uint64_t code, uint64_t width, uint64_t rounds)
{
    return code << 48 | width << 32 | rounds;
}

static uint64_t refusal(uint64_t number)
{
    return answer(GUARD_REFUSED, number, 0);
}

/* ---- a lent buffer, with bytes behind its end */

static uint8_t lent[ROOM + BEHIND];

static void fill(void)
{
    memset(lent, FILL, sizeof lent);
}

/* The buffer has the bytes that are expected from a place on, and is as it was elsewhere. */
static void expect_lent(const char *what, int number, size_t place, const uint8_t *bytes, size_t length)
{
    uint64_t same = length == 0 || memcmp(lent + place, bytes, length) == 0;
    for (size_t i = 0; i < sizeof lent; i++)
        if (i < place || place + length <= i)
            same &= lent[i] == FILL;
    expect(what, number, same, 1);
}

static void expect_refused(const char *what, int number, uint64_t got)
{
    expect(what, number, got, refusal((uint64_t)number));
    expect_lent(what, number, 0, NULL, 0);
}

/* ---- a lent array, with numbers behind its end */

static int32_t array[GUARD_NUMBERS + BEHIND];

static void fill_array(void)
{
    for (size_t slot = 0; slot < sizeof array / sizeof *array; slot++)
        array[slot] = FILL;
}

/* The array has the numbers that are expected, or is as it was where none are. */
static void expect_array(const char *what, int number, const int32_t *numbers)
{
    uint64_t same = 1;
    for (size_t slot = 0; slot < sizeof array / sizeof *array; slot++)
        same &= array[slot] == (numbers != NULL && slot < GUARD_NUMBERS ? numbers[slot] : FILL);
    expect(what, number, same, 1);
}

static void expect_read(const char *what, const uint8_t *sheet, size_t length, const int32_t *numbers)
{
    fill_array();
    expect(what, 0, guard_sheet_read(sheet, length, array), length);
    expect_array(what, 0, numbers);
}

static void expect_unread(const char *what, int number, const uint8_t *sheet, size_t length)
{
    fill_array();
    expect(what, number, guard_sheet_read(sheet, length, array), refusal((uint64_t)number));
    expect_array(what, number, NULL);
}

/* ---- what an answer says */

static void answers(void)
{
    for (uint32_t number = 1; number <= GUARD_REFUSED_OVERLAP; number++) {
        expect("refusal", (int)number, guard_refusal(refusal(number)), number);
        expect("length of a refusal", (int)number, guard_length(refusal(number)), 0);
    }
    for (uint32_t code = GUARD_KEEP; code <= GUARD_SPENT; code++)
        expect("refusal", 0, guard_refusal(answer(code, 4, 7)), 0);
    expect("refusal", 0, guard_refusal(SHEET), 0);
    expect("length", 0, guard_length(SHEET), SHEET);
    expect("numbers", 0, guard_numbers(), GUARD_NUMBERS);
}

/* ---- sheet A's lines */

static size_t ask(uint8_t *question, int32_t low, int32_t high, int32_t command, uint32_t allowance)
{
    const int32_t sides[] = {low, high};
    return guard_question(question, allowance, command, sides, 1);
}

static uint64_t decide_a(int32_t low, int32_t high, int32_t command, uint32_t allowance)
{
    uint8_t question[GUARD_LONGEST_QUESTION];
    size_t length = ask(question, low, high, command, allowance);
    return guard_decide(sheet_a, SHEET, question, length);
}

static void lines(void)
{
    expect("sheet", 0, guard_sheet(sheet_a, SHEET), 0);
    expect("recovery", 0, guard_recovery(sheet_a, SHEET), answer(GUARD_PASS, 4, 1));
    expect("question", 1, decide_a(0, 0, 25, 100), answer(GUARD_KEEP, 4, 4));
    expect("question", 2, decide_a(95, 100, 25, 100), answer(GUARD_KEEP, 4, 5));
    expect("question", 3, decide_a(95, 100, 25, 4), answer(GUARD_SPENT, 4, 4));
    expect("question", 4, decide_a(131, 131, 0, 100), answer(GUARD_FINEST, 1, 5));
    expect("question", 5, decide_a(0, 0, 26, 100), refusal(14));
    expect("allowance", 0, decide_a(0, 0, 25, 0), answer(GUARD_SPENT, 4, 0));
    expect("allowance", 1000000, decide_a(0, 0, 25, 1000000), answer(GUARD_KEEP, 4, 4));
    expect("allowance", 1000001, decide_a(0, 0, 25, 1000001), refusal(13));
    expect("side", 1000000, decide_a(1000000, 1000000, 25, 1), answer(GUARD_SPENT, 4, 1));
    expect("side", 1000001, decide_a(0, 1000001, 25, 100), refusal(15));
    expect("reversed", 0, decide_a(1, 0, 25, 100), refusal(15));
}

/* ---- slices: missing, empty, too long, overlapping */

static void slices(void)
{
    uint8_t question[QUESTION + 1] = {0};
    uint8_t longer[SHEET + 1] = {0};
    ask(question, 0, 0, 25, 100);
    memcpy(longer, sheet_a, SHEET);
    expect("no sheet", 0, guard_sheet(NULL, 0), refusal(1));
    expect("no sheet", 1, guard_recovery(NULL, 0), refusal(1));
    expect("no sheet", 2, guard_decide(NULL, 0, NULL, 0), refusal(1));
    expect("no sheet", 3, guard_decide_readings(NULL, 0, NULL, 0, NULL, 0, NULL, 0), refusal(1));
    expect("no question", 0, guard_decide(sheet_a, SHEET, NULL, 0), refusal(12));
    expect("no head", 0, guard_decide_readings(sheet_a, SHEET, NULL, 0, NULL, 0, NULL, 0), refusal(12));
    expect("no readings", 0, guard_decide_readings(sheet_a, SHEET, question, GUARD_QUESTION_HEAD, NULL, 0, NULL, 0),
           refusal(18));
    expect("empty", 0, guard_sheet(sheet_a, 0), refusal(1));
    expect("empty", 1, guard_decide(sheet_a, SHEET, question, 0), refusal(12));
    expect("short", 19, guard_sheet(sheet_a, 19), refusal(1));
    expect("short", 69, guard_sheet(sheet_a, SHEET - 1), refusal(5));
    expect("long", 71, guard_sheet(longer, SHEET + 1), refusal(5));
    for (size_t length = 0; length <= QUESTION + 1; length++)
        expect("question's length", (int)length, guard_decide(sheet_a, SHEET, question, length),
               length == QUESTION ? answer(GUARD_KEEP, 4, 4) : refusal(12));
    question[1] = 'R';
    expect("question's mark", 0, guard_decide(sheet_a, SHEET, question, QUESTION), refusal(12));
}

/* The answer is that on copies. */
static void overlaps(void)
{
    uint8_t both[SHEET + QUESTION], copy[QUESTION];
    memcpy(both, sheet_a, SHEET);
    ask(both + SHEET, 95, 100, 25, 100);
    for (size_t at = 0; at <= SHEET; at++) {
        memcpy(copy, both + at, QUESTION);
        expect("overlap", (int)at, guard_decide(both, SHEET, both + at, QUESTION),
               guard_decide(sheet_a, SHEET, copy, QUESTION));
    }
    expect("overlap", SHEET, guard_decide(both, SHEET, both + SHEET, QUESTION), answer(GUARD_KEEP, 4, 5));
}

/* ---- refused sheets: a byte or a number of sheet A is changed */

static const struct {
    int number;
    size_t place, size;
    uint32_t value;
} faults[] = {{1, 0, 1, 'T'}, {1, 1, 1, 0}, {2, 2, 1, 0}, {2, 2, 1, GUARD_VARIABLES + 1}, {2, 2, 1, 255},
              {2, 3, 1, 0}, {2, 3, 1, 9}, {2, 4, 1, 0}, {2, 4, 1, 9}, {2, 5, 1, 1}, {3, 6, 2, 0}, {3, 6, 2, 997},
              {3, 8, 2, 0}, {3, 8, 2, 997}, {3, 10, 2, 0}, {3, 10, 2, 1001}, {4, 12, 4, 26},
              {4, 12, 4, (uint32_t)-10001}, {4, 16, 4, 10001}, {5, 2, 1, 2}, {5, 2, 1, 5}, {5, 2, 1, GUARD_VARIABLES},
              {5, 3, 1, 2}, {5, 4, 1, 2}, {5, 23, 1, 'F'}, {6, 20, 2, 0}, {6, 20, 2, 1001}, {7, 22, 1, 'b'},
              {7, 23, 1, 'E'}, {7, 51, 1, 'g'}, {7, 60, 1, 'r'}, {8, 24, 4, (uint32_t)-1999999},
              {9, 28, 4, (uint32_t)-26}, {9, 28, 4, 1}, {9, 32, 4, 26}, {10, 36, 2, 1001}, {10, 38, 2, 1001},
              {10, 40, 4, 100000001}, {10, 44, 4, (uint32_t)-1}, {10, 48, 2, 0}, {10, 48, 2, 4097},
              {11, 52, 4, 2000001}, {11, 56, 4, 129}, {11, 62, 4, (uint32_t)-1000001}, {11, 66, 4, 1000001},
              {11, 66, 4, (uint32_t)-101}};

/* Every call that reads a sheet refuses it before it looks at anything else, and writes nothing. */
static void expect_sheet_refused(const char *what, int number, const uint8_t *sheet, size_t length)
{
    static const uint8_t kinds[] = {GUARD_READING_POINT};
    static const float values[] = {0, 0};
    uint8_t question[QUESTION], start[8] = {0};
    ask(question, 0, 0, 25, 100);
    fill();
    expect(what, number, guard_sheet(sheet, length), refusal((uint64_t)number));
    expect(what, number, guard_recovery(sheet, length), refusal((uint64_t)number));
    expect(what, number, guard_decide(sheet, length, question, QUESTION), refusal((uint64_t)number));
    expect(what, number, guard_decide(sheet, length, NULL, 0), refusal((uint64_t)number));
    expect(what, number, guard_decide_readings(sheet, length, question, GUARD_QUESTION_HEAD, kinds, 1, values, 2),
           refusal((uint64_t)number));
    expect(what, number, guard_decide_readings(sheet, length, NULL, 0, NULL, 0, NULL, 0), refusal((uint64_t)number));
    expect_unread(what, number, sheet, length);
    expect_refused(what, number, guard_reach(sheet, length, 1001, 0, 1, 26, NULL, 0, lent, 0));
    expect_refused(what, number, guard_reach(sheet, length, 4, 4, 0, 0, start, 8, lent, ROOM));
}

/* Puts a number of so many bytes into a file. */
static void put_bytes(uint8_t *place, size_t size, uint32_t value)
{
    for (size_t i = 0; i < size; i++)
        place[i] = (uint8_t)(value >> 8 * (size - 1 - i));
}

static void refused_sheets(void)
{
    uint8_t sheet[SHEET];
    for (size_t i = 0; i < sizeof faults / sizeof *faults; i++) {
        memcpy(sheet, sheet_a, SHEET);
        put_bytes(sheet + faults[i].place, faults[i].size, faults[i].value);
        expect_sheet_refused("fault", faults[i].number, sheet, SHEET);
    }
}

/* ---- a sheet's numbers */

static int32_t numbers[GUARD_NUMBERS];

enum { NO_SLOT = GUARD_NUMBERS }; /* of a fault that a file alone can have */

static void numbers_of_a(void)
{
    memset(numbers, 0, sizeof numbers);
    for (size_t slot = 0; slot < 3; slot++)
        numbers[slot] = 1;
    for (size_t slot = GUARD_SLOT_DELTA; slot <= GUARD_SLOT_RHO; slot++)
        numbers[slot] = 4;
    numbers[GUARD_SLOT_LEAST_COMMAND] = -25;
    numbers[GUARD_SLOT_GREATEST_COMMAND] = 25;
    numbers[GUARD_SLOT_CAPS] = 5;
    numbers[guard_slot_band(0)] = -2000000;
    numbers[guard_slot_row(0, 0)] = -1;
    numbers[guard_slot_row(0, 0) + GUARD_VARIABLES] = 4;
    numbers[guard_slot_row(0, 0) + GUARD_VARIABLES + 3] = 20;
    numbers[GUARD_SLOT_RECOVERY] = -100;
    numbers[GUARD_SLOT_RECOVERY + GUARD_VARIABLES] = 100;
    numbers[guard_slot_unsafe(0)] = 130;
    numbers[guard_slot_unsafe(0) + GUARD_VARIABLES] = 2000000;
}

static void reads(void)
{
    expect_read("read", sheet_a, SHEET, numbers);
    expect_unread("no sheet", 1, NULL, 0);
    expect_unread("short", 5, sheet_a, SHEET - 1);
}

static void writes(void)
{
    for (size_t place = 0; place <= ROOM - SHEET; place += (ROOM - SHEET) / 4) {
        fill();
        expect("write", (int)place, guard_sheet_write(numbers, lent, ROOM, place), SHEET);
        expect_lent("write", (int)place, place, sheet_a, SHEET);
    }
    fill();
    expect_refused("place", 17, guard_sheet_write(numbers, lent, ROOM, ROOM - SHEET + 1));
    expect_refused("place", 17, guard_sheet_write(numbers, lent, ROOM, ROOM));
    expect_refused("place", 17, guard_sheet_write(numbers, lent, ROOM, UINT64_MAX));
    expect_refused("place", 17, guard_sheet_write(numbers, lent, SHEET - 1, 0));
    expect_refused("place", 17, guard_sheet_write(numbers, NULL, 0, 0));
}

/* A number of sheet A is changed; a number beyond the counts is not looked at. */
static void refused_writes(void)
{
    const struct {
        int number;
        size_t slot;
        int32_t value;
    } changes[] = {{2, GUARD_SLOT_N, 0}, {2, GUARD_SLOT_N, -1}, {2, GUARD_SLOT_N, GUARD_VARIABLES + 1},
                   {2, GUARD_SLOT_BANDS, 9}, {2, GUARD_SLOT_UNSAFE_BOXES, INT32_MIN},
                   {2, GUARD_SLOT_BAND_VARIABLE, 1}, {3, GUARD_SLOT_ALPHA, 997}, {3, GUARD_SLOT_RHO, 0},
                   {4, GUARD_SLOT_LEAST_COMMAND, 26}, {6, GUARD_SLOT_CAPS, 0}, {8, guard_slot_band(0), 0},
                   {9, guard_slot_band(0) + 1, 1}, {10, guard_slot_row(0, 0), INT32_MAX},
                   {10, guard_slot_row(0, 0) + GUARD_VARIABLES + 3, 0}, {11, guard_slot_unsafe(0), 2000001},
                   {11, GUARD_SLOT_RECOVERY + GUARD_VARIABLES, -101}};
    fill();
    for (size_t i = 0; i < sizeof changes / sizeof *changes; i++) {
        int32_t old = numbers[changes[i].slot];
        numbers[changes[i].slot] = changes[i].value;
        expect_refused("write", changes[i].number, guard_sheet_write(numbers, lent, ROOM, 0));
        expect_refused("write", changes[i].number, guard_sheet_write(numbers, NULL, 0, 0));
        numbers[changes[i].slot] = old;
    }
    numbers[guard_slot_row(0, 1)] = 7;
    expect("beyond", 0, guard_sheet_write(numbers, lent, ROOM, 0), SHEET);
    expect_lent("beyond", 0, 0, sheet_a, SHEET);
    numbers[guard_slot_row(0, 1)] = 0;
}

/* ---- the largest sheets: every slot, every length */

/* A box that is smaller with each step. */
static void put_box(size_t slot, size_t n, int32_t low, int32_t high, int32_t step)
{
    for (size_t i = 0; i < n; i++) {
        numbers[slot + i] = low + step + (int32_t)i;
        numbers[slot + GUARD_VARIABLES + i] = high - step - (int32_t)i;
    }
}

static void put_row(int32_t k, int32_t i, int32_t n)
{
    int32_t *row = numbers + guard_slot_row((size_t)k, (size_t)i), each = 10 * k + i;
    for (int32_t j = 0; j < n; j++)
        row[j] = -900 + 10 * each + j;
    row[GUARD_VARIABLES] = 900 - each;
    row[GUARD_VARIABLES + 1] = -90000000 - each;
    row[GUARD_VARIABLES + 2] = 90000000 + each;
    row[GUARD_VARIABLES + 3] = 4000 - each;
}

static void put_law(int32_t k, int32_t n)
{
    int32_t *law = numbers + guard_slot_law((size_t)k);
    for (int32_t j = 0; j < n; j++)
        law[j] = 800 - 300 * j - k;
    law[GUARD_LAW_CONSTANT] = -80000000 - k;
    law[GUARD_LAW_DIVISOR] = 3000 + k;
}

/* The numbers of a sheet with these counts, marked `BF` or `BD`: no two fields of a kind are equal, and all
 * numbers beyond the counts are 0. */
static void numbers_of(int32_t n, int32_t bands, int32_t count, bool follows)
{
    static const int32_t head[] = {11, 12, 13, -10000, 10000}; /* from delta on */
    memset(numbers, 0, sizeof numbers);
    numbers[GUARD_SLOT_N] = n;
    numbers[GUARD_SLOT_BANDS] = bands;
    numbers[GUARD_SLOT_UNSAFE_BOXES] = count;
    numbers[GUARD_SLOT_BAND_VARIABLE] = n - 1;
    memcpy(numbers + GUARD_SLOT_DELTA, head, sizeof head);
    for (int32_t i = 0; i < n; i++)
        numbers[GUARD_SLOT_CAPS + i] = 500 + i;
    for (int32_t k = 0; k < bands; k++) {
        int32_t *band = numbers + guard_slot_band((size_t)k);
        band[0] = k == 0 ? -2000000 : 1000 * k;
        band[1] = -9000 + k;
        band[2] = 9000 - k;
        if (follows)
            put_law(k, n);
        for (int32_t i = 0; i < n; i++)
            put_row(k, i, n);
    }
    for (int32_t j = 0; j < count; j++)
        put_box(guard_slot_unsafe((size_t)j), (size_t)n, -2000000, -1000000, 10 * j);
    put_box(GUARD_SLOT_RECOVERY, (size_t)n, -1000000, 1000000, 90);
}

/* ---- the file of the numbers, put together here field by field */

static uint8_t file[ROOM + BEHIND];
static size_t file_length;

static void add_mark(const char *mark)
{
    memcpy(file + file_length, mark, 2);
    file_length += 2;
}

static void add_field(size_t slot, size_t size)
{
    put_bytes(file + file_length, size, (uint32_t)numbers[slot]);
    file_length += size;
}

/* Numbers that follow each other both in the array and in the file. */
static void add_fields(size_t slot, size_t count, size_t size)
{
    for (size_t i = 0; i < count; i++)
        add_field(slot + i, size);
}

static void add_box(const char *mark, size_t slot, size_t n)
{
    add_mark(mark);
    for (size_t i = 0; i < n; i++) {
        add_field(slot + i, 4);
        add_field(slot + GUARD_VARIABLES + i, 4);
    }
}

static void add_band(size_t k, size_t n, bool follows)
{
    add_mark(follows ? "BF" : "BD");
    add_fields(guard_slot_band(k), 3, 4);
    if (follows) {
        add_fields(guard_slot_law(k), n, 2);
        add_field(guard_slot_law(k) + GUARD_LAW_CONSTANT, 4);
        add_field(guard_slot_law(k) + GUARD_LAW_DIVISOR, 2);
    }
    for (size_t i = 0; i < n; i++) {
        size_t row = guard_slot_row(k, i), rest = row + GUARD_VARIABLES;
        add_fields(row, n, 2);
        add_field(rest, 2);
        add_fields(rest + 1, 2, 4);
        add_field(rest + 3, 2);
    }
}

/* The fields in the order of document 01 and of paper 9 of document 02. */
static void put_file(bool follows)
{
    size_t n = (size_t)numbers[GUARD_SLOT_N];
    memset(file, FILL, sizeof file);
    file_length = 0;
    add_mark("SH");
    add_fields(GUARD_SLOT_N, 4, 1);
    add_fields(GUARD_SLOT_DELTA, 3, 2);
    add_fields(GUARD_SLOT_LEAST_COMMAND, 2, 4);
    add_fields(GUARD_SLOT_CAPS, n, 2);
    for (int32_t k = 0; k < numbers[GUARD_SLOT_BANDS]; k++)
        add_band((size_t)k, n, follows);
    for (int32_t j = 0; j < numbers[GUARD_SLOT_UNSAFE_BOXES]; j++)
        add_box("NG", guard_slot_unsafe((size_t)j), n);
    add_box("RC", GUARD_SLOT_RECOVERY, n);
}

/* The numbers of a sheet with these counts, and its file. */
static void put_both(size_t n, size_t bands, size_t count, bool follows)
{
    numbers_of((int32_t)n, (int32_t)bands, (int32_t)count, follows);
    put_file(follows);
}

/* ---- slices that end where no memory follows: a byte read or written behind them ends this program */

enum { PAGES = 1 << 14 };

static uint8_t *last_byte_of_page(void)
{
    static uint8_t *start;
    if (start == NULL) {
        start = mmap(NULL, 2 * PAGES, PROT_READ | PROT_WRITE, MAP_PRIVATE | MAP_ANONYMOUS, -1, 0);
        if (start == MAP_FAILED || mprotect(start + PAGES, PAGES, PROT_NONE) != 0) {
            printf("no memory\n");
            exit(EXIT_FAILURE);
        }
    }
    return start + PAGES - 1;
}

/* A copy of the bytes that ends there. */
static void *at_end(const void *bytes, size_t length)
{
    uint8_t *place = last_byte_of_page() + 1 - length;
    if (length > 0)
        memcpy(place, bytes, length);
    return place;
}

/* Every count at its greatest. */
static void largest(bool follows, size_t longest)
{
    static const size_t counts[] = {GUARD_SLOT_N, GUARD_SLOT_BANDS, GUARD_SLOT_UNSAFE_BOXES};
    static const int32_t sides[2 * GUARD_VARIABLES] = {0};
    uint8_t question[GUARD_LONGEST_QUESTION + 1] = {0}, start[GUARD_PAIR * GUARD_VARIABLES] = {0};
    put_both(GUARD_VARIABLES, GUARD_BANDS, GUARD_UNSAFE_BOXES, follows);
    for (size_t i = 0; i < sizeof counts / sizeof *counts; i++) {
        numbers[counts[i]]++;
        fill();
        expect_refused("too great a count", 2, guard_sheet_write(numbers, lent, ROOM, 0));
        numbers[counts[i]]--;
    }
    fill();
    expect_refused("largest", 17, guard_sheet_write(numbers, lent, longest - 1, 0));
    expect("largest", 0, guard_sheet_write(numbers, lent, ROOM, 0), longest);
    expect("largest", 0, file_length, longest);
    expect_lent("largest", 0, 0, file, longest);
    expect_read("largest", file, longest, numbers);

    size_t length = guard_span_question(question, 0, 0, 0, sides, GUARD_VARIABLES);
    expect("longest question", 0, length, GUARD_LONGEST_QUESTION);
    for (size_t i = length - 1; i <= length + 1; i++)
        expect("question's length", (int)i, guard_refusal(guard_decide(file, longest, question, i)),
               i == length ? 0 : GUARD_REFUSED_QUESTION);
    fill();
    for (size_t room = GUARD_LONGEST_REACH - 1; room <= GUARD_LONGEST_REACH; room++)
        expect("reach's room", (int)room,
               guard_reach(file, longest, 0, 1, 0, 0, start, sizeof start, lent, room),
               room == GUARD_LONGEST_REACH ? 0 : refusal(17));
}

/* The numbers of paper 9 of document 02. */
static void largest_of_both_kinds(void)
{
    expect("numbers", 0, GUARD_NUMBERS, 691);
    expect("longest sheet", 0, GUARD_LONGEST_SHEET, 1890);
    expect("longest question", 0, GUARD_LONGEST_QUESTION, 62);
    largest(true, 1890);
    largest(false, 1746);
    numbers_of_a();
}

/* ---- reaches */

static uint64_t reach_a(uint32_t ticks, uint32_t width, uint32_t law, int32_t command, int32_t low, int32_t high,
                        size_t out_length)
{
    uint8_t start[8];
    guard_put(start, 0, low);
    guard_put(start, 1, high);
    return guard_reach(sheet_a, SHEET, ticks, width, law, command, start, 8, lent, out_length);
}

static void expect_boxes(const char *what, int number, int32_t low, int32_t high, int32_t least, int32_t most)
{
    uint8_t sides[16];
    guard_put(sides, 0, low);
    guard_put(sides, 1, high);
    guard_put(sides, 2, least);
    guard_put(sides, 3, most);
    expect_lent(what, number, 0, sides, sizeof sides);
}

static void reaches(void)
{
    uint8_t start[9] = {0};
    fill();
    expect("reach", 0, reach_a(4, 4, 1, 25, 0, 0, 16), 2);
    expect_boxes("reach", 0, 16, 20, 0, 20);
    fill();
    expect("reach", 1, reach_a(4, 4, 0, 26, 16, 20, ROOM), 2);
    expect_boxes("reach", 1, 12, 20, 12, 20);
    fill();
    expect("reach", 2, reach_a(0, 1000, UINT32_MAX, -25, -1000000, 1000000, 16), 0);
    expect_boxes("reach", 2, -1000000, 1000000, -1000000, 1000000);
    fill();
    expect_refused("reach", 16, reach_a(1001, 4, 1, 26, 1, 0, 16));
    expect_refused("reach", 16, reach_a(4, 0, 1, 26, 1, 0, 16));
    expect_refused("reach", 16, reach_a(4, 1001, 0, 0, 0, 0, 16));
    expect_refused("reach", 14, reach_a(0, 4, 1, 26, 1, 0, 15));
    expect_refused("reach", 14, reach_a(4, 4, 2, -26, 0, 0, 16));
    expect_refused("reach", 15, reach_a(4, 4, 1, 25, 1, 0, 15));
    expect_refused("reach", 15, reach_a(4, 4, 0, 26, 0, 1000001, 16));
    expect_refused("reach", 15, reach_a(4, 4, 0, 0, -1000001, 0, 16));
    for (size_t length = 0; length <= 9; length++)
        if (length != 8)
            expect_refused("start's length", 15, guard_reach(sheet_a, SHEET, 4, 4, 0, 0, start, length, lent, ROOM));
    expect_refused("no start", 15, guard_reach(sheet_a, SHEET, 4, 4, 0, 0, NULL, 0, lent, ROOM));
    expect_refused("no start", 14, guard_reach(sheet_a, SHEET, 4, 4, 1, 26, NULL, 0, lent, ROOM));
    expect_refused("no start", 16, guard_reach(sheet_a, SHEET, 4, 0, 1, 26, NULL, 0, lent, ROOM));
    expect_refused("room", 17, reach_a(4, 4, 1, 25, 0, 0, 15));
    expect_refused("room", 17, guard_reach(sheet_a, SHEET, 4, 4, 0, 0, start, 8, NULL, 0));
}

/* ---- no-go boxes in order: a sheet of two variables with three of them */

enum {
    BOXES = 3,
    SIDES = 4,                      /* of a box: lower, upper, lower, upper */
    RECORD = 2 + 2 * GUARD_PAIR,    /* the bytes of a box: mark, sides */
    RECORDS = 20 + 2 * 2 + 14 + 32, /* where the first box stands: after the head, the caps and a band of two rows */
    ORDERED = RECORDS + (BOXES + 1) * RECORD
};

static int32_t boxes[BOXES][SIDES];
static uint8_t ordered[ORDERED];

/* Sheet A with more variables, which stay as they are, and more no-go boxes. */
static void numbers_of_wider(size_t n, size_t count)
{
    numbers_of_a();
    numbers[GUARD_SLOT_N] = (int32_t)n;
    numbers[GUARD_SLOT_UNSAFE_BOXES] = (int32_t)count;
    for (size_t i = 1; i < n; i++) {
        numbers[GUARD_SLOT_CAPS + i] = 5;
        numbers[guard_slot_row(0, i) + GUARD_VARIABLES + 3] = 1;
    }
}

/* The recovery box is clear of the no-go boxes below, wherever they are moved. */
static void numbers_of_ordered(void)
{
    numbers_of_wider(2, BOXES);
    numbers[GUARD_SLOT_RECOVERY + 1] = 1000;
    numbers[GUARD_SLOT_RECOVERY + GUARD_VARIABLES + 1] = 1000;
}

static size_t slot_of_side(size_t j, size_t i)
{
    return guard_slot_unsafe(j) + i % 2 * GUARD_VARIABLES + i / 2;
}

/* Puts the boxes' sides at their slots and at their places in the file. */
static void put_boxes(void)
{
    for (size_t j = 0; j < BOXES; j++)
        for (size_t i = 0; i < SIDES; i++) {
            numbers[slot_of_side(j, i)] = boxes[j][i];
            guard_put(ordered + RECORDS + RECORD * j + 2, i, boxes[j][i]);
        }
}

/* Three boxes of which each is greater than the one before, in every side. */
static void boxes_in_order(void)
{
    static const int32_t first[SIDES] = {-305, -293, -303, -291};
    for (size_t j = 0; j < BOXES; j++)
        for (size_t i = 0; i < SIDES; i++)
            boxes[j][i] = first[i] + 300 * (int32_t)j;
    put_boxes();
}

/* The writer writes this sheet from the numbers. */
static void expect_written(const char *what, int number, const uint8_t *sheet, size_t length)
{
    fill();
    expect(what, number, guard_sheet_write(numbers, lent, ROOM, 7), length);
    expect_lent(what, number, 7, sheet, length);
    fill();
    expect_refused(what, 17, guard_sheet_write(numbers, lent, length - 1, 0));
}

/* Every call takes this sheet, which has the numbers. */
static void expect_accepted(const char *what, int number, const uint8_t *sheet, size_t length)
{
    static const int32_t sides[2 * GUARD_VARIABLES] = {0};
    static const uint8_t pairs[GUARD_VARIABLES] = {2, 2, 2, 2, 2, 2};
    static const float values[2 * GUARD_VARIABLES] = {0};
    uint8_t question[GUARD_LONGEST_QUESTION], start[GUARD_PAIR * GUARD_VARIABLES] = {0};
    size_t n = (size_t)numbers[GUARD_SLOT_N];
    size_t asked = guard_question(question, 100, 25, sides, n);
    uint64_t decided = guard_decide(sheet, length, question, asked);
    expect(what, number, guard_sheet(sheet, length), 0);
    expect(what, number, guard_refusal(guard_recovery(sheet, length)), 0);
    expect(what, number, guard_refusal(decided), 0);
    expect(what, number, guard_decide_readings(sheet, length, question, GUARD_QUESTION_HEAD, pairs, n, values, 2 * n),
           decided);
    expect_read(what, sheet, length, numbers);
    expect(what, number, guard_reach(sheet, length, 0, 1, 0, 0, start, GUARD_PAIR * n, lent, ROOM), 0);
    expect_written(what, number, sheet, length);
}

/* The writer refuses the numbers of a sheet of this length, before it looks at the room. */
static void expect_unwritten(const char *what, int number, size_t length)
{
    fill();
    expect_refused(what, number, guard_sheet_write(numbers, lent, ROOM, 0));
    expect_refused(what, number, guard_sheet_write(numbers, lent, length - 1, 0));
    expect_refused(what, number, guard_sheet_write(numbers, NULL, 0, 0));
}

static void expect_boxes_refused(const char *what, int number)
{
    put_boxes();
    expect_sheet_refused(what, number, ordered, ORDERED);
    expect_unwritten(what, number, ORDERED);
}

/* A box is the one before with one side moved; the sides behind it move the other way, or not at all. */
static void box_beside(size_t j, size_t side, int32_t by, int32_t rest)
{
    memcpy(boxes[j], boxes[j - 1], sizeof boxes[j]);
    boxes[j][side] += by;
    for (size_t i = side + 1; i < SIDES; i++)
        boxes[j][i] += rest;
    put_boxes();
}

/* The first side that differs decides, for the second box and for the third. */
static void compared_sides(void)
{
    for (size_t j = 1; j < BOXES; j++)
        for (size_t side = 0; side < SIDES; side++)
            for (int32_t rest = 0; rest <= 1; rest++) {
                boxes_in_order();
                box_beside(j, side, 1, -rest);
                expect_accepted("greater side", (int)side, ordered, ORDERED);
                boxes_in_order();
                box_beside(j, side, -1, rest);
                expect_boxes_refused("less side", GUARD_REFUSED_ORDER);
            }
}

/* Numbers are compared, not bytes; the order is that of neighbours. */
static void compared_boxes(void)
{
    static const int32_t steps[] = {-2000000, -65537, -65536, -257, -256, -1, 0, 1, 255, 256, 65535, 65536, 2000000};
    for (size_t i = 0; i + 1 < sizeof steps / sizeof *steps; i++) {
        boxes_in_order();
        for (size_t j = 0; j < 2; j++)
            boxes[j][0] = boxes[j][1] = steps[i + j];
        boxes[2][0] = boxes[2][1] = 2000000;
        boxes[2][3] = 2000000;
        put_boxes();
        expect_accepted("step", (int)i, ordered, ORDERED);
        boxes[0][0] = boxes[0][1] = steps[i + 1];
        boxes[1][0] = boxes[1][1] = steps[i];
        expect_boxes_refused("step down", GUARD_REFUSED_ORDER);
    }
    for (size_t j = 1; j < BOXES; j++) {
        boxes_in_order();
        memcpy(boxes[j], boxes[j - 1], sizeof boxes[j]);
        expect_boxes_refused("equal boxes", GUARD_REFUSED_ORDER);
    }
    boxes_in_order();
    memcpy(boxes[2], boxes[0], sizeof boxes[2]);
    expect_boxes_refused("first and third equal", GUARD_REFUSED_ORDER);
}

/* Which fault of several counts: a number of the file is changed, and box j is equal to the one before. */
static void order_and_other_faults(void)
{
    const struct {
        int number;
        size_t equal, place, size;
        uint32_t value;
    } both[] = {{2, 1, 5, 1, 2}, {3, 1, 6, 2, 0}, {4, 1, 12, 4, 26}, {5, 1, 3, 1, 2}, {6, 1, 22, 2, 0},
                {7, 1, 24, 1, 'b'}, {8, 1, 26, 4, 0}, {9, 1, 30, 4, 1}, {10, 1, RECORDS - 2, 2, 0},
                {7, 1, RECORDS + 1, 1, 'g'}, {11, 1, RECORDS + 6, 4, (uint32_t)-306},
                {7, 1, RECORDS + RECORD, 1, 'n'}, {11, 1, RECORDS + RECORD + 14, 4, (uint32_t)-304},
                {11, 1, RECORDS + RECORD + 2, 4, (uint32_t)-2000001}, {20, 1, RECORDS + 2 * RECORD, 1, 'n'},
                {20, 1, RECORDS + 2 * RECORD + 6, 4, 2000001}, {7, 2, RECORDS + 2 * RECORD + 1, 1, 'g'},
                {11, 2, RECORDS + 2 * RECORD + 14, 4, 2000001}, {20, 2, RECORDS + 3 * RECORD, 1, 'r'},
                {20, 2, RECORDS + 3 * RECORD + 2, 4, 1000001}, {20, 2, RECORDS + 3 * RECORD + 14, 4, (uint32_t)-1}};
    for (size_t i = 0; i < sizeof both / sizeof *both; i++) {
        uint8_t sheet[ORDERED];
        boxes_in_order();
        box_beside(both[i].equal, 0, 0, 0);
        memcpy(sheet, ordered, ORDERED);
        put_bytes(sheet + both[i].place, both[i].size, both[i].value);
        expect_sheet_refused("order and another fault", both[i].number, sheet, ORDERED);
    }
    boxes_in_order();
    box_beside(1, 0, 0, 0);
    expect_sheet_refused("order and length", GUARD_REFUSED_LENGTH, ordered, ORDERED - 1);
}

/* The same for the writer; numbers beyond the counts are not compared. */
static void order_of_numbers(void)
{
    const struct {
        int number;
        size_t equal, slot;
        int32_t value;
    } both[] = {{2, 1, GUARD_SLOT_BAND_VARIABLE, 2}, {3, 1, GUARD_SLOT_RHO, 0}, {4, 1, GUARD_SLOT_LEAST_COMMAND, 26},
                {6, 1, GUARD_SLOT_CAPS + 1, 0}, {8, 1, guard_slot_band(0), 0}, {9, 1, guard_slot_band(0) + 1, 1},
                {10, 1, guard_slot_row(0, 1) + GUARD_VARIABLES + 3, 0}, {11, 1, slot_of_side(0, 3), -304},
                {11, 1, slot_of_side(1, 3), -304}, {11, 1, slot_of_side(1, 0), INT32_MIN},
                {20, 1, slot_of_side(2, 3), 2000001}, {11, 2, slot_of_side(2, 3), 2000001},
                {20, 2, GUARD_SLOT_RECOVERY, 1000001}, {20, 2, GUARD_SLOT_RECOVERY + GUARD_VARIABLES + 1, -1},
                {20, 1, guard_slot_unsafe(1) + 2, 1}, {20, 1, guard_slot_unsafe(1) + GUARD_VARIABLES + 3, 1}};
    for (size_t i = 0; i < sizeof both / sizeof *both; i++) {
        numbers_of_ordered();
        boxes_in_order();
        box_beside(both[i].equal, 0, 0, 0);
        numbers[both[i].slot] = both[i].value;
        expect_unwritten("order and another number", both[i].number, ORDERED);
    }
    numbers_of_ordered();
    boxes_in_order();
    numbers[guard_slot_unsafe(0) + 2] = 1;
    numbers[guard_slot_unsafe(2) + GUARD_VARIABLES + 3] = -1;
    numbers[guard_slot_unsafe(BOXES)] = -2000000;
    fill();
    expect("beyond", 1, guard_sheet_write(numbers, lent, ROOM, 0), ORDERED);
    expect_lent("beyond", 1, 0, ordered, ORDERED);
}

static void orders(void)
{
    numbers_of_ordered();
    boxes_in_order();
    expect("ordered", 0, guard_sheet_write(numbers, ordered, ORDERED, 0), ORDERED);
    expect_accepted("ordered", 0, ordered, ORDERED);
    compared_sides();
    compared_boxes();
    order_and_other_faults();
    order_of_numbers();
    numbers_of_a();
}

/* ---- the recovery box on a no-go box: sheets of 1 to 6 variables with 1, 2 and 8 no-go boxes */

/* Where the recovery box is in a variable: its sides, counted from the lower side of a no-go box. */
enum { BELOW, AT_LOWER, INSIDE, AROUND, AT_UPPER, ABOVE, PLACES };

static const struct {
    int32_t low, high;
    bool shares;
} places[PLACES] = {{-30, -1, false}, {-30, 0, true}, {5, 15, true}, {-30, 50, true}, {20, 50, true}, {21, 50, false}};

static uint8_t placed[GUARD_LONGEST_SHEET];
static size_t placed_length, variables, unsafe_boxes;

/* No-go box j is 20 wide in each variable, and far from the others in each. */
static int32_t lower_of(size_t j, size_t i)
{
    return 1000 * (int32_t)j + 10 * (int32_t)i - 3000;
}

/* Puts the sides of a box in a variable at their slots and at their places in the file; the recovery box is
 * the box behind the no-go boxes. */
static void put_sides(size_t box, size_t i, int32_t low, int32_t high)
{
    size_t slot = box < unsafe_boxes ? guard_slot_unsafe(box) : (size_t)GUARD_SLOT_RECOVERY;
    uint8_t *record = placed + placed_length - (unsafe_boxes + 1 - box) * (2 + GUARD_PAIR * variables);
    numbers[slot + i] = low;
    numbers[slot + GUARD_VARIABLES + i] = high;
    guard_put(record + 2, 2 * i, low);
    guard_put(record + 2, 2 * i + 1, high);
}

static void put_recovery(size_t i, int32_t low, int32_t high)
{
    put_sides(unsafe_boxes, i, low, high);
}

/* The recovery box has the same sides in every variable. */
static void put_recovery_everywhere(int32_t low, int32_t high)
{
    for (size_t i = 0; i < variables; i++)
        put_recovery(i, low, high);
}

static void place(size_t j, size_t i, size_t at)
{
    put_recovery(i, lower_of(j, i) + places[at].low, lower_of(j, i) + places[at].high);
}

static void place_everywhere(size_t j, size_t at)
{
    for (size_t i = 0; i < variables; i++)
        place(j, i, at);
}

/* A sheet whose recovery box is far from all no-go boxes. */
static void put_sheet(size_t n, size_t count)
{
    variables = n;
    unsafe_boxes = count;
    placed_length = 20 + 2 * n + 14 + n * (2 * n + 12) + (2 + GUARD_PAIR * n) * (count + 1);
    numbers_of_wider(n, count);
    for (size_t j = 0; j < count; j++)
        for (size_t i = 0; i < n; i++)
            put_sides(j, i, lower_of(j, i), lower_of(j, i) + 20);
    put_recovery_everywhere(-6000, -5000);
    expect("placed", (int)n, guard_sheet_write(numbers, placed, sizeof placed, 0), placed_length);
}

/* Every call refuses the sheet and its numbers. */
static void expect_both_refused(const char *what, int number)
{
    expect_sheet_refused(what, number, placed, placed_length);
    expect_unwritten(what, number, placed_length);
}

/* 22 where the boxes share a state; elsewhere every call takes the sheet. */
static void expect_placed(const char *what, size_t number, bool shares)
{
    if (shares)
        expect_both_refused(what, GUARD_REFUSED_OVERLAP);
    else
        expect_accepted(what, (int)number, placed, placed_length);
}

/* Beside, at, in and around one no-go box: in every variable, and in one of them alone. */
static void beside_a_box(size_t j)
{
    for (size_t at = 0; at < PLACES; at++) {
        place_everywhere(j, at);
        expect_placed("every variable", at, places[at].shares);
        for (size_t i = 0; i < variables; i++) {
            place_everywhere(j, AROUND);
            place(j, i, at);
            expect_placed("one variable", at, places[at].shares);
        }
    }
}

/* On all boxes at once; in one variable at the last box, in the others at the first. */
static void on_several_boxes(void)
{
    size_t last = unsafe_boxes - 1;
    put_recovery_everywhere(-4000, 6000);
    expect_placed("all boxes", 0, true);
    for (size_t i = 0; i < variables; i++) {
        place_everywhere(0, AROUND);
        place(last, i, AROUND);
        expect_placed("two boxes", i, variables == 1);
    }
}

/* Each variable at any place: 22 just where every variable shares a value. */
static void at_any_places(void)
{
    size_t all = 1;
    for (size_t i = 0; i < variables; i++)
        all *= PLACES;
    uint64_t right = 1;
    for (size_t chosen = 0; chosen < all; chosen++) {
        bool shares = true;
        for (size_t i = 0, rest = chosen; i < variables; i++, rest /= PLACES) {
            place(0, i, rest % PLACES);
            shares &= places[rest % PLACES].shares;
        }
        uint32_t number = shares ? GUARD_REFUSED_OVERLAP : 0;
        right &= guard_refusal(guard_sheet(placed, placed_length)) == number;
        right &= guard_refusal(guard_sheet_write(numbers, lent, ROOM, 0)) == number;
    }
    expect("any places", (int)variables, right, 1);
}

/* Numbers beyond n of the recovery box, and of every no-go box up to the count. */
static void put_beyond_variables(int32_t low, int32_t high)
{
    for (size_t i = variables; i < GUARD_VARIABLES; i++)
        for (size_t j = 0; j <= unsafe_boxes; j++) {
            size_t slot = j < unsafe_boxes ? guard_slot_unsafe(j) : (size_t)GUARD_SLOT_RECOVERY;
            numbers[slot + i] = j < unsafe_boxes ? low : 0;
            numbers[slot + GUARD_VARIABLES + i] = j < unsafe_boxes ? high : 9;
        }
}

/* Boxes beyond the count that hold every recovery box. */
static void put_beyond_boxes(void)
{
    for (size_t j = unsafe_boxes; j < GUARD_UNSAFE_BOXES; j++)
        for (size_t i = 0; i < GUARD_VARIABLES; i++) {
            numbers[guard_slot_unsafe(j) + i] = -1000000;
            numbers[guard_slot_unsafe(j) + GUARD_VARIABLES + i] = 1000000;
        }
}

/* The writer looks at no number beyond the counts: none makes boxes share a state, and none takes them apart. */
static void beyond_the_counts(void)
{
    place_everywhere(0, AROUND);
    place(0, variables - 1, BELOW);
    put_beyond_variables(0, 9);
    put_beyond_boxes();
    expect_written("beyond, apart", (int)variables, placed, placed_length);
    place_everywhere(0, AT_UPPER);
    for (int32_t low = -20; low <= 20; low += 40) {
        put_beyond_variables(low, low + 5);
        expect_unwritten("beyond, shared", GUARD_REFUSED_OVERLAP, placed_length);
    }
}

/* Numbers are compared, not bytes; a box of one value shares it; the greatest boxes. */
static void compared_values(void)
{
    static const int32_t values[] = {-999999, -65537, -65536, -257, -256, -1, 0, 255, 256, 65535, 65536, 999999};
    static const struct {
        int32_t low, high;
        bool shares;
    } greatest[] = {{-2000000, -1000001, false}, {-2000000, -1000000, true}, {-2000000, 2000000, true},
                    {1000000, 2000000, true}, {1000001, 2000000, false}};
    put_sheet(1, 1);
    for (size_t i = 0; i < sizeof values / sizeof *values; i++)
        for (int32_t by = -1; by <= 1; by++) {
            put_sides(0, 0, values[i], values[i]);
            put_recovery(0, values[i] + by, values[i] + by);
            expect_placed("one value", i, by == 0);
        }
    put_recovery(0, -1000000, 1000000);
    for (size_t i = 0; i < sizeof greatest / sizeof *greatest; i++) {
        put_sides(0, 0, greatest[i].low, greatest[i].high);
        expect_placed("greatest", i, greatest[i].shares);
    }
}

/* ---- which fault of several counts, where the recovery box is on a no-go box */

/* A sheet of two variables with three boxes, all of them on the recovery box. */
static void put_shared_sheet(void)
{
    put_sheet(2, BOXES);
    put_recovery_everywhere(-4000, 4000);
}

/* A number of the file, and of the array where it has a slot, is changed: 22 comes after each other fault. */
static void overlap_and_other_faults(void)
{
    enum { LAST = RECORDS + BOXES * RECORD };
    const struct {
        int number;
        size_t place, size;
        int32_t value;
        size_t slot;
    } both[] = {{1, 0, 1, 'T', NO_SLOT}, {2, 2, 1, GUARD_VARIABLES + 1, GUARD_SLOT_N},
                {2, 5, 1, 2, GUARD_SLOT_BAND_VARIABLE}, {3, 10, 2, 0, GUARD_SLOT_RHO},
                {4, 12, 4, 26, GUARD_SLOT_LEAST_COMMAND}, {5, 3, 1, 2, NO_SLOT}, {5, 4, 1, 2, NO_SLOT},
                {6, 22, 2, 0, GUARD_SLOT_CAPS + 1}, {7, 24, 1, 'b', NO_SLOT}, {8, 26, 4, 0, guard_slot_band(0)},
                {9, 30, 4, 1, guard_slot_band(0) + 1},
                {10, RECORDS - 2, 2, 0, guard_slot_row(0, 1) + GUARD_VARIABLES + 3}, {7, RECORDS, 1, 'n', NO_SLOT},
                {11, RECORDS + 2, 4, -2000001, slot_of_side(0, 0)}, {11, RECORDS + 14, 4, -2991, slot_of_side(0, 3)},
                {7, RECORDS + RECORD, 1, 'n', NO_SLOT}, {7, LAST - RECORD + 1, 1, 'g', NO_SLOT},
                {11, LAST - RECORD + 6, 4, -1001, slot_of_side(2, 1)}, {11, LAST - 4, 4, 2000001, slot_of_side(2, 3)},
                {7, LAST, 1, 'r', NO_SLOT}, {7, LAST + 1, 1, 'c', NO_SLOT},
                {11, LAST + 2, 4, -1000001, GUARD_SLOT_RECOVERY},
                {11, LAST + 14, 4, 1000001, GUARD_SLOT_RECOVERY + GUARD_VARIABLES + 1}};
    for (size_t i = 0; i < sizeof both / sizeof *both; i++) {
        put_shared_sheet();
        put_bytes(placed + both[i].place, both[i].size, (uint32_t)both[i].value);
        expect_sheet_refused("overlap and another fault", both[i].number, placed, placed_length);
        if (both[i].slot == NO_SLOT)
            continue;
        numbers[both[i].slot] = both[i].value;
        expect_unwritten("overlap and another number", both[i].number, placed_length);
    }
    put_shared_sheet();
    expect_sheet_refused("overlap and head", GUARD_REFUSED_HEAD, placed, 19);
    expect_sheet_refused("overlap and length", GUARD_REFUSED_LENGTH, placed, placed_length - 1);
}

/* Box j is equal to the one before. */
static void overlap_and_order(void)
{
    for (size_t j = 1; j < BOXES; j++) {
        put_shared_sheet();
        for (size_t i = 0; i < variables; i++)
            put_sides(j, i, lower_of(j - 1, i), lower_of(j - 1, i) + 20);
        expect_both_refused("overlap and order", GUARD_REFUSED_ORDER);
    }
}

/* The recovery box is reversed in a variable, with both sides in the range of a no-go box. */
static void overlap_and_reversed(void)
{
    put_sheet(2, BOXES);
    for (size_t j = 0; j < BOXES; j++)
        for (size_t i = 0; i < variables; i++) {
            place_everywhere(j, INSIDE);
            put_recovery(i, lower_of(j, i) + 15, lower_of(j, i) + 5);
            expect_both_refused("overlap and reversed", GUARD_REFUSED_SIDE);
        }
}

/* Questions with one fault or none; the sheet's refusal comes first, where it has one. */
static void questions_behind(uint32_t sheets)
{
    static const int32_t sides[SIDES] = {0};
    static const struct {
        uint32_t number;
        size_t place, size;
        uint32_t value;
    } asked[] = {{0, 0, 1, 'Q'}, {12, 1, 1, 'R'}, {13, 2, 4, 1000001}, {14, 6, 4, 26}, {14, 6, 4, (uint32_t)-26},
                 {15, 10, 4, 1}, {15, 22, 4, 1000001}};
    uint8_t question[GUARD_LONGEST_QUESTION];
    for (size_t i = 0; i < sizeof asked / sizeof *asked; i++) {
        size_t length = guard_question(question, 100, 25, sides, 2);
        put_bytes(question + asked[i].place, asked[i].size, asked[i].value);
        expect("question behind", (int)i, guard_refusal(guard_decide(placed, placed_length, question, length)),
               sheets != 0 ? sheets : asked[i].number);
        expect("short question behind", (int)i,
               guard_refusal(guard_decide(placed, placed_length, question, length - 1)),
               sheets != 0 ? sheets : GUARD_REFUSED_QUESTION);
    }
}

/* The same of reaches; the buffer is as it was. */
static void reaches_behind(int sheets)
{
    static const struct {
        int number;
        uint32_t ticks, width, law;
        int32_t command, low;
        size_t start_length, room;
    } asked[] = {{16, 1001, 1, 0, 0, 0, 16, 32}, {16, 4, 0, 0, 0, 0, 16, 32}, {16, 4, 1001, 0, 0, 0, 16, 32},
                 {14, 4, 1, 1, 26, 0, 16, 32}, {15, 4, 1, 1, 25, 1, 16, 32}, {15, 4, 1, 0, 0, -1000001, 16, 32},
                 {15, 4, 1, 0, 0, 0, 8, 32}, {17, 4, 1, 0, 0, 0, 16, 31}, {17, 0, 1, 1, 25, 0, 16, 0}};
    uint8_t start[2 * GUARD_PAIR] = {0};
    fill();
    for (size_t i = 0; i < sizeof asked / sizeof *asked; i++) {
        guard_put(start, 2, asked[i].low);
        expect_refused("reach behind", sheets != 0 ? sheets : asked[i].number,
                       guard_reach(placed, placed_length, asked[i].ticks, asked[i].width, asked[i].law,
                                   asked[i].command, start, asked[i].start_length, lent, asked[i].room));
    }
}

/* 22 comes before each fault of a question and of a reach. */
static void overlap_and_later_faults(void)
{
    put_sheet(2, BOXES);
    questions_behind(0);
    reaches_behind(0);
    put_shared_sheet();
    questions_behind(GUARD_REFUSED_OVERLAP);
    reaches_behind(GUARD_REFUSED_OVERLAP);
}

static void overlaps_of_boxes(void)
{
    static const size_t counts[] = {1, 2, GUARD_UNSAFE_BOXES};
    for (size_t n = 1; n <= GUARD_VARIABLES; n++)
        for (size_t i = 0; i < sizeof counts / sizeof *counts; i++) {
            put_sheet(n, counts[i]);
            expect_placed("far", n, false);
            for (size_t j = 0; j < counts[i]; j++)
                beside_a_box(j);
            if (counts[i] > 1)
                on_several_boxes();
            at_any_places();
            beyond_the_counts();
        }
    compared_values();
    overlap_and_other_faults();
    overlap_and_order();
    overlap_and_reversed();
    overlap_and_later_faults();
    numbers_of_a();
}

/* ---- a span of commands: the answers on sheet A */

static uint64_t decide_span_a(int32_t low, int32_t high, int32_t least, int32_t greatest, uint32_t allowance)
{
    const int32_t sides[] = {low, high};
    uint8_t question[GUARD_LONGEST_QUESTION];
    size_t length = guard_span_question(question, allowance, least, greatest, sides, 1);
    return guard_decide(sheet_a, SHEET, question, length);
}

/* Among them are answers that neither end has by itself, and a span that is not kept though each of its
 * commands is. */
static void span_lines(void)
{
    static const struct {
        int32_t low, high, least, greatest;
        uint32_t allowance, code, width, rounds;
    } asked[] = {{0, 0, -25, 25, 100, GUARD_KEEP, 4, 4}, {0, 0, -25, 25, 0, GUARD_SPENT, 4, 0},
                 {95, 100, -25, 25, 4, GUARD_KEEP, 4, 4}, {95, 100, -25, 25, 3, GUARD_SPENT, 4, 3},
                 {95, 100, -25, 25, 1000000, GUARD_KEEP, 4, 4}, {-124, -114, -15, -10, 100, GUARD_KEEP, 2, 12},
                 {-127, -124, -15, -10, 20, GUARD_KEEP, 1, 20}, {-127, -124, -15, -10, 19, GUARD_SPENT, 1, 19},
                 {-132, -132, -15, -10, 20, GUARD_FINEST, 1, 20}, {-132, -132, -15, -10, 19, GUARD_SPENT, 1, 19},
                 {109, 119, 10, 25, 100, GUARD_FINEST, 1, 22}, {131, 131, -25, 25, 100, GUARD_FINEST, 1, 5}};
    for (size_t i = 0; i < sizeof asked / sizeof *asked; i++)
        expect("span", (int)i,
               decide_span_a(asked[i].low, asked[i].high, asked[i].least, asked[i].greatest, asked[i].allowance),
               answer(asked[i].code, asked[i].width, asked[i].rounds));
    for (int32_t command = -15; command <= -10; command++)
        expect("by itself", command, guard_code(decide_a(-132, -132, command, 100)), GUARD_KEEP);
}

/* 14 but where both ends are in the head's range, -25 to 25, and in order. */
static void span_ends(void)
{
    static const int32_t ends[] = {INT32_MIN, INT32_MIN + 25, -65536, -256, -27, -26, -25, -24, -1, 0, 1,
                                   24, 25, 26, 27, 231, 255, 256, 65511, 65536, INT32_MAX - 25, INT32_MAX};
    for (size_t i = 0; i < sizeof ends / sizeof *ends; i++)
        for (size_t j = 0; j < sizeof ends / sizeof *ends; j++) {
            bool right = -25 <= ends[i] && ends[i] <= ends[j] && ends[j] <= 25;
            expect("span's ends", (int)(100 * i + j), guard_refusal(decide_span_a(0, 0, ends[i], ends[j], 100)),
                   right ? 0 : GUARD_REFUSED_COMMAND);
        }
}

/* ---- a span of one command has the answer of the command, in every field */

static unsigned seen[GUARD_REFUSED + 1]; /* answers, by code */

static void expect_equal(const uint8_t *sheet, size_t length, const int32_t *sides, size_t n, int32_t command)
{
    static const uint32_t allowances[] = {0, 3, 4, 12, 19, 1000000, 1000001};
    uint8_t one[GUARD_LONGEST_QUESTION], span[GUARD_LONGEST_QUESTION];
    for (size_t i = 0; i < sizeof allowances / sizeof *allowances; i++) {
        size_t one_length = guard_question(one, allowances[i], command, sides, n);
        size_t span_length = guard_span_question(span, allowances[i], command, command, sides, n);
        uint64_t want = guard_decide(sheet, length, one, one_length);
        expect("equal ends", command, guard_decide(sheet, length, span, span_length), want);
        seen[guard_code(want)]++;
    }
}

/* On sheet A, with boxes of one and of ten values, one of them out of range. */
static void equal_on_a(void)
{
    for (int32_t command = -26; command <= 26; command++) {
        for (int32_t low = -140; low <= 140; low += 14)
            for (int32_t high = low; high <= low + 9; high += 9)
                expect_equal(sheet_a, SHEET, (const int32_t[]){low, high}, 1, command);
        expect_equal(sheet_a, SHEET, (const int32_t[]){0, 1000001}, 1, command);
    }
}

/* With more variables, at the recovery box, beside a no-go box and on one. */
static void equal_on_wider(void)
{
    static const int32_t starts[] = {-5500, -3050, -3000, 0};
    int32_t sides[2 * GUARD_VARIABLES];
    for (size_t n = 1; n <= GUARD_VARIABLES; n++)
        for (size_t start = 0; start < sizeof starts / sizeof *starts; start++) {
            put_sheet(n, 2);
            for (size_t i = 0; i < 2 * n; i++)
                sides[i] = starts[start] + 10 * (int32_t)(i % 2);
            for (int32_t command = -26; command <= 26; command += 4)
                expect_equal(placed, placed_length, sides, n, command);
        }
}

static void equal_ends(void)
{
    equal_on_a();
    equal_on_wider();
    for (size_t code = GUARD_KEEP; code <= GUARD_REFUSED; code++)
        expect("kinds of answers", (int)code, seen[code] > 100, 1);
}

/* ---- what the keep of a span covers: the states of sheet A, tick by tick */

enum { FAR = 300, STATES = 2 * FAR + 1 }; /* state x stands at x + FAR */

/* A numerator over sheet A's divisor, rounded down and kept within the cap. */
static int32_t change_below(int32_t numerator)
{
    int32_t below = numerator >= 0 ? numerator / 20 : -((19 - numerator) / 20);
    return below < -5 ? -5 : below > 5 ? 5 : below;
}

/* The states that a tick leads to, from any of these under any command of the span. */
static void tick_a(bool states[STATES], int32_t least, int32_t greatest)
{
    bool next_states[STATES] = {false};
    for (int32_t x = 5 - FAR; x <= FAR - 5; x++)
        for (int32_t u = least; states[x + FAR] && u <= greatest; u++)
            for (int32_t y = change_below(4 * u - x); y <= -change_below(x - 4 * u); y++)
                next_states[x + y + FAR] = true;
    memcpy(states, next_states, sizeof next_states);
}

/* Whether one of the states lies in this range. */
static bool some_within(const bool states[STATES], int32_t low, int32_t high)
{
    bool some = false;
    for (int32_t x = low; x <= high; x++)
        some |= states[x + FAR];
    return some;
}

/* Four ticks, each under any command of the span, then four plain ones: never in the no-go box, and at last in
 * the recovery box. */
static bool is_safe(int32_t low, int32_t high, int32_t least, int32_t greatest)
{
    bool states[STATES] = {false};
    for (int32_t x = low; x <= high; x++)
        states[x + FAR] = true;
    bool safe = !some_within(states, 130, FAR);
    for (int t = 0; t < 8; t++) {
        tick_a(states, t < 4 ? least : 0, t < 4 ? greatest : 0);
        safe &= !some_within(states, 130, FAR);
    }
    return safe && !some_within(states, -FAR, -101) && !some_within(states, 101, FAR);
}

static bool keeps(int32_t low, int32_t least, int32_t greatest)
{
    return guard_code(decide_span_a(low, low + 3, least, greatest, 100)) == GUARD_KEEP;
}

/* Every span that is kept is safe. Among those asked are unsafe ones whose least, or greatest, command is kept. */
static void kept_spans(void)
{
    unsigned kept = 0, at_least = 0, at_greatest = 0;
    for (int32_t low = -135; low <= 135; low += 5)
        for (int32_t least = -25; least <= 25; least += 10)
            for (int32_t greatest = least; greatest <= 25; greatest += 10) {
                bool keep = keeps(low, least, greatest), safe = is_safe(low, low + 3, least, greatest);
                expect("kept span", low, keep && !safe, 0);
                kept += keep;
                at_least += !safe && keeps(low, least, least);
                at_greatest += !safe && keeps(low, greatest, greatest);
            }
    expect("kept spans", 0, kept > 100, 1);
    expect("unsafe spans", 0, at_least > 0, 1);
    expect("unsafe spans", 1, at_greatest > 0, 1);
}

/* ---- a question's bytes, length and mark */

static void question_bytes(void)
{
    static const int32_t sides[] = {-2, INT32_MAX, INT32_MIN, 0x01020304};
    static const uint8_t one[] = {'Q', 'S', 0xfe, 0xdc, 0xba, 0x98, 0xff, 0xfe, 0xfd, 0xfc,
                                  255, 255, 255, 254, 127, 255, 255, 255, 128, 0, 0, 0, 1, 2, 3, 4};
    static const uint8_t span[] = {'Q', 'R', 0xfe, 0xdc, 0xba, 0x98, 128, 0, 0, 1, 0x12, 0x34, 0x56, 0x78,
                                   255, 255, 255, 254, 127, 255, 255, 255, 128, 0, 0, 0, 1, 2, 3, 4};
    fill();
    expect("question", 0, guard_question(lent + 7, 0xfedcba98u, -66052, sides, 2), sizeof one);
    expect_lent("question", 0, 7, one, sizeof one);
    fill();
    expect("span", 0, guard_span_question(lent + 7, 0xfedcba98u, -INT32_MAX, 0x12345678, sides, 2), sizeof span);
    expect_lent("span", 0, 7, span, sizeof span);
}

/* At no other length than its own is a question taken, whatever its mark's length is at other n. */
static void question_lengths(size_t n)
{
    static const int32_t sides[2 * GUARD_VARIABLES] = {0};
    uint8_t one[GUARD_LONGEST_QUESTION + 1] = {0}, span[GUARD_LONGEST_QUESTION + 1] = {0};
    expect("question's length", (int)n, guard_question(one, 0, 0, sides, n), 10 + 8 * n);
    expect("span's length", (int)n, guard_span_question(span, 0, 0, 0, sides, n), 14 + 8 * n);
    for (size_t length = 0; length <= GUARD_LONGEST_QUESTION + 1; length++) {
        expect("question's length", (int)length, guard_refusal(guard_decide(placed, placed_length, one, length)),
               length == 10 + 8 * n ? 0 : GUARD_REFUSED_QUESTION);
        expect("span's length", (int)length, guard_refusal(guard_decide(placed, placed_length, span, length)),
               length == 14 + 8 * n ? 0 : GUARD_REFUSED_QUESTION);
    }
}

/* Of all marks, a length has the one of its own; the other bytes are 0 and right at either length. */
static void marks_at(size_t length, char letter)
{
    uint8_t question[GUARD_LONGEST_QUESTION] = {0};
    uint64_t right = 0;
    for (uint32_t mark = 0; mark <= 0xffff; mark++) {
        put_bytes(question, 2, mark);
        bool own = question[0] == 'Q' && question[1] == letter;
        right += guard_decide(sheet_a, SHEET, question, length)
                 == (own ? answer(GUARD_SPENT, 4, 0) : refusal(GUARD_REFUSED_QUESTION));
    }
    expect("marks", (int)length, right, 0x10000);
}

/* ---- which fault of several counts, with a span */

/* The faults of a question about the span -20..20 from 0..0 in each variable, in the order of their numbers; a
 * place below 0 counts from the end. Faults of different numbers have different places. */
static const struct {
    uint32_t number;
    int place;
    size_t size;
    uint32_t value;
} span_faults[] = {{12, 0, 1, 'q'}, {12, 1, 1, 'S'}, {12, 1, 1, 'L'}, {13, 2, 4, 1000001}, {13, 2, 4, UINT32_MAX},
                   {14, 6, 4, 21}, {14, 6, 4, 26}, {14, 6, 4, (uint32_t)-26}, {14, 6, 4, INT32_MAX},
                   {14, 10, 4, (uint32_t)-21}, {14, 10, 4, 26}, {14, 10, 4, (uint32_t)-26}, {14, 10, 4, INT32_MAX},
                   {15, 14, 4, 1}, {15, 14, 4, (uint32_t)-1000001}, {15, -4, 4, (uint32_t)-1}, {15, -4, 4, 1000001}};

enum { SPAN_FAULTS = sizeof span_faults / sizeof *span_faults };

static void put_span_fault(uint8_t *question, size_t length, size_t i)
{
    int place = span_faults[i].place;
    put_bytes(question + (place < 0 ? (int)length + place : place), span_faults[i].size, span_faults[i].value);
}

/* A question with one fault or two. The sheet's refusal comes first, where it has one; then the lower number. */
static void two_span_faults(const uint8_t *sheet, size_t sheet_length, size_t n, uint32_t sheets)
{
    static const int32_t sides[2 * GUARD_VARIABLES] = {0};
    uint8_t question[GUARD_LONGEST_QUESTION + 1] = {0};
    for (size_t i = 0; i < SPAN_FAULTS; i++)
        for (size_t j = 0; j < SPAN_FAULTS; j++) {
            size_t length = guard_span_question(question, 100, -20, 20, sides, n);
            put_span_fault(question, length, i);
            put_span_fault(question, length, j);
            uint32_t first = span_faults[i < j ? i : j].number;
            for (int by = -1; by <= 1; by++)
                expect("two faults", (int)(100 * i + j),
                       guard_decide(sheet, sheet_length, question, (size_t)((int)length + by)),
                       refusal(sheets != 0 ? sheets : by != 0 ? GUARD_REFUSED_QUESTION : first));
        }
}

static void span_causes(void)
{
    uint8_t sheet[SHEET];
    two_span_faults(sheet_a, SHEET, 1, 0);
    for (size_t i = 0; i < sizeof faults / sizeof *faults; i++) {
        memcpy(sheet, sheet_a, SHEET);
        put_bytes(sheet + faults[i].place, faults[i].size, faults[i].value);
        two_span_faults(sheet, SHEET, 1, (uint32_t)faults[i].number);
    }
    boxes_in_order();
    two_span_faults(ordered, ORDERED, 2, 0);
    box_beside(1, 0, 0, 0);
    two_span_faults(ordered, ORDERED, 2, GUARD_REFUSED_ORDER);
    put_shared_sheet();
    two_span_faults(placed, placed_length, 2, GUARD_REFUSED_OVERLAP);
}

static void spans(void)
{
    span_lines();
    span_ends();
    equal_ends();
    kept_spans();
    question_bytes();
    for (size_t n = 1; n <= GUARD_VARIABLES; n++) {
        put_sheet(n, 1);
        question_lengths(n);
        two_span_faults(placed, placed_length, n, 0);
    }
    marks_at(guard_question_length(1), 'S');
    marks_at(guard_span_question_length(1), 'R');
    span_causes();
    numbers_of_a();
}

/* ---- both kinds of bands, `BD` and `BF`, with 1 to 6 variables */

/* How many bytes a law takes in a band. */
static size_t law_bytes(size_t n)
{
    return 2 * n + 6;
}

/* Where band k of the file stands, and its rows: behind the mark, the edge, the safety range and, in a `BF`
 * band, the law. */
static size_t band_at(size_t n, size_t k, bool follows)
{
    return 20 + 2 * n + k * (14 + n * (2 * n + 12) + (follows ? law_bytes(n) : 0));
}

static size_t law_at(size_t n, size_t k)
{
    return band_at(n, k, true) + 14;
}

/* The calls read, write and reach with no byte more than they need. */
static void expect_exact(const char *what, size_t n)
{
    uint8_t start[GUARD_PAIR * GUARD_VARIABLES] = {0}, blank[GUARD_LONGEST_SHEET] = {0};
    size_t reached = guard_reach_length(n);
    int32_t *read = at_end(array, sizeof numbers);
    expect(what, (int)n, guard_sheet_read(file, file_length, read), file_length);
    expect(what, (int)n, memcmp(read, numbers, sizeof numbers) == 0, 1);
    uint8_t *written = at_end(blank, file_length);
    expect(what, (int)n, guard_sheet_write(numbers, written, file_length, 0), file_length);
    expect(what, (int)n, memcmp(written, file, file_length) == 0, 1);
    const int32_t *given = at_end(numbers, sizeof numbers);
    fill();
    expect(what, (int)n, guard_sheet_write(given, lent, ROOM, 0), file_length);
    expect_lent(what, (int)n, 0, file, file_length);
    uint8_t *out = at_end(blank, reached);
    memset(out, FILL, reached);
    expect(what, (int)n, guard_reach(file, file_length, 0, 1, 0, 0, start, GUARD_PAIR * n, out, reached), 0);
    expect(what, (int)n, memcmp(out, blank, reached) == 0, 1);
}

/* Read and written with every number at its slot, whatever the counts are. */
static void round_trips(size_t n, bool follows)
{
    static const size_t counts[] = {1, 2, 8};
    for (size_t i = 0; i < sizeof counts / sizeof *counts; i++)
        for (size_t j = 0; j < sizeof counts / sizeof *counts; j++) {
            put_both(n, counts[i], counts[j], follows);
            expect("length", (int)n, file_length,
                   band_at(n, counts[i], follows) + (2 + GUARD_PAIR * n) * (counts[j] + 1));
            expect_accepted("round trip", (int)n, file, file_length);
            expect_accepted("exact", (int)n, at_end(file, file_length), file_length);
            expect_exact("exact", n);
        }
}

/* A file that is cut, or goes on, is refused with 1 up to 19 bytes and with 5 else: also inside the first
 * band's mark, and where it has the length of the other kind. No byte behind the cut is read. */
static void cut_files(size_t n, size_t bands, bool follows)
{
    put_both(n, bands, 1, follows);
    for (size_t length = 0; length <= file_length + bands * law_bytes(n) + 2; length++) {
        const uint8_t *cut = at_end(file, length);
        uint32_t number = length < 20 ? GUARD_REFUSED_HEAD : length == file_length ? 0 : GUARD_REFUSED_LENGTH;
        expect("cut", (int)length, guard_refusal(guard_sheet(cut, length)), number);
        if (number != 0)
            expect_sheet_refused("cut", (int)number, cut, length);
    }
}

/* A file has the length of its mark: of all marks of the first band, one has this length and is taken. `BF` at
 * the length of `BD` is 5, another mark is 7; at the length of `BF` every other mark is 5. */
static void first_marks(size_t n, bool follows)
{
    put_both(n, 1, 1, follows);
    uint64_t right = 0;
    for (uint32_t mark = 0; mark <= 0xffff; mark++) {
        bool long_form = mark == ('B' << 8 | 'F'), short_form = mark == ('B' << 8 | 'D');
        put_bytes(file + band_at(n, 0, follows), 2, mark);
        uint32_t number = long_form || short_form ? 0 : GUARD_REFUSED_MARK;
        if (long_form != follows)
            number = GUARD_REFUSED_LENGTH;
        right += guard_refusal(guard_sheet(file, file_length)) == number;
    }
    expect("first marks", (int)n, right, 0x10000);
}

/* Of all marks of a later band, that of the first is taken; every other one is 7. */
static void later_marks(size_t n, size_t k, bool follows)
{
    put_both(n, 3, 1, follows);
    uint8_t *place = file + band_at(n, k, follows);
    uint64_t right = 0;
    for (uint32_t mark = 0; mark <= 0xffff; mark++) {
        put_bytes(place, 2, mark);
        uint32_t number = mark == (uint32_t)('B' << 8 | (follows ? 'F' : 'D')) ? 0 : GUARD_REFUSED_MARK;
        right += guard_refusal(guard_sheet(file, file_length)) == number;
    }
    expect("later marks", (int)n, right, 0x10000);
    put_bytes(place, 2, 'B' << 8 | (follows ? 'D' : 'F'));
    expect_sheet_refused("mixed marks", GUARD_REFUSED_MARK, file, file_length);
}

/* Band j has the mark and the form of the other kind. Its length is as it was where the first band's mark says
 * so: the sheet is made as long as that form is, and what lies behind the mark does not count. */
static void mixed_forms(size_t n, bool follows)
{
    for (size_t j = 1; j < 3; j++) {
        put_both(n, 3, 1, follows);
        size_t due = file_length;
        file_length = band_at(n, 0, follows);
        for (size_t k = 0; k < 3; k++)
            add_band(k, n, k == j ? !follows : follows);
        add_box("NG", guard_slot_unsafe(0), n);
        add_box("RC", GUARD_SLOT_RECOVERY, n);
        expect("mixed forms", (int)n, file_length != due, 1);
        expect_sheet_refused("mixed forms", GUARD_REFUSED_LENGTH, file, file_length);
        expect_sheet_refused("mixed forms", GUARD_REFUSED_MARK, file, due);
    }
}

/* ---- law numbers: at their ends, past them, and by what the kind of a sheet is told */

/* The ends of a law's fields, and values beyond them; the last two do not fit the file's field. */
enum { ENDS = 2, PAST = 4, UNFIT = 2 };

struct law_field {
    size_t size;
    int32_t ends[ENDS], past[PAST], unfit[UNFIT];
};

static const struct law_field coefficient_field = {
    2, {-1000, 1000}, {-1001, 1001, INT16_MIN, INT16_MAX}, {65536, -65536}};
static const struct law_field constant_field = {
    4, {-100000000, 100000000}, {-100000001, 100000001, INT32_MIN, INT32_MAX}, {INT32_MIN, INT32_MAX}};
static const struct law_field divisor_field = {2, {1, 4096}, {0, 4097, 32768, 65535}, {-1, 65537}};

static const struct law_field *field_of(size_t field)
{
    return field < GUARD_LAW_CONSTANT    ? &coefficient_field
           : field == GUARD_LAW_CONSTANT ? &constant_field
                                         : &divisor_field;
}

/* Where a field of band k's law stands in the file. */
static size_t field_at(size_t n, size_t k, size_t field)
{
    size_t behind = field == GUARD_LAW_CONSTANT ? 2 * n : field == GUARD_LAW_DIVISOR ? 2 * n + 4 : 2 * field;
    return law_at(n, k) + behind;
}

/* Every value of one field of a law: in the file, and in the array. The first divisor 0 makes another sheet of
 * the numbers, and is tried below. */
static void law_field(size_t n, size_t k, size_t field)
{
    const struct law_field *limits = field_of(field);
    size_t slot = guard_slot_law(k) + field, place = field_at(n, k, field);
    int32_t old = numbers[slot];
    for (size_t i = 0; i < ENDS; i++) {
        numbers[slot] = limits->ends[i];
        put_bytes(file + place, limits->size, (uint32_t)limits->ends[i]);
        expect_accepted("law's end", (int)field, file, file_length);
    }
    for (size_t i = 0; i < PAST; i++) {
        numbers[slot] = limits->past[i];
        put_bytes(file + place, limits->size, (uint32_t)limits->past[i]);
        expect_sheet_refused("past a law's end", GUARD_REFUSED_ROW, file, file_length);
        if (k > 0 || field != GUARD_LAW_DIVISOR || limits->past[i] != 0)
            expect_unwritten("past a law's end", GUARD_REFUSED_ROW, file_length);
    }
    for (size_t i = 0; i < UNFIT; i++) {
        numbers[slot] = limits->unfit[i];
        expect_unwritten("no law number", GUARD_REFUSED_ROW, file_length);
    }
    numbers[slot] = old;
    put_bytes(file + place, limits->size, (uint32_t)old);
}

static void law_fields(size_t n)
{
    put_both(n, 3, 1, true);
    for (size_t k = 0; k < 3; k++)
        for (size_t field = 0; field < GUARD_LAW_SIZE; field++)
            if (field < n || field >= GUARD_LAW_CONSTANT)
                law_field(n, k, field);
}

/* The first divisor 0, and any numbers in all laws: the sheet is written as `BD` and read with none of them. */
static void laws_of_fixed_bands(size_t n)
{
    static const int32_t any[] = {INT32_MIN, -100000001, -1, 1, 1001, 4097, INT32_MAX};
    for (size_t i = 0; i < sizeof any / sizeof *any; i++) {
        put_both(n, 3, 1, false);
        for (size_t k = 0; k < GUARD_BANDS; k++)
            for (size_t field = 0; field < GUARD_LAW_SIZE; field++)
                numbers[guard_slot_law(k) + field] = any[i];
        numbers[guard_slot_law(0) + GUARD_LAW_DIVISOR] = 0;
        expect_written("laws of fixed bands", (int)i, file, file_length);
        numbers_of((int32_t)n, 3, 1, false);
        expect_read("laws of fixed bands", file, file_length, numbers);
    }
}

/* The first divisor 1: the others' numbers count, those beyond the counts do not. */
static void laws_beyond_the_counts(size_t n)
{
    put_both(n, 3, 1, true);
    for (size_t k = 0; k < GUARD_BANDS; k++)
        for (size_t field = 0; field < GUARD_LAW_SIZE; field++)
            if (k >= 3 || (n <= field && field < GUARD_VARIABLES))
                numbers[guard_slot_law(k) + field] = INT32_MIN;
    expect_written("laws beyond the counts", (int)n, file, file_length);
    numbers[guard_slot_law(2) + GUARD_LAW_DIVISOR] = 0;
    expect_unwritten("a later divisor 0", GUARD_REFUSED_ROW, file_length);
    numbers[guard_slot_law(0) + GUARD_LAW_DIVISOR] = 0;
    put_file(false);
    expect_written("the first divisor 0", (int)n, file, file_length);
}

static void kinds(void)
{
    for (size_t n = 1; n <= GUARD_VARIABLES; n++) {
        for (size_t kind = 0; kind < 2; kind++) {
            round_trips(n, kind == 1);
            cut_files(n, 1, kind == 1);
            cut_files(n, 3, kind == 1);
            first_marks(n, kind == 1);
            later_marks(n, 1, kind == 1);
            later_marks(n, 2, kind == 1);
            mixed_forms(n, kind == 1);
        }
        law_fields(n);
        laws_of_fixed_bands(n);
        laws_beyond_the_counts(n);
    }
}

/* ---- which fault of several counts: every ordered pair of causes on a sheet of two variables, two bands and
 * two no-go boxes */

enum { CAUSES = 80 };

/* A number of the file, and of the array where it has a slot, is changed; where the size is 0, a box. */
static struct cause {
    int number;
    size_t place, size;
    int32_t value;
    size_t slot;
} causes[CAUSES];

static size_t cause_count;

static void cause(int number, size_t place, size_t size, int32_t value, size_t slot)
{
    causes[cause_count++] = (struct cause){number, place, size, value, slot};
}

/* Up to 6 in the order of the numbers. */
static void causes_of_head(bool follows)
{
    size_t mark = band_at(2, 0, follows); /* which fixes the length */
    cause(1, 0, 1, 'T', NO_SLOT);
    cause(1, 1, 1, 'L', NO_SLOT);
    cause(2, 2, 1, 0, GUARD_SLOT_N);
    cause(2, 2, 1, GUARD_VARIABLES + 1, GUARD_SLOT_N);
    cause(2, 2, 1, 255, GUARD_SLOT_N);
    cause(2, 3, 1, 9, GUARD_SLOT_BANDS);
    cause(2, 4, 1, 0, GUARD_SLOT_UNSAFE_BOXES);
    cause(2, 5, 1, GUARD_VARIABLES, GUARD_SLOT_BAND_VARIABLE);
    cause(3, 6, 2, 0, GUARD_SLOT_DELTA);
    cause(3, 8, 2, 990, GUARD_SLOT_ALPHA);
    cause(3, 10, 2, 1001, GUARD_SLOT_RHO);
    cause(4, 12, 4, 10001, GUARD_SLOT_LEAST_COMMAND);
    cause(4, 16, 4, -10001, GUARD_SLOT_GREATEST_COMMAND);
    cause(5, 2, 1, 1, NO_SLOT);
    cause(5, 2, 1, GUARD_VARIABLES, NO_SLOT);
    cause(5, 3, 1, 1, NO_SLOT);
    cause(5, 4, 1, 3, NO_SLOT);
    cause(5, mark, 2, 'B' << 8 | (follows ? 'D' : 'F'), NO_SLOT);
    if (follows)
        cause(5, mark, 2, 'b' << 8 | 'F', NO_SLOT);
    cause(6, 20, 2, 0, GUARD_SLOT_CAPS);
    cause(6, 22, 2, 1001, GUARD_SLOT_CAPS + 1);
}

static void causes_of_law(size_t k)
{
    size_t slot = guard_slot_law(k);
    cause(10, field_at(2, k, 0), 2, 1001, slot);
    cause(10, field_at(2, k, 1), 2, -1001, slot + 1);
    cause(10, field_at(2, k, GUARD_LAW_CONSTANT), 4, 100000001, slot + GUARD_LAW_CONSTANT);
    cause(10, field_at(2, k, GUARD_LAW_DIVISOR), 2, 4097, slot + GUARD_LAW_DIVISOR);
    cause(10, field_at(2, k, GUARD_LAW_DIVISOR), 2, 0, k == 0 ? NO_SLOT : slot + GUARD_LAW_DIVISOR);
}

/* Another mark of the first `BF` band is 5, above. */
static void causes_of_band(size_t k, bool follows)
{
    size_t band = band_at(2, k, follows), rows = band + 14 + (follows ? law_bytes(2) : 0);
    size_t slot = guard_slot_band(k);
    if (k > 0)
        cause(7, band + 1, 1, follows ? 'D' : 'F', NO_SLOT);
    if (k > 0 || !follows)
        cause(7, band, 1, 'b', NO_SLOT);
    cause(8, band + 2, 4, -2000001, slot);
    cause(8, band + 2, 4, 2000001, slot);
    cause(9, band + 6, 4, 9001, slot + 1);
    cause(9, band + 10, 4, 10001, slot + 2);
    if (follows)
        causes_of_law(k);
    cause(10, rows, 2, 1001, guard_slot_row(k, 0));
    cause(10, rows + 12, 4, -1, guard_slot_row(k, 0) + GUARD_VARIABLES + 2);
    cause(10, rows + 16 + 14, 2, 0, guard_slot_row(k, 1) + GUARD_VARIABLES + 3);
}

/* Box j, counted with the recovery box behind the no-go boxes. */
static void causes_of_box(size_t j, bool follows)
{
    size_t record = band_at(2, 2, follows) + j * (2 + 2 * GUARD_PAIR);
    size_t slot = j < 2 ? guard_slot_unsafe(j) : (size_t)GUARD_SLOT_RECOVERY;
    cause(7, record, 1, 'n', NO_SLOT);
    cause(7, record + 1, 1, 'D', NO_SLOT);
    cause(11, record + 2, 4, -2000001, slot);
    cause(11, record + 6, 4, -2000000, slot + GUARD_VARIABLES);
    cause(11, record + 14, 4, 2000001, slot + GUARD_VARIABLES + 1);
    if (j > 0)
        cause(j == 1 ? 20 : 22, record, 0, 0, slot);
}

static void list_causes(bool follows)
{
    cause_count = 0;
    causes_of_head(follows);
    for (size_t k = 0; k < 2; k++)
        causes_of_band(k, follows);
    for (size_t j = 0; j < 3; j++)
        causes_of_box(j, follows);
}

/* The box gets the sides of the first no-go box: a box that is not greater, a recovery box on a no-go box. */
static void put_first_box(struct cause cause, bool follows)
{
    size_t first = band_at(2, 2, follows);
    memcpy(file + cause.place + 2, file + first + 2, 2 * GUARD_PAIR);
    memcpy(numbers + cause.slot, numbers + guard_slot_unsafe(0), GUARD_BOX_SIZE * sizeof *numbers);
}

static void put_cause(struct cause cause, bool follows)
{
    if (cause.size == 0) {
        put_first_box(cause, follows);
        return;
    }
    put_bytes(file + cause.place, cause.size, (uint32_t)cause.value);
    if (cause.slot != NO_SLOT)
        numbers[cause.slot] = cause.value;
}

/* A sheet whose no-go boxes are where a recovery box may be, so that it may be on the first. */
static void put_caused_sheet(bool follows)
{
    numbers_of(2, 2, 2, follows);
    numbers[GUARD_SLOT_BAND_VARIABLE] = 0; /* below every n */
    for (size_t j = 0; j < 2; j++)
        put_box(guard_slot_unsafe(j), 2, -900000, -800000, 10 * (int32_t)j);
    put_box(GUARD_SLOT_RECOVERY, 2, -100, 100, 0);
    put_file(follows);
}

/* Faults i and j, of which i comes first in the order of the tests; where they have the same place, i is there. */
static void two_causes(size_t i, size_t j, bool follows)
{
    put_caused_sheet(follows);
    put_cause(causes[j], follows);
    put_cause(causes[i], follows);
    int number = causes[i].number;
    expect_sheet_refused("two causes", number, file, file_length);
    expect_sheet_refused("two causes and 19 bytes", GUARD_REFUSED_HEAD, file, 19);
    for (size_t length = file_length - 1; length <= file_length + 1; length += 2)
        expect_sheet_refused("two causes and length", number < GUARD_REFUSED_LENGTH ? number : GUARD_REFUSED_LENGTH,
                             file, length);
    if (causes[i].slot != NO_SLOT && causes[j].slot != NO_SLOT)
        expect_unwritten("two causes", number, file_length);
}

static void pairs_of_causes(void)
{
    for (int kind = 0; kind < 2; kind++) {
        list_causes(kind == 1);
        put_caused_sheet(kind == 1);
        expect_accepted("no cause", kind, file, file_length);
        for (size_t i = 0; i < cause_count; i++)
            for (size_t j = i; j < cause_count; j++)
                two_causes(i, j, kind == 1);
    }
}

/* ---- a small sheet whose plain law follows the state, worked by hand */

enum { SHEET_F = 78 };

/* x changes by the command, and the plain law's command is (3 - x)/4 within -5..6. Delta 1, alpha and rho 2;
 * commands -25..25; cap 6; no-go 41..2,000,000; recovery -40..40. */
static const uint8_t sheet_f[SHEET_F] = {
    'S', 'H', 1, 1, 1, 0, 0, 1, 0, 2, 0, 2, 255, 255, 255, 231, 0, 0, 0, 25, 0, 6,
    'B', 'F', 255, 225, 123, 128, 255, 255, 255, 251, 0, 0, 0, 6, 255, 255, 0, 0, 0, 3, 0, 4,
    0, 0, 0, 1, 0, 0, 0, 0, 0, 0, 0, 0, 0, 1,
    'N', 'G', 0, 0, 0, 41, 0, 30, 132, 128,
    'R', 'C', 255, 255, 255, 216, 0, 0, 0, 40};

/* The same without its law: any command of -5..6 at every state. */
static uint8_t sheet_d[SHEET];

static void put_sheet_d(void)
{
    enum { LAW = 36, ROWS = 44 };
    memcpy(sheet_d, sheet_f, LAW);
    memcpy(sheet_d + LAW, sheet_f + ROWS, SHEET_F - ROWS);
    sheet_d[23] = 'D';
}

/* One tick from a box under the plain law. */
static void tick_f(const uint8_t *sheet, size_t length, int32_t low, int32_t high, int32_t least, int32_t greatest)
{
    uint8_t start[GUARD_PAIR];
    guard_put(start, 0, low);
    guard_put(start, 1, high);
    fill();
    expect("tick", low, guard_reach(sheet, length, 1, 1, 0, 0, start, sizeof start, lent, 16), 1);
    expect_boxes("tick", low, low + least, high + greatest, least < 0 ? low + least : low,
                 greatest > 0 ? high + greatest : high);
}

/* The law's ends at a state: 3/4 is from 0 to 1, -1/4 from -1 to 0; then clamped at the greatest command, at the
 * least, one end alone, and both. */
static void states_of_f(void)
{
    static const struct {
        int32_t x, least, greatest;
    } states[] = {{3, 0, 0}, {2, 0, 1}, {0, 0, 1}, {-1, 1, 1}, {-2, 1, 2}, {4, -1, 0}, {5, -1, 0}, {6, -1, 0},
                  {7, -1, -1}, {8, -2, -1}, {11, -2, -2}, {-20, 5, 6}, {-21, 6, 6}, {-22, 6, 6}, {-25, 6, 6},
                  {-26, 6, 6}, {22, -5, -4}, {23, -5, -5}, {24, -5, -5}, {27, -5, -5}, {28, -5, -5},
                  {-1000000, 6, 6}, {1000000, -5, -5}};
    for (size_t i = 0; i < sizeof states / sizeof *states; i++) {
        tick_f(sheet_f, SHEET_F, states[i].x, states[i].x, states[i].least, states[i].greatest);
        tick_f(sheet_d, SHEET, states[i].x, states[i].x, -5, 6);
    }
}

/* Over a box the least end is that of its greatest state, here; a neighborhood is 12 deep. */
static void boxes_of_f(void)
{
    tick_f(sheet_f, SHEET_F, -1, 1, 0, 1);
    tick_f(sheet_f, SHEET_F, 3, 4, -1, 0);
    tick_f(sheet_f, SHEET_F, -6, 6, -1, 3);
    tick_f(sheet_f, SHEET_F, -40, 40, 6, -5);
    tick_f(sheet_f, SHEET_F, -30, 30, 5, -3);
    tick_f(sheet_d, SHEET, -40, 40, -5, 6);
}

/* A safety range of one command leaves that command at every state. */
static void one_command_f(void)
{
    uint8_t sheet[SHEET_F];
    memcpy(sheet, sheet_f, SHEET_F);
    for (int32_t only = -2; only <= 2; only++) {
        guard_put(sheet + 28, 0, only);
        guard_put(sheet + 28, 1, only);
        for (int32_t x = -30; x <= 30; x++)
            tick_f(sheet, SHEET_F, x, x, only, only);
    }
}

static uint64_t decide_f(const uint8_t *sheet, size_t length, const int32_t *sides, const int32_t *commands,
                         uint32_t allowance)
{
    uint8_t question[GUARD_LONGEST_QUESTION];
    size_t asked = guard_span_question(question, allowance, commands[0], commands[1], sides, 1);
    return guard_decide(sheet, length, question, asked);
}

/* With the law, and without it: x is brought back from both sides, or may go either way. */
static void decisions_of_f(void)
{
    static const struct {
        int32_t sides[2], commands[2];
        uint32_t allowance, code, width, rounds;        /* with the law */
        uint32_t fixed_code, fixed_width, fixed_rounds; /* without */
    } asked[] = {{{0, 0}, {25, 25}, 100, GUARD_KEEP, 2, 3, GUARD_KEEP, 2, 3},
                 {{0, 0}, {25, 25}, 3, GUARD_KEEP, 2, 3, GUARD_KEEP, 2, 3},
                 {{0, 0}, {25, 25}, 2, GUARD_SPENT, 2, 2, GUARD_SPENT, 2, 2},
                 {{0, 0}, {-6, 6}, 100, GUARD_KEEP, 2, 4, GUARD_KEEP, 2, 3},
                 {{34, 34}, {6, 6}, 100, GUARD_KEEP, 2, 3, GUARD_FINEST, 1, 5},
                 {{35, 38}, {6, 6}, 100, GUARD_FINEST, 1, 2, GUARD_FINEST, 1, 2},
                 {{-40, -40}, {-6, -6}, 100, GUARD_KEEP, 2, 3, GUARD_FINEST, 1, 6},
                 {{-60, -60}, {-6, -6}, 100, GUARD_FINEST, 1, 6, GUARD_FINEST, 1, 6}};
    for (size_t i = 0; i < sizeof asked / sizeof *asked; i++) {
        expect("with the law", (int)i,
               decide_f(sheet_f, SHEET_F, asked[i].sides, asked[i].commands, asked[i].allowance),
               answer(asked[i].code, asked[i].width, asked[i].rounds));
        expect("without the law", (int)i,
               decide_f(sheet_d, SHEET, asked[i].sides, asked[i].commands, asked[i].allowance),
               answer(asked[i].fixed_code, asked[i].fixed_width, asked[i].fixed_rounds));
    }
    expect("recovery with the law", 0, guard_recovery(sheet_f, SHEET_F), answer(GUARD_PASS, 2, 1));
    expect("recovery without the law", 0, guard_recovery(sheet_d, SHEET), answer(GUARD_FAIL, 1, 3));
}

/* Two bands by x with laws of their own: (2x - 3y + 1)/5 below 0 and (-x + y - 20)/3 from there on. y changes by
 * the command, and x stays. */
static void numbers_of_two_laws(void)
{
    static const int32_t laws[2][GUARD_LAW_SIZE] = {{2, -3, 0, 0, 0, 0, 1, 5}, {-1, 1, 0, 0, 0, 0, -20, 3}};
    numbers_of_wider(2, 1);
    numbers[GUARD_SLOT_BANDS] = 2;
    numbers[GUARD_SLOT_CAPS + 1] = 1000;
    for (size_t k = 0; k < 2; k++) {
        int32_t *band = numbers + guard_slot_band(k);
        band[0] = k == 0 ? -2000000 : 0;
        band[1] = -25;
        band[2] = 25;
        memcpy(numbers + guard_slot_law(k), laws[k], sizeof laws[k]);
        for (size_t i = 0; i < 2; i++) {
            int32_t *row = numbers + guard_slot_row(k, i);
            row[0] = 0;
            row[GUARD_VARIABLES] = i == 1;
            row[GUARD_VARIABLES + 3] = 1;
        }
    }
}

/* From x -3..2, y 1..4 the first law has -17/5 to -4/5 over its part of the box, where the whole box would have
 * up to 2/5; the second has -21/3 to -16/3. */
static void parts_of_laws(void)
{
    static const struct {
        int32_t start[4], end[2]; /* x and y; y after a tick */
    } asked[] = {{{-3, 2, 1, 4}, {-6, 4}}, {{-3, -1, 1, 4}, {-3, 4}}, {{0, 2, 1, 4}, {-6, -1}},
                 {{-1, 0, 1, 4}, {-6, 4}}, {{-1, -1, -2, -2}, {-1, -1}}, {{0, 0, -2, -2}, {-10, -9}}};
    numbers_of_two_laws();
    put_file(true);
    for (size_t i = 0; i < sizeof asked / sizeof *asked; i++) {
        uint8_t start[2 * GUARD_PAIR];
        for (size_t side = 0; side < 4; side++)
            guard_put(start, side, asked[i].start[side]);
        expect("parts", (int)i, guard_reach(file, file_length, 1, 1, 0, 0, start, sizeof start, lent, ROOM), 1);
        for (size_t side = 0; side < 2; side++) {
            expect("parts, x", (int)i, (uint32_t)guard_get(lent, side), (uint32_t)asked[i].start[side]);
            expect("parts, y", (int)i, (uint32_t)guard_get(lent, 2 + side), (uint32_t)asked[i].end[side]);
        }
    }
}

static void following(void)
{
    put_sheet_d();
    states_of_f();
    boxes_of_f();
    one_command_f();
    decisions_of_f();
    parts_of_laws();
}

/* ---- the plain law's commands from a sheet's numbers, found here without a division */

static uint32_t random_state = 9;

static int32_t random_within(int32_t least, int32_t greatest)
{
    random_state = random_state * 1664525u + 1013904223u;
    return least + (int32_t)((uint64_t)(random_state >> 4) * (uint64_t)((int64_t)greatest - least + 1) >> 28);
}

/* The greatest command of a range that a law's sum over its divisor is not below, and the least that it is not
 * above; the range's own ends where there is none. */
static struct guard_commands commands_by_search(int64_t sum, int64_t divisor, int32_t least, int32_t greatest)
{
    struct guard_commands found = {least, greatest};
    while (found.least < greatest && (found.least + 1) * divisor <= sum)
        found.least++;
    while (found.greatest > least && (found.greatest - 1) * divisor >= sum)
        found.greatest--;
    return found;
}

/* The last band whose edge is not above the state's band variable. */
static size_t band_by_search(const int32_t *state)
{
    size_t found = 0;
    for (size_t k = 0; k < (size_t)numbers[GUARD_SLOT_BANDS]; k++)
        if (numbers[guard_slot_band(k)] <= state[numbers[GUARD_SLOT_BAND_VARIABLE]])
            found = k;
    return found;
}

static struct guard_commands plain_by_search(const int32_t *state)
{
    const int32_t *band = numbers + guard_slot_band(band_by_search(state)), *law = band + 3;
    if (numbers[GUARD_SLOT_BAND + 10] == 0) /* the first band's law divisor */
        return (struct guard_commands){band[1], band[2]};
    int64_t sum = law[6];
    for (int32_t i = 0; i < numbers[GUARD_SLOT_N]; i++)
        sum += (int64_t)law[i] * state[i];
    return commands_by_search(sum, law[7], band[1], band[2]);
}

static void expect_commands(const char *what, size_t n, struct guard_commands got, struct guard_commands want)
{
    expect(what, (int)n, (uint32_t)got.least, (uint32_t)want.least);
    expect(what, (int)n, (uint32_t)got.greatest, (uint32_t)want.greatest);
}

/* How large the numbers of a random sheet are. */
struct sizes {
    int32_t coefficient, constant, divisor, command, edge;
};

static const struct sizes small_sizes = {4, 30, 20, 9, 4}, large_sizes = {1000, 100000000, 4096, 10000, 2000000};

static void put_random_law(size_t k, size_t n, struct sizes sizes)
{
    int32_t *law = numbers + guard_slot_law(k);
    for (size_t i = 0; i < n; i++)
        law[i] = random_within(-sizes.coefficient, sizes.coefficient);
    law[GUARD_LAW_CONSTANT] = random_within(-sizes.constant, sizes.constant);
    law[GUARD_LAW_DIVISOR] = random_within(1, sizes.divisor);
}

/* Each variable changes by the command or by its opposite, in all bands. */
static void put_command_rows(size_t k, size_t n)
{
    for (size_t i = 0; i < n; i++) {
        int32_t *row = numbers + guard_slot_row(k, i);
        memset(row, 0, GUARD_ROW_SIZE * sizeof *row);
        row[GUARD_VARIABLES] = i % 2 == 0 ? 1 : -1;
        row[GUARD_VARIABLES + 3] = 1;
    }
}

static void put_random_sheet(size_t n, size_t bands, bool follows, struct sizes sizes)
{
    numbers_of((int32_t)n, (int32_t)bands, 1, false);
    numbers[GUARD_SLOT_BAND_VARIABLE] = random_within(0, (int32_t)n - 1);
    for (size_t k = 0; k < bands; k++) {
        int32_t *band = numbers + guard_slot_band(k);
        if (k > 0)
            band[0] = (2 * (int32_t)k - (int32_t)bands) * (sizes.edge / 16 + 1) + random_within(0, sizes.edge / 16);
        band[1] = random_within(-sizes.command, sizes.command);
        band[2] = random_within(band[1], sizes.command);
        put_command_rows(k, n);
        if (follows)
            put_random_law(k, n, sizes);
    }
    for (size_t i = 0; i < n; i++)
        numbers[GUARD_SLOT_CAPS + i] = random_within(1, 8);
    put_file(follows);
    expect("random sheet", (int)n, guard_sheet(file, file_length), 0);
}

/* At states anywhere, and close to the law's ends: the commands are those found by search. */
static void commands_at_states(size_t n, size_t bands, bool follows, struct sizes sizes)
{
    put_random_sheet(n, bands, follows, sizes);
    for (int times = 0; times < 20; times++) {
        int32_t state[GUARD_VARIABLES], far = times % 2 == 0 ? 2 * sizes.edge : 8;
        for (size_t i = 0; i < n; i++)
            state[i] = random_within(-far, far);
        expect_commands("plain law at a state", n, guard_plain_commands(numbers, state), plain_by_search(state));
    }
}

/* The next state of a box, of which `low` is the first; false behind the last. */
static bool next_state(int32_t *state, const int32_t *sides, size_t n)
{
    for (size_t i = 0; i < n; i++) {
        if (state[i]++ < sides[2 * i + 1])
            return true;
        state[i] = sides[2 * i];
    }
    return false;
}

/* Over all states of a box: the commands that every one has, and the least and the greatest that one has. */
static void search_box(const int32_t *sides, size_t n, struct guard_commands *common, struct guard_commands *some)
{
    int32_t state[GUARD_VARIABLES];
    for (size_t i = 0; i < n; i++)
        state[i] = sides[2 * i];
    *common = *some = plain_by_search(state);
    while (next_state(state, sides, n)) {
        struct guard_commands here = plain_by_search(state);
        common->least = here.least > common->least ? here.least : common->least;
        common->greatest = here.greatest < common->greatest ? here.greatest : common->greatest;
        some->least = here.least < some->least ? here.least : some->least;
        some->greatest = here.greatest > some->greatest ? here.greatest : some->greatest;
    }
}

/* The change of a variable's lower or upper face in a tick: by some command of its neighborhood, or by the
 * opposite of one, within the cap. */
static int32_t face_by_search(const int32_t *sides, size_t n, size_t i, bool upper)
{
    int32_t within[2 * GUARD_VARIABLES], cap = numbers[GUARD_SLOT_CAPS + i];
    struct guard_commands common, some;
    memcpy(within, sides, 2 * n * sizeof *sides);
    if (upper && within[2 * i] < sides[2 * i + 1] - 2 * cap)
        within[2 * i] = sides[2 * i + 1] - 2 * cap;
    if (!upper && within[2 * i + 1] > sides[2 * i] + 2 * cap)
        within[2 * i + 1] = sides[2 * i] + 2 * cap;
    search_box(within, n, &common, &some);
    int32_t least = i % 2 == 0 ? some.least : -some.greatest, greatest = i % 2 == 0 ? some.greatest : -some.least;
    int32_t change = upper ? greatest : least;
    return change < -cap ? -cap : change > cap ? cap : change;
}

/* The archive's reach of a tick under the plain law has these faces. */
static void expect_ticked(const int32_t *sides, size_t n)
{
    uint8_t start[GUARD_PAIR * GUARD_VARIABLES];
    for (size_t i = 0; i < 2 * n; i++)
        guard_put(start, i, sides[i]);
    fill();
    expect("tick of a box", (int)n,
           guard_reach(file, file_length, 1, 1, 0, 0, start, GUARD_PAIR * n, lent, guard_reach_length(n)), 1);
    for (size_t side = 0; side < 2 * n; side++)
        expect("tick of a box", (int)n, (uint32_t)guard_get(lent, side),
               (uint32_t)(sides[side] + face_by_search(sides, n, side / 2, side % 2 == 1)));
}

static unsigned with_common, without_common;

/* Small boxes around the edges, against all of their states: the helper, and the archive's reach. */
static void commands_over_boxes(size_t n, size_t bands, bool follows)
{
    put_random_sheet(n, bands, follows, small_sizes);
    for (int times = 0; times < 10; times++) {
        int32_t sides[2 * GUARD_VARIABLES];
        struct guard_commands common, some;
        for (size_t i = 0; i < n; i++) {
            sides[2 * i] = random_within(-9, 9);
            sides[2 * i + 1] = sides[2 * i] + random_within(0, n > 3 ? 3 : 64 >> n);
        }
        search_box(sides, n, &common, &some);
        struct guard_commands found = guard_plain_common(numbers, sides);
        if (common.least <= common.greatest)
            expect_commands("plain law over a box", n, found, common);
        else
            expect("plain law over a box", (int)n, found.least > found.greatest, 1);
        with_common += common.least <= common.greatest;
        without_common += common.least > common.greatest;
        expect_ticked(sides, n);
    }
}

/* What docs/INTEGRATION.md says of a drive that reads the state with an error, in a sheet of one band: where the
 * law changes by less than 1 over the box that it reads, there is a command that every state of the box has; and
 * the commands at any two states are no further apart than the law's difference, rounded up. */
static void commands_by_reading(size_t n)
{
    put_random_sheet(n, 1, true, random_within(0, 1) == 0 ? small_sizes : large_sizes);
    const int32_t *law = numbers + guard_slot_law(0);
    for (int times = 0; times < 50; times++) {
        int32_t sides[2 * GUARD_VARIABLES], state[GUARD_VARIABLES], read[GUARD_VARIABLES];
        int64_t over_box = 0, between = 0;
        for (size_t i = 0; i < n; i++) {
            state[i] = random_within(-40, 40);
            read[i] = state[i] + random_within(-3, 3);
            sides[2 * i] = state[i] < read[i] ? state[i] : read[i];
            sides[2 * i + 1] = state[i] < read[i] ? read[i] : state[i];
            over_box += llabs((long long)law[i] * (sides[2 * i + 1] - sides[2 * i]));
            between += (int64_t)law[i] * (read[i] - state[i]);
        }
        struct guard_commands common = guard_plain_common(numbers, sides);
        struct guard_commands one = plain_by_search(state), other = plain_by_search(read);
        int64_t divisor = law[GUARD_LAW_DIVISOR], apart = (llabs((long long)between) + divisor - 1) / divisor;
        if (over_box < divisor)
            expect("a command for the box", (int)n, common.least <= common.greatest, 1);
        expect("commands apart", (int)n, other.least >= one.least - apart, 1);
        expect("commands apart", (int)n, other.greatest <= one.greatest + apart, 1);
    }
}

static void divisions(void)
{
    expect("floor", -131, (uint64_t)guard_floor(-131, 20), (uint64_t)-7);
    expect("ceil", -131, (uint64_t)guard_ceil(-131, 20), (uint64_t)-6);
    for (int64_t value = -40; value <= 40; value++)
        for (int64_t divisor = 1; divisor <= 9; divisor++) {
            int64_t below = guard_floor(value, divisor), above = guard_ceil(value, divisor);
            expect("floor", (int)value, below * divisor <= value && value < (below + 1) * divisor, 1);
            expect("ceil", (int)value, (above - 1) * divisor < value && value <= above * divisor, 1);
        }
}

static void plain_commands(void)
{
    divisions();
    for (int times = 0; times < 8; times++)
        for (size_t n = 1; n <= GUARD_VARIABLES; n++)
            for (size_t bands = 1; bands <= GUARD_BANDS; bands++)
                for (int kind = 0; kind < 2; kind++) {
                    commands_at_states(n, bands, kind == 1, small_sizes);
                    commands_at_states(n, bands, kind == 1, large_sizes);
                    commands_over_boxes(n, bands, kind == 1);
                    commands_by_reading(n);
                }
    expect("boxes with common commands", 0, with_common > 1000, 1);
    expect("boxes without common commands", 0, without_common > 1000, 1);
    numbers_of_a();
}

/* ---- a call by readings, and what is due of it, found by the order of floats alone: no float is turned into
 * a whole number here, which C leaves undefined for a NaN or a great float */

enum { MILLION = 0x49742400, THOUSAND = 0x447a0000, NO_NUMBER = 0x7fc00000 }; /* bits: 1,000,000, 1,000, a NaN */

static const uint32_t minus = 0x80000000u; /* the bit of the sign */

static float float_of(uint32_t bits)
{
    float value;
    memcpy(&value, &bits, sizeof value);
    return value;
}

/* The place of a float among all: bits without their sign ascend with the magnitude, above all numbers are
 * infinity and the NaNs. Both zeros have one place. */
static int64_t place_of(float value)
{
    uint32_t bits;
    memcpy(&bits, &value, sizeof bits);
    int64_t magnitude = bits & ~minus;
    return (bits & minus) != 0 ? -magnitude : magnitude;
}

static bool is_near(float value)
{
    return -MILLION <= place_of(value) && place_of(value) <= MILLION;
}

/* The greatest whole number that is not above a value within 1,000,000; whole numbers up to there are floats. */
static int32_t below(float value)
{
    int32_t low = -1000000, high = 1000001;
    while (high - low > 1) {
        int32_t middle = (low + high) / 2;
        if (place_of((float)middle) <= place_of(value))
            low = middle;
        else
            high = middle;
    }
    return low;
}

static int32_t above(float value)
{
    return -below(-value);
}

/* The slices of a call have these lengths, and more room than that. */
static struct {
    uint8_t head[GUARD_LONGEST_QUESTION + 2], kinds[GUARD_VARIABLES + 2];
    float values[2 * GUARD_VARIABLES + 4];
    size_t head_length, kinds_length, values_length;
} call;

static uint64_t calls_by_readings, calls_left_alone; /* with every argument as it was */

static uint64_t decide_call(const uint8_t *sheet, size_t length)
{
    static uint8_t sheet_before[ROOM], call_before[sizeof call];
    memcpy(sheet_before, sheet, length);
    memcpy(call_before, &call, sizeof call);
    uint64_t got = guard_decide_readings(sheet, length, call.head, call.head_length, call.kinds, call.kinds_length,
                                         call.values, call.values_length);
    calls_by_readings++;
    calls_left_alone += memcmp(sheet_before, sheet, length) == 0 && memcmp(call_before, &call, sizeof call) == 0;
    return got;
}

static void put_reading(size_t i, uint8_t kind, float first, float second)
{
    call.kinds[i] = kind;
    call.values[2 * i] = first;
    call.values[2 * i + 1] = second;
}

/* A call with n readings 0; behind them is what no call may look at. */
static void put_call(size_t n)
{
    memset(&call, 0, sizeof call);
    call.head_length = guard_head(call.head, 100, 25);
    call.kinds_length = n;
    call.values_length = 2 * n;
    for (size_t i = 0; i < sizeof call.kinds; i++)
        put_reading(i, i < n ? GUARD_READING_POINT : FILL, i < n ? 0 : float_of(NO_NUMBER), float_of(0));
}

/* The refusal of variable i's reading, 0 where it has none; then its sides. */
static uint32_t due_sides(size_t i, int32_t *sides)
{
    uint8_t kind = i < call.kinds_length ? call.kinds[i] : 0;
    if ((kind != 1 && kind != 2) || call.values_length < 2 * i + 2)
        return GUARD_REFUSED_MISSING;
    float first = call.values[2 * i], second = call.values[2 * i + 1];
    int64_t place = place_of(second);
    if (!is_near(first) || (kind == 1 ? place < 0 || THOUSAND < place : !is_near(second) || place < place_of(first)))
        return GUARD_REFUSED_READING;
    sides[2 * i] = kind == 1 ? below(first) - above(second) : below(first);
    sides[2 * i + 1] = kind == 1 ? above(first) + above(second) : above(second);
    return 0;
}

/* guard_decide's answer on the head and these sides. */
static uint64_t decide_sides(const uint8_t *sheet, size_t length, size_t n, const int32_t *sides)
{
    uint8_t question[sizeof call.head + GUARD_PAIR * GUARD_VARIABLES];
    memcpy(question, call.head, call.head_length);
    guard_put_sides(question + call.head_length, sides, n);
    return guard_decide(sheet, length, question, call.head_length + GUARD_PAIR * n);
}

/* What is due: the refusal of the sheet or of the head, as for the box 0..0, then that of the first reading that
 * has one, then the answer for the box of the readings. */
static uint64_t due_answer(const uint8_t *sheet, size_t length, size_t n)
{
    int32_t sides[2 * GUARD_VARIABLES] = {0};
    uint64_t first = decide_sides(sheet, length, n, sides);
    if (guard_is_refused(first))
        return first;
    for (size_t i = 0; i < n; i++) {
        uint32_t number = due_sides(i, sides);
        if (number != 0)
            return refusal(number);
    }
    return decide_sides(sheet, length, n, sides);
}

/* ---- sheet A's lines by readings */

static uint64_t decide_reading_a(uint8_t kind, float first, float second, int32_t command, uint32_t allowance)
{
    put_call(1);
    put_reading(0, kind, first, second);
    call.head_length = guard_head(call.head, allowance, command);
    uint64_t got = decide_call(sheet_a, SHEET);
    call.head_length = guard_span_head(call.head, allowance, command, command);
    expect("span of one by readings", command, decide_call(sheet_a, SHEET), got);
    return got;
}

static void reading_lines(void)
{
    static const struct {
        uint8_t kind;
        float first, second;
        int32_t command;
        uint32_t allowance, code, width, rounds;
    } asked[] = {{1, 0, 0, 25, 100, GUARD_KEEP, 4, 4}, {1, -0.0f, -0.0f, 25, 100, GUARD_KEEP, 4, 4},
                 {2, 0, 0, 25, 100, GUARD_KEEP, 4, 4}, {2, -0.0f, 0, 25, 100, GUARD_KEEP, 4, 4},
                 {2, 0, -0.0f, 25, 100, GUARD_KEEP, 4, 4}, {2, 95, 100, 25, 100, GUARD_KEEP, 4, 5},
                 {2, 95.5f, 99.0625f, 25, 100, GUARD_KEEP, 4, 5}, {1, 97.5f, 2, 25, 100, GUARD_KEEP, 4, 5},
                 {1, 97.5f, 1.25f, 25, 100, GUARD_KEEP, 4, 5}, {2, 95, 100, 25, 4, GUARD_SPENT, 4, 4},
                 {1, 97.5f, 2, 25, 4, GUARD_SPENT, 4, 4}, {1, 131, 0, 0, 100, GUARD_FINEST, 1, 5},
                 {2, 131, 131, 0, 100, GUARD_FINEST, 1, 5}, {1, 0, 0, 26, 100, GUARD_REFUSED, 14, 0},
                 {0, 0, 0, 26, 100, GUARD_REFUSED, 14, 0}, {0, 0, 0, 25, 100, GUARD_REFUSED, 18, 0},
                 {1, 0, 0, 25, 0, GUARD_SPENT, 4, 0}, {1, 0, 0, 25, 1000000, GUARD_KEEP, 4, 4},
                 {1, 0, 0, 25, 1000001, GUARD_REFUSED, 13, 0}, {1, 1000000, 0, 25, 1, GUARD_SPENT, 4, 1},
                 {2, 1, 0, 25, 100, GUARD_REFUSED, 19, 0}, {1, -1000000, 1, 25, 100, GUARD_REFUSED, 15, 0},
                 {1, 1000000, 0.5f, 25, 100, GUARD_REFUSED, 15, 0}};
    for (size_t i = 0; i < sizeof asked / sizeof *asked; i++)
        expect("reading", (int)i,
               decide_reading_a(asked[i].kind, asked[i].first, asked[i].second, asked[i].command, asked[i].allowance),
               answer(asked[i].code, asked[i].width, asked[i].rounds));
}

/* ---- the exact box of a reading, on a sheet on which no state changes: a question is kept there just where its
 * box lies in the recovery box */

static uint64_t decide_still(size_t n, const int32_t *sides)
{
    numbers_of_wider(n, 1);
    numbers[GUARD_SLOT_DELTA] = numbers[GUARD_SLOT_ALPHA] = 1;
    numbers[guard_slot_row(0, 0)] = numbers[guard_slot_row(0, 0) + GUARD_VARIABLES] = 0;
    for (size_t i = 0; i < n; i++) {
        numbers[GUARD_SLOT_RECOVERY + i] = sides[2 * i];
        numbers[GUARD_SLOT_RECOVERY + GUARD_VARIABLES + i] = sides[2 * i + 1];
        numbers[guard_slot_unsafe(0) + i] = numbers[guard_slot_unsafe(0) + GUARD_VARIABLES + i] = 2000000;
    }
    put_file(false);
    return decide_call(file, file_length);
}

/* The call's box has these sides: it is kept in them, and no longer where one of them is moved inward. A pair of
 * equal sides is moved as a whole, where it stays in range. */
static void expect_box(const char *what, int number, size_t n, const int32_t *sides)
{
    expect(what, number, decide_still(n, sides), answer(GUARD_KEEP, 1, 2));
    for (size_t side = 0; side < 2 * n; side++) {
        int32_t other[2 * GUARD_VARIABLES], inward = side % 2 == 0 ? 1 : -1;
        memcpy(other, sides, 2 * n * sizeof *sides);
        other[side] += inward;
        if (sides[side] == sides[side ^ 1])
            other[side ^ 1] += inward;
        if (-1000000 <= other[side] && other[side] <= 1000000)
            expect(what, number, decide_still(n, other), answer(GUARD_FINEST, 1, 2));
    }
}

/* A reading of sheet A's variable that is refused with this number or, where that is 0, has these sides. */
static void expect_reading(const char *what, int number, uint32_t refused, int32_t low, int32_t high)
{
    const int32_t sides[] = {low, high};
    if (refused == 0 && (low < -1000000 || 1000000 < high))
        refused = GUARD_REFUSED_START;
    uint64_t got = decide_call(sheet_a, SHEET);
    if (refused != 0)
        expect(what, number, got, refusal(refused));
    else
        expect(what, number, got, decide_sides(sheet_a, SHEET, 1, sides));
    if (refused == 0)
        expect_box(what, number, 1, sides);
}

/* The table of docs/INTEGRATION.md. */
static void documented_readings(void)
{
    static const struct {
        uint8_t kind;
        float first, second;
        uint32_t refused;
        int32_t low, high;
    } asked[] = {{1, 3, 0, 0, 3, 3}, {1, 97.5f, 2, 0, 95, 100}, {1, 97.5f, 1.25f, 0, 95, 100},
                 {2, 96.25f, 98.75f, 0, 96, 99}, {1, -97.5f, 2, 0, -100, -95}, {1, -0.25f, 0, 0, -1, 0},
                 {1, -0.25f, 0.5f, 0, -2, 1}, {2, -3.75f, -0.25f, 0, -4, 0}, {1, -0.0f, -0.0f, 0, 0, 0},
                 {2, 0, -0.0f, 0, 0, 0}, {1, 1e-45f, 0, 0, 0, 1}, {1, 1000000, 0, 0, 1000000, 1000000},
                 {1, 1000000.0625f, 0, 19, 0, 0}, {1, 1000000, 0.5f, 15, 0, 0}, {1, 5, -0.5f, 19, 0, 0},
                 {1, 5, 1000.5f, 19, 0, 0}, {2, 2, 1.5f, 19, 0, 0}};
    put_call(1);
    for (size_t i = 0; i < sizeof asked / sizeof *asked; i++) {
        put_reading(0, asked[i].kind, asked[i].first, asked[i].second);
        expect_reading("documented", (int)i, asked[i].refused, asked[i].low, asked[i].high);
    }
}

/* ---- floats with their sides, by hand */

/* Above 0; below 0 the sides have the other sign and change places. */
static const struct {
    uint32_t bits;
    int32_t below, above;
} near_floats[] = {
    {0x00000000, 0, 0},             /* 0 */
    {0x00000001, 0, 1},             /* the least number above 0 */
    {0x007fffff, 0, 1},             /* the greatest subnormal number */
    {0x00800000, 0, 1},             /* the least normal number */
    {0x3e800000, 0, 1},             /* 0.25 */
    {0x3f000000, 0, 1},             /* 0.5 */
    {0x3f7fffff, 0, 1},             /* below 1 */
    {0x3f800000, 1, 1},             /* 1 */
    {0x3f800001, 1, 2},             /* above 1 */
    {0x3fc00000, 1, 2},             /* 1.5 */
    {0x40200000, 2, 3},             /* 2.5 */
    {0x42f6e666, 123, 124},         /* close to 123.45 */
    {0x447a0000, 1000, 1000},       /* 1,000 */
    {0x48ffffff, 524287, 524288},   /* 2^19 - 1/32 */
    {0x49000000, 524288, 524288},   /* 2^19 */
    {0x49000001, 524288, 524289},   /* 2^19 + 1/16 */
    {0x49736be0, 997054, 997054},   /* 997,054 */
    {0x4973e580, 999000, 999000},   /* 999,000 */
    {0x4973e581, 999000, 999001},   /* 999,000.0625 */
    {0x497423f0, 999999, 999999},   /* 999,999 */
    {0x497423f8, 999999, 1000000},  /* 999,999.5 */
    {0x497423ff, 999999, 1000000},  /* 999,999.9375 */
    {0x49742400, 1000000, 1000000}, /* 1,000,000 */
};

/* Refused with 19, with either sign. */
static const uint32_t far_floats[] = {
    0x49742401,                                     /* 1,000,000.0625 */
    0x49800000, 0x4affffff, 0x4b000000, 0x4b000001, /* 2^20, 2^23 - 0.5, 2^23, 2^23 + 1 */
    0x4b800000, 0x4effffff, 0x4f000000, 0x4f800000, /* 2^24, around 2^31, 2^32 */
    0x5f000000, 0x5f800000, 0x7f7fffff,             /* 2^63, 2^64, the greatest number */
    0x7f800000, 0x7f800001, 0x7fbfffff, 0x7fc00000, 0x7fc12345, 0x7fffffff, /* infinity, NaNs of both kinds */
};

enum {
    NEAR = sizeof near_floats / sizeof *near_floats,
    FAR_OUT = sizeof far_floats / sizeof *far_floats,
    FLOATS = 2 * (NEAR + FAR_OUT)
};

static struct named {
    float value;
    bool near;
    int32_t below, above;
} floats[FLOATS];

static void name_floats(void)
{
    size_t at = 0;
    for (size_t i = 0; i < NEAR; i++) {
        uint32_t bits = near_floats[i].bits;
        int32_t low = near_floats[i].below, high = near_floats[i].above;
        floats[at++] = (struct named){float_of(bits), true, low, high};
        floats[at++] = (struct named){float_of(bits | minus), true, -high, -low};
    }
    for (size_t i = 0; i < FAR_OUT; i++) {
        floats[at++] = (struct named){float_of(far_floats[i]), false, 0, 0};
        floats[at++] = (struct named){float_of(far_floats[i] | minus), false, 0, 0};
    }
    for (size_t i = 0; i < FLOATS; i++) {
        expect("near", (int)i, is_near(floats[i].value), floats[i].near);
        if (floats[i].near) {
            expect("below", (int)i, (uint32_t)below(floats[i].value), (uint32_t)floats[i].below);
            expect("above", (int)i, (uint32_t)above(floats[i].value), (uint32_t)floats[i].above);
        }
    }
}

/* ---- every float as a value, with every tolerance; every two floats as a pair */

static const struct {
    uint32_t bits;
    bool right;
    int32_t above;
} tolerances[] = {
    {0x00000000, true, 0},    /* 0 */
    {0x80000000, true, 0},    /* minus zero */
    {0x00000001, true, 1},    /* the least number above 0 */
    {0x80000001, false, 0},   /* the greatest below 0 */
    {0x3e800000, true, 1},    /* 0.25 */
    {0x3f000000, true, 1},    /* 0.5 */
    {0xbf000000, false, 0},   /* -0.5 */
    {0x3f800000, true, 1},    /* 1 */
    {0x3f800001, true, 2},    /* above 1 */
    {0xbf800000, false, 0},   /* -1 */
    {0x40200000, true, 3},    /* 2.5 */
    {0x4479c000, true, 999},  /* 999 */
    {0x4479c001, true, 1000}, /* above 999 */
    {0x4479ffff, true, 1000}, /* below 1,000 */
    {0x447a0000, true, 1000}, /* 1,000 */
    {0x447a0001, false, 0},   /* above 1,000 */
    {0xc47a0000, false, 0},   /* -1,000 */
    {0x49742400, false, 0},   /* 1,000,000 */
    {0x7f7fffff, false, 0},   /* the greatest number */
    {0x7f800000, false, 0}, {0xff800000, false, 0},                         /* infinity */
    {0x7f800001, false, 0}, {0x7fc00000, false, 0}, {0xffc54321, false, 0}, /* NaNs */
};

static void points(void)
{
    put_call(1);
    for (size_t i = 0; i < FLOATS; i++)
        for (size_t j = 0; j < sizeof tolerances / sizeof *tolerances; j++) {
            bool right = floats[i].near && tolerances[j].right;
            put_reading(0, GUARD_READING_POINT, floats[i].value, float_of(tolerances[j].bits));
            expect_reading("point", (int)(100 * i + j), right ? 0 : GUARD_REFUSED_READING,
                           floats[i].below - tolerances[j].above, floats[i].above + tolerances[j].above);
        }
}

static void pairs(void)
{
    put_call(1);
    for (size_t i = 0; i < FLOATS; i++)
        for (size_t j = 0; j < FLOATS; j++) {
            bool right = floats[i].near && floats[j].near && place_of(floats[i].value) <= place_of(floats[j].value);
            put_reading(0, GUARD_READING_PAIR, floats[i].value, floats[j].value);
            expect_reading("pair", (int)(100 * i + j), right ? 0 : GUARD_REFUSED_READING, floats[i].below,
                           floats[j].above);
        }
}

/* Every two neighbors around a whole number: in this order a pair, in the other one reversed. */
static void reversed_pairs(void)
{
    put_call(1);
    for (int32_t number = 1; number <= 1000000; number = 3 * number + 1) {
        float value = (float)number;
        uint32_t bits;
        memcpy(&bits, &value, sizeof bits);
        for (uint32_t sign = 0; sign <= 1; sign++) {
            float inner = float_of((bits - 1) | sign << 31), outer = float_of(bits | sign << 31);
            int32_t low = sign == 0 ? number - 1 : -number, high = sign == 0 ? number : 1 - number;
            put_reading(0, GUARD_READING_PAIR, sign == 0 ? inner : outer, sign == 0 ? outer : inner);
            expect_reading("neighbors", number, 0, low, high);
            put_reading(0, GUARD_READING_PAIR, sign == 0 ? outer : inner, sign == 0 ? inner : outer);
            expect_reading("reversed neighbors", number, GUARD_REFUSED_READING, 0, 0);
        }
    }
}

/* ---- slices: missing, too short, too long, where no memory follows, overlapping */

/* One of the slices ends where no memory follows, or is NULL where it has no length. */
static uint64_t decide_at_end(int slice)
{
    const uint8_t *head = call.head, *kinds = call.kinds;
    const float *values = call.values;
    if (slice == 0)
        head = call.head_length > 0 ? at_end(head, call.head_length) : NULL;
    if (slice == 1)
        kinds = call.kinds_length > 0 ? at_end(kinds, call.kinds_length) : NULL;
    if (slice == 2)
        values = call.values_length > 0 ? at_end(values, call.values_length * sizeof *values) : NULL;
    return guard_decide_readings(placed, placed_length, head, call.head_length, kinds, call.kinds_length, values,
                                 call.values_length);
}

/* Of two slices every length: 18 but where both reach each variable. */
static void short_slices(size_t n)
{
    put_sheet(n, 1);
    put_call(n);
    uint64_t right = decide_call(placed, placed_length);
    expect("all readings", (int)n, guard_is_refused(right), 0);
    for (call.kinds_length = 0; call.kinds_length <= n + 2; call.kinds_length++)
        for (call.values_length = 0; call.values_length <= 2 * n + 4; call.values_length++) {
            bool all = n <= call.kinds_length && 2 * n <= call.values_length;
            for (int slice = 0; slice < 4; slice++)
                expect("short slices", (int)n, decide_at_end(slice), all ? right : refusal(18));
        }
}

/* Of a head every length, up to that of a whole question and further: 12 but at that of its mark. */
static void head_lengths(size_t n)
{
    put_sheet(n, 1);
    for (int span = 0; span <= 1; span++) {
        put_call(n);
        size_t own = span == 0 ? guard_head(call.head, 0, 0) : guard_span_head(call.head, 0, 0, 0);
        expect("head's length", (int)n, own, span == 0 ? 10 : 14);
        for (call.head_length = 0; call.head_length <= sizeof call.head; call.head_length++)
            for (int slice = 0; slice < 2; slice++)
                expect("head's length", (int)call.head_length, decide_at_end(slice),
                       call.head_length == own ? answer(GUARD_SPENT, 4, 0) : refusal(GUARD_REFUSED_QUESTION));
    }
}

/* Of all marks, a length has the one of its own; the other bytes are 0 and right at either length. */
static void head_marks(size_t length, char letter)
{
    put_call(1);
    memset(call.head, 0, sizeof call.head);
    call.head_length = length;
    uint64_t right = 0;
    for (uint32_t mark = 0; mark <= 0xffff; mark++) {
        put_bytes(call.head, 2, mark);
        bool own = call.head[0] == 'Q' && call.head[1] == letter;
        right += decide_call(sheet_a, SHEET) == (own ? answer(GUARD_SPENT, 4, 0) : refusal(GUARD_REFUSED_QUESTION));
    }
    expect("head's marks", (int)length, right, 0x10000);
}

/* Every kind at every variable; a missing reading's floats are not looked at. */
static void reading_kinds(size_t n)
{
    put_sheet(n, 1);
    for (size_t i = 0; i < n; i++) {
        put_call(n);
        uint64_t right = decide_call(placed, placed_length);
        for (uint32_t kind = 0; kind <= 255; kind++) {
            bool known = kind == GUARD_READING_POINT || kind == GUARD_READING_PAIR;
            put_reading(i, (uint8_t)kind, 0, 0);
            expect("kind", (int)kind, decide_call(placed, placed_length), known ? right : refusal(18));
            put_reading(i, (uint8_t)kind, float_of(NO_NUMBER), float_of(NO_NUMBER));
            expect("kind without a number", (int)kind, decide_call(placed, placed_length), refusal(known ? 19 : 18));
        }
    }
}

/* Whatever kinds and floats stand behind those of the sheet's variables. */
static void readings_beyond(size_t n)
{
    put_sheet(n, 1);
    put_call(n);
    uint64_t right = decide_call(placed, placed_length);
    call.kinds_length = sizeof call.kinds;
    call.values_length = 2 * sizeof call.kinds;
    for (uint32_t kind = 0; kind <= 255; kind++)
        for (size_t j = 0; j < FLOATS; j += 5) {
            for (size_t i = n; i < sizeof call.kinds; i++)
                put_reading(i, (uint8_t)kind, floats[j].value, floats[(j + i) % FLOATS].value);
            expect("beyond", (int)kind, decide_call(placed, placed_length), right);
        }
}

/* Kinds that are the bytes of the floats: the answer is that on copies. */
static void overlapping_readings(void)
{
    put_sheet(2, 1);
    put_call(2);
    for (size_t i = 0; i < FLOATS; i++)
        for (uint32_t low = 0; low <= 3; low++) {
            uint8_t *bytes = (uint8_t *)call.values;
            put_reading(0, 0, floats[i].value, 1);
            put_reading(1, 0, 2, 2);
            bytes[0] = (uint8_t)low;
            for (size_t at = 0; at < 4 * sizeof *call.values - 1; at++) {
                memcpy(call.kinds, bytes + at, 2);
                expect("overlapping readings", (int)at,
                       guard_decide_readings(placed, placed_length, call.head, call.head_length, bytes + at, 2,
                                             call.values, 4),
                       decide_call(placed, placed_length));
            }
        }
}

/* ---- which fault of several counts: every ordered pair of causes, with both heads */

/* What a cause changes: bytes of the head, its length, a variable's kind, its whole reading, or how many kinds or
 * floats there are. */
enum change { HEAD_BYTES, HEAD_LENGTH, KIND, READING, KINDS_LENGTH, VALUES_LENGTH };

static struct call_cause {
    uint32_t number;
    enum change change;
    size_t at, size; /* a byte of the head and how many; or a variable and its kind; or a length */
    uint32_t first, second;
} call_causes[200];

static size_t call_cause_count;

static void call_cause(uint32_t number, enum change change, size_t at, size_t size, uint32_t first, uint32_t second)
{
    call_causes[call_cause_count++] = (struct call_cause){number, change, at, size, first, second};
}

/* In the order of the numbers. */
static void causes_of_question_head(size_t n, bool span)
{
    size_t own = span ? GUARD_SPAN_QUESTION_HEAD : GUARD_QUESTION_HEAD;
    call_cause(12, HEAD_BYTES, 0, 1, 'q', 0);
    call_cause(12, HEAD_BYTES, 1, 1, span ? 'S' : 'R', 0);
    call_cause(12, HEAD_BYTES, 1, 1, 'L', 0);
    call_cause(12, HEAD_LENGTH, 0, 0, 0, 0);
    call_cause(12, HEAD_LENGTH, own - 1, 0, 0, 0);
    call_cause(12, HEAD_LENGTH, own + 1, 0, 0, 0);
    call_cause(12, HEAD_LENGTH, own + GUARD_PAIR * n, 0, 0, 0);
    call_cause(13, HEAD_BYTES, 2, 4, 1000001, 0);
    call_cause(13, HEAD_BYTES, 2, 4, UINT32_MAX, 0);
    call_cause(14, HEAD_BYTES, 6, 4, 26, 0);
    call_cause(14, HEAD_BYTES, 6, 4, (uint32_t)-26, 0);
    call_cause(14, HEAD_BYTES, 6, 4, (uint32_t)INT32_MAX, 0);
    if (span) {
        call_cause(14, HEAD_BYTES, 10, 4, (uint32_t)-21, 0);
        call_cause(14, HEAD_BYTES, 10, 4, 26, 0);
    }
}

static void causes_of_reading(size_t i)
{
    enum { HALF = 0x3f000000, ONE = 0x3f800000, INFINITE = 0x7f800000 };
    call_cause(18, KIND, i, GUARD_READING_NONE, 0, 0);
    call_cause(18, KIND, i, 3, 0, 0);
    call_cause(18, KIND, i, 255, 0, 0);
    call_cause(18, KINDS_LENGTH, i, 0, 0, 0);
    call_cause(18, VALUES_LENGTH, 2 * i, 0, 0, 0);
    call_cause(18, VALUES_LENGTH, 2 * i + 1, 0, 0, 0);
    call_cause(19, READING, i, GUARD_READING_POINT, NO_NUMBER, 0);
    call_cause(19, READING, i, GUARD_READING_POINT, NO_NUMBER + 77, NO_NUMBER);
    call_cause(19, READING, i, GUARD_READING_POINT, INFINITE, 0);
    call_cause(19, READING, i, GUARD_READING_POINT, (MILLION + 1) | minus, 0);
    call_cause(19, READING, i, GUARD_READING_POINT, MILLION, THOUSAND + 1);
    call_cause(19, READING, i, GUARD_READING_POINT, 0, 1 | minus);
    call_cause(19, READING, i, GUARD_READING_POINT, 0, NO_NUMBER);
    call_cause(19, READING, i, GUARD_READING_PAIR, NO_NUMBER, ONE);
    call_cause(19, READING, i, GUARD_READING_PAIR, HALF, NO_NUMBER);
    call_cause(19, READING, i, GUARD_READING_PAIR, INFINITE | minus, HALF);
    call_cause(19, READING, i, GUARD_READING_PAIR, HALF, MILLION + 1);
    call_cause(19, READING, i, GUARD_READING_PAIR, ONE, ONE - 1);
    call_cause(19, READING, i, GUARD_READING_PAIR, MILLION, MILLION | minus);
}

static void list_call_causes(size_t n, bool span)
{
    call_cause_count = 0;
    causes_of_question_head(n, span);
    for (size_t i = 0; i < n; i++)
        causes_of_reading(i);
    for (size_t i = 0; i < n; i++) {
        call_cause(15, READING, i, GUARD_READING_POINT, MILLION, 1);
        call_cause(15, READING, i, GUARD_READING_POINT, MILLION | minus, 0x3f800000);
        call_cause(15, READING, i, GUARD_READING_POINT, MILLION - 1, THOUSAND);
    }
}

static void put_call_cause(struct call_cause cause)
{
    switch (cause.change) {
    case HEAD_BYTES:
        put_bytes(call.head + cause.at, cause.size, cause.first);
        break;
    case HEAD_LENGTH:
        call.head_length = cause.at;
        break;
    case KIND:
        call.kinds[cause.at] = (uint8_t)cause.size;
        break;
    case READING:
        put_reading(cause.at, (uint8_t)cause.size, float_of(cause.first), float_of(cause.second));
        break;
    case KINDS_LENGTH:
        call.kinds_length = cause.at;
        break;
    case VALUES_LENGTH:
        call.values_length = cause.at;
        break;
    }
}

/* Causes i and j, of which i comes first in the order of the tests; where they change the same, i's is there. The
 * sheet's refusal comes before both, where it has one. */
static void two_call_causes(const uint8_t *sheet, size_t length, size_t n, uint32_t sheets)
{
    for (int span = 0; span <= 1; span++) {
        list_call_causes(n, span == 1);
        for (size_t i = 0; i < call_cause_count; i++)
            for (size_t j = i; j < call_cause_count; j++) {
                put_call(n);
                if (span == 1)
                    call.head_length = guard_span_head(call.head, 100, -20, 20);
                put_call_cause(call_causes[j]);
                put_call_cause(call_causes[i]);
                expect("two causes of a call", (int)(1000 * i + j), decide_call(sheet, length),
                       refusal(sheets != 0 ? sheets : call_causes[i].number));
            }
    }
}

static void causes_by_readings(void)
{
    uint8_t sheet[SHEET];
    for (size_t i = 0; i < sizeof faults / sizeof *faults; i++) {
        memcpy(sheet, sheet_a, SHEET);
        put_bytes(sheet + faults[i].place, faults[i].size, faults[i].value);
        two_call_causes(sheet, SHEET, 1, (uint32_t)faults[i].number);
    }
    for (size_t n = 1; n <= GUARD_VARIABLES; n++) {
        put_sheet(n, 1);
        two_call_causes(placed, placed_length, n, 0);
    }
    boxes_in_order();
    box_beside(1, 0, 0, 0);
    two_call_causes(ordered, ORDERED, 2, GUARD_REFUSED_ORDER);
    put_shared_sheet();
    two_call_causes(placed, placed_length, 2, GUARD_REFUSED_OVERLAP);
}

/* ---- random calls: the answer is guard_decide's on the head and the box, and the box is the one that is due */

static unsigned random_codes[GUARD_REFUSED + 1], random_refusals[GUARD_REFUSED_OVERLAP + 1];

/* A float with up to 16 digits behind the point. */
static float random_float(int32_t least, int32_t greatest)
{
    return (float)random_within(65536 * least, 65536 * greatest) / (float)(1 << random_within(14, 16));
}

/* Mostly around a place; now and then one of the floats above, at an end of the range, or no reading. */
static void put_random_reading(size_t i, float around)
{
    bool point = random_within(0, 1) == 0;
    float first = around + random_float(-9, 9), second = point ? random_float(0, 9) : first + random_float(0, 20);
    if (random_within(0, 29) == 0)
        first = floats[random_within(0, FLOATS - 1)].value;
    if (random_within(0, 29) == 0)
        second = floats[random_within(0, FLOATS - 1)].value;
    put_reading(i, point ? GUARD_READING_POINT : GUARD_READING_PAIR, first, second);
    if (random_within(0, 49) == 0)
        put_reading(i, GUARD_READING_POINT, random_within(0, 1) == 0 ? -1000000 : 999999.5f, random_float(0, 1));
    if (random_within(0, 39) == 0)
        call.kinds[i] = (uint8_t)random_within(0, 255);
}

static void put_random_head(void)
{
    static const uint32_t allowances[] = {0, 3, 4, 12, 19, 1000000};
    uint32_t allowance = random_within(0, 39) == 0 ? 1000001 : allowances[random_within(0, 5)];
    int32_t command = random_within(-26, 25), greatest = command + random_within(0, 10);
    call.head_length = random_within(0, 1) == 0 ? guard_head(call.head, allowance, command)
                                                : guard_span_head(call.head, allowance, command, greatest);
    if (random_within(0, 39) == 0)
        call.head_length += (size_t)random_within(0, 4) - 2;
}

static void random_call(const uint8_t *sheet, size_t length, size_t n, float around)
{
    put_call(n);
    put_random_head();
    for (size_t i = 0; i < n; i++)
        put_random_reading(i, around);
    if (random_within(0, 39) == 0)
        call.values_length -= (size_t)random_within(0, 2);
    uint64_t due = due_answer(sheet, length, n);
    expect("random call", (int)n, decide_call(sheet, length), due);
    random_codes[guard_code(due)]++;
    random_refusals[guard_refusal(due)]++;
}

/* The exact box of n random readings, of which none is at fault. */
static void random_box(size_t n)
{
    int32_t sides[2 * GUARD_VARIABLES];
    put_call(n);
    for (size_t i = 0; i < n; i++) {
        bool point = random_within(0, 1) == 0;
        float first = random_float(-1000, 1000);
        float second = point ? random_float(0, 100) : first + random_float(0, 100);
        put_reading(i, point ? GUARD_READING_POINT : GUARD_READING_PAIR, first, second);
        expect("random reading", (int)n, due_sides(i, sides), 0);
    }
    expect_box("random box", (int)n, n, sides);
}

/* Each answer is there often: keep, finest, spent, refused; and each refusal that a call by readings adds to the
 * sheet's. */
static void tally_of_calls(void)
{
    static const uint32_t refusals[] = {12, 13, 14, 15, 18, 19};
    printf("calls by readings: keep %u, finest %u, spent %u, refused %u", random_codes[GUARD_KEEP],
           random_codes[GUARD_FINEST], random_codes[GUARD_SPENT], random_codes[GUARD_REFUSED]);
    for (size_t i = 0; i < sizeof refusals / sizeof *refusals; i++)
        printf("%s%u with %u", i == 0 ? " (" : ", ", random_refusals[refusals[i]], refusals[i]);
    printf(")\n");
    for (size_t i = 0; i < sizeof refusals / sizeof *refusals; i++)
        expect("random refusals", (int)refusals[i], random_refusals[refusals[i]] > 300, 1);
    for (size_t code = GUARD_KEEP; code <= GUARD_REFUSED; code++)
        expect("random answers", (int)code, random_codes[code] > 2000, 1);
}

static void random_calls(void)
{
    static const float starts[] = {-5500, -3050, -3000, 0};
    random_state = 1;
    for (int times = 0; times < 8000; times++)
        random_call(sheet_a, SHEET, 1, (float)random_within(-140, 140));
    for (size_t n = 1; n <= GUARD_VARIABLES; n++) {
        put_sheet(n, 2);
        for (int times = 0; times < 4000; times++)
            random_call(placed, placed_length, n, starts[times % 4]);
    }
    for (int times = 0; times < 2000; times++)
        for (size_t n = 1; n <= GUARD_VARIABLES; n++)
            random_box(n);
    tally_of_calls();
}

/* ---- heads and readings, put together by guard.h */

static void head_bytes(void)
{
    static const uint8_t one[] = {'Q', 'S', 0xfe, 0xdc, 0xba, 0x98, 0xff, 0xfe, 0xfd, 0xfc};
    static const uint8_t span[] = {'Q', 'R', 0xfe, 0xdc, 0xba, 0x98, 128, 0, 0, 1, 0x12, 0x34, 0x56, 0x78};
    static const uint8_t two[] = {255, 255, 255, 254, 127, 255, 255, 255};
    fill();
    expect("head", 0, guard_head(lent + 7, 0xfedcba98u, -66052), sizeof one);
    expect_lent("head", 0, 7, one, sizeof one);
    fill();
    expect("span's head", 0, guard_span_head(lent + 7, 0xfedcba98u, -INT32_MAX, 0x12345678), sizeof span);
    expect_lent("span's head", 0, 7, span, sizeof span);
    fill();
    guard_put_sides(lent + 7, (const int32_t[]){-2, INT32_MAX}, 1);
    expect_lent("sides", 0, 7, two, sizeof two);
    expect("missing", 0, GUARD_REFUSED_MISSING, 18);
    expect("reading", 0, GUARD_REFUSED_READING, 19);
}

/* Readings between other bytes: one of them is set, and all else is as it was. */
static struct {
    uint8_t before[BEHIND];
    struct guard_readings readings;
    uint8_t behind[BEHIND];
} framed;

static void expect_set(const char *what, size_t i, uint8_t kind, float first, float second)
{
    uint8_t due[sizeof framed];
    const float two[] = {first, second};
    size_t kinds = (size_t)((uint8_t *)framed.readings.kinds - (uint8_t *)&framed);
    size_t values = (size_t)((uint8_t *)framed.readings.values - (uint8_t *)&framed);
    memset(due, FILL, sizeof due);
    if (i < GUARD_VARIABLES) {
        due[kinds + i] = kind;
        memcpy(due + values + 2 * i * sizeof *two, two, sizeof two);
    }
    expect(what, (int)i, memcmp(&framed, due, sizeof due) == 0, 1);
    memset(&framed, FILL, sizeof framed);
}

static void set_readings(void)
{
    static const size_t past[] = {GUARD_VARIABLES, GUARD_VARIABLES + 1, 64, SIZE_MAX / 2, SIZE_MAX / 2 + 1, SIZE_MAX};
    float none = float_of(NO_NUMBER + 77);
    memset(&framed, FILL, sizeof framed);
    for (size_t at = 0; at < GUARD_VARIABLES + sizeof past / sizeof *past; at++) {
        size_t i = at < GUARD_VARIABLES ? at : past[at - GUARD_VARIABLES];
        guard_set_point(&framed.readings, i, -0.25f, 1.5f);
        expect_set("point", i, 1, -0.25f, 1.5f);
        guard_set_point(&framed.readings, i, none, -0.0f);
        expect_set("point", i, 1, none, -0.0f);
        guard_set_pair(&framed.readings, i, -3, 1e6f);
        expect_set("pair", i, 2, -3, 1e6f);
        guard_set_missing(&framed.readings, i);
        expect_set("missing", i, 0, 0, 0);
    }
}

/* The call on readings that were set, with all of their room as slices. */
static void decide_set(void)
{
    struct guard_readings readings = {0};
    uint8_t head[GUARD_SPAN_QUESTION_HEAD];
    size_t length = guard_head(head, 100, 25);
    static const uint64_t due[] = {3ull << 48 | 18ull << 32, 4ull << 32 | 5, 4ull << 32 | 5, 3ull << 48 | 18ull << 32};
    for (size_t i = 0; i < sizeof due / sizeof *due; i++) {
        if (i == 1)
            guard_set_point(&readings, 0, 97.5f, 1.25f);
        if (i == 2)
            guard_set_pair(&readings, 0, 95.75f, 99.25f);
        if (i == 3)
            guard_set_missing(&readings, 0);
        expect("readings that were set", (int)i,
               guard_decide_readings(sheet_a, SHEET, head, length, readings.kinds, GUARD_VARIABLES, readings.values,
                                     2 * GUARD_VARIABLES),
               due[i]);
    }
}

static void readings(void)
{
    head_bytes();
    set_readings();
    decide_set();
    reading_lines();
    documented_readings();
    name_floats();
    points();
    pairs();
    reversed_pairs();
    for (size_t n = 1; n <= GUARD_VARIABLES; n++) {
        short_slices(n);
        head_lengths(n);
        reading_kinds(n);
        readings_beyond(n);
    }
    head_marks(GUARD_QUESTION_HEAD, 'S');
    head_marks(GUARD_SPAN_QUESTION_HEAD, 'R');
    overlapping_readings();
    causes_by_readings();
    random_calls();
    expect("arguments as they were", 0, calls_left_alone, calls_by_readings);
    numbers_of_a();
}

int main(void)
{
    answers();
    if (failed == 0) { /* else an array of another size than the archive's would be handed over */
        numbers_of_a();
        lines();
        slices();
        overlaps();
        refused_sheets();
        reads();
        writes();
        refused_writes();
        largest_of_both_kinds();
        reaches();
        orders();
        overlaps_of_boxes();
        spans();
        kinds();
        pairs_of_causes();
        following();
        plain_commands();
        readings();
    }
    printf("%d passed, %d failed\n", passed, failed);
    return failed != 0;
}
