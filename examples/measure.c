/* Measures the stack and the time of each call, on a sheet and its questions; without a sheet, on
 * the largest ones, whose bands are marked `BD` and `BF`, with questions of many rounds.
 *
 *     measure sheet.bin asks.bin
 *     measure
 *
 * The stack is measured by running a call in a thread whose stack was filled with a pattern, less
 * what a thread that calls nothing uses. The figures of one machine say little about another. */

#define _POSIX_C_SOURCE 200809L

#include "guard.h"

#include <pthread.h>
#include <stdio.h>
#include <stdlib.h>
#include <string.h>
#include <time.h>

enum { STACK = 1 << 20, PATTERN = 0xa5, REPEATS = 200, ASKS = 1 << 16 };

static uint8_t sheet[GUARD_LONGEST_SHEET + 1];
static size_t sheet_length;
static uint8_t asks[ASKS];
static size_t asks_length;
static int32_t numbers[GUARD_NUMBERS];
static uint8_t buffer[GUARD_LONGEST_SHEET];
static uint8_t boxes[GUARD_LONGEST_REACH];
static const uint8_t *question; /* the one that call_decide asks */
static size_t question_length;
static struct guard_readings readings; /* the same box, for call_decide_readings */

static size_t variables(void)
{
    return (size_t)numbers[GUARD_SLOT_N];
}

/* The length of a question with this mark, 0 for a mark that no question has. */
static size_t length_by_mark(const uint8_t *mark)
{
    if (mark[0] == 'Q' && mark[1] == 'S')
        return guard_question_length(variables());
    if (mark[0] == 'Q' && mark[1] == 'R')
        return guard_span_question_length(variables());
    return 0;
}

/* How many bytes of the question stand before its pairs. */
static size_t head_length(void)
{
    return question_length - GUARD_PAIR * variables();
}

/* Readings that give the question's sides: a value and a tolerance where one does, otherwise a lower
 * and an upper value. */
static void take_readings(void)
{
    for (size_t i = 0; i < variables(); i++) {
        int64_t lower = guard_get(question + head_length(), 2 * i);
        int64_t upper = guard_get(question + head_length(), 2 * i + 1);
        int64_t half = (upper - lower) / 2;
        if (1 <= half && half <= 1000)
            guard_set_point(&readings, i, (float)(lower + upper) / 2, (float)half - 0.25f);
        else
            guard_set_pair(&readings, i, (float)lower, (float)upper);
    }
}

/* Takes the question that begins at a place of asks; false where no whole one does. */
static bool take_question(size_t at)
{
    question = asks + at;
    question_length = at + 2 <= asks_length ? length_by_mark(question) : 0;
    bool whole = question_length > 0 && at + question_length <= asks_length;
    if (whole)
        take_readings();
    return whole;
}

static uint64_t call_nothing(void)
{
    return 0;
}

static uint64_t call_sheet(void)
{
    return guard_sheet(sheet, sheet_length);
}

static uint64_t call_recovery(void)
{
    return guard_recovery(sheet, sheet_length);
}

static uint64_t call_decide(void)
{
    return guard_decide(sheet, sheet_length, question, question_length);
}

static uint64_t call_decide_readings(void)
{
    return guard_decide_readings(sheet, sheet_length, question, head_length(), readings.kinds,
                                 GUARD_VARIABLES, readings.values, 2 * GUARD_VARIABLES);
}

static uint64_t call_read(void)
{
    return guard_sheet_read(sheet, sheet_length, numbers);
}

static uint64_t call_write(void)
{
    return guard_sheet_write(numbers, buffer, sizeof buffer, 0);
}

/* rho ticks of the plain law at width 1, from the question's box. */
static uint64_t call_reach(void)
{
    uint32_t ticks = (uint32_t)numbers[GUARD_SLOT_RHO];
    size_t length = GUARD_PAIR * variables();
    return guard_reach(sheet, sheet_length, ticks, 1, 0, 0, question + question_length - length,
                       length, boxes, sizeof boxes);
}

typedef uint64_t (*call)(void);

static void *in_thread(void *one)
{
    (*(call *)one)();
    return NULL;
}

/* The bytes of stack that a thread uses for a call. */
static size_t stack_of(call one)
{
    uint8_t *stack;
    pthread_attr_t attributes;
    pthread_t thread;
    if (posix_memalign((void **)&stack, 4096, STACK) != 0)
        exit(EXIT_FAILURE);
    memset(stack, PATTERN, STACK);
    pthread_attr_init(&attributes);
    if (pthread_attr_setstack(&attributes, stack, STACK) != 0
        || pthread_create(&thread, &attributes, in_thread, &one) != 0)
        exit(EXIT_FAILURE);
    pthread_join(thread, NULL);
    size_t untouched = 0;
    while (untouched < STACK && stack[untouched] == PATTERN)
        untouched++;
    free(stack);
    return STACK - untouched;
}

static double seconds(void)
{
    struct timespec now;
    clock_gettime(CLOCK_MONOTONIC, &now);
    return (double)now.tv_sec + 1e-9 * (double)now.tv_nsec;
}

/* The shortest of several runs, in microseconds. */
static double time_of(call one)
{
    double best = 1e9;
    for (int i = 0; i < REPEATS; i++) {
        double start = seconds();
        one();
        double taken = 1e6 * (seconds() - start);
        best = taken < best ? taken : best;
    }
    return best;
}

static void row(const char *name, call one)
{
    size_t stack = stack_of(one) - stack_of(call_nothing);
    printf("| `%s` | %zu | %.2f | |\n", name, stack, time_of(one));
}

/* A decision over all questions: the most stack, the longest time, and the time of a round. */
static void decide_row(const char *name, call decide)
{
    size_t most_stack = 0;
    double longest = 0, total = 0, rounds = 0;
    for (size_t at = 0; take_question(at); at += question_length) {
        size_t stack = stack_of(decide);
        double taken = time_of(decide);
        most_stack = stack > most_stack ? stack : most_stack;
        longest = taken > longest ? taken : longest;
        total += taken;
        rounds += guard_rounds(decide());
    }
    printf("| `%s`, longest | %zu | %.2f | %.0f ns a round |\n", name,
           most_stack - stack_of(call_nothing), longest, 1e3 * total / rounds);
}

static size_t load(uint8_t *out, size_t room, const char *path)
{
    FILE *file = fopen(path, "rb");
    if (file == NULL)
        return 0;
    size_t length = fread(out, 1, room, file);
    fclose(file);
    return length;
}

/* A row for each call, on the sheet and the questions; false where one of them is at fault. */
static bool table(void)
{
    if (guard_is_refused(call_read()) || !take_question(0))
        return false;
    printf("| call | stack, bytes | time, microseconds | |\n|---|---|---|---|\n");
    row("guard_sheet", call_sheet);
    row("guard_recovery", call_recovery);
    decide_row("guard_decide", call_decide);
    decide_row("guard_decide_readings", call_decide_readings);
    row("guard_sheet_read", call_read);
    row("guard_sheet_write", call_write);
    take_question(0);
    row("guard_reach", call_reach);
    return true;
}

/* ---- the largest sheets ------------------------------------------------------------------------
 *
 * Every neighborhood meets all bands, but for some of the band variable. No change is clamped, and
 * each band allows more than the one before, so that all rows are divided. No box comes home. */

enum { HALF = 100, DIVISOR = 4096, MANY = 2000 };

/* Small coefficients of either sign. */
static void put_coefficients(int32_t *coefficients)
{
    for (int32_t j = 0; j < GUARD_VARIABLES; j++)
        coefficients[j] = j % 2 == 0 ? 1 : -1;
}

static void put_band(int32_t k, bool follows)
{
    int32_t *band = numbers + guard_slot_band((size_t)k);
    int32_t *law = numbers + guard_slot_law((size_t)k);
    band[0] = k == 0 ? -2000000 : 10 * k - 40;
    band[1] = -10000;
    band[2] = 10000;
    if (follows) {
        put_coefficients(law);
        law[GUARD_LAW_CONSTANT] = 1 - k;
        law[GUARD_LAW_DIVISOR] = DIVISOR;
    }
    for (size_t i = 0; i < GUARD_VARIABLES; i++) {
        int32_t *one = numbers + guard_slot_row((size_t)k, i);
        put_coefficients(one);
        one[GUARD_VARIABLES] = i % 2 == 0 ? 1 : -1;
        one[GUARD_VARIABLES + 1] = 3;
        one[GUARD_VARIABLES + 2] = DIVISOR * (k + 1);
        one[GUARD_VARIABLES + 3] = DIVISOR;
    }
}

/* Everywhere, but in the last variable far above the recovery box, which is the state 0. */
static void put_no_go(int32_t j)
{
    int32_t *sides = numbers + guard_slot_unsafe((size_t)j);
    for (size_t i = 0; i < GUARD_VARIABLES; i++) {
        sides[i] = i + 1 < GUARD_VARIABLES ? -2000000 : 1999990 + j;
        sides[GUARD_VARIABLES + i] = 2000000;
    }
}

static void put_largest(bool follows)
{
    static const int32_t head[] = {GUARD_VARIABLES, GUARD_BANDS, GUARD_UNSAFE_BOXES,
                                   0, 500, 500, 100, -10000, 10000};
    memset(numbers, 0, sizeof numbers);
    memcpy(numbers, head, sizeof head);
    for (size_t i = 0; i < GUARD_VARIABLES; i++)
        numbers[GUARD_SLOT_CAPS + i] = 1000;
    for (int32_t k = 0; k < GUARD_BANDS; k++)
        put_band(k, follows);
    for (int32_t j = 0; j < GUARD_UNSAFE_BOXES; j++)
        put_no_go(j);
    sheet_length = guard_length(guard_sheet_write(numbers, sheet, sizeof sheet, 0));
}

/* A question about one command, and one about a span. */
static void put_questions(void)
{
    int32_t sides[2 * GUARD_VARIABLES];
    for (size_t i = 0; i < 2 * GUARD_VARIABLES; i++)
        sides[i] = i % 2 == 0 ? -HALF : HALF;
    asks_length = guard_question(asks, MANY, 5, sides, GUARD_VARIABLES);
    asks_length += guard_span_question(asks + asks_length, MANY, -20, 20, sides, GUARD_VARIABLES);
}

static bool table_of_largest(bool follows)
{
    put_largest(follows);
    put_questions();
    printf("`%s`, %d variables, %d bands, %d no-go boxes, %zu bytes:\n\n", follows ? "BF" : "BD",
           GUARD_VARIABLES, GUARD_BANDS, GUARD_UNSAFE_BOXES, sheet_length);
    return table();
}

int main(int count, char **words)
{
    if (guard_numbers() != GUARD_NUMBERS) {
        fprintf(stderr, "guard.h is not that of this archive\n");
        return EXIT_FAILURE;
    }
    bool measured = false;
    if (count == 1) {
        measured = table_of_largest(false) && puts("") >= 0 && table_of_largest(true);
    } else if (count == 3) {
        sheet_length = load(sheet, sizeof sheet, words[1]);
        asks_length = load(asks, sizeof asks, words[2]);
        measured = table();
    }
    if (!measured)
        fprintf(stderr, "usage: measure [sheet.bin asks.bin]\n");
    return measured ? EXIT_SUCCESS : EXIT_FAILURE;
}
