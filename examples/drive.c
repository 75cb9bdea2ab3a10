/* The drive's loop in small: the leg press of leg_press.txt, with a simulated sledge.
 *
 *     drive sheet.bin
 *
 * It reads the sheet once and runs the recovery check. Then, LEAD ticks before each period, it
 * measures, moves the measured box on to the period's start, and asks the guard about the coach's
 * command; from the period's first tick on it acts on the answer. It moves boxes on by a reach, and
 * in a second run by the caps alone, to compare. In a third run it asks about a span of commands,
 * and the coach sends another one at each tick. In a fourth run it reports readings in floats, of
 * which the guard makes the box; now and then one is missing. At the end it lets the same coach
 * command without the guard, to show the difference; the simulated sledge has no buffers that would
 * stop it.
 * All arithmetic but that of the readings is in whole numbers, and theirs is that of IEEE 754, so that
 * it prints the same everywhere. */

#include "guard.h"

#include <math.h>
#include <stdio.h>
#include <stdlib.h>

enum {
    PERIODS = 1000,
    ALLOWANCE = 400,
    LEAD = 2,  /* ticks from the measurement to the period's start: time to measure and to ask */
    SPAN = 200 /* N, from the least command of a span to its greatest */
};

/* The variables of the sheet, in its order. */
enum { POSITION = 0, COASTING = 1, VARIABLES = 2 };

/* ---- the sledge ------------------------------------------------------------------------------- */

enum {
    NM_PER_STEP = 100000, /* a step of the sheet is 0.1 mm */
    MASS_KG = 300,
    TAU_MS = 150,
    PARTS_PER_TICK = 500 /* of 10 microseconds each */
};

struct sledge {
    int64_t position; /* nm */
    int64_t speed;    /* nm/s */
};

/* Numbers that look random and are the same in every run. */
static uint32_t random_state;

static int32_t random_within(int32_t least, int32_t greatest)
{
    random_state = random_state * 1664525u + 1013904223u;
    return least + (int32_t)((random_state >> 8) % (uint32_t)(greatest - least + 1));
}

/* One tick under a motor force and a push of the legs, both in N. */
static void tick(struct sledge *sledge, int32_t force, int32_t legs)
{
    int64_t push = (int64_t)(force + legs) * 10000 / MASS_KG; /* nm/s in 10 microseconds */
    for (int part = 0; part < PARTS_PER_TICK; part++) {
        sledge->position += sledge->speed / 100000;
        sledge->speed += push - sledge->speed / (TAU_MS * 100);
    }
}

static int64_t coasting_of(int64_t position, int64_t speed)
{
    return position + speed * TAU_MS / 1000;
}

static int32_t step_below(int64_t nm)
{
    int64_t step = nm / NM_PER_STEP;
    return (int32_t)(step * NM_PER_STEP > nm ? step - 1 : step);
}

static int32_t step_above(int64_t nm)
{
    return -step_below(-nm);
}

/* The true state, in whole steps of the sheet. */
static void state_of(const struct sledge *sledge, int32_t state[VARIABLES])
{
    state[POSITION] = step_below(sledge->position + NM_PER_STEP / 2);
    state[COASTING] = step_below(coasting_of(sledge->position, sledge->speed) + NM_PER_STEP / 2);
}

/* ---- measuring -------------------------------------------------------------------------------- */

enum { POSITION_ERROR = 200000, SPEED_ERROR = 15000000 }; /* nm and nm/s */

static struct sledge measure(const struct sledge *sledge)
{
    struct sledge measured = {
        sledge->position + random_within(-POSITION_ERROR, POSITION_ERROR),
        sledge->speed + random_within(-SPEED_ERROR, SPEED_ERROR),
    };
    return measured;
}

/* A box: side 2i is variable i's lower side, side 2i + 1 its upper side. */
struct box {
    int32_t sides[2 * VARIABLES];
};

/* The measured box: its sides by the corners, rounded outward. */
static struct box measured_box(const struct sledge *measured)
{
    int64_t low = measured->position - POSITION_ERROR;
    int64_t high = measured->position + POSITION_ERROR;
    struct box box;
    box.sides[2 * POSITION] = step_below(low);
    box.sides[2 * POSITION + 1] = step_above(high);
    box.sides[2 * COASTING] = step_below(coasting_of(low, measured->speed - SPEED_ERROR));
    box.sides[2 * COASTING + 1] = step_above(coasting_of(high, measured->speed + SPEED_ERROR));
    return box;
}

/* Whether the box holds the true state. */
static bool holds(const struct box *box, const struct sledge *sledge)
{
    int32_t state[VARIABLES];
    state_of(sledge, state);
    for (size_t i = 0; i < VARIABLES; i++)
        if (state[i] < box->sides[2 * i] || box->sides[2 * i + 1] < state[i])
            return false;
    return true;
}

/* ---- the sheet -------------------------------------------------------------------------------- */

struct sheet {
    uint8_t bytes[GUARD_LONGEST_SHEET + 1]; /* one more, so that a longer file is seen */
    size_t length;
    int32_t numbers[GUARD_NUMBERS];
};

static bool load(struct sheet *sheet, const char *path)
{
    FILE *file = fopen(path, "rb");
    if (file == NULL)
        return false;
    sheet->length = fread(sheet->bytes, 1, sizeof sheet->bytes, file);
    fclose(file);
    return true;
}

static int32_t number(const struct sheet *sheet, size_t slot)
{
    return sheet->numbers[slot];
}

/* Once, before the motor may run: the sheet is accepted, is for this machine, and passes. */
static bool set_up(struct sheet *sheet)
{
    if (guard_numbers() != GUARD_NUMBERS) {
        printf("guard.h is not that of this archive\n");
        return false;
    }
    uint64_t answer = guard_sheet(sheet->bytes, sheet->length);
    if (guard_is_refused(answer)) {
        printf("sheet refused %u\n", guard_refusal(answer));
        return false;
    }
    guard_sheet_read(sheet->bytes, sheet->length, sheet->numbers);
    if (number(sheet, GUARD_SLOT_N) != VARIABLES) {
        printf("not a sheet for this machine\n");
        return false;
    }
    if (number(sheet, GUARD_SLOT_DELTA) < LEAD) {
        printf("a period is too short to measure and ask\n");
        return false;
    }
    answer = guard_recovery(sheet->bytes, sheet->length);
    printf("recovery check %s, width %u, %u rounds\n",
           guard_code(answer) == GUARD_PASS ? "pass" : "fail", guard_width(answer),
           guard_rounds(answer));
    return guard_code(answer) == GUARD_PASS;
}

/* Whether the true state, in whole steps, is in a no-go box. */
static bool forbidden(const struct sheet *sheet, const struct sledge *sledge)
{
    int32_t state[VARIABLES];
    state_of(sledge, state);
    for (int32_t j = 0; j < number(sheet, GUARD_SLOT_UNSAFE_BOXES); j++) {
        size_t slot = guard_slot_unsafe((size_t)j);
        bool inside = true;
        for (size_t i = 0; i < VARIABLES; i++)
            inside = inside && number(sheet, slot + i) <= state[i]
                     && state[i] <= number(sheet, slot + GUARD_VARIABLES + i);
        if (inside)
            return true;
    }
    return false;
}

/* ---- who commands ----------------------------------------------------------------------------- */

/* What acts on the motor: the coach if it was kept, with its command or at each tick with any one of
 * its span, the plain law otherwise. */
struct law {
    bool kept;
    int32_t least, greatest; /* of the coach: equal where it has one command */
};

static bool is_span(struct law law)
{
    return law.least < law.greatest;
}

/* The plain law of leg_press.txt, with the motor's inaccuracy. */
static int32_t force_by_bands(const struct sledge *measured)
{
    int32_t coasting = step_below(coasting_of(measured->position, measured->speed));
    if (coasting < 2400)
        return random_within(350, 400);
    if (coasting < 3600)
        return random_within(-425, -375);
    return random_within(-1200, -1150);
}

/* A plain law that follows the state (`BF`) gives the force at the state that is read, by the
 * sheet's own numbers. What the reading's error adds is in the spread of such a sheet. */
static int32_t plain_force(const struct sheet *sheet, const struct sledge *measured)
{
    if (!guard_follows(sheet->numbers))
        return force_by_bands(measured);
    int32_t state[VARIABLES];
    state_of(measured, state);
    struct guard_commands commands = guard_plain_commands(sheet->numbers, state);
    return random_within(commands.least, commands.greatest);
}

/* The coach is not to be trusted: mostly it holds some weight, sometimes it does anything. It asks
 * for one command, or for a span that begins with it. */
static struct law coach(bool by_span)
{
    bool holds_weight = random_within(0, 2) != 0;
    int32_t force = holds_weight ? random_within(-600, -200) : random_within(-1200, 450);
    return (struct law){false, force, by_span ? force + SPAN : force};
}

/* A tick under a kept span: the coach sends what it likes, and the drive holds it to the span. */
static int32_t force_within(struct law now)
{
    int32_t sent = random_within(now.least - SPAN, now.greatest + SPAN);
    return sent < now.least ? now.least : sent > now.greatest ? now.greatest : sent;
}

/* The force at a tick. The plain law reads the sensors every tick. */
static int32_t force_of(const struct sheet *sheet, struct law now, const struct sledge *measured)
{
    if (!now.kept)
        return plain_force(sheet, measured);
    return is_span(now) ? force_within(now) : now.least;
}

/* The legs push anew every few ticks, with 0 to 800 N. */
static int32_t legs_push(void)
{
    return random_within(0, 4) == 0 ? 800 * random_within(0, 1) : random_within(0, 800);
}

/* ---- moving a box on to the period's start ---------------------------------------------------- */

/* By a reach under the law that acts now, one command or the plain law: its end box holds the state
 * after the ticks. At width 1 it takes one round for each tick. False if it is refused: then there is
 * no box to ask about. */
static bool move_by_reach(const struct sheet *sheet, struct law now, uint32_t ticks,
                          struct box *box)
{
    uint8_t start[8 * VARIABLES];
    uint8_t boxes[16 * VARIABLES]; /* the end box, then the swept box */
    for (size_t i = 0; i < 2 * VARIABLES; i++)
        guard_put(start, i, box->sides[i]);
    uint64_t answer = guard_reach(sheet->bytes, sheet->length, ticks, 1, now.kept ? 1 : 0,
                                  now.least, start, sizeof start, boxes, sizeof boxes);
    if (guard_is_refused(answer))
        return false;
    for (size_t i = 0; i < 2 * VARIABLES; i++)
        box->sides[i] = guard_get(boxes, i);
    return true;
}

/* By the caps: no variable changes by more than its cap in a tick, whatever acts. False if a side is
 * reversed or out of range: after the widening that might not be seen. */
static bool move_by_caps(const struct sheet *sheet, uint32_t ticks, struct box *box)
{
    enum { GREATEST_SIDE = 1000000 };
    for (size_t i = 0; i < VARIABLES; i++) {
        int32_t lower = box->sides[2 * i], upper = box->sides[2 * i + 1];
        int32_t most = number(sheet, GUARD_SLOT_CAPS + i) * (int32_t)ticks;
        if (lower > upper || lower < -GREATEST_SIDE || upper > GREATEST_SIDE)
            return false;
        box->sides[2 * i] = lower - most;
        box->sides[2 * i + 1] = upper + most;
    }
    return true;
}

/* How a run moves its boxes on, that it asks about spans or by readings, or that it does not ask. */
enum mode { BY_REACH, BY_CAPS, BY_SPAN, BY_READINGS, UNGUARDED };

/* A reach has one command or the plain law: while a kept span acts, the box is moved by the caps. */
static bool move_on(const struct sheet *sheet, enum mode mode, struct law now, struct box *box)
{
    bool by_caps = mode == BY_CAPS || (now.kept && is_span(now));
    return by_caps ? move_by_caps(sheet, LEAD, box) : move_by_reach(sheet, now, LEAD, box);
}

/* ---- readings --------------------------------------------------------------------------------- */

enum { FLOAT_ERROR = NM_PER_STEP / 16 }; /* nm: a float of up to 1,000,000 steps is off by less */

/* In steps of the sheet, the unit of its numbers. */
static float in_steps(int64_t nm)
{
    return (float)((double)nm / NM_PER_STEP);
}

/* How far a variable may be off by the period's start, beside the sensors' error: by its cap in each
 * tick until then, whatever acts, and by the rounding to a float. In nm. */
static int64_t drift(const struct sheet *sheet, size_t i)
{
    return (int64_t)number(sheet, GUARD_SLOT_CAPS + i) * LEAD * NM_PER_STEP + FLOAT_ERROR;
}

/* Position is read as a value with a tolerance. Coasting is worked out from two sensors, by the
 * corners, and so is a lower and an upper value. */
static struct guard_readings readings_of(const struct sheet *sheet, const struct sledge *measured)
{
    struct guard_readings readings = {0};
    int64_t low = coasting_of(measured->position - POSITION_ERROR, measured->speed - SPEED_ERROR);
    int64_t high = coasting_of(measured->position + POSITION_ERROR, measured->speed + SPEED_ERROR);
    guard_set_point(&readings, POSITION, in_steps(measured->position),
                    in_steps(POSITION_ERROR + drift(sheet, POSITION)));
    guard_set_pair(&readings, COASTING, in_steps(low - drift(sheet, COASTING)),
                   in_steps(high + drift(sheet, COASTING)));
    return readings;
}

/* A sensor fails: position or coasting has no reading, or position comes as a NaN. */
static void fail_reading(struct guard_readings *readings)
{
    int32_t failing = random_within(0, 2);
    if (failing == 0)
        guard_set_missing(readings, POSITION);
    else if (failing == 1)
        guard_set_missing(readings, COASTING);
    else
        guard_set_point(readings, POSITION, NAN, in_steps(POSITION_ERROR));
}

/* Of a float of some thousand steps. C leaves it undefined for a NaN and for a great float. */
static int32_t float_below(float steps)
{
    int32_t whole = (int32_t)steps;
    return (float)whole > steps ? whole - 1 : whole;
}

static int32_t float_above(float steps)
{
    return -float_below(-steps);
}

/* The box that the guard makes of readings that did not fail. A drive has no need of it; here the
 * summary says whether it held the state. */
static struct box box_of(const struct guard_readings *readings)
{
    struct box box;
    for (size_t i = 0; i < VARIABLES; i++) {
        float first = readings->values[2 * i], second = readings->values[2 * i + 1];
        bool point = readings->kinds[i] == GUARD_READING_POINT;
        box.sides[2 * i] = point ? float_below(first) - float_above(second) : float_below(first);
        box.sides[2 * i + 1] = point ? float_above(first) + float_above(second)
                                     : float_above(second);
    }
    return box;
}

/* ---- the loop --------------------------------------------------------------------------------- */

struct summary {
    unsigned answers[4];       /* by code */
    unsigned missing, at_fault; /* of the refused: a reading that is missing, or that is at fault */
    unsigned unasked;
    uint32_t most_rounds;
    unsigned boxes;                           /* asked about */
    unsigned held_as_measured, held_as_moved; /* of these, with the state at the period's start */
    int32_t widest[VARIABLES];                /* of the boxes moved on */
    int64_t least_position, greatest_position;
    unsigned forbidden_ticks;
};

/* Whether what the coach asks for may act for the next period. */
static bool is_kept(uint64_t answer, struct summary *summary)
{
    summary->answers[guard_code(answer)]++;
    summary->missing += guard_refusal(answer) == GUARD_REFUSED_MISSING;
    summary->at_fault += guard_refusal(answer) == GUARD_REFUSED_READING;
    if (guard_rounds(answer) > summary->most_rounds)
        summary->most_rounds = guard_rounds(answer);
    return guard_code(answer) == GUARD_KEEP;
}

/* One question about a box. */
static bool ask(const struct sheet *sheet, const struct box *box, struct law next,
                struct summary *summary)
{
    uint8_t question[GUARD_LONGEST_QUESTION];
    size_t length;
    if (is_span(next))
        length = guard_span_question(question, ALLOWANCE, next.least, next.greatest, box->sides,
                                     VARIABLES);
    else
        length = guard_question(question, ALLOWANCE, next.least, box->sides, VARIABLES);
    return is_kept(guard_decide(sheet->bytes, sheet->length, question, length), summary);
}

/* One question by readings. */
static bool report(const struct sheet *sheet, const struct guard_readings *readings,
                   struct law next, struct summary *summary)
{
    uint8_t head[GUARD_QUESTION_HEAD];
    size_t length = guard_head(head, ALLOWANCE, next.least);
    uint64_t answer = guard_decide_readings(sheet->bytes, sheet->length, head, length,
                                            readings->kinds, GUARD_VARIABLES, readings->values,
                                            2 * GUARD_VARIABLES);
    return is_kept(answer, summary);
}

/* A number of ticks under a law. */
static void act(const struct sheet *sheet, struct sledge *sledge, struct law now, int32_t ticks,
                struct summary *summary)
{
    int32_t legs = legs_push();
    for (int32_t t = 0; t < ticks; t++) {
        struct sledge measured = measure(sledge);
        tick(sledge, force_of(sheet, now, &measured), legs);
        if (sledge->position < summary->least_position)
            summary->least_position = sledge->position;
        if (sledge->position > summary->greatest_position)
            summary->greatest_position = sledge->position;
        summary->forbidden_ticks += forbidden(sheet, sledge);
    }
}

/* At a period's start: whether the box that was asked about holds the true state, which only a
 * simulation knows. */
static void look_at_box(const struct box *measured, const struct box *moved,
                        const struct sledge *sledge, struct summary *summary)
{
    summary->boxes++;
    summary->held_as_measured += holds(measured, sledge);
    summary->held_as_moved += holds(moved, sledge);
    for (size_t i = 0; i < VARIABLES; i++) {
        int32_t wide = moved->sides[2 * i + 1] - moved->sides[2 * i];
        if (wide > summary->widest[i])
            summary->widest[i] = wide;
    }
}

/* Asks about the measured box, moved on to the period's start. False if there is no such box: then
 * nothing is asked, and the plain law acts. */
static bool ask_by_box(const struct sheet *sheet, enum mode mode, struct law now, struct law *next,
                       struct box *box, struct summary *summary)
{
    bool sensors_fail = random_within(0, 49) == 0;
    bool asked = !sensors_fail && move_on(sheet, mode, now, box);
    if (asked)
        next->kept = ask(sheet, box, *next, summary);
    else
        summary->unasked++;
    return asked;
}

/* Reports readings of the sensors. False if one fails: the guard is asked, refuses, and the plain law
 * acts. */
static bool ask_by_readings(const struct sheet *sheet, const struct sledge *sensors,
                            struct law *next, struct box *box, struct summary *summary)
{
    bool sensors_fail = random_within(0, 49) == 0;
    struct guard_readings readings = readings_of(sheet, sensors);
    if (sensors_fail)
        fail_reading(&readings);
    else
        *box = box_of(&readings);
    next->kept = report(sheet, &readings, *next, summary);
    return !sensors_fail;
}

/* One period under the law that acts now. LEAD ticks before its end the drive measures and asks;
 * the answer says what acts in the next period. */
static struct law guarded_period(const struct sheet *sheet, struct sledge *sledge, struct law now,
                                 enum mode mode, struct summary *summary)
{
    act(sheet, sledge, now, number(sheet, GUARD_SLOT_DELTA) - LEAD, summary);

    struct law next = coach(mode == BY_SPAN);
    struct sledge sensors = measure(sledge);
    struct box measured = measured_box(&sensors);
    struct box moved = measured;
    bool has_box = mode == BY_READINGS
                       ? ask_by_readings(sheet, &sensors, &next, &moved, summary)
                       : ask_by_box(sheet, mode, now, &next, &moved, summary);

    act(sheet, sledge, now, LEAD, summary); /* in a real drive, while it measures and asks */

    if (has_box)
        look_at_box(&measured, &moved, sledge, summary);
    return next;
}

static struct summary run(const struct sheet *sheet, enum mode mode)
{
    struct sledge sledge = {300 * 1000000, 0}; /* in the recovery box, at rest */
    struct summary summary = {.least_position = sledge.position,
                              .greatest_position = sledge.position};
    struct law now = {.kept = false}; /* no question was asked for the first period: the plain law */
    random_state = 2;                 /* from here each kind of answer occurs */
    for (int i = 0; i < PERIODS; i++) {
        if (mode != UNGUARDED) {
            now = guarded_period(sheet, &sledge, now, mode, &summary);
        } else {
            now = coach(false);
            now.kept = true;
            act(sheet, &sledge, now, number(sheet, GUARD_SLOT_DELTA), &summary);
        }
    }
    return summary;
}

static void print_travel(const struct summary *summary)
{
    printf("position %d to %d mm, %u ticks in a no-go box\n",
           (int)(summary->least_position / 1000000), (int)(summary->greatest_position / 1000000),
           summary->forbidden_ticks);
}

static void print(const char *name, const struct summary *summary)
{
    printf("%s\n", name);
    printf("periods %d\n", PERIODS);
    printf("kept %u\n", summary->answers[GUARD_KEEP]);
    printf("over finest %u\n", summary->answers[GUARD_FINEST]);
    printf("over spent %u\n", summary->answers[GUARD_SPENT]);
    printf("refused %u\n", summary->answers[GUARD_REFUSED]);
    if (summary->missing + summary->at_fault > 0)
        printf("of these a reading is missing %u, at fault %u\n", summary->missing,
               summary->at_fault);
    printf("no question %u\n", summary->unasked);
    printf("most rounds in a decision %u\n", summary->most_rounds);
    printf("true state at the period's start: in %u of %u boxes moved on, in %u as measured\n",
           summary->held_as_moved, summary->boxes, summary->held_as_measured);
    printf("widest box moved on: position %d, coasting %d steps\n", (int)summary->widest[POSITION],
           (int)summary->widest[COASTING]);
    print_travel(summary);
}

/* The machine kept out of the no-go boxes, and every box that was asked about held its state. */
static bool as_promised(const struct summary *summary)
{
    return summary->forbidden_ticks == 0 && summary->held_as_moved == summary->boxes;
}

int main(int count, char **words)
{
    static struct sheet sheet;
    if (count != 2 || !load(&sheet, words[1])) {
        fprintf(stderr, "usage: drive sheet.bin\n");
        return EXIT_FAILURE;
    }
    if (!set_up(&sheet))
        return EXIT_FAILURE;
    struct summary by_reach = run(&sheet, BY_REACH);
    struct summary by_caps = run(&sheet, BY_CAPS);
    struct summary by_span = run(&sheet, BY_SPAN);
    struct summary by_readings = run(&sheet, BY_READINGS);
    struct summary unguarded = run(&sheet, UNGUARDED);
    print("-- with the guard, boxes moved on by a reach", &by_reach);
    print("-- with the guard, boxes moved on by the caps", &by_caps);
    print("-- with the guard, asked about spans", &by_span);
    print("-- with the guard, boxes from readings", &by_readings);
    printf("-- without the guard\n");
    print_travel(&unguarded);
    bool promised = as_promised(&by_reach) && as_promised(&by_caps) && as_promised(&by_span)
                    && as_promised(&by_readings);
    return promised ? EXIT_SUCCESS : EXIT_FAILURE;
}
