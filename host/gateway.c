/*
 * A small gateway, as an example of a C program over include/nadhirukh.h.
 *
 * Four wheels report the friction of the road, in thousandths, for the segments that they run over: 64 readings a cycle. A rule table
 * keeps the lowest reading of each segment, and what remains is printed. Every run is given a step limit from a weighing of its own
 * goal, so none ends in 2. Then a table that divides by a wheel's speed meets a wheel that stands still: the run stops under 3, the
 * answer buffer is as it was, and the gateway goes by the estimates that are still in it.
 *
 * The readings come from a fixed generator, so the program prints the same each time. It ends with status 1 where anything happens
 * that its author did not expect. `gateway endings` prints what each number means.
 */
#include <stdio.h>
#include <stdlib.h>
#include <string.h>

#include "nadhirukh.h"

/* The symbols: mu(segment, friction), and reading(segment, speed difference, wheel speed, friction). */
enum { MU = 0, READING = 1 };

/* The gateway's own numbers. */
enum { WHEELS = 4, CYCLES = 20, SEGMENTS_A_CYCLE = 4, READINGS_A_SEGMENT = 4, FRONT_AHEAD = 2 };
enum { SEGMENTS = CYCLES * SEGMENTS_A_CYCLE + FRONT_AHEAD };

/* What each number means. */
struct ending {
    uint32_t number;
    const char *words;
};

static const struct ending endings[] = {
    {NADHIRUKH_DONE, "done"},
    {NADHIRUKH_FAILED, "failed: a rule says that the facts contradict each other"},
    {NADHIRUKH_STEP_LIMIT, "the step limit is used up"},
    {NADHIRUKH_GUARD_UNDEFINED, "a guard has no value; the place is its rule"},
    {NADHIRUKH_BODY_UNDEFINED, "an argument of a body fact has no value; the place is its rule"},
    {NADHIRUKH_STORE_FULL, "the store is full: one fact more than 128"},
    {NADHIRUKH_STACK_FULL, "the stack is full: more than 256 entries; the place is the rule that fired"},
    {NADHIRUKH_HISTORY_FULL, "the history is full: more than 256 entries; the place is the rule that fired"},
    {NADHIRUKH_UNKNOWN_KIND, "the table has a record of unknown kind; the place is its offset"},
    {NADHIRUKH_CUT_SHORT, "the table is cut short, or has no end record; the place is an offset"},
    {NADHIRUKH_OUT_OF_ORDER, "the table has a record out of order; the place is its offset"},
    {NADHIRUKH_ONE_TOO_MANY, "the table has one record too many of its sort; the place is its offset"},
    {NADHIRUKH_BAD_FIELD, "the table has a record with a bad field; the place is its offset"},
    {NADHIRUKH_NO_HEAD, "the table has a rule with no head; the place is the offset of the record behind it"},
    {NADHIRUKH_VARIABLE_IN_NO_HEAD, "the table has a guard or body variable that is in no head; the place is the record's offset"},
    {NADHIRUKH_BYTES_AFTER_END, "the table has bytes after its end record; the place is the first of them"},
    {NADHIRUKH_GOAL_CUT, "the goal's length is no multiple of 18"},
    {NADHIRUKH_BAD_GOAL_FACT, "the goal has a bad fact; the place is the fact"},
    {NADHIRUKH_GOAL_TOO_LONG, "the goal has more than 64 facts"},
    {NADHIRUKH_LIMIT_TOO_HIGH, "the step limit is above 20,000,000"},
    {NADHIRUKH_ANSWER_TOO_SHORT, "the answer buffer is shorter than 2,816 bytes"},
    {NADHIRUKH_WEIGHT_COUNT, "there are not as many weights as symbols"},
    {NADHIRUKH_ZERO_WEIGHT, "a weight is zero; the place is its symbol"},
    {NADHIRUKH_NO_WEIGHT_LOST, "a rule does not lose weight; the place is the rule"},
    {NADHIRUKH_TEXT_TOO_LONG, "the text is longer than 65,536 bytes"},
    {NADHIRUKH_NO_TOKEN, "the text has no token here; the place is the byte"},
    {NADHIRUKH_NOT_IN_GRAMMAR, "the text does not follow the grammar; the place is the first token that cannot stand there, or the end"},
    {NADHIRUKH_NO_ROOM, "there is no room for the table or the text"}
};

enum { ENDINGS = sizeof endings / sizeof endings[0] };

static const char *in_words(uint32_t number)
{
    size_t i;
    for (i = 0; i < ENDINGS; i++)
        if (endings[i].number == number)
            return endings[i].words;
    return "no number of this engine";
}

static void print_endings(void)
{
    size_t i;
    for (i = 0; i < ENDINGS; i++)
        printf("%lu %s\n", (unsigned long)endings[i].number, in_words(endings[i].number));
}

/* Ends the program where something is not as its author expects. */
static void expect(int holds, const char *what)
{
    if (holds)
        return;
    printf("not expected: %s\n", what);
    exit(1);
}

/* The bytes of a table or a goal, written from the start. The longest here is a goal of 64 facts. */
struct bytes {
    uint8_t at[NADHIRUKH_MAX_GOAL];
    size_t len;
};

static void put(struct bytes *to, int byte)
{
    expect(to->len < sizeof to->at, "a table or goal of more bytes than there is room for");
    to->at[to->len++] = (uint8_t)byte;
}

static void put_word(struct bytes *to, uint32_t word)
{
    int i;
    for (i = 0; i < 4; i++)
        put(to, (int)(word >> 8 * i & 0xFF));
}

static void put_zeros(struct bytes *to, size_t count)
{
    while (0 < count--)
        put(to, 0);
}

/* Slots: a tag and a value. */
static void variable(struct bytes *to, uint32_t number)
{
    put(to, NADHIRUKH_TAG_VARIABLE);
    put_word(to, number);
}

static void constant(struct bytes *to, int32_t value)
{
    put(to, NADHIRUKH_TAG_CONSTANT);
    put_word(to, (uint32_t)value);
}

static void unused_slots(struct bytes *to, size_t count)
{
    put_zeros(to, 5 * count);
}

/* Expressions: an operation and two slots. */
static void alone(struct bytes *to, uint32_t number)
{
    put(to, NADHIRUKH_OPERATION_ALONE);
    variable(to, number);
    unused_slots(to, 1);
}

static void constant_alone(struct bytes *to, int32_t value)
{
    put(to, NADHIRUKH_OPERATION_ALONE);
    constant(to, value);
    unused_slots(to, 1);
}

static void quotient(struct bytes *to, uint32_t dividend, uint32_t divisor)
{
    put(to, NADHIRUKH_OPERATION_QUOTIENT);
    variable(to, dividend);
    variable(to, divisor);
}

static void unused_expressions(struct bytes *to, size_t count)
{
    put_zeros(to, 11 * count);
}

/* Records: a kind, and what it begins with. Slots or expressions follow. */
static void symbol(struct bytes *to, int arity)
{
    put(to, NADHIRUKH_KIND_SYMBOL);
    put(to, arity);
}

static void record(struct bytes *to, int kind, int first)
{
    put(to, kind);
    put(to, first);
}

/* The head mu(segment, friction), kept or removed. */
static void mu_head(struct bytes *to, int kind, uint32_t segment, uint32_t friction)
{
    record(to, kind, MU);
    variable(to, segment);
    variable(to, friction);
    unused_slots(to, 2);
}

/* mu(S,A) \ mu(S,B) <=> A =< B | true: of two estimates for a segment the lower one stays. */
static void lowest_rule(struct bytes *to)
{
    enum { S, A, B };
    put(to, NADHIRUKH_KIND_RULE);
    mu_head(to, NADHIRUKH_KIND_KEPT_HEAD, S, A);
    mu_head(to, NADHIRUKH_KIND_REMOVED_HEAD, S, B);
    record(to, NADHIRUKH_KIND_GUARD, NADHIRUKH_COMPARATOR_AT_MOST);
    alone(to, A);
    alone(to, B);
}

/* The head reading(S,D,V,F), removed. */
static void reading_head(struct bytes *to, uint32_t s, uint32_t d, uint32_t v, uint32_t f)
{
    record(to, NADHIRUKH_KIND_REMOVED_HEAD, READING);
    variable(to, s);
    variable(to, d);
    variable(to, v);
    variable(to, f);
}

/*
 * reading(S,D,V,F) <=> D / V >= 20 | mu(S,F): a wheel that slips enough tells the friction. D is in millimetres a second and V in
 * metres a second, so that D / V is the slip in thousandths. It has no value where the wheel stands still.
 */
static void slip_rule(struct bytes *to)
{
    enum { S, D, V, F };
    put(to, NADHIRUKH_KIND_RULE);
    reading_head(to, S, D, V, F);
    record(to, NADHIRUKH_KIND_GUARD, NADHIRUKH_COMPARATOR_AT_LEAST);
    quotient(to, D, V);
    constant_alone(to, 20);
    record(to, NADHIRUKH_KIND_BODY_FACT, MU);
    alone(to, S);
    alone(to, F);
    unused_expressions(to, 2);
}

/* reading(S,D,V,F) <=> true: any other reading tells nothing, and goes. */
static void no_slip_rule(struct bytes *to)
{
    enum { S, D, V, F };
    put(to, NADHIRUKH_KIND_RULE);
    reading_head(to, S, D, V, F);
}

/* A table, and a weight for each of its symbols under which every rule loses weight: found once, before the first goal. */
struct rules {
    struct bytes table;
    uint8_t weights[NADHIRUKH_MAX_SYMBOLS];
    size_t symbols;
};

/* Table A of document 01. */
static void lowest_table(struct bytes *to)
{
    to->len = 0;
    symbol(to, 2);
    lowest_rule(to);
    put(to, NADHIRUKH_KIND_END);
}

/* The same with readings that tell how fast the wheel turns. Rule 1 divides by it. */
static void slip_table(struct bytes *to)
{
    to->len = 0;
    symbol(to, 2);
    symbol(to, 4);
    lowest_rule(to);
    slip_rule(to);
    no_slip_rule(to);
    put(to, NADHIRUKH_KIND_END);
}

/* A fact more, with the arguments that its symbol uses, and 0 for the others. */
static void goal_fact(struct bytes *goal, int symbol, int32_t a, int32_t b, int32_t c, int32_t d)
{
    expect(goal->len + NADHIRUKH_GOAL_FACT_LEN <= sizeof goal->at, "a goal of more facts than there is room for");
    nadhirukh_put_goal_fact(goal->at + goal->len, (uint8_t)symbol, a, b, c, d);
    goal->len += NADHIRUKH_GOAL_FACT_LEN;
}

/* The road: the least friction that a segment shows. */
static int32_t road(int32_t segment)
{
    enum { DRY = 800, WET = 450, ICY = 120 };
    if (segment < 32)
        return DRY;
    if (segment < 48)
        return WET;
    if (segment < 60)
        return ICY;
    return segment < 70 ? WET : DRY;
}

/* What a wheel measures lies up to 99 above it; a small generator says how much. */
static int32_t measured(int32_t segment, uint32_t *seed)
{
    *seed = *seed * 1664525u + 1013904223u;
    return road(segment) + (int32_t)((*seed >> 16) % 100);
}

/* The readings of a cycle: each wheel runs over four segments, the front wheels two segments ahead. */
static void readings(struct bytes *goal, int32_t cycle, uint32_t *seed)
{
    int32_t wheel, i;
    goal->len = 0;
    for (wheel = 0; wheel < WHEELS; wheel++) {
        int32_t first = cycle * SEGMENTS_A_CYCLE + (wheel < 2 ? FRONT_AHEAD : 0);
        for (i = 0; i < SEGMENTS_A_CYCLE * READINGS_A_SEGMENT; i++) {
            int32_t segment = first + i / READINGS_A_SEGMENT;
            goal_fact(goal, MU, segment, measured(segment, seed), 0, 0);
        }
    }
}

/* The friction of each segment, where there is an estimate. None is not 0: a road without friction would be one. */
struct estimates {
    int known[SEGMENTS];
    int32_t friction[SEGMENTS];
};

/* The estimates of an answer: one record mu(segment, friction) for each. */
static struct estimates decode(const uint8_t *answer, uint32_t stored)
{
    struct estimates found;
    uint32_t i;
    memset(&found, 0, sizeof found);
    for (i = 0; i < stored; i++) {
        const uint8_t *fact = answer + NADHIRUKH_STORED_FACT_LEN * i;
        int32_t segment = nadhirukh_argument(fact, 0);
        expect(fact[NADHIRUKH_STORED_FACT_SYMBOL] == MU, "a fact that is no estimate remains");
        expect(0 <= segment && segment < SEGMENTS && !found.known[segment], "a segment that is not on the road, or twice");
        found.known[segment] = 1;
        found.friction[segment] = nadhirukh_argument(fact, 1);
    }
    return found;
}

/* The same from the readings themselves, for the example to see that the estimates are right. */
static struct estimates lowest_readings(const struct bytes *goal)
{
    struct estimates lowest;
    size_t at;
    memset(&lowest, 0, sizeof lowest);
    for (at = 0; at < goal->len; at += NADHIRUKH_GOAL_FACT_LEN) {
        const uint8_t *arguments = goal->at + at + NADHIRUKH_GOAL_FACT_ARGUMENTS;
        int32_t segment = nadhirukh_signed(arguments);
        int32_t friction = nadhirukh_signed(arguments + 4);
        if (!lowest.known[segment] || friction < lowest.friction[segment])
            lowest.friction[segment] = friction;
        lowest.known[segment] = 1;
    }
    return lowest;
}

static void print_estimates(struct estimates estimates)
{
    int segment;
    for (segment = 0; segment < SEGMENTS; segment++)
        if (estimates.known[segment])
            printf(" %d:%ld", segment, (long)estimates.friction[segment]);
    printf("\n");
}

/* What the gateway holds: the answer of the last run that was done, and how many facts it has. */
struct gateway {
    uint8_t answer[NADHIRUKH_MIN_ANSWER];
    uint32_t stored;
};

/* What came of a call, and the bound that its goal has. */
struct report {
    uint32_t result[NADHIRUKH_RESULT];
    uint32_t bound[NADHIRUKH_BOUND];
};

static void print_number(const uint32_t *result)
{
    printf("number %lu, place %lu: %s\n", (unsigned long)result[NADHIRUKH_NUMBER], (unsigned long)result[NADHIRUKH_PLACE],
           in_words(result[NADHIRUKH_NUMBER]));
}

/* Looks for the weights of a table. That checks the table as well: a bad one is refused by number and place. */
static void prepare(struct rules *rules)
{
    uint32_t result[NADHIRUKH_RESULT];
    const struct bytes *table = &rules->table;
    rules->symbols = nadhirukh_symbols(table->at, table->len);
    if (nadhirukh_find_weights(table->at, table->len, rules->weights, rules->symbols, result) == NADHIRUKH_DONE)
        return;
    printf("table refused: ");
    print_number(result);
    exit(1);
}

/* Weighs a goal and runs it within its bound. Only a run that is done changes what the gateway holds. */
static struct report run(struct gateway *gateway, const struct rules *rules, const struct bytes *goal)
{
    struct report report;
    const struct bytes *table = &rules->table;
    if (nadhirukh_weigh(table->at, table->len, rules->weights, rules->symbols, goal->at, goal->len, report.result, report.bound)
        != NADHIRUKH_DONE)
        return report;
    if (nadhirukh_run(table->at, table->len, goal->at, goal->len, report.bound[NADHIRUKH_BOUND_STEPS], gateway->answer,
                      sizeof gateway->answer, report.result)
        == NADHIRUKH_DONE)
        gateway->stored = report.result[NADHIRUKH_STORED];
    return report;
}

/* Prints what came of a run, and returns whether it was done. */
static int print_report(const struct report *report)
{
    const uint32_t *result = report->result;
    int done = result[NADHIRUKH_NUMBER] == NADHIRUKH_DONE;
    if (done)
        printf("%lu firings, %lu of %lu steps:", (unsigned long)result[NADHIRUKH_FIRINGS], (unsigned long)result[NADHIRUKH_STEPS],
               (unsigned long)report->bound[NADHIRUKH_BOUND_STEPS]);
    else
        print_number(result);
    return done;
}

static void drive(struct gateway *gateway)
{
    struct rules rules;
    struct bytes goal;
    uint32_t seed = 2004;
    int cycle;
    lowest_table(&rules.table);
    prepare(&rules);
    printf("The lowest friction of each segment, in thousandths, of 64 readings a cycle:\n");
    for (cycle = 0; cycle < CYCLES; cycle++) {
        struct report report;
        struct estimates estimates, lowest;
        readings(&goal, cycle, &seed);
        report = run(gateway, &rules, &goal);
        printf("cycle %2d: ", cycle + 1);
        expect(print_report(&report), "a cycle that is not done");
        estimates = decode(gateway->answer, gateway->stored);
        print_estimates(estimates);
        lowest = lowest_readings(&goal);
        expect(memcmp(&estimates, &lowest, sizeof lowest) == 0, "an estimate that is not the lowest reading");
    }
}

/* One reading of each wheel, all of which turn but the one that stands still, if there is one. */
static void slip_readings(struct bytes *goal, int standing)
{
    static const int32_t segment[WHEELS] = {81, 81, 79, 79};
    static const int32_t difference[WHEELS] = {500, 480, 610, 300};
    static const int32_t speed[WHEELS] = {20, 21, 20, 19};
    static const int32_t friction[WHEELS] = {790, 760, 805, 770};
    int wheel;
    goal->len = 0;
    for (wheel = 0; wheel < WHEELS; wheel++)
        goal_fact(goal, READING, segment[wheel], difference[wheel], wheel == standing ? 0 : speed[wheel], friction[wheel]);
}

/* Cycles under a table that divides by the wheel speed: all wheels turn, then wheel 2 stands still. */
static void brake(struct gateway *gateway)
{
    enum { NONE = -1, SLIP_RULE = 1 };
    struct gateway before;
    struct rules rules;
    struct bytes goal;
    struct report report;
    slip_table(&rules.table);
    prepare(&rules);
    printf("The same of wheels that slip, by a rule that divides by the wheel speed:\n");
    slip_readings(&goal, NONE);
    report = run(gateway, &rules, &goal);
    printf("all wheels turn: ");
    expect(print_report(&report), "a cycle that is not done");
    print_estimates(decode(gateway->answer, gateway->stored));

    before = *gateway;
    slip_readings(&goal, 2);
    report = run(gateway, &rules, &goal);
    printf("wheel 2 stands still: ");
    expect(!print_report(&report), "a cycle that is done");
    expect(report.result[NADHIRUKH_NUMBER] == NADHIRUKH_GUARD_UNDEFINED && report.result[NADHIRUKH_PLACE] == SLIP_RULE,
           "an ending other than an undefined guard of the slip rule");
    expect(memcmp(gateway, &before, sizeof before) == 0, "the answer buffer has changed");
    printf("no new estimate; the answer buffer is as it was, and the last estimates hold:");
    print_estimates(decode(gateway->answer, gateway->stored));
}

int main(int argc, char **argv)
{
    static struct gateway gateway;
    if (argc == 2 && strcmp(argv[1], "endings") == 0) {
        print_endings();
        return 0;
    }
    drive(&gateway);
    brake(&gateway);
    return 0;
}
