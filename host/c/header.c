/*
 * The functions that include/nadhirukh.h itself defines, at their edges, its example of a text, and the example of README.md, which the
 * test puts into the file example.h. The standard input is that of crates/run: table A, and the readings 310, 280 and 295 on segment 7.
 * Says what is not as expected, and ends with status 1 then.
 */
#include <stdio.h>
#include <stdlib.h>
#include <string.h>

#include "example.h"

static void expect(int holds, const char *what)
{
    if (holds)
        return;
    printf("header.c: not as expected: %s\n", what);
    exit(1);
}

/* The input: table A, and three goal facts behind it. */
enum { TABLE_LEN = 72, GOAL_LEN = 3 * NADHIRUKH_GOAL_FACT_LEN };

static uint8_t input[TABLE_LEN + GOAL_LEN];
static const uint8_t *const table = input;
static const uint8_t *const goal = input + TABLE_LEN;

static void numbers(void)
{
    static const int32_t edges[] = {0, 1, -1, 255, 256, -256, 0x01020304, -0x01020304, 2147483647, -2147483647 - 1};
    uint8_t fact[NADHIRUKH_GOAL_FACT_LEN];
    size_t i;
    for (i = 0; i < sizeof edges / sizeof edges[0]; i++) {
        nadhirukh_put_goal_fact(fact, 31, 7, edges[i], -7, edges[i]);
        expect(fact[0] == NADHIRUKH_KIND_GOAL_FACT && fact[NADHIRUKH_GOAL_FACT_SYMBOL] == 31, "kind and symbol of a goal fact");
        expect(nadhirukh_signed(fact + NADHIRUKH_GOAL_FACT_ARGUMENTS) == 7, "the first argument of a goal fact");
        expect(nadhirukh_signed(fact + NADHIRUKH_GOAL_FACT_ARGUMENTS + 4) == edges[i], "the second argument of a goal fact");
        expect(nadhirukh_signed(fact + NADHIRUKH_GOAL_FACT_ARGUMENTS + 8) == -7, "the third argument of a goal fact");
        expect(nadhirukh_signed(fact + NADHIRUKH_GOAL_FACT_ARGUMENTS + 12) == edges[i], "the fourth argument of a goal fact");
        expect(nadhirukh_word(fact + NADHIRUKH_GOAL_FACT_ARGUMENTS + 4) == (uint32_t)edges[i], "a word");
    }
    nadhirukh_put_goal_fact(fact, 0, 7, 310, 0, 0);
    expect(memcmp(fact, goal, sizeof fact) == 0, "the first goal fact of the input");
}

/* Tables of 0 to 32 symbols; and bytes that are none, of which no more than the length is read. */
static void symbols(void)
{
    uint8_t records[2 * NADHIRUKH_MAX_SYMBOLS + 2];
    uint32_t result[NADHIRUKH_RESULT];
    size_t i, count;
    for (count = 0; count <= NADHIRUKH_MAX_SYMBOLS; count++) {
        for (i = 0; i < count; i++) {
            records[2 * i] = NADHIRUKH_KIND_SYMBOL;
            records[2 * i + 1] = (uint8_t)(i % 3); /* 1 is an arity, and also the kind of a symbol */
        }
        records[2 * count] = NADHIRUKH_KIND_END;
        expect(nadhirukh_check(records, 2 * count + 1, result) == NADHIRUKH_DONE, "a table of symbols alone is good");
        expect(nadhirukh_symbols(records, 2 * count + 1) == count, "the number of symbols of a table");
    }
    memset(records, NADHIRUKH_KIND_SYMBOL, sizeof records);
    expect(nadhirukh_symbols(records, 0) == 0 && nadhirukh_symbols(records, 1) == 0, "no symbol in less than two bytes");
    expect(nadhirukh_symbols(records, 5) == 2, "a symbol that is cut short");
    expect(nadhirukh_symbols(records, sizeof records) == NADHIRUKH_MAX_SYMBOLS, "a symbol too many");
}

/* Table A printed, and read from what is printed and from the text in the header. */
static void texts(void)
{
    static const char printed[] = "s0/2.\ns0(V0, V1) \\ s0(V0, V2) <=> V1 =< V2 | true.\n";
    static const char rules[] = "s0/2.  s0(V0, V1) \\ s0(V0, V2) <=> V1 =< V2 | true.";
    uint8_t text[sizeof printed], room[TABLE_LEN];
    uint32_t result[NADHIRUKH_RESULT], length;
    text[sizeof printed - 1] = 'x';
    expect(nadhirukh_print_text(table, TABLE_LEN, text, sizeof text, result, &length) == NADHIRUKH_DONE, "table A is printed");
    expect(length == sizeof printed - 1 && memcmp(text, printed, length) == 0, "the text of table A");
    expect(text[length] == 'x', "no byte behind a text is written");
    expect(nadhirukh_read_text(text, length, room, sizeof room, result, &length) == NADHIRUKH_DONE, "the text of table A is read");
    expect(length == TABLE_LEN && memcmp(room, table, length) == 0, "a text reads back to its table");
    memset(room, 0, sizeof room);
    expect(nadhirukh_read_text((const uint8_t *)rules, sizeof rules - 1, room, sizeof room, result, &length) == NADHIRUKH_DONE,
           "the header's text is read");
    expect(length == TABLE_LEN && memcmp(room, table, length) == 0, "the header's text is table A");
    expect(nadhirukh_read_text((const uint8_t *)rules, sizeof rules, room, sizeof room, result, &length) == NADHIRUKH_NO_TOKEN,
           "the zero behind a string of C is no token");
    expect(result[NADHIRUKH_PLACE] == sizeof rules - 1 && length == 0, "where there is no token");
}

/* What the README's example answers, and what it leaves where the caller keeps its estimate. */
static void answers(enum outcome wanted, int32_t friction, const uint8_t *rules, size_t rules_len, size_t goal_len, int32_t segment)
{
    enum { BEFORE = -12345 };
    int32_t kept = BEFORE;
    expect(estimate(rules, rules_len, goal, goal_len, segment, &kept) == wanted, "what the README's example answers");
    expect(kept == (wanted == ESTIMATED ? friction : BEFORE), "the estimate of the README's example");
}

static void example(void)
{
    static const uint8_t no_rules[] = {NADHIRUKH_KIND_SYMBOL, 2, NADHIRUKH_KIND_END};
    answers(ESTIMATED, 280, table, TABLE_LEN, GOAL_LEN, 7);
    answers(ESTIMATED, 310, table, TABLE_LEN, NADHIRUKH_GOAL_FACT_LEN, 7);
    answers(ESTIMATED, 280, no_rules, sizeof no_rules, GOAL_LEN, 7); /* three facts are left, and the lowest counts */
    answers(NO_ESTIMATE, 0, table, TABLE_LEN, GOAL_LEN, 8);
    answers(NO_ESTIMATE, 0, table, TABLE_LEN, 0, 7);
    answers(NOT_DONE, 0, table, TABLE_LEN - 1, GOAL_LEN, 7);
    answers(NOT_DONE, 0, table, TABLE_LEN, GOAL_LEN - 1, 7);
}

int main(void)
{
    expect(fread(input, 1, sizeof input, stdin) == sizeof input && getchar() == EOF, "the input's length");
    numbers();
    symbols();
    texts();
    example();
    return 0;
}
