/*
 * Nadhirukh: a proved engine for Constraint Handling Rules over whole numbers.
 *
 * Every call returns, whatever bytes it is given. It writes all NADHIRUKH_RESULT words of `result` on every return, and returns the
 * first of them, the number. NADHIRUKH_DONE, 0, is the only number of success; after any other one the answer buffer is as it was. So
 * ask for the number first, and for the facts only after 0: "not done" and "done, and nothing is left" are different things, and
 * result[NADHIRUKH_STORED] may be 0 after both.
 *
 * Memory. The caller owns every buffer. A call reads what is `const`, writes the words of `result`, and of `answer`, `bound`, `length`,
 * the weights to be found, the table to be read and the text to be printed what is said below, and touches nothing else. No pointer is
 * null, also where the length is 0, and no two buffers of a call overlap. Nothing is kept from call to call and nothing is allocated, so
 * calls may be made from several threads at once, each with its own buffers to write; they may read the same table, as long as nobody
 * writes it meanwhile.
 *
 * Stack. Over the stored cases of this project a run took at most 18,176 bytes of machine stack on x86-64, reading a text 25,224, of which
 * 23,727 are room for the table that is checked before it is written, printing a table 1,416, and every other call no more than 2,008
 * (docs/MEASUREMENTS.md). This is measured, not proved: allow 26,624 for a run, 32,768 for reading a text, and 6,656 for any other call.
 *
 * Linking. The archive is for x86-64, by the System V calling convention. Of the C library it needs `memcpy` and `memset` alone, so it
 * links without one where the program has these two. It has no data of its own.
 *
 * This header is C89, but for <stdint.h>, and C++98.
 */
#ifndef NADHIRUKH_H
#define NADHIRUKH_H

#include <stddef.h>
#include <stdint.h>

/* Rises with each change of a call that was there before. 2: quotients are rounded down, where 1 cut them toward zero. */
#define NADHIRUKH_VERSION 2

/* The words of a result, and how many there are. */
#define NADHIRUKH_RESULT 6
#define NADHIRUKH_NUMBER 0      /* how it ended: a number below */
#define NADHIRUKH_PLACE 1       /* where: an offset in the table or the text, a fact of the goal, a rule or a symbol, by the number */
#define NADHIRUKH_STEPS 2       /* steps taken */
#define NADHIRUKH_FIRINGS 3     /* rules fired */
#define NADHIRUKH_IDENTIFIERS 4 /* identifiers given to facts */
#define NADHIRUKH_STORED 5      /* facts stored at the end */

/* The words of a bound, and how many there are. */
#define NADHIRUKH_BOUND 2
#define NADHIRUKH_BOUND_WEIGHT 0 /* W, what the goal weighs */
#define NADHIRUKH_BOUND_STEPS 1  /* the most steps that a run of it takes */

/*
 * The numbers of a run that was admitted. NADHIRUKH_DONE is also what a good table, a good weighing, weights that are found, a text that
 * is read and a table that is printed give.
 */
#define NADHIRUKH_DONE 0u            /* done: the answer has the facts stored; place: 0 */
#define NADHIRUKH_FAILED 1u          /* a rule said fail; place: 0 */
#define NADHIRUKH_STEP_LIMIT 2u      /* the step limit is used up; place: 0 */
#define NADHIRUKH_GUARD_UNDEFINED 3u /* a guard has no value; place: the rule, from 0 */
#define NADHIRUKH_BODY_UNDEFINED 4u  /* an argument of a body fact has no value; place: the rule */
#define NADHIRUKH_STORE_FULL 5u      /* the store is full: a fact more than 128; place: 0 */
#define NADHIRUKH_STACK_FULL 6u      /* the stack is full: more than 256 entries after this firing; place: the rule */
#define NADHIRUKH_HISTORY_FULL 7u    /* the history is full: more than 256 entries after this firing; place: the rule */

/* The numbers of a refusal, from 16 on. Steps, firings, identifiers and stored are then 0. First those of the table: */
#define NADHIRUKH_UNKNOWN_KIND 16u        /* a record of unknown kind; place: its offset */
#define NADHIRUKH_CUT_SHORT 17u           /* a record cut short, or no end record; place: its offset, or the table's length */
#define NADHIRUKH_OUT_OF_ORDER 18u        /* a record out of order; place: its offset */
#define NADHIRUKH_ONE_TOO_MANY 19u        /* one record too many of its sort; place: its offset */
#define NADHIRUKH_BAD_FIELD 20u           /* a record with a bad field; place: its offset */
#define NADHIRUKH_NO_HEAD 21u             /* a guard, body item, rule or end after a rule with no head; place: its offset */
#define NADHIRUKH_VARIABLE_IN_NO_HEAD 22u /* a guard or body variable that is in no head; place: the record's offset */
#define NADHIRUKH_BYTES_AFTER_END 23u     /* bytes after the end record; place: the offset of the first of them */

/* Then those of the goal, the limit and the answer buffer: */
#define NADHIRUKH_GOAL_CUT 32u         /* the goal's length is no multiple of 18; place: 0 */
#define NADHIRUKH_BAD_GOAL_FACT 33u    /* a goal fact with a bad kind, symbol or later place; place: the fact, from 0 */
#define NADHIRUKH_GOAL_TOO_LONG 34u    /* a goal of more than 64 facts; place: 0 */
#define NADHIRUKH_LIMIT_TOO_HIGH 35u   /* a step limit above 20,000,000; place: 0 */
#define NADHIRUKH_ANSWER_TOO_SHORT 36u /* an answer buffer shorter than 2,816 bytes; place: 0 */

/* And those of the weights: */
#define NADHIRUKH_WEIGHT_COUNT 40u   /* not as many weights as symbols; place: 0 */
#define NADHIRUKH_ZERO_WEIGHT 41u    /* a weight of zero; place: the symbol, from 0 */
#define NADHIRUKH_NO_WEIGHT_LOST 42u /* a rule that does not lose weight; place: the rule, from 0 */

/* And those of texts: */
#define NADHIRUKH_TEXT_TOO_LONG 48u  /* a text of more than 65,536 bytes; place: 0 */
#define NADHIRUKH_NO_TOKEN 49u       /* no token begins here; place: the byte's offset in the text */
#define NADHIRUKH_NOT_IN_GRAMMAR 50u /* a token that cannot come here, or the end; place: its offset in the text, or the text's length */
#define NADHIRUKH_NO_ROOM 51u        /* no room for the table or the text; place: 0 */

/* How much there may be at most, and the least length of an answer buffer, in which every store has room. */
#define NADHIRUKH_MAX_TABLE 23681u     /* bytes of a good table: room for every table that can be read */
#define NADHIRUKH_MAX_TEXT 65536u      /* bytes of a text: room for every text that can be printed */
#define NADHIRUKH_MAX_SYMBOLS 32u      /* symbols of a table */
#define NADHIRUKH_MAX_RULES 64u        /* rules of a table */
#define NADHIRUKH_MAX_GOAL_FACTS 64u   /* facts of a goal */
#define NADHIRUKH_MAX_GOAL 1152u       /* bytes of a goal */
#define NADHIRUKH_MAX_STORED 128u      /* facts stored */
#define NADHIRUKH_MAX_LIMIT 20000000ul /* step limit */
#define NADHIRUKH_MIN_ANSWER 2816u     /* bytes of an answer buffer, at least */

/* The kinds of records, the first byte of each: of a table, */
#define NADHIRUKH_KIND_SYMBOL 1
#define NADHIRUKH_KIND_RULE 2
#define NADHIRUKH_KIND_KEPT_HEAD 3
#define NADHIRUKH_KIND_REMOVED_HEAD 4
#define NADHIRUKH_KIND_GUARD 5
#define NADHIRUKH_KIND_BODY_FACT 6
#define NADHIRUKH_KIND_BODY_FAIL 7
#define NADHIRUKH_KIND_END 8
/* of a goal, */
#define NADHIRUKH_KIND_GOAL_FACT 16
/* and of an answer. */
#define NADHIRUKH_KIND_STORED_FACT 17

/* The tags of slots, the operations of expressions, the comparators of guards. */
#define NADHIRUKH_TAG_UNUSED 0
#define NADHIRUKH_TAG_CONSTANT 1
#define NADHIRUKH_TAG_VARIABLE 2
#define NADHIRUKH_OPERATION_ALONE 0
#define NADHIRUKH_OPERATION_SUM 1
#define NADHIRUKH_OPERATION_DIFFERENCE 2
#define NADHIRUKH_OPERATION_PRODUCT 3
#define NADHIRUKH_OPERATION_QUOTIENT 4  /* the greatest whole number not above the exact quotient: -4 for -7 by 2 */
#define NADHIRUKH_OPERATION_REMAINDER 5 /* what is left by this quotient, 0 or of the divisor's sign: 1 for -7 by 2 */
#define NADHIRUKH_COMPARATOR_EQUAL 0
#define NADHIRUKH_COMPARATOR_UNEQUAL 1
#define NADHIRUKH_COMPARATOR_LESS 2
#define NADHIRUKH_COMPARATOR_AT_MOST 3
#define NADHIRUKH_COMPARATOR_GREATER 4
#define NADHIRUKH_COMPARATOR_AT_LEAST 5

/* A goal fact: its length, and where its parts begin. It has four arguments of four bytes, lowest first, later places zero. */
#define NADHIRUKH_GOAL_FACT_LEN 18u
#define NADHIRUKH_GOAL_FACT_SYMBOL 1u
#define NADHIRUKH_GOAL_FACT_ARGUMENTS 2u

/* A stored fact, in an answer: the same, behind an identifier of four bytes. */
#define NADHIRUKH_STORED_FACT_LEN 22u
#define NADHIRUKH_STORED_FACT_IDENTIFIER 1u
#define NADHIRUKH_STORED_FACT_SYMBOL 5u
#define NADHIRUKH_STORED_FACT_ARGUMENTS 6u

#ifdef __cplusplus
extern "C" {
#endif

/* Checks a table of table_len bytes: all words 0 where it is good, otherwise 16 to 23 and the place. */
uint32_t nadhirukh_check(const uint8_t *table, size_t table_len, uint32_t result[NADHIRUKH_RESULT]);

/*
 * Runs a goal of NADHIRUKH_GOAL_FACT_LEN bytes a fact on a table, at most `limit` steps. Where the number is 0, the first
 * NADHIRUKH_STORED_FACT_LEN * result[NADHIRUKH_STORED] bytes of the answer are the facts stored, by rising identifier. All other bytes
 * of the answer keep what they held; where the number is not 0, all of them.
 */
uint32_t nadhirukh_run(const uint8_t *table, size_t table_len, const uint8_t *goal, size_t goal_len, uint32_t limit, uint8_t *answer,
                       size_t answer_len, uint32_t result[NADHIRUKH_RESULT]);

/*
 * Weighs a table with one weight, a byte from 1 to 255, for each symbol. Where the number is 0, every run of this goal ends within
 * bound[NADHIRUKH_BOUND_STEPS] steps, and bound[NADHIRUKH_BOUND_WEIGHT] is W, what the goal weighs; otherwise both are 0. Both are
 * written on every return.
 */
uint32_t nadhirukh_weigh(const uint8_t *table, size_t table_len, const uint8_t *weights, size_t weights_len, const uint8_t *goal,
                         size_t goal_len, uint32_t result[NADHIRUKH_RESULT], uint32_t bound[NADHIRUKH_BOUND]);

/*
 * Looks for weights with which nadhirukh_weigh does not refuse the table. weights_len is the table's number of symbols, which
 * nadhirukh_symbols gives. Where the number is 0, every byte of `weights` is written, and none is 0; otherwise all keep what they held.
 * 16 to 23 and 40 are as above; 42 says that none were found, and its place is the rule that could not be raised further. Where every
 * rule has one removed head, weights are found if there are any; where a rule has more, they may be missed.
 *
 * A run that is sure to end: find weights once for a table, weigh each goal, and run it with the bound as limit.
 *
 *     uint8_t weights[NADHIRUKH_MAX_SYMBOLS];
 *     size_t symbols = nadhirukh_symbols(table, table_len);
 *     if (nadhirukh_find_weights(table, table_len, weights, symbols, result) == NADHIRUKH_DONE
 *         && nadhirukh_weigh(table, table_len, weights, symbols, goal, goal_len, result, bound) == NADHIRUKH_DONE)
 *         nadhirukh_run(table, table_len, goal, goal_len, bound[NADHIRUKH_BOUND_STEPS], answer, sizeof answer, result);
 *
 * The run then does not end in 2 or 7, nor in 5 if bound[NADHIRUKH_BOUND_WEIGHT] is at most 128.
 */
uint32_t nadhirukh_find_weights(const uint8_t *table, size_t table_len, uint8_t *weights, size_t weights_len,
                                uint32_t result[NADHIRUKH_RESULT]);

/*
 * Reads a text of declarations and rules, of which docs/TEXT.md has the grammar, to a table. Where the number is 0, the table is good,
 * *length is its number of bytes, and these are the first bytes of `table`; the bytes behind them keep what they held. Otherwise *length
 * is 0, and all bytes of `table` keep what they held. *length is written on every return.
 *
 * The tests come in the order 48, 49, 50, 51, then 19, 20 and 22. The place of 49 and 50 is in the text; that of 19, 20 and 22 is in the
 * table that the text stands for, which is not written then. 51 says that this table, good or bad, has more than table_len bytes; with
 * NADHIRUKH_MAX_TABLE bytes of room it says that the table is too long to be good.
 *
 *     static const char rules[] = "s0/2.  s0(V0, V1) \\ s0(V0, V2) <=> V1 =< V2 | true.";
 *     static uint8_t table[NADHIRUKH_MAX_TABLE];
 *     uint32_t result[NADHIRUKH_RESULT], length;
 *     if (nadhirukh_read_text((const uint8_t *)rules, sizeof rules - 1, table, sizeof table, result, &length) == NADHIRUKH_DONE)
 *         nadhirukh_run(table, length, goal, goal_len, limit, answer, sizeof answer, result);
 */
uint32_t nadhirukh_read_text(const uint8_t *text, size_t text_len, uint8_t *table, size_t table_len, uint32_t result[NADHIRUKH_RESULT],
                             uint32_t *length);

/*
 * Prints a table as text, a line for each declaration and each rule. Where the number is 0, *length is the text's number of bytes, and
 * these are the first bytes of `text`, with no zero byte behind them: the bytes there keep what they held. Reading this text gives the
 * same table, byte for byte. Otherwise *length is 0, and all bytes of `text` keep what they held. *length is written on every return.
 * 16 to 23 are those of a check; 51 says that the text has more than text_len bytes, which no text has where text_len is
 * NADHIRUKH_MAX_TEXT.
 */
uint32_t nadhirukh_print_text(const uint8_t *table, size_t table_len, uint8_t *text, size_t text_len, uint32_t result[NADHIRUKH_RESULT],
                              uint32_t *length);

/*
 * What every caller would write anew. These are C, and tested, not proved.
 */
#if defined(__cplusplus) || (defined(__STDC_VERSION__) && __STDC_VERSION__ >= 199901L)
#define NADHIRUKH_INLINE static inline
#elif defined(__GNUC__)
#define NADHIRUKH_INLINE static __inline__
#else
#define NADHIRUKH_INLINE static
#endif

/* The number of symbols of a good table: their records stand first, two bytes each. At most NADHIRUKH_MAX_SYMBOLS for any bytes. */
NADHIRUKH_INLINE size_t nadhirukh_symbols(const uint8_t *table, size_t table_len)
{
    size_t count = 0;
    while (count < NADHIRUKH_MAX_SYMBOLS && 2 * count + 1 < table_len && table[2 * count] == NADHIRUKH_KIND_SYMBOL)
        count++;
    return count;
}

/* A word of four bytes, lowest first: an identifier. */
NADHIRUKH_INLINE uint32_t nadhirukh_word(const uint8_t *bytes)
{
    return (uint32_t)bytes[0] | (uint32_t)bytes[1] << 8 | (uint32_t)bytes[2] << 16 | (uint32_t)bytes[3] << 24;
}

/* The same as a number with a sign, two's complement: an argument. */
NADHIRUKH_INLINE int32_t nadhirukh_signed(const uint8_t *bytes)
{
    uint32_t word = nadhirukh_word(bytes);
    return word <= 0x7FFFFFFFu ? (int32_t)word : -(int32_t)(0xFFFFFFFFu - word) - 1;
}

/* Argument i, from 0 to 3, of a stored fact. */
NADHIRUKH_INLINE int32_t nadhirukh_argument(const uint8_t *fact, size_t i)
{
    return nadhirukh_signed(fact + NADHIRUKH_STORED_FACT_ARGUMENTS + 4 * i);
}

/* Writes a goal fact with four arguments: NADHIRUKH_GOAL_FACT_LEN bytes. Those that its symbol does not use have to be 0. */
NADHIRUKH_INLINE void nadhirukh_put_goal_fact(uint8_t *fact, uint8_t symbol, int32_t a, int32_t b, int32_t c, int32_t d)
{
    uint32_t arguments[4];
    size_t i;
    arguments[0] = (uint32_t)a;
    arguments[1] = (uint32_t)b;
    arguments[2] = (uint32_t)c;
    arguments[3] = (uint32_t)d;
    fact[0] = NADHIRUKH_KIND_GOAL_FACT;
    fact[NADHIRUKH_GOAL_FACT_SYMBOL] = symbol;
    for (i = 0; i < 16; i++)
        fact[NADHIRUKH_GOAL_FACT_ARGUMENTS + i] = (uint8_t)(arguments[i / 4] >> 8 * (i % 4) & 0xFFu);
}

#ifdef __cplusplus
}
#endif

#endif
