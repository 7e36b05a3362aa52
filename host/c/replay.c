/*
 * Runs the stored cases of the standard input (crates/call_cases/stdin) through the C interface and prints a line for each, as the
 * program of crates/call_cases does: the lines expected are the same file. Every buffer is lent between guard bytes, and where a call
 * touches what it may not, its line says so and the status is 1.
 */
#include <stdio.h>
#include <stdlib.h>
#include <string.h>

#include "cases.h"

/*
 * Bytes before and after each buffer that no call may touch. Under valgrind there are none: a buffer then is a block of its own, and a
 * byte read beside it is found as well as one written.
 */
#ifndef GUARD
#define GUARD 64
#endif
#define GUARD_BYTE 0x5A

/* What each byte of an answer, of a table to be read and of a text to be printed holds before the call. */
#define FILL 0xA5

/* What a word of a result holds before a call: every call writes all of them. */
#define STALE 0x5A5A5A5Au

/* A buffer of len bytes between guard bytes. */
struct lent {
    uint8_t *bytes;
    size_t len;
};

static struct lent lend(const uint8_t *content, size_t len)
{
    struct lent made;
    uint8_t *all = malloc(len + 2 * GUARD);
    if (all == NULL)
        fail("no memory");
    memset(all, GUARD_BYTE, len + 2 * GUARD);
    memcpy(all + GUARD, content, len);
    made.bytes = all + GUARD;
    made.len = len;
    return made;
}

/* A buffer to be written, full of what it holds before the call. */
static struct lent lend_full(size_t len)
{
    struct lent made;
    uint8_t *content = malloc(len + 1);
    if (content == NULL)
        fail("no memory");
    memset(content, FILL, len);
    made = lend(content, len);
    free(content);
    return made;
}

/* Takes a buffer back: its guard bytes are as they were. */
static void take_back(struct lent lent)
{
    uint8_t *all = lent.bytes - GUARD;
    const size_t guard = GUARD;
    size_t i;
    for (i = 0; i < guard; i++)
        if (all[i] != GUARD_BYTE || lent.bytes[lent.len + i] != GUARD_BYTE)
            fail("bytes around a buffer were changed");
    free(all);
}

/* The same for a buffer that is only read: it holds what it held. */
static void take_back_kept(struct lent lent, const uint8_t *content)
{
    if (memcmp(lent.bytes, content, lent.len) != 0)
        fail("a buffer that is only read was changed");
    take_back(lent);
}

/* A row of words, as many as a result has at most, between as many guard words. */
struct words {
    uint32_t row[3 * NADHIRUKH_RESULT];
};

static void stale(struct words *words)
{
    size_t i;
    for (i = 0; i < 3 * NADHIRUKH_RESULT; i++)
        words->row[i] = STALE;
}

/* Prints the `count` words that a call wrote, each behind a space. */
static void print_words(const struct words *words, size_t count)
{
    size_t i;
    for (i = 0; i < 3 * NADHIRUKH_RESULT; i++) {
        int lent = NADHIRUKH_RESULT <= i && i < NADHIRUKH_RESULT + count;
        if (lent)
            printf(" %lu", (unsigned long)words->row[i]);
        else if (words->row[i] != STALE)
            fail("words around a result were changed");
    }
}

/* Prints a result; the number is the one returned. */
static void print_result(const struct words *result, uint32_t number)
{
    if (number != result->row[NADHIRUKH_RESULT + NADHIRUKH_NUMBER])
        fail("the number returned is not the result's");
    print_words(result, NADHIRUKH_RESULT);
}

static void check(struct stored_case c)
{
    struct lent table = lend(c.table, c.table_len);
    struct words result;
    uint32_t number;
    stale(&result);
    number = nadhirukh_check(table.bytes, table.len, result.row + NADHIRUKH_RESULT);
    printf("C");
    print_result(&result, number);
    take_back_kept(table, c.table);
    printf("\n");
}

/* Prints bytes in hexadecimal behind a space, if there are any. */
static void print_bytes(const uint8_t *bytes, size_t len)
{
    size_t i;
    if (0 < len)
        printf(" ");
    for (i = 0; i < len; i++)
        printf("%02x", bytes[i]);
}

/* Prints the bytes that a call wrote, and whether all other bytes are as they were. */
static void print_written(struct lent buffer, size_t written)
{
    size_t i = written;
    if (buffer.len < written)
        fail("more is written than there is room for");
    print_bytes(buffer.bytes, written);
    while (i < buffer.len && buffer.bytes[i] == FILL)
        i++;
    printf(i == buffer.len ? " keeps" : " changed");
}

/* How many bytes of the answer a run wrote: the facts stored, if it is done. */
static size_t answered(const struct words *result)
{
    uint32_t number = result->row[NADHIRUKH_RESULT + NADHIRUKH_NUMBER];
    uint32_t stored = result->row[NADHIRUKH_RESULT + NADHIRUKH_STORED];
    return number == NADHIRUKH_DONE ? (size_t)NADHIRUKH_STORED_FACT_LEN * stored : 0;
}

static void run(struct stored_case c)
{
    struct lent table = lend(c.table, c.table_len);
    struct lent goal = lend(c.goal, c.goal_len);
    struct lent answer = lend_full(c.answer_len);
    struct words result;
    uint32_t number;
    stale(&result);
    number = nadhirukh_run(table.bytes, table.len, goal.bytes, goal.len, c.limit, answer.bytes, answer.len, result.row + NADHIRUKH_RESULT);
    printf("R");
    print_result(&result, number);
    print_written(answer, answered(&result));
    take_back_kept(table, c.table);
    take_back_kept(goal, c.goal);
    take_back(answer);
    printf("\n");
}

static void weigh(struct stored_case c)
{
    struct lent table = lend(c.table, c.table_len);
    struct lent goal = lend(c.goal, c.goal_len);
    struct lent weights = lend(c.weights, c.weights_len);
    struct words result, bound;
    uint32_t number;
    stale(&result);
    stale(&bound);
    number = nadhirukh_weigh(table.bytes, table.len, weights.bytes, weights.len, goal.bytes, goal.len, result.row + NADHIRUKH_RESULT,
                             bound.row + NADHIRUKH_RESULT);
    printf("W");
    print_result(&result, number);
    print_words(&bound, NADHIRUKH_BOUND);
    take_back_kept(table, c.table);
    take_back_kept(goal, c.goal);
    take_back_kept(weights, c.weights);
    printf("\n");
}

/* Whether a search of a good table took the number of its symbols for another one than the header's function gives. */
static int counted_otherwise(struct lent table, size_t weights, uint32_t number)
{
    int good = number < NADHIRUKH_UNKNOWN_KIND || NADHIRUKH_BYTES_AFTER_END < number;
    int as_many = nadhirukh_symbols(table.bytes, table.len) == weights;
    return good && as_many == (number == NADHIRUKH_WEIGHT_COUNT);
}

/* The buffer holds the case's weights before; the line ends with what it holds afterwards. */
static void find_weights(struct stored_case c)
{
    struct lent table = lend(c.table, c.table_len);
    struct lent weights = lend(c.weights, c.weights_len);
    struct words result;
    uint32_t number;
    stale(&result);
    number = nadhirukh_find_weights(table.bytes, table.len, weights.bytes, weights.len, result.row + NADHIRUKH_RESULT);
    printf("F");
    print_result(&result, number);
    print_bytes(weights.bytes, weights.len);
    if (number != NADHIRUKH_DONE && memcmp(weights.bytes, c.weights, c.weights_len) != 0)
        fail("weights were written, and none were found");
    if (counted_otherwise(table, weights.len, number))
        fail("nadhirukh_symbols and the call count the table's symbols differently");
    take_back_kept(table, c.table);
    take_back(weights);
    printf("\n");
}

/* Prints a result, a length, and the bytes written: the answer that a call which reads or prints a text gives. */
static void print_text_answer(struct lent to, const struct words *result, const struct words *length, uint32_t number)
{
    uint32_t written = length->row[NADHIRUKH_RESULT];
    print_result(result, number);
    print_words(length, 1);
    if (number != NADHIRUKH_DONE && written != 0)
        fail("a refused call gives a length");
    print_written(to, written);
}

static void read_text(struct stored_case c)
{
    struct lent text = lend(c.table, c.table_len);
    struct lent table = lend_full(c.answer_len);
    struct words result, length;
    uint32_t number;
    stale(&result);
    stale(&length);
    number = nadhirukh_read_text(text.bytes, text.len, table.bytes, table.len, result.row + NADHIRUKH_RESULT,
                                 length.row + NADHIRUKH_RESULT);
    printf("T");
    print_text_answer(table, &result, &length, number);
    take_back_kept(text, c.table);
    take_back(table);
    printf("\n");
}

/* What was printed of a table reads back to the same bytes. */
static void read_back(struct lent text, size_t text_len, const uint8_t *table, size_t table_len)
{
    struct lent again = lend_full(table_len);
    uint32_t result[NADHIRUKH_RESULT], length;
    uint32_t number = nadhirukh_read_text(text.bytes, text_len, again.bytes, again.len, result, &length);
    if (number != NADHIRUKH_DONE || length != table_len || memcmp(again.bytes, table, table_len) != 0)
        fail("what is printed does not read back to the table");
    take_back(again);
}

static void print_text(struct stored_case c)
{
    struct lent table = lend(c.table, c.table_len);
    struct lent text = lend_full(c.answer_len);
    struct words result, length;
    uint32_t number;
    stale(&result);
    stale(&length);
    number = nadhirukh_print_text(table.bytes, table.len, text.bytes, text.len, result.row + NADHIRUKH_RESULT,
                                  length.row + NADHIRUKH_RESULT);
    printf("P");
    print_text_answer(text, &result, &length, number);
    if (number == NADHIRUKH_DONE)
        read_back(text, length.row[NADHIRUKH_RESULT], c.table, c.table_len);
    take_back_kept(table, c.table);
    take_back(text);
    printf("\n");
}

static void run_case(struct stored_case c)
{
    switch (c.kind) {
    case 'C':
        check(c);
        break;
    case 'R':
        run(c);
        break;
    case 'W':
        weigh(c);
        break;
    case 'F':
        find_weights(c);
        break;
    case 'T':
        read_text(c);
        break;
    case 'P':
        print_text(c);
        break;
    default:
        fail("no such kind");
    }
}

int main(void)
{
    /* Line by line, so that after a crash the last line tells which case it was. */
    setvbuf(stdout, NULL, _IOLBF, BUFSIZ);
    each_case(run_case);
    return 0;
}
