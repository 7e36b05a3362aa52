/*
 * The stored cases of crates/call_cases, read from the standard input. A case is its kind (C check, R run, W weigh, F find weights, T
 * read a text, P print one), five words of 32 bits (the lengths of table, goal and weights, the step limit, the length of the answer
 * buffer), then table, goal and weights. Of F the weights are what the buffer holds before the call. Of T the text stands where the table
 * does, and the answer buffer is the room for its table; of P it is the room for the text.
 */
#ifndef CASES_H
#define CASES_H

#include <stdio.h>
#include <stdlib.h>

#include "nadhirukh.h"

/* The length of a case's header, and the most bytes that the cases may have. */
#define HEADER 21
#define MOST (16ul * 1024 * 1024)

/* Ends the line, and the program, by saying what is wrong. */
static void fail(const char *what)
{
    printf(" %s\n", what);
    exit(1);
}

/* A case: its kind, and where its parts stand in the input. */
struct stored_case {
    uint8_t kind;
    size_t table_len;
    size_t goal_len;
    size_t weights_len;
    uint32_t limit;
    size_t answer_len;
    const uint8_t *table;
    const uint8_t *goal;
    const uint8_t *weights;
};

static struct stored_case read_case(const uint8_t *bytes)
{
    struct stored_case c;
    c.kind = bytes[0];
    c.table_len = nadhirukh_word(bytes + 1);
    c.goal_len = nadhirukh_word(bytes + 5);
    c.weights_len = nadhirukh_word(bytes + 9);
    c.limit = nadhirukh_word(bytes + 13);
    c.answer_len = nadhirukh_word(bytes + 17);
    c.table = bytes + HEADER;
    c.goal = c.table + c.table_len;
    c.weights = c.goal + c.goal_len;
    return c;
}

/* Does this for each case of the standard input. */
static void each_case(void (*visit)(struct stored_case))
{
    uint8_t *bytes = malloc(MOST);
    size_t len, at = 0;
    if (bytes == NULL)
        fail("no memory");
    len = fread(bytes, 1, MOST, stdin);
    while (HEADER <= len - at) {
        struct stored_case c = read_case(bytes + at);
        size_t left = len - at - HEADER;
        if (left < c.table_len || left - c.table_len < c.goal_len || left - c.table_len - c.goal_len < c.weights_len)
            fail("case cut short");
        visit(c);
        at += HEADER + c.table_len + c.goal_len + c.weights_len;
    }
    free(bytes);
}

#endif
