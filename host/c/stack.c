/*
 * How much machine stack each call takes: every stored case of the standard input is run on a stack that was painted before, and the
 * deepest byte that lost its paint counts. What the context switch and the call around it take is within the figure.
 */
#include <stdio.h>
#include <string.h>
#include <ucontext.h>

#include "cases.h"

#define STACK (256ul * 1024)
#define PAINT 0xC3

static uint8_t stack[STACK];
static ucontext_t outside, inside;
static struct stored_case now;

/* By kind: the most bytes that a case took, and how many there were. */
static size_t most[256], cases[256];

static void call(void)
{
    static uint8_t answer[65536], weights[65536];
    uint32_t result[NADHIRUKH_RESULT], bound[NADHIRUKH_BOUND], length;
    if (now.answer_len > sizeof answer || now.weights_len > sizeof weights)
        fail("answer or weights too long");
    if (now.kind == 'C')
        nadhirukh_check(now.table, now.table_len, result);
    else if (now.kind == 'R')
        nadhirukh_run(now.table, now.table_len, now.goal, now.goal_len, now.limit, answer, now.answer_len, result);
    else if (now.kind == 'W')
        nadhirukh_weigh(now.table, now.table_len, now.weights, now.weights_len, now.goal, now.goal_len, result, bound);
    else if (now.kind == 'F')
        nadhirukh_find_weights(now.table, now.table_len, weights, now.weights_len, result);
    else if (now.kind == 'T')
        nadhirukh_read_text(now.table, now.table_len, answer, now.answer_len, result, &length);
    else if (now.kind == 'P')
        nadhirukh_print_text(now.table, now.table_len, answer, now.answer_len, result, &length);
    else
        fail("no such kind");
}

static void measure(struct stored_case c)
{
    size_t kept = 0;
    now = c;
    memset(stack, PAINT, STACK);
    getcontext(&inside);
    inside.uc_stack.ss_sp = stack;
    inside.uc_stack.ss_size = STACK;
    inside.uc_link = &outside;
    makecontext(&inside, call, 0);
    swapcontext(&outside, &inside);
    while (kept < STACK && stack[kept] == PAINT)
        kept++;
    if (most[c.kind] < STACK - kept)
        most[c.kind] = STACK - kept;
    cases[c.kind]++;
}

static void print(const char *name, uint8_t kind)
{
    printf("%-6s %5lu cases, at most %6lu bytes of stack\n", name, (unsigned long)cases[kind], (unsigned long)most[kind]);
}

int main(void)
{
    each_case(measure);
    print("check", 'C');
    print("run", 'R');
    print("weigh", 'W');
    print("find", 'F');
    print("read", 'T');
    print("print", 'P');
    return 0;
}
