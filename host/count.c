/*
 * The cases of `host/run --count`, where valgrind counts the instructions of
 *   count SIDE CASE ROUNDS   so many batches of that case, of the archive or of plain
 * and the rest is asked of
 *   count cases              a line for each case: its ticks in a batch, its aim and its name
 *   count check              the deepest stack of the archive; ends with 1 where answers differ
 */
#define _XOPEN_SOURCE 700
#include "loads.h"
#include "overcurrent.h"
#include "plain.h"

#include <stdio.h>
#include <stdlib.h>
#include <string.h>
#include <ucontext.h>

/* The aim is as line_of_counts of host/counts has it. */
static const struct {
    const char *name, *aim;
    uint32_t operation;
    const struct load *load;
    enum currents currents;
} cases[] = {
    {"idle, IEC, constant", "0.7", OC_IEC_INV, &idle, CONSTANT},
    {"idle, ANSI, constant", "0.7", OC_ANSI_EXT_INV, &idle, CONSTANT},
    {"started, 0.02, constant", "0.7", OC_IEC_INV, &counting, CONSTANT},
    {"started, power 2, constant", "0.7", OC_ANSI_EXT_INV, &counting, CONSTANT},
    {"idle, IEC, changing", "1.0", OC_IEC_INV, &idle, CHANGING},
    {"started, 0.02, changing", "1.2 shifting", OC_IEC_INV, &counting, CHANGING},
    {"started, power 2, changing", "1.2 shifting", OC_ANSI_EXT_INV, &counting, CHANGING},
    {"started, power 1, changing", "1.2 shifting", OC_IEC_VERY_INV, &counting, CHANGING},
    {"mixed, 0.02, changing", "1.2 shifting", OC_IEC_INV, &mixed, CHANGING},
    {"mixed, power 2, changing", "1.2 shifting", OC_ANSI_EXT_INV, &mixed, CHANGING},
    {"definite, changing", "1.0", OC_DEFINITE, &counting, CHANGING},
    {"definite, mixed, changing", "1.0", OC_DEFINITE, &mixed, CHANGING},
    {"off, changing", "40 a tick", OC_OFF, &counting, CHANGING},
    {"0.02, wandering slowly", "1.0", OC_IEC_INV, &wandering, WANDERING},
};

enum { CASES = sizeof cases / sizeof cases[0] };

static void fill_case(int number)
{
    fill_input(cases[number].operation, cases[number].load, cases[number].currents);
}

static int print_cases(void)
{
    for (int i = 0; i < CASES; i++)
        printf("%d\t%s\t%s\n", TICKS, cases[i].aim, cases[i].name);
    return 0;
}

/* ---- The stack: a batch runs on one of its own, which was painted ---- */

enum { WORDS = 8 * 1024 };

static const uint64_t paint = 0x9e3779b97f4a7c15;
static uint64_t stack[WORDS];
static ucontext_t caller, batch;
static struct side *on_stack;

static void run_on_stack(void)
{
    run_batch(on_stack);
}

/* How many words at its far end a batch leaves as they were. */
static size_t words_left(struct side *side)
{
    for (size_t i = 0; i < WORDS; i++)
        stack[i] = paint;
    on_stack = side;
    getcontext(&batch);
    batch.uc_stack.ss_sp = stack;
    batch.uc_stack.ss_size = sizeof stack;
    batch.uc_link = &caller;
    makecontext(&batch, run_on_stack, 0);
    swapcontext(&caller, &batch);
    size_t left = 0;
    while (left < WORDS && stack[left] == paint)
        left++;
    return left;
}

/* In place of a batch it writes nothing to the stack: its return address is the last word there. */
static void nothing(void)
{
}

static size_t stack_below_batch(void)
{
    static struct side none = {.call = (batch_call *)nothing};
    return sizeof stack[0] * (words_left(&none) - words_left(&archive));
}

/* ---- What is asked ---- */

static int check(void)
{
    bool good = true;
    size_t deepest = 0;
    plain_fill_powers();
    for (int i = 0; i < CASES; i++) {
        fill_case(i);
        if (!run_batch(&archive) || !run_batch(&plain) || !same_answers()) {
            printf("%s: ANSWERS DIFFER\n", cases[i].name);
            good = false;
        }
        size_t below = stack_below_batch();
        deepest = below > deepest ? below : deepest;
    }
    printf("stack below oc_batch: %zu bytes (aim: under 600)%s\n", deepest,
           deepest < 600 ? "" : "  MISSED");
    return good ? 0 : 1;
}

static int run_rounds(struct side *side, int number, int rounds)
{
    if (side == &plain)
        plain_fill_powers();
    fill_case(number);
    bool good = true;
    for (int i = 0; i < rounds; i++)
        good = run_batch(side) && good;
    return good ? 0 : 1;
}

int main(int words, char **word)
{
    if (words == 2 && strcmp(word[1], "cases") == 0)
        return print_cases();
    if (words == 2 && strcmp(word[1], "check") == 0)
        return check();
    struct side *side = words < 4 ? NULL
        : strcmp(word[1], "plain") == 0 ? &plain
        : strcmp(word[1], "archive") == 0 ? &archive : NULL;
    int number = words == 4 ? atoi(word[2]) : -1;
    if (side == NULL || number < 0 || number >= CASES) {
        fprintf(stderr, "usage: count cases | check | archive CASE ROUNDS | plain CASE ROUNDS\n");
        return 2;
    }
    return run_rounds(side, number, atoi(word[3]));
}
