/* Runs one call many times, on the archive or on the C of fast.c, for the measurements of tables.py and count.py:
 *
 *   bench rows                      the names of the calls
 *   bench count SIDE ROW CALLS      the call so many times, and nothing else
 *   bench time SIDE ROW             nanoseconds per call
 *   bench stack SIDE ROW            bytes of stack that the call takes
 *   bench agree                     whether both sides give the same on every row
 *
 * SIDE is archive, fast or empty; empty is the cost of the calling loop. Nothing is cleared between two calls. */
#define _POSIX_C_SOURCE 200809L
#include "rows.h"

#include <inttypes.h>
#include <stdio.h>
#include <stdlib.h>
#include <string.h>
#include <time.h>
#include <ucontext.h>

static void run(const struct side *side, struct row *row, unsigned long calls)
{
    for (unsigned long k = 0; k < calls; k++)
        row_call(side, row);
}

static double now_ns(void)
{
    struct timespec t;
    clock_gettime(CLOCK_MONOTONIC, &t);
    return (double)t.tv_sec * 1e9 + (double)t.tv_nsec;
}

/* The least of many short batches: other work on the host only adds. */
static double time_per_call(const struct side *side, struct row *row)
{
    enum { BATCHES = 200, CALLS = 200 };
    double least = 1e18;
    run(side, row, CALLS);
    for (int k = 0; k < BATCHES; k++) {
        double before = now_ns();
        run(side, row, CALLS);
        double took = (now_ns() - before) / CALLS;
        least = took < least ? took : least;
    }
    return least;
}

/* The call on a stack of its own, which is full of a pattern before. */
enum { STACK = 65536, PATTERN = 0xA5 };
static uint8_t stack[STACK];
static ucontext_t back, there;
static const struct side *stack_side;
static struct row *stack_row;

static void on_the_stack(void)
{
    row_call(stack_side, stack_row);
}

static size_t stack_taken(const struct side *side, struct row *row)
{
    size_t untouched = 0;
    memset(stack, PATTERN, STACK);
    stack_side = side;
    stack_row = row;
    getcontext(&there);
    there.uc_stack.ss_sp = stack;
    there.uc_stack.ss_size = STACK;
    there.uc_link = &back;
    makecontext(&there, on_the_stack, 0);
    swapcontext(&back, &there);
    while (untouched < STACK && stack[untouched] == PATTERN)
        untouched++;
    return STACK - untouched;
}

/* Both sides on a fresh row: number, length and rate or error, or reason, address and the end missed; bank, ring and answer buffer. */
static int agrees(const char *name)
{
    static struct row one, other;
    row_make(&one, name);
    row_make(&other, name);
    row_call(side_named("archive"), &one);
    row_call(side_named("fast"), &other);
    int same = memcmp(&one, &other, sizeof one) == 0;
    printf("%-24s %s: number %" PRIu32 ", length %" PRIu32 ", reason %" PRIu32 ", side %" PRIu32 ", error %" PRIu32 "\n", name,
           same ? "same" : "DIFFERS", one.number, one.length, one.reason, one.missed_side, one.error);
    return same;
}

static int all_agree(void)
{
    int same = 1;
    for (size_t k = 0; row_names[k] != NULL; k++)
        same &= agrees(row_names[k]);
    return same;
}

static void print_names(void)
{
    for (size_t k = 0; row_names[k] != NULL; k++)
        puts(row_names[k]);
}

int main(int argc, char **argv)
{
    static struct row row;
    if (argc == 2 && strcmp(argv[1], "agree") == 0)
        return all_agree() ? 0 : 1;
    if (argc == 2 && strcmp(argv[1], "rows") == 0) {
        print_names();
        return 0;
    }
    const struct side *side = argc >= 4 ? side_named(argv[2]) : NULL;
    if (side == NULL || !row_make(&row, argv[3]))
        return 2;
    if (strcmp(argv[1], "count") == 0 && argc == 5)
        run(side, &row, strtoul(argv[4], NULL, 10));
    else if (strcmp(argv[1], "time") == 0)
        printf("%.1f\n", time_per_call(side, &row) - time_per_call(side_named("empty"), &row));
    else if (strcmp(argv[1], "stack") == 0)
        printf("%zu\n", stack_taken(side, &row) - stack_taken(side_named("empty"), &row));
    return 0;
}
