/* Counts what is expected and what fails. What is said is flushed at once: a test may end by a signal, with its output in a file. */
#include "expect.h"

#include <stdarg.h>
#include <stdio.h>

/* Failures that are printed; the others are only counted. */
#define PRINTED 20

static char case_name[200];
static unsigned long expected_count, failed_count;

void at_case(const char *format, ...)
{
    va_list values;
    va_start(values, format);
    vsnprintf(case_name, sizeof case_name, format, values);
    va_end(values);
}

static int may_print(int holds)
{
    expected_count++;
    if (holds)
        return 0;
    failed_count++;
    return failed_count <= PRINTED;
}

void expect(int holds, const char *what)
{
    if (!may_print(holds))
        return;
    printf("FAILED: %s: %s\n", case_name, what);
    fflush(stdout);
}

void expect_number(unsigned long expected, unsigned long got, const char *what)
{
    if (!may_print(expected == got))
        return;
    printf("FAILED: %s: %s: expected %lX, got %lX\n", case_name, what, expected, got);
    fflush(stdout);
}

int told(const char *what)
{
    printf("%s: %lu expectations, %lu failed\n", what, expected_count, failed_count);
    fflush(stdout);
    return failed_count != 0 || expected_count == 0;
}
