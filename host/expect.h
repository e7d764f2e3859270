/* What a host test expects: a line for each expectation that fails, and one line at the end that says what was checked. */
#ifndef EXPECT_H
#define EXPECT_H

/* Names the case at hand, for the lines of what fails. */
void at_case(const char *format, ...);

/* Counts an expectation, and says it where it does not hold. */
void expect(int holds, const char *what);

/* Counts an expectation on two numbers. */
void expect_number(unsigned long expected, unsigned long got, const char *what);

/* The last line of a test, and its exit status. */
int told(const char *what);

#endif
