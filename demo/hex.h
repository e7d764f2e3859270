/* Bytes from a line of hex. */
#ifndef HEX_H
#define HEX_H

#include <stddef.h>
#include <stdint.h>

/* What a digit of either case stands for; -1 for a character that is none. */
int hex_digit(char c);

/* Where a text is not hex: its part from a character on, so many characters long, and what is wrong with it. */
struct hex_fault {
    size_t at, n;
    const char *why;
};

/* The most bytes that a text of n characters can have. */
#define HEX_ROOM(n) (((n) + 1) / 2)

/* Writes the bytes of a text of n characters, and hands back how many there are; -1 where it is not hex. A byte is two digits of either case. Between
   bytes there may be blanks, tabs or square brackets, or nothing; in front of one, 0x, and then it may have one digit. */
ptrdiff_t bytes_of_hex(const char *text, size_t n, uint8_t *bytes, struct hex_fault *fault);

#endif
