/* Bytes from a line of hex. */
#include "hex.h"

#include <string.h>

int hex_digit(char c)
{
    if ('0' <= c && c <= '9')
        return c - '0';
    if ('A' <= c && c <= 'F')
        return c - 'A' + 10;
    return 'a' <= c && c <= 'f' ? c - 'a' + 10 : -1;
}

/* A master's own screen has a frame as [01][06], and a file may come from a system that ends its lines with two characters. */
static int is_between(char c)
{
    return c != '\0' && strchr(" \t\r[]", c) != NULL;
}

static size_t length_of_part(const char *text, size_t n)
{
    size_t length = 0;
    while (length < n && !is_between(text[length]))
        length++;
    return length;
}

/* The digits of one part of the text, two to a byte. */
static const char *take_part(const char *part, size_t n, uint8_t *bytes, size_t *bytes_n)
{
    size_t prefix = n > 2 && part[0] == '0' && (part[1] == 'x' || part[1] == 'X') ? 2 : 0;
    size_t alone = prefix > 0 && n == prefix + 1;
    for (size_t k = prefix; k < n; k++)
        if (hex_digit(part[k]) < 0)
            return "is not hex";
    if (alone) {
        bytes[(*bytes_n)++] = (uint8_t)hex_digit(part[prefix]);
        return NULL;
    }
    if (n % 2 != 0)
        return "has an odd number of digits, and a byte has two";
    for (size_t k = prefix; k < n; k += 2)
        bytes[(*bytes_n)++] = (uint8_t)(hex_digit(part[k]) << 4 | hex_digit(part[k + 1]));
    return NULL;
}

ptrdiff_t bytes_of_hex(const char *text, size_t n, uint8_t *bytes, struct hex_fault *fault)
{
    size_t bytes_n = 0;
    for (size_t at = 0; at < n; at++) {
        fault->at = at;
        fault->n = length_of_part(text + at, n - at);
        fault->why = fault->n > 0 ? take_part(text + at, fault->n, bytes, &bytes_n) : NULL;
        if (fault->why)
            return -1;
        at += fault->n;
    }
    return (ptrdiff_t)bytes_n;
}
