/* Somebody's text in a message. */
#ifndef SHOWN_H
#define SHOWN_H

#include <stddef.h>
#include <stdio.h>

/* Writes the first n characters of a text, or its beginning where they are many. Whatever it holds does not reach the terminal as it is. */
void show_text(FILE *to, const char *text, size_t n);

#endif
