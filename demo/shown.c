/* Somebody's text in a message. */
#include "shown.h"

enum { MOST_SHOWN = 20 };

void show_text(FILE *to, const char *text, size_t n)
{
    for (size_t k = 0; k < n && k < MOST_SHOWN; k++)
        fputc(' ' < text[k] && text[k] <= '~' ? text[k] : '?', to);
    if (n > MOST_SHOWN)
        fputs("..", to);
}
