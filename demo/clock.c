/* The time, for what is waited for. */
#define _XOPEN_SOURCE 700
#include "clock.h"

#include <time.h>

long milliseconds(void)
{
    struct timespec now;
    clock_gettime(CLOCK_MONOTONIC, &now);
    return now.tv_sec * 1000L + now.tv_nsec / 1000000;
}
