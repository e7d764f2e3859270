/* The time, for what is waited for. */
#ifndef CLOCK_H
#define CLOCK_H

long milliseconds(void);

#endif
