/* The first serial line of the board MPS2 (CMSDK APB UART), and its processor's clock (SysTick). For another board write these functions anew. */
#ifndef UART_H
#define UART_H

#include <stdint.h>

#define CLOCK_HZ 25000000u

/* 8 data bits, no parity, 1 stop bit, at this many bits per second. An emulator takes any rate. */
void uart_open(uint32_t bits_per_second);
void uart_send(uint8_t byte);
/* The next byte that came, or -1 where none did. */
int uart_received(void);

void clock_open(void);
/* The clock's ticks since a time, for up to half a second; both are what clock_now gave. */
uint32_t clock_now(void);
uint32_t clock_since(uint32_t before);

#endif
