#include "uart.h"

struct uart {
    volatile uint32_t data, state, control, interrupts, divisor;
};
#define UART ((struct uart *)0x40004000)

struct systick {
    volatile uint32_t control, reload, value;
};
#define SYSTICK ((struct systick *)0xE000E010)

enum { SEND_FULL = 1, RECEIVE_FULL = 2, SEND_AND_RECEIVE = 3, TICK_BY_PROCESSOR = 5, LAST_TICK = 0xFFFFFF };

void uart_open(uint32_t bits_per_second)
{
    UART->divisor = CLOCK_HZ / bits_per_second;
    UART->control = SEND_AND_RECEIVE;
}

void uart_send(uint8_t byte)
{
    while (UART->state & SEND_FULL) {
    }
    UART->data = byte;
}

int uart_received(void)
{
    return UART->state & RECEIVE_FULL ? (int)UART->data : -1;
}

void clock_open(void)
{
    SYSTICK->reload = LAST_TICK;
    SYSTICK->value = 0;
    SYSTICK->control = TICK_BY_PROCESSOR;
}

uint32_t clock_now(void)
{
    return SYSTICK->value;
}

/* It counts down, and from 0 on again from the last tick. */
uint32_t clock_since(uint32_t before)
{
    return (before - SYSTICK->value) & LAST_TICK;
}
