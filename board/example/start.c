/* The start-up of a Cortex-M board: the first two words of the flash, and what runs ahead of main. It needs no C library. */
#include <stdint.h>

extern uint32_t data_in_flash[], data_begins[], data_ends[], bss_begins[], bss_ends[], stack_top[];
int main(void);
void reset(void);

/* Ends the emulator with main's result, where there is one: this is semihosting's "exit extended". A board itself has nowhere to go back to. */
static void end_emulator(int result)
{
    const uint32_t why_and_result[2] = { 0x20026, (uint32_t)result };
    register uint32_t order __asm__("r0") = 0x20;
    register const uint32_t *what __asm__("r1") = why_and_result;
    __asm__ volatile("bkpt 0xAB" : "+r"(order) : "r"(what) : "memory");
}

void reset(void)
{
    uint32_t *from = data_in_flash, *to;
    for (to = data_begins; to < data_ends; to++)
        *to = *from++;
    for (to = bss_begins; to < bss_ends; to++)
        *to = 0;
    end_emulator(main());
    for (;;) {
    }
}

/* A fault is none of this program's business: it stops there, where a debugger finds it. Under the emulator it ends with 99. */
static void fault(void)
{
    end_emulator(99);
    for (;;) {
    }
}

/* The first stack pointer, the reset, and the faults: what cannot be masked, hard, memory, bus and usage. This program lets no interrupt in. */
struct vectors {
    uint32_t *stack;
    void (*handlers[15])(void);
};
__attribute__((section(".vectors"), used)) static const struct vectors vectors = { stack_top, { reset, fault, fault, fault, fault, fault } };
