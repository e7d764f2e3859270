/* What the compiler calls where a processor has no instruction for it, private to the archive: so the archive calls nothing, and takes no part in the
 * firmware's choice of a memcpy. The names are the compiler's, the functions this object's own (static); "used", since only the compiler calls them.
 * The module copies a few structs of some 15 bytes, so that the shortest loop does. COMPILED_HERE has what a test compares with C's own operators. */
#ifndef LACKING_H
#define LACKING_H

#include <stddef.h>
#include <stdint.h>

#define CALLED_BY_COMPILER static __attribute__((used))

#if defined(__arm__) || defined(COMPILED_HERE)
CALLED_BY_COMPILER void __aeabi_memcpy(uint8_t *to, const uint8_t *from, size_t n)
{
    while (n != 0) {
        n--;
        to[n] = from[n];
    }
}
#endif

#if defined(__arm__)
/* Nothing that is passed has a type whose size or register the firmware's options set: no enum (26), and no float (28). */
__asm__(".eabi_attribute 26, 0");
__asm__(".eabi_attribute 28, 3");
#endif

#if defined(__riscv) || defined(__aarch64__)
CALLED_BY_COMPILER void *memcpy(uint8_t *to, const uint8_t *from, size_t n)
{
    while (n != 0) {
        n--;
        to[n] = from[n];
    }
    return to;
}
#endif

#if defined(__ARM_ARCH_6M__) || defined(COMPILED_HERE)
/* The lower 64 bits of a product, of halves of 16 bits, since a product has 32. */
CALLED_BY_COMPILER uint64_t __aeabi_lmul(uint64_t a, uint64_t b)
{
    uint32_t a_low = (uint32_t)a, b_low = (uint32_t)b;
    uint32_t low = (a_low & 0xFFFF) * (b_low & 0xFFFF);
    uint32_t middle = (a_low >> 16) * (b_low & 0xFFFF) + (low >> 16);
    uint32_t other = (a_low & 0xFFFF) * (b_low >> 16) + (middle & 0xFFFF);
    uint32_t high = (a_low >> 16) * (b_low >> 16) + (middle >> 16) + (other >> 16);
    high += a_low * (uint32_t)(b >> 32) + (uint32_t)(a >> 32) * b_low;
    return (uint64_t)high << 32 | other << 16 | (low & 0xFFFF);
}

/* The quotient in the lower half and the remainder in the upper one, digit by digit. The module divides by nothing that is 0. */
CALLED_BY_COMPILER uint64_t __aeabi_uidivmod(uint32_t n, uint32_t by)
{
    uint32_t quotient = 0, rest = 0;
    int digit;
    for (digit = 31; digit >= 0; digit--) {
        uint32_t carried = rest >> 31;
        rest = rest << 1 | (n >> digit & 1);
        if (carried != 0 || rest >= by) {
            rest -= by;
            quotient |= (uint32_t)1 << digit;
        }
    }
    return (uint64_t)rest << 32 | quotient;
}
#endif

#endif
