/* What lacking.h has in the place of instructions, beside the operators of C. It is compiled for this machine, with the names of a Cortex-M0+'s functions. */
#include <stdint.h>
#include <stdio.h>
#include <string.h>

#define COMPILED_HERE
#include "../lacking.h"

static unsigned long tried, failed;

static void expect(int good, const char *what, uint64_t a, uint64_t b)
{
    tried++;
    if (good)
        return;
    if (failed++ < 5)
        printf("FAILED: %s of %llx and %llx\n", what, (unsigned long long)a, (unsigned long long)b);
}

static void try_numbers(uint64_t a, uint64_t b)
{
    uint32_t n = (uint32_t)a, by = (uint32_t)b;
    expect(__aeabi_lmul(a, b) == a * b, "the product", a, b);
    if (by != 0)
        expect(__aeabi_uidivmod(n, by) == ((uint64_t)(n % by) << 32 | n / by), "quotient and remainder", n, by);
}

static void try_copy(size_t n)
{
    uint8_t from[80], to[80], whole[80];
    size_t k;
    for (k = 0; k < sizeof from; k++)
        from[k] = (uint8_t)(k + 1);
    memset(to, 0xA5, sizeof to);
    memset(whole, 0xA5, sizeof whole);
    memcpy(whole + 8, from + 3, n);
    __aeabi_memcpy(to + 8, from + 3, n);
    expect(memcmp(to, whole, sizeof to) == 0, "the copy", n, 0);
}

/* Numbers next to every power of two, each with each; and made ones. */
int main(void)
{
    uint64_t made = 20261116;
    unsigned i, j, near;
    size_t n;
    for (i = 0; i < 64; i++)
        for (j = 0; j < 64; j++)
            for (near = 0; near < 9; near++)
                try_numbers(((uint64_t)1 << i) + near % 3 - 1, ((uint64_t)1 << j) + near / 3 - 1);
    for (i = 0; i < 200000; i++) {
        uint64_t a = made = made * 6364136223846793005u + 1442695040888963407u;
        made = made * 6364136223846793005u + 1442695040888963407u;
        try_numbers(a >> (i & 63), made >> (i >> 6 & 63));
    }
    for (n = 0; n <= 64; n++)
        try_copy(n);
    if (failed != 0)
        return 1;
    printf("what processors lack, beside C's own operators: %lu products, divisions and copies\n", tried);
    return 0;
}
