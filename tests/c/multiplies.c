/* What tests/multiply must report of compiled code, each function in another way, and one function that it must not report. */
#include <stdint.h>

uint64_t narrow(uint64_t a, uint64_t b)
{
    return a * b;
}

uint64_t wide(uint64_t a, uint64_t b)
{
    return (uint64_t)(((unsigned __int128)a * b) >> 64);
}

uint64_t tenth(uint64_t a)
{
    return a / 10; /* a compiler divides by a constant with a multiply */
}

double real(double a, double b)
{
    return a * b;
}

void lanes(uint16_t *restrict to, const uint16_t *restrict a, const uint16_t *restrict b)
{
    for (int i = 0; i < 64; i++)
        to[i] = (uint16_t)((unsigned)a[i] * b[i]);
}

uint64_t shifted(uint64_t a, unsigned k)
{
    return a << k;
}
