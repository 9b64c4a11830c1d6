/* A double and its bits, both ways, and some that the programs here look for. */
#ifndef BITS_H
#define BITS_H

#include <stdint.h>
#include <string.h>

#define SIGN 0x8000000000000000u
#define ONE 0x3FF0000000000000u
#define INFINITE 0x7FF0000000000000u
/* the one NaN of root, signum and a factor that stops */
#define THE_NAN 0x7FF8000000000000u
/* a quiet NaN, one with sign and payload, and two signalling ones likewise */
#define FOUR_NANS THE_NAN, 0xFFFC0000DEADBEEFu, 0x7FF0000000000001u, 0xFFF4000000C0FFEEu
#define BOTH_INFINITIES INFINITE, SIGN | INFINITE

static inline double double_of(uint64_t bits)
{
    double x;
    memcpy(&x, &bits, sizeof x);
    return x;
}

static inline uint64_t bits_of(double x)
{
    uint64_t bits;
    memcpy(&bits, &x, sizeof bits);
    return bits;
}

#endif
