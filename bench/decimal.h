/* A decimal, as the programs in C have it. */
#ifndef DECIMAL_H
#define DECIMAL_H

#include <stdbool.h>

typedef unsigned __int128 u128;

/* A mantissa below 10^34 that 10 doesn't divide, and an exponent; 0 and 0 for zero. */
typedef struct {
    u128 mantissa;
    int exponent;
    bool negative;
} decimal;

#endif
