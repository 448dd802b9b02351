/* Numbers as bytes, the lowest byte first. */
#ifndef HOST_BYTES_H
#define HOST_BYTES_H

#include <stdint.h>

static inline void put_number(uint8_t *at, uint64_t number, int bytes)
{
    for (int k = 0; k < bytes; k++)
        at[k] = (uint8_t)(number >> 8 * k);
}

static inline uint64_t number_at(const uint8_t *at, int bytes)
{
    uint64_t number = 0;
    for (int k = bytes - 1; k >= 0; k--)
        number = number << 8 | at[k];
    return number;
}

#endif
