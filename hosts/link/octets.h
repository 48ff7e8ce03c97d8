/* Numbers in the bytes of a packet, the highest byte first. */
#pragma once
#include <stddef.h>
#include <stdint.h>

/* Returns the number in two bytes. */
static inline unsigned u16_at(const unsigned char *at) { return (unsigned)at[0] << 8 | at[1]; }

/* Returns the number in four bytes. */
static inline uint32_t u32_at(const unsigned char *at) { return (uint32_t)u16_at(at) << 16 | u16_at(at + 2); }

/* Writes a number into two bytes. */
static inline void put_u16(unsigned char *at, size_t number) {
    at[0] = (unsigned char)(number >> 8);
    at[1] = (unsigned char)number;
}
