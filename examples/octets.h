/* Numbers of two and four octets, the higher first, as the fields of a message have them. */
#ifndef EXAMPLES_OCTETS_H
#define EXAMPLES_OCTETS_H

#include <stdint.h>

static inline void put_two(uint8_t *at, unsigned n) {
    at[0] = (uint8_t)(n >> 8);
    at[1] = (uint8_t)n;
}

static inline void put_four(uint8_t *at, unsigned long n) {
    put_two(at, (unsigned)(n >> 16));
    put_two(at + 2, (unsigned)(n & 0xffff));
}

static inline unsigned two(const uint8_t *at) { return (unsigned)at[0] << 8 | at[1]; }

static inline unsigned long four(const uint8_t *at) { return (unsigned long)two(at) << 16 | two(at + 2); }

#endif
