/* The words of a key's expansion (FIPS 197, 5.2), to look for them in memory: as the cipher has them, and mixed back as the inverse cipher may. For the
 * check of the stack alone: short, and not fast. */
#ifndef OUTSIDE_ROUND_KEYS_H
#define OUTSIDE_ROUND_KEYS_H

#include <stddef.h>
#include <stdint.h>

enum { ROUND_WORDS = 44 };

static inline uint8_t times(uint8_t a, uint8_t b) {
    uint8_t sum = 0;
    for (; b > 0; b >>= 1, a = (uint8_t)(a << 1 ^ (a >> 7) * 0x1b))
        if (b & 1) sum ^= a;
    return sum;
}

/* The inverse, which is the 254th power, and then its bits mixed. */
static inline uint8_t substituted(uint8_t a) {
    uint8_t inverse = 1, mixed = 0x63;
    for (int i = 0; i < 254; i++) inverse = times(inverse, a);
    for (int i = 0; i < 5; i++) mixed ^= (uint8_t)(inverse << i | inverse >> (8 - i));
    return mixed;
}

/* Word `i` has its first octet first. */
static inline void expanded(uint8_t words[ROUND_WORDS][4], const uint8_t key[16]) {
    uint8_t constant = 1;
    for (size_t i = 0; i < ROUND_WORDS; i++)
        for (size_t j = 0; j < 4; j++) {
            if (i < 4) words[i][j] = key[4 * i + j];
            else if (i % 4 > 0) words[i][j] = words[i - 4][j] ^ words[i - 1][j];
            else words[i][j] = words[i - 4][j] ^ substituted(words[i - 1][(j + 1) % 4]) ^ (j == 0 ? constant : 0);
            if (i >= 4 && i % 4 == 0 && j == 3) constant = times(constant, 2);
        }
}

/* A word as the equivalent inverse cipher has it (5.3.5). */
static inline void mixed_back(uint8_t out[4], const uint8_t word[4]) {
    static const uint8_t factors[4] = {14, 11, 13, 9};
    for (size_t i = 0; i < 4; i++) {
        out[i] = 0;
        for (size_t j = 0; j < 4; j++) out[i] ^= times(word[j], factors[(j + 4 - i) % 4]);
    }
}

#endif
