/* The message keys of an authorization key, derived from its AUTH-Key (document 000, 11.4 and I.4.3): SHA-1 (FIPS 180-4) of 64 octets 5c, for what goes
 * up, or 3a, for what goes down, and the AUTH-Key. Both places say 63 octets; only 64, a whole block of SHA-1, give the keys that are printed there. For the
 * examples: short, and not fast. Deriving the keys is the caller's part. */
#ifndef EXAMPLES_MESSAGE_KEYS_H
#define EXAMPLES_MESSAGE_KEYS_H

#include "curlewreel.h"
#include <string.h>

typedef struct {
    uint8_t up[CURLEWREEL_OCTETS_MESSAGE_KEY], down[CURLEWREEL_OCTETS_MESSAGE_KEY];
} message_keys;

enum { SHA1_BLOCK = 64, SHA1_ROUNDS = 80, SHA1_WORDS = 5, SHA1_LENGTH = 8 };

static inline uint32_t rotated(uint32_t word, int by) { return word << by | word >> (32 - by); }

/* The words after one more block. */
static inline void sha1_block(uint32_t words[SHA1_WORDS], const uint8_t *block) {
    uint32_t w[SHA1_ROUNDS], a = words[0], b = words[1], c = words[2], d = words[3], e = words[4];
    for (int t = 0; t < 16; t++)
        w[t] = (uint32_t)block[4 * t] << 24 | (uint32_t)block[4 * t + 1] << 16 | (uint32_t)block[4 * t + 2] << 8 | block[4 * t + 3];
    for (int t = 16; t < SHA1_ROUNDS; t++) w[t] = rotated(w[t - 3] ^ w[t - 8] ^ w[t - 14] ^ w[t - 16], 1);
    for (int t = 0; t < SHA1_ROUNDS; t++) {
        uint32_t mixed = t < 20   ? ((b & c) | (~b & d)) + 0x5a827999
                         : t < 40 ? (b ^ c ^ d) + 0x6ed9eba1
                         : t < 60 ? ((b & c) | (b & d) | (c & d)) + 0x8f1bbcdc
                                  : (b ^ c ^ d) + 0xca62c1d6;
        uint32_t next = rotated(a, 5) + mixed + e + w[t];
        e = d;
        d = c;
        c = rotated(b, 30);
        b = a;
        a = next;
    }
    words[0] += a;
    words[1] += b;
    words[2] += c;
    words[3] += d;
    words[4] += e;
}

/* One message key: `pad` 64 times, then the AUTH-Key, of at most 256 octets. */
static inline void message_key(uint8_t *key, uint8_t pad, const uint8_t *auth_key, size_t n) {
    uint32_t words[SHA1_WORDS] = {0x67452301, 0xefcdab89, 0x98badcfe, 0x10325476, 0xc3d2e1f0};
    uint8_t summed[SHA1_BLOCK + CURLEWREEL_OCTETS_AUTH_KEY + SHA1_BLOCK] = {0};
    size_t octets = SHA1_BLOCK + n, end = (octets + SHA1_LENGTH) / SHA1_BLOCK * SHA1_BLOCK + SHA1_BLOCK;
    memset(summed, pad, SHA1_BLOCK);
    memcpy(summed + SHA1_BLOCK, auth_key, n);
    summed[octets] = 0x80; /* behind the octets a bit, and at the end of the last block how many bits they are */
    summed[end - 2] = (uint8_t)(octets * 8 >> 8);
    summed[end - 1] = (uint8_t)(octets * 8);
    for (size_t at = 0; at < end; at += SHA1_BLOCK) sha1_block(words, summed + at);
    for (int i = 0; i < CURLEWREEL_OCTETS_MESSAGE_KEY; i++) key[i] = (uint8_t)(words[i / 4] >> (24 - i % 4 * 8));
}

static inline message_keys derived(const uint8_t *auth_key, size_t n) {
    message_keys keys;
    message_key(keys.up, 0x5c, auth_key, n);
    message_key(keys.down, 0x3a, auth_key, n);
    return keys;
}

#endif
