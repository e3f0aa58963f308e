/* The frame decision from C: a held pair of 8-octet keys, numbers 2 and 3, at a few seconds. */
#include "curlewreel.h"
#include <stdio.h>
#include <string.h>

enum { OLDER = 2, OLDER_DEADLINE = 900, NEWER = 3, NEWER_DEADLINE = 1800, WIDTH = 8 };

/* Where each stands in `keys`. */
enum {
    OLDER_TEK = 0,
    OLDER_VECTOR = OLDER_TEK + CURLEWREEL_OCTETS_TEK,
    NEWER_TEK = OLDER_VECTOR + CURLEWREEL_OCTETS_VECTOR,
    NEWER_VECTOR = NEWER_TEK + CURLEWREEL_OCTETS_TEK
};

static uint8_t keys[CURLEWREEL_OCTETS_KEYS], tek[CURLEWREEL_OCTETS_TEK], vector[CURLEWREEL_OCTETS_VECTOR];

static void ask(uint64_t clock, uint8_t number, size_t tek_len) {
    memset(tek, 0xee, sizeof tek);
    memset(vector, 0xee, sizeof vector);
    uint8_t answer = curlewreel_frame(clock, OLDER, OLDER_DEADLINE, NEWER, NEWER_DEADLINE, WIDTH, keys, sizeof keys, number, tek, tek_len,
                                      vector, sizeof vector);
    printf("clock %llu, frame %u: %u", (unsigned long long)clock, number, answer);
    printf("  tek");
    for (size_t i = 0; i < sizeof tek; i++) printf(" %02x", tek[i]);
    printf("  vector %02x .. %02x\n", vector[0], vector[sizeof vector - 1]);
}

int main(void) {
    for (int i = 0; i < WIDTH; i++) {
        keys[OLDER_TEK + i] = (uint8_t)(0x10 + i);
        keys[OLDER_VECTOR + i] = (uint8_t)(0x20 + i);
        keys[NEWER_TEK + i] = (uint8_t)(0x30 + i);
        keys[NEWER_VECTOR + i] = (uint8_t)(0x40 + i);
    }
    ask(899, OLDER, sizeof tek);                          /* the older opens it */
    ask(900, OLDER, sizeof tek);                          /* its deadline has come: 13 */
    ask(900, NEWER, sizeof tek);                          /* the newer */
    ask(900, NEWER + 1, sizeof tek);                      /* no key has this number: 13 */
    ask(900, CURLEWREEL_KEY_NUMBER_MAX + 1, sizeof tek); /* no such number: 1 */
    ask(900, NEWER, sizeof tek - 1);                      /* a short slice: 2 */
    keys[OLDER_TEK + WIDTH] = 1;
    ask(900, NEWER, sizeof tek);                          /* an octet past the width: 1 */
    curlewreel_wipe_stack();
    return 0;
}
