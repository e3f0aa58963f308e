/* Frames sealed here, from C: a head-end and a modem come to keys of suite 768, and each seals a frame's octets that the other opens, with no cipher block
 * at either end. A last frame is sealed here and opened by the call that gives the key, as a modem with a block would. Keys and frames are those of
 * document 000's I.10, so the sealed octets are the ones printed there. */
#include "message_keys.h"
#include "settings.h"
#include <stdio.h>

enum { SAID = 8800, ADDRESS = 77, LONGEST = 64 };

/* TEK and vector of the first key, which the head-end seals with, then of the second, which the modem seals with. A head-end takes random octets. */
static const uint8_t material[CURLEWREEL_OCTETS_MATERIAL] = {
    0xe6, 0x60, 0x0f, 0xd8, 0x85, 0x2e, 0xf5, 0xab, 0xe6, 0x60, 0x0f, 0xd8, 0x85, 0x2e, 0xf5, 0xab,
    0x81, 0x0e, 0x52, 0x8e, 0x1c, 0x5f, 0xda, 0x1a, 0x81, 0x0e, 0x52, 0x8e, 0x1c, 0x5f, 0xda, 0x1a,
    0x01, 0x23, 0x45, 0x67, 0x89, 0xab, 0xcd, 0xef, 0x01, 0x23, 0x45, 0x67, 0x89, 0xab, 0xcd, 0xef,
    0x12, 0x34, 0x56, 0x78, 0x90, 0xab, 0xcd, 0xef, 0x12, 0x34, 0x56, 0x78, 0x90, 0xab, 0xcd, 0xef,
};

/* The two addresses, which stay clear, and what is behind them: a block and three octets, one block, seven octets. */
#define ADDRESSES 0x01, 0x02, 0x03, 0x04, 0x05, 0x06, 0xf1, 0xf2, 0xf3, 0xf4, 0xf5, 0xf6
static const uint8_t block_and_three[] = {ADDRESSES, 0x00, 0x01, 0x02, 0x03, 0x04, 0x05, 0x06, 0x07, 0x08, 0x09,
                                          0x0a,      0x0b, 0x0c, 0x0d, 0x0e, 0x91, 0xd2, 0xd1, 0x9f};
static const uint8_t one_block[] = {ADDRESSES, 'N', 'o', 'w', ' ', 'i', 's', ' ', 't', 'h', 'e', ' ', 't', 'i', 'm', 'e', ' '};
static const uint8_t seven[] = {ADDRESSES, 0x00, 0x01, 0x02, 0x88, 0xee, 0x59, 0x7e};
static const uint8_t only_addresses[] = {ADDRESSES};

static const uint8_t auth_key[] = {1, 2, 3, 4};
static message_keys keys; /* of the one authorization key, the same at both ends; both.c shows where a modem has its from */
static curlewreel_headend headend;
static curlewreel_record records[CURLEWREEL_RECORDS];
static curlewreel_modem modem;
static uint8_t up[CURLEWREEL_OCTETS_SENT], down[CURLEWREEL_OCTETS_ANSWER];
static uint8_t sealed[LONGEST], opened[LONGEST], invalid[CURLEWREEL_OCTETS_INVALID];

static void print_octets(const char *name, const uint8_t *octets, size_t n) {
    printf("  %s", name);
    for (size_t i = 0; i < n; i++) printf(" %02x", octets[i]);
    printf("\n");
}

/* A message of the modem goes up, and the answer comes down; gives how many octets the modem sends then. */
static size_t exchange(const uint8_t *message) {
    curlewreel_headend_call answered =
        curlewreel_headend_receive(headend, records, CURLEWREEL_RECORDS, ADDRESS, message, curlewreel_message_octets(message), keys.up,
                                   sizeof keys.up, keys.down, sizeof keys.down, auth_key, sizeof auth_key, down, sizeof down);
    headend = answered.headend;
    printf("code %d: %d, ", message[0], answered.number);
    curlewreel_modem_call taken = curlewreel_modem_receive(modem, down, answered.count, keys.down, sizeof keys.down, keys.up,
                                                           sizeof keys.up, up, sizeof up);
    modem = taken.modem;
    printf("code %d: %d\n", down[0], taken.number);
    return taken.count;
}

/* A listing, authorization and a key exchange. */
static void come_to_keys(void) {
    curlewreel_listing listing = {.count = 1, .saids = {SAID}, .suites = {CURLEWREEL_SUITE_AES}};
    keys = derived(auth_key, sizeof auth_key);
    headend = curlewreel_headend_new(settings).headend;
    headend = curlewreel_headend_list(headend, records, CURLEWREEL_RECORDS, ADDRESS, 1, listing, material, sizeof material).headend;
    modem = curlewreel_modem_new(settings, ADDRESS, SAID).modem;
    modem = curlewreel_modem_established(modem, up, sizeof up).modem;
    exchange(up + CURLEWREEL_OCTETS_HEAD); /* the Authentication Information before it gets no answer */
    exchange(up);
}

static void print_frame(const char *name, uint8_t answer, uint8_t key, const uint8_t *frame, size_t n) {
    printf("%s: %d, key %d\n", name, answer, key);
    print_octets("frame ", frame, n);
    print_octets("sealed", sealed, n);
}

/* The head-end seals a frame, and the modem opens it. */
static void frame_down(const uint8_t *frame, size_t n) {
    curlewreel_sealed s =
        curlewreel_headend_seal_frame(headend, records, CURLEWREEL_RECORDS, ADDRESS, SAID, frame, n, sealed, sizeof sealed);
    print_frame("sealed at the head-end", s.number, s.key, frame, n);
    curlewreel_modem_opening o = curlewreel_modem_open_frame(modem, CURLEWREEL_DOWN, ADDRESS, SAID, s.key, sealed, s.width, keys.up,
                                                             sizeof keys.up, opened, sizeof opened, up, sizeof up);
    modem = o.modem;
    printf("opened at the modem: %d\n", o.number);
    print_octets("opened", opened, o.width);
}

/* The modem seals a frame, and the head-end opens it. */
static void frame_up(const uint8_t *frame, size_t n) {
    curlewreel_sealed s = curlewreel_modem_seal_frame(modem, SAID, frame, n, sealed, sizeof sealed);
    print_frame("sealed at the modem", s.number, s.key, frame, n);
    curlewreel_headend_opening o =
        curlewreel_headend_open_frame(headend, records, CURLEWREEL_RECORDS, CURLEWREEL_UP, ADDRESS, SAID, s.key, sealed, s.width,
                                      keys.down, sizeof keys.down, opened, sizeof opened, invalid, sizeof invalid);
    headend = o.headend;
    printf("opened at the head-end: %d\n", o.number);
    print_octets("opened", opened, o.width);
}

/* The head-end seals a frame, and the modem gets the key that opens it, for its block. */
static void frame_to_block(const uint8_t *frame, size_t n) {
    uint8_t tek[CURLEWREEL_OCTETS_TEK], vector[CURLEWREEL_OCTETS_VECTOR];
    curlewreel_sealed s =
        curlewreel_headend_seal_frame(headend, records, CURLEWREEL_RECORDS, ADDRESS, SAID, frame, n, sealed, sizeof sealed);
    print_frame("sealed at the head-end", s.number, s.key, frame, n);
    curlewreel_modem_opening o = curlewreel_modem_open(modem, CURLEWREEL_DOWN, ADDRESS, SAID, s.key, keys.up, sizeof keys.up, tek,
                                                       sizeof tek, vector, sizeof vector, up, sizeof up);
    modem = o.modem;
    printf("its key at the modem: %d, %zu octets of TEK and of vector each\n", o.number, o.width);
    print_octets("TEK   ", tek, o.width);
    print_octets("vector", vector, o.width);
}

int main(void) {
    come_to_keys();
    frame_down(block_and_three, sizeof block_and_three);
    frame_up(one_block, sizeof one_block);
    frame_up(only_addresses, sizeof only_addresses); /* carried as it is, and counted */
    frame_to_block(seven, sizeof seven);
    curlewreel_sealed s = curlewreel_modem_seal_frame(modem, SAID, one_block, CURLEWREEL_OCTETS_FRAME - 1, sealed, sizeof sealed);
    printf("a frame of 11 octets: %d, %s\n", s.number, curlewreel_refusal_name(s.number));
    curlewreel_wipe_stack();
    printf("head-end: %d frames taken, %d refused; modem: %d, %d\n", (int)headend.taken, (int)headend.refused, (int)modem.taken,
           (int)modem.refused);
    return 0;
}
