/* Both ends from C: a listing, authorization, a key exchange, a frame each way, a rollover, and a frame each way after it. Each end derives its message
 * keys from the AUTH-Key, the modem from the one that its Authorization Reply brings. */
#include "message_keys.h"
#include "octets.h"
#include "settings.h"
#include <stdio.h>
#include <string.h>

enum { SAID = 8800, ADDRESS = 77, SHOWN = 4 };

static const uint8_t auth_key[] = {1, 2, 3, 4};
static const uint8_t allowed = 1;
static curlewreel_headend headend;
static curlewreel_record records[CURLEWREEL_RECORDS];
static curlewreel_modem modem;
static message_keys headend_keys, modem_keys; /* of the one authorization key that there is here */
static uint8_t material[CURLEWREEL_OCTETS_MATERIAL], up[CURLEWREEL_OCTETS_SENT], down[CURLEWREEL_OCTETS_ANSWER];

static void print_octets(const char *name, const uint8_t *octets, size_t n) {
    printf("%s", name);
    for (size_t i = 0; i < n; i++) printf(" %02x", octets[i]);
}

/* What a call put out: messages end to end, each with its own length. */
static void print_messages(const char *name, uint8_t number, const uint8_t *octets, size_t n) {
    printf("%s: %d", name, number);
    for (size_t at = 0; at < n;) {
        size_t length = curlewreel_message_octets(octets + at);
        printf(", code %d of %zu octets", octets[at], length);
        at += length;
    }
    printf("\n");
}

static size_t at_headend(const char *name, curlewreel_headend_call call) {
    headend = call.headend;
    print_messages(name, call.number, down, call.count);
    return call.count;
}

static size_t at_modem(const char *name, curlewreel_modem_call call) {
    modem = call.modem;
    print_messages(name, call.number, up, call.count);
    return call.count;
}

/* The first message of those in `octets` that has the code, or null. */
static const uint8_t *with_code(uint8_t code, const uint8_t *octets, size_t n) {
    for (size_t at = 0; at < n; at += curlewreel_message_octets(octets + at))
        if (octets[at] == code) return octets + at;
    return NULL;
}

/* The modem's keys once it has taken a message: its own, or those of the AUTH-Key that an Authorization Reply brings. In the field the AUTH-Key is
 * encrypted for the modem. */
static message_keys keys_after(const uint8_t *message, size_t n) {
    static const uint8_t any_key[CURLEWREEL_OCTETS_MESSAGE_KEY];
    uint8_t fields[CURLEWREEL_FIELDS];
    uint8_t number = curlewreel_read(CURLEWREEL_MODEM, message, n, any_key, sizeof any_key, fields, sizeof fields);
    if (number != CURLEWREEL_DONE || fields[CURLEWREEL_FIELD_CODE] != CURLEWREEL_MESSAGE_AUTHORIZATION_REPLY) return modem_keys;
    return derived(message + two(fields + CURLEWREEL_FIELD_KEY_START), two(fields + CURLEWREEL_FIELD_KEY_LENGTH));
}

/* A message comes down. What the modem sends on an Authorization Reply goes under the Reply's own keys already; they are kept only where the Reply
 * was taken, since one that is refused, an old copy say, must not cost the keys that count. */
static size_t deliver(size_t n) {
    message_keys after = keys_after(down, n);
    curlewreel_modem_call call = curlewreel_modem_receive(modem, down, n, modem_keys.down, sizeof modem_keys.down, after.up,
                                                          sizeof after.up, up, sizeof up);
    if (call.number == CURLEWREEL_DONE) modem_keys = after;
    return at_modem("  modem", call);
}

/* The message with that code, of `n` octets that the modem put out, goes up, and the answer comes down; gives how many octets the modem sends
 * then. */
static size_t exchange(uint8_t code, size_t n) {
    const uint8_t *message = with_code(code, up, n);
    if (message == NULL) return 0;
    curlewreel_headend_call answered =
        curlewreel_headend_receive(headend, records, CURLEWREEL_RECORDS, ADDRESS, message, curlewreel_message_octets(message),
                                   headend_keys.up, sizeof headend_keys.up, headend_keys.down, sizeof headend_keys.down, auth_key,
                                   sizeof auth_key, down, sizeof down);
    return deliver(at_headend("  head-end", answered));
}

/* What seals or opens a frame. */
typedef struct {
    uint8_t tek[CURLEWREEL_OCTETS_TEK], vector[CURLEWREEL_OCTETS_VECTOR];
} secret;

/* A frame is well where it was opened, and with the TEK and vector that sealed it. */
static void print_frame(const char *name, uint8_t number, uint8_t key, const secret *sealed, const secret *opened) {
    int same = number == CURLEWREEL_DONE && memcmp(sealed, opened, sizeof *sealed) == 0;
    printf("%s: %d, key %d, TEK", name, number, key);
    print_octets("", sealed->tek, SHOWN);
    print_octets(" and", opened->tek, SHOWN);
    printf(", %s\n", same ? "the same" : "not the same");
}

/* One end seals with a key, and the other opens a frame of that key's number. */
static void frames(void) {
    secret sealed = {{0}, {0}}, opened = {{0}, {0}};
    uint8_t invalid[CURLEWREEL_OCTETS_INVALID];
    curlewreel_sealed s = curlewreel_headend_seal(headend, records, CURLEWREEL_RECORDS, ADDRESS, SAID, sealed.tek, sizeof sealed.tek,
                                                  sealed.vector, sizeof sealed.vector);
    curlewreel_modem_opening o =
        curlewreel_modem_open(modem, CURLEWREEL_DOWN, ADDRESS, SAID, s.key, modem_keys.up, sizeof modem_keys.up, opened.tek,
                              sizeof opened.tek, opened.vector, sizeof opened.vector, up, sizeof up);
    modem = o.modem;
    print_frame("frame down", o.number, s.key, &sealed, &opened);
    s = curlewreel_modem_seal(modem, SAID, sealed.tek, sizeof sealed.tek, sealed.vector, sizeof sealed.vector);
    curlewreel_headend_opening p =
        curlewreel_headend_open(headend, records, CURLEWREEL_RECORDS, CURLEWREEL_UP, ADDRESS, SAID, s.key, headend_keys.down,
                                sizeof headend_keys.down, opened.tek, sizeof opened.tek, opened.vector, sizeof opened.vector, invalid,
                                sizeof invalid);
    headend = p.headend;
    print_frame("frame up", p.number, s.key, &sealed, &opened);
}

/* The clock of both ends; material for new keys, an octet of its own for each place, where a head-end takes random ones. */
static size_t clocks(uint64_t second) {
    uint64_t half_lives = second / (settings.tek_life / 2);
    for (size_t i = 0; i < sizeof material; i++) material[i] = (uint8_t)(half_lives * sizeof material + i);
    at_headend("head-end's clock",
               curlewreel_headend_clock(headend, records, CURLEWREEL_RECORDS, second, material, sizeof material));
    return at_modem("modem's clock", curlewreel_modem_clock(modem, second, modem_keys.up, sizeof modem_keys.up, up, sizeof up));
}

int main(void) {
    curlewreel_listing listing = {.count = 1, .saids = {SAID}, .suites = {CURLEWREEL_SUITE_DES}};
    for (size_t i = 0; i < sizeof material; i++) material[i] = (uint8_t)(i + 1);
    headend_keys = derived(auth_key, sizeof auth_key);
    at_headend("head-end", curlewreel_headend_new(settings));
    at_headend("listing", curlewreel_headend_list(headend, records, CURLEWREEL_RECORDS, ADDRESS, allowed, listing, material, sizeof material));
    at_modem("modem", curlewreel_modem_new(settings, ADDRESS, SAID));

    size_t n = at_modem("established", curlewreel_modem_established(modem, up, sizeof up));
    n = exchange(CURLEWREEL_MESSAGE_AUTHORIZATION_REQUEST, n); /* the Authentication Information before it gets no answer */
    exchange(CURLEWREEL_MESSAGE_KEY_REQUEST, n);
    frames();

    clocks(settings.tek_life / 2);
    n = clocks(settings.tek_life - settings.tek_grace); /* the newer key's end less the grace: the modem asks anew */
    exchange(CURLEWREEL_MESSAGE_KEY_REQUEST, n);
    frames();
    curlewreel_wipe_stack();
    printf("head-end: %d frames taken, %d refused; modem: %d, %d\n", (int)headend.taken, (int)headend.refused, (int)modem.taken,
           (int)modem.refused);
    return 0;
}
