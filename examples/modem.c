/* A modem from C: authorization, a Key Reply, a frame each way, and what is refused. The head-end's messages are made with
 * curlewreel_write. */
#include "message_keys.h"
#include "octets.h"
#include "settings.h"
#include <stdio.h>
#include <string.h>

enum { ADDRESS = 77, OWN_SAID = 5, SAID = 9, WIDTH = 8 };

static curlewreel_modem modem;
static uint8_t fields[CURLEWREEL_FIELDS], message[CURLEWREEL_OCTETS_ANSWER], out[CURLEWREEL_OCTETS_SENT];
static uint8_t tek[CURLEWREEL_OCTETS_TEK], vector[CURLEWREEL_OCTETS_VECTOR];
static const uint8_t auth_key[4] = {1, 2, 3, 4};
static message_keys keys;

static void print_octets(const uint8_t *octets, size_t n) {
    for (size_t i = 0; i < n; i++) printf(" %02x", octets[i]);
    printf("\n");
}

static void done(const char *name, curlewreel_modem_call call) {
    modem = call.modem;
    printf("%s: %d, authorization %c, sends", name, call.number, 'A' + modem.authorization.state);
    print_octets(out, call.count);
}

/* A message of the fields comes down, and is read with `n` octets of a key. What the modem sends then goes up under its own. */
static void comes(const char *name, const uint8_t *read_key, size_t n) {
    curlewreel_written w = curlewreel_write(fields, sizeof fields, auth_key, sizeof auth_key, keys.down, sizeof keys.down, message, sizeof message);
    done(name, curlewreel_modem_receive(modem, message, w.count, read_key, n, keys.up, sizeof keys.up, out, sizeof out));
}

static void put_params(uint8_t *at, uint8_t number, unsigned long life, uint8_t octet) {
    at[CURLEWREEL_PARAMS_NUMBER] = number;
    put_four(at + CURLEWREEL_PARAMS_LIFE, life);
    at[CURLEWREEL_PARAMS_TEK_WIDTH] = at[CURLEWREEL_PARAMS_VECTOR_WIDTH] = WIDTH;
    memset(at + CURLEWREEL_PARAMS_TEK, octet, WIDTH);
    memset(at + CURLEWREEL_PARAMS_VECTOR, octet + 1, WIDTH);
}

static void authorization_reply(void) {
    uint8_t *descriptor = fields + CURLEWREEL_FIELD_DESCRIPTORS;
    fields[CURLEWREEL_FIELD_CODE] = CURLEWREEL_MESSAGE_AUTHORIZATION_REPLY;
    fields[CURLEWREEL_FIELD_IDENTIFIER] = modem.authorization.identifier;
    fields[CURLEWREEL_FIELD_COUNT] = 1;
    put_four(fields + CURLEWREEL_FIELD_LIFE, 65536);
    put_two(descriptor + CURLEWREEL_DESCRIPTOR_SAID, SAID);
    put_two(descriptor + CURLEWREEL_DESCRIPTOR_SUITE, CURLEWREEL_SUITE_DES);
    comes("Authorization Reply", keys.down, sizeof keys.down); /* it carries no digest, and any 20 octets do */
}

static void key_reply(void) {
    memset(fields, 0, sizeof fields);
    fields[CURLEWREEL_FIELD_CODE] = CURLEWREEL_MESSAGE_KEY_REPLY;
    fields[CURLEWREEL_FIELD_IDENTIFIER] = modem.teks[0].identifier;
    put_two(fields + CURLEWREEL_FIELD_SAID, SAID);
    put_params(fields + CURLEWREEL_FIELD_OLDER, 0, 768, 0xa0);
    put_params(fields + CURLEWREEL_FIELD_NEWER, 1, 1536, 0xb0);
    comes("Key Reply, a key of 19 octets", keys.down, sizeof keys.down - 1);
    comes("Key Reply, the other direction's key", keys.up, sizeof keys.up);
    comes("Key Reply", keys.down, sizeof keys.down);
}

static void frame_down(uint8_t number) {
    curlewreel_modem_opening o = curlewreel_modem_open(modem, CURLEWREEL_DOWN, ADDRESS, SAID, number, keys.up, sizeof keys.up, tek, sizeof tek,
                                                       vector, sizeof vector, out, sizeof out);
    modem = o.modem;
    printf("open %d: %d, taken %d, refused %d, TEK", number, o.number, (int)modem.taken, (int)modem.refused);
    print_octets(tek, o.width);
    printf("  sends");
    print_octets(out, o.count);
}

int main(void) {
    keys = derived(auth_key, sizeof auth_key);
    printf("sizes %zu %zu %zu\n", sizeof(curlewreel_tek), sizeof(curlewreel_modem), sizeof(curlewreel_modem_opening));
    done("new", curlewreel_modem_new(settings, ADDRESS, OWN_SAID));
    done("established", curlewreel_modem_established(modem, out, sizeof out));
    done("clock 10", curlewreel_modem_clock(modem, settings.authorize, keys.up, sizeof keys.up, out, sizeof out));
    authorization_reply();
    key_reply();
    curlewreel_sealed s = curlewreel_modem_seal(modem, SAID, tek, sizeof tek, vector, sizeof vector);
    printf("seal: %d, key %d, vector", s.number, s.key);
    print_octets(vector, s.width);
    frame_down(0);
    frame_down(7); /* no key has this number: 13, and the modem asks anew */
    done("reauth", curlewreel_modem_reauth(modem, out, sizeof out));
    curlewreel_wipe_stack();
    return 0;
}
