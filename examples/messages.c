/* Messages from C: a Key Request and a Key Reply are written and read back, each under the message key of its direction, with a wrong key too, and a
 * damaged one is refused. */
#include "curlewreel.h"
#include "message_keys.h"
#include "octets.h"
#include <stdio.h>
#include <string.h>

enum { SAID = 8800, WIDTH = 8, KEY_REPLY_OCTETS = 108 };

/* The first attribute stands behind the head: its type, then two octets of its length. */
enum { FIRST_TYPE = CURLEWREEL_OCTETS_HEAD, FIRST_LENGTH_HIGH, FIRST_LENGTH_LOW };

static const uint8_t none[1], auth_key[] = {1, 2, 3, 4};
static message_keys keys;
static uint8_t fields[CURLEWREEL_FIELDS], message[CURLEWREEL_OCTETS_ANSWER], back[CURLEWREEL_FIELDS];

static void print_octets(const char *name, const uint8_t *octets, size_t n) {
    printf("  %s", name);
    for (size_t i = 0; i < n; i++) printf(" %02x", octets[i]);
    printf("\n");
}

static void put_params(uint8_t *at, uint8_t number, unsigned long life, uint8_t first) {
    at[CURLEWREEL_PARAMS_NUMBER] = number;
    put_four(at + CURLEWREEL_PARAMS_LIFE, life);
    at[CURLEWREEL_PARAMS_TEK_WIDTH] = WIDTH;
    at[CURLEWREEL_PARAMS_VECTOR_WIDTH] = WIDTH;
    for (uint8_t i = 0; i < WIDTH; i++) {
        at[CURLEWREEL_PARAMS_TEK + i] = (uint8_t)(first + i);
        at[CURLEWREEL_PARAMS_VECTOR + i] = (uint8_t)(first + CURLEWREEL_OCTETS_TEK + i);
    }
}

static void print_params(const char *name, const uint8_t *at) {
    printf("  %s: number %u, life %lu\n", name, at[CURLEWREEL_PARAMS_NUMBER], four(at + CURLEWREEL_PARAMS_LIFE));
    print_octets("  tek", at + CURLEWREEL_PARAMS_TEK, at[CURLEWREEL_PARAMS_TEK_WIDTH]);
    print_octets("  vector", at + CURLEWREEL_PARAMS_VECTOR, at[CURLEWREEL_PARAMS_VECTOR_WIDTH]);
}

static size_t write_it(const char *name, const uint8_t *key) {
    memset(message, 0xee, sizeof message);
    curlewreel_written w =
        curlewreel_write(fields, sizeof fields, none, 0, key, CURLEWREEL_OCTETS_MESSAGE_KEY, message, sizeof message);
    printf("%s written: %u, %zu octets, the octet after them %02x\n", name, w.number, w.count, message[w.count]);
    print_octets("message", message, w.count);
    return w.count;
}

static void read_it(const char *name, uint8_t end, size_t n, const uint8_t *key) {
    memset(back, 0xee, sizeof back);
    uint8_t number = curlewreel_read(end, message, n, key, CURLEWREEL_OCTETS_MESSAGE_KEY, back, sizeof back);
    printf("%s read at end %u: %u\n", name, end, number);
    if (number != CURLEWREEL_DONE) {
        printf("  first octet of the fields %02x, last %02x\n", back[0], back[CURLEWREEL_FIELDS - 1]);
        return;
    }
    printf("  code %u, identifier %u, authorization key %u, SAID %u\n", back[CURLEWREEL_FIELD_CODE],
           back[CURLEWREEL_FIELD_IDENTIFIER], back[CURLEWREEL_FIELD_AK_NUMBER], two(back + CURLEWREEL_FIELD_SAID));
    if (back[CURLEWREEL_FIELD_CODE] == CURLEWREEL_MESSAGE_KEY_REPLY) {
        print_params("older", back + CURLEWREEL_FIELD_OLDER);
        print_params("newer", back + CURLEWREEL_FIELD_NEWER);
    }
    printf("  digest: %u octets at %u, %s\n", two(back + CURLEWREEL_FIELD_DIGEST_LENGTH), two(back + CURLEWREEL_FIELD_DIGEST_START),
           back[CURLEWREEL_FIELD_DIGEST_HOLDS] == CURLEWREEL_DIGEST_YES ? "holds" : "does not hold");
    printf("  fields as written: %s\n", memcmp(back, fields, CURLEWREEL_FIELDS_WRITTEN) == 0 ? "yes" : "no");
}

/* What is not written: the fields are a Key Reply's. */
static void refused_writings(void) {
    fields[CURLEWREEL_FIELD_NEWER + CURLEWREEL_PARAMS_NUMBER] = 4;
    curlewreel_written w = curlewreel_write(fields, sizeof fields, none, 0, keys.down, sizeof keys.down, message, sizeof message);
    printf("Key Reply with number 4 after 2: %u, %zu octets\n", w.number, w.count);
    fields[CURLEWREEL_FIELD_NEWER + CURLEWREEL_PARAMS_NUMBER] = 3;
    w = curlewreel_write(fields, sizeof fields, none, 0, keys.down, sizeof keys.down, message, KEY_REPLY_OCTETS - 1);
    printf("Key Reply into 107 octets: %u, %zu octets\n", w.number, w.count);
    w = curlewreel_write(fields, sizeof fields, none, 0, keys.down, sizeof keys.down - 1, message, sizeof message);
    printf("Key Reply under a key of 19 octets: %u, %zu octets\n", w.number, w.count);
}

int main(void) {
    keys = derived(auth_key, sizeof auth_key);
    fields[CURLEWREEL_FIELD_CODE] = CURLEWREEL_MESSAGE_KEY_REQUEST;
    fields[CURLEWREEL_FIELD_IDENTIFIER] = 115;
    fields[CURLEWREEL_FIELD_AK_NUMBER] = 7;
    put_two(fields + CURLEWREEL_FIELD_SAID, SAID);
    size_t n = write_it("Key Request", keys.up);
    read_it("Key Request", CURLEWREEL_HEAD_END, n, keys.up);
    read_it("Key Request", CURLEWREEL_HEAD_END, n, keys.down);       /* the key of the other direction: read all the same */
    read_it("Key Request", CURLEWREEL_MODEM, n, keys.up);            /* a code that a modem does not receive: 7 */

    fields[CURLEWREEL_FIELD_CODE] = CURLEWREEL_MESSAGE_KEY_REPLY;
    put_params(fields + CURLEWREEL_FIELD_OLDER, 2, 43200, 0x40);
    put_params(fields + CURLEWREEL_FIELD_NEWER, 3, 86400, 0x80);
    n = write_it("Key Reply", keys.down);
    read_it("Key Reply", CURLEWREEL_MODEM, n, keys.down);
    read_it("Cut Key Reply", CURLEWREEL_MODEM, n - 1, keys.down);    /* 6 */
    message[FIRST_LENGTH_LOW] = 2;
    read_it("Damaged Key Reply", CURLEWREEL_MODEM, n, keys.down);    /* the key number's attribute has two octets: 8 */
    read_it("Key Reply", CURLEWREEL_MODEM + 1, n, keys.down);        /* no such end: 1 */
    refused_writings();
    return 0;
}
