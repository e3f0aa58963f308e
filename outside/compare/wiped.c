/* What include/curlewreel.h says of the stack: no call goes deeper than CURLEWREEL_OCTETS_STACK, and curlewreel_wipe_stack leaves no key there. All
 * keys are of one octet, MARK, the message keys too, which HMAC mixes with two others; the words of SHA-1 behind each mixed block are as good as the
 * message key to whoever forges a digest, and are looked for too; so are the round keys of AES, from which the TEK can be had. The stack is filled before
 * a call and looked through after it. */
#include "../../examples/message_keys.h"
#include "round_keys.h"
#include <stdio.h>

enum { MARK = 0xc7, INNER = MARK ^ 0x36, OUTER = MARK ^ 0x5c, FILL = 0x11, DEPTH = 64 * 1024, NEAR = 256, ADDRESS = 77, NO_KEY = 9 };
enum { FRAME = 12 + 5 * 16 + 7, FIRST_ROUND = 8 }; /* the words before it are too plain to be told from other octets */

static const curlewreel_settings settings = {.tek_life = 1800, .tek_grace = 300, .ak_life = 86400, .ak_grace = 300, .authorize = 10,
    .reauthorize = 10, .operational = 10, .rekey = 10, .reject = 60};
static const uint8_t auth_key[1] = {9};
static curlewreel_headend h;
static curlewreel_record records[CURLEWREEL_RECORDS];
static curlewreel_modem m;
static uint8_t material[CURLEWREEL_SAIDS * CURLEWREEL_OCTETS_MATERIAL], down[CURLEWREEL_OCTETS_ANSWER], up[CURLEWREEL_OCTETS_SENT];
static uint8_t fields[CURLEWREEL_FIELDS], again[CURLEWREEL_OCTETS_ANSWER];
static uint8_t tek[CURLEWREEL_OCTETS_TEK], vector[CURLEWREEL_OCTETS_VECTOR], invalid[CURLEWREEL_OCTETS_INVALID];
static uint8_t key[CURLEWREEL_OCTETS_MESSAGE_KEY]; /* of both directions */
static uint32_t mixed[2][SHA1_WORDS]; /* the words of SHA-1 behind HMAC's two blocks */
static uint8_t frame[FRAME], sealed[FRAME], opened[FRAME];
static uint32_t rounds[4][ROUND_WORDS]; /* the words of round keys, and mixed back; each in both orders of octets */
static size_t came, deepest, words_left, rounds_left, wrong;

/* Each call in a frame of its own, so that what it leaves is below that of `tried`. */
#define CALL(name, call) __attribute__((noinline)) static void name(void) { call; }
#define HEAD(name, call) CALL(name, curlewreel_headend_call c = call; h = c.headend; came = c.count; wrong += c.number != 0)
#define MODEM(name, call) CALL(name, curlewreel_modem_call c = call; m = c.modem; came = c.count; wrong += c.number != 0)

static const curlewreel_listing four = {.count = 4, .saids = {1, 2, 3, 4},
    .suites = {CURLEWREEL_SUITE_AES, CURLEWREEL_SUITE_DES, CURLEWREEL_SUITE_AES, CURLEWREEL_SUITE_AES}};
static const uint8_t *message;

/* A message of the head-end's that carries a digest; and the same from its fields. */
CALL(read_again, wrong += curlewreel_read(CURLEWREEL_MODEM, down, came, key, sizeof key, fields, sizeof fields) != 0)
CALL(write_again, curlewreel_written w = curlewreel_write(fields, sizeof fields, auth_key, sizeof auth_key, key, sizeof key, again,
    sizeof again); wrong += w.number != 0 || w.count != came || memcmp(again, down, came) != 0)
HEAD(headend_new, curlewreel_headend_new(settings))
HEAD(headend_list, curlewreel_headend_list(h, records, CURLEWREEL_RECORDS, ADDRESS, 1, four, material, sizeof material))
HEAD(headend_clock, curlewreel_headend_clock(h, records, CURLEWREEL_RECORDS, 100000, material, sizeof material))
HEAD(headend_receive, curlewreel_headend_receive(h, records, CURLEWREEL_RECORDS, ADDRESS, message, curlewreel_message_octets(message),
    key, sizeof key, key, sizeof key, auth_key, sizeof auth_key, down, sizeof down))
CALL(headend_seal, wrong += curlewreel_headend_seal(h, records, CURLEWREEL_RECORDS, ADDRESS, 1, tek, 16, vector, 16).number != 0)
CALL(headend_open, curlewreel_headend_opening c = curlewreel_headend_open(h, records, CURLEWREEL_RECORDS, CURLEWREEL_UP, ADDRESS, 1, 1, key,
    sizeof key, tek, 16, vector, 16, invalid, sizeof invalid); h = c.headend; wrong += c.number != 0)
/* Refused, and a TEK Invalid is written, which goes down. */
CALL(headend_no_key, curlewreel_headend_opening c = curlewreel_headend_open(h, records, CURLEWREEL_RECORDS, CURLEWREEL_UP, ADDRESS, 1, NO_KEY,
    key, sizeof key, tek, 16, vector, 16, down, sizeof down); h = c.headend; came = c.count;
    wrong += c.number != CURLEWREEL_NO_KEY_FOR_FRAME || came == 0 || down[0] != CURLEWREEL_MESSAGE_TEK_INVALID)
MODEM(modem_new, curlewreel_modem_new(settings, ADDRESS, 1))
MODEM(modem_established, curlewreel_modem_established(m, up, sizeof up))
MODEM(modem_reauth, curlewreel_modem_reauth(m, up, sizeof up))
MODEM(modem_clock, curlewreel_modem_clock(m, 100000, key, sizeof key, up, sizeof up))
MODEM(modem_receive, curlewreel_modem_receive(m, down, came, key, sizeof key, key, sizeof key, up, sizeof up))
CALL(modem_seal, wrong += curlewreel_modem_seal(m, 1, tek, 16, vector, 16).number != 0)
CALL(modem_open, curlewreel_modem_opening c = curlewreel_modem_open(m, CURLEWREEL_DOWN, ADDRESS, 1, 1, key, sizeof key, tek, 16,
    vector, 16, up, sizeof up); m = c.modem; wrong += c.number != 0)
/* Refused, and a Key Request is sent. */
CALL(modem_no_key, curlewreel_modem_opening c = curlewreel_modem_open(m, CURLEWREEL_DOWN, ADDRESS, 1, NO_KEY, key, sizeof key, tek, 16,
    vector, 16, up, sizeof up); m = c.modem; came = c.count;
    wrong += c.number != CURLEWREEL_NO_KEY_FOR_FRAME || came == 0 || up[0] != CURLEWREEL_MESSAGE_KEY_REQUEST)

/* Frames sealed and opened here, each with the key that the end seals with; both ends hold it. */
CALL(headend_seal_frame, wrong += curlewreel_headend_seal_frame(h, records, CURLEWREEL_RECORDS, ADDRESS, 1, frame, FRAME, sealed,
    FRAME).number != 0)
CALL(headend_open_frame, curlewreel_headend_opening c = curlewreel_headend_open_frame(h, records, CURLEWREEL_RECORDS, CURLEWREEL_UP, ADDRESS, 1,
    1, sealed, FRAME, key, sizeof key, opened, FRAME, invalid, sizeof invalid); h = c.headend;
    wrong += c.number != 0 || memcmp(opened, frame, FRAME) != 0)
CALL(modem_seal_frame, wrong += curlewreel_modem_seal_frame(m, 1, frame, FRAME, sealed, FRAME).number != 0)
CALL(modem_open_frame, curlewreel_modem_opening c = curlewreel_modem_open_frame(m, CURLEWREEL_DOWN, ADDRESS, 1, 0, sealed, FRAME, key,
    sizeof key, opened, FRAME, up, sizeof up); m = c.modem; wrong += c.number != 0 || memcmp(opened, frame, FRAME) != 0)
/* Refused, with what goes out. */
CALL(headend_frame_no_key, curlewreel_headend_opening c = curlewreel_headend_open_frame(h, records, CURLEWREEL_RECORDS, CURLEWREEL_UP, ADDRESS, 1,
    NO_KEY, sealed, FRAME, key, sizeof key, opened, FRAME, down, sizeof down); h = c.headend; came = c.count;
    wrong += c.number != CURLEWREEL_NO_KEY_FOR_FRAME || came == 0 || down[0] != CURLEWREEL_MESSAGE_TEK_INVALID)
CALL(modem_frame_no_key, curlewreel_modem_opening c = curlewreel_modem_open_frame(m, CURLEWREEL_DOWN, ADDRESS, 1, NO_KEY, sealed, FRAME, key,
    sizeof key, opened, FRAME, up, sizeof up); m = c.modem; came = c.count;
    wrong += c.number != CURLEWREEL_NO_KEY_FOR_FRAME || came == 0 || up[0] != CURLEWREEL_MESSAGE_KEY_REQUEST)

/* The octet so far below a place. */
static volatile uint8_t *below(uintptr_t top, size_t depth) { return (volatile uint8_t *)(top - depth); }

/* How many runs of eight marks of one kind there are. */
static size_t runs_of(uintptr_t top, uint8_t mark) {
    size_t runs = 0, length = 0;
    for (size_t at = NEAR; at < DEPTH; at++) {
        length = *below(top, at) == mark ? length + 1 : 0;
        runs += length == 8;
    }
    return runs;
}

/* Keys as they are, and message keys as HMAC mixes them. */
static size_t marks(uintptr_t top) { return runs_of(top, MARK) + runs_of(top, INNER) + runs_of(top, OUTER); }

/* How many of the words behind HMAC's blocks there are. */
static size_t words(uintptr_t top) {
    size_t found = 0;
    for (size_t at = NEAR; at < DEPTH; at++) {
        uint8_t octets[4] = {*below(top, at), *below(top, at - 1), *below(top, at - 2), *below(top, at - 3)};
        for (size_t i = 0; i < 2 * SHA1_WORDS; i++) found += memcmp(octets, &mixed[i / SHA1_WORDS][i % SHA1_WORDS], 4) == 0;
    }
    return found;
}

/* How many words of round keys there are. */
static size_t round_words(uintptr_t top) {
    size_t found = 0;
    for (size_t at = NEAR; at < DEPTH; at++) {
        uint32_t word = (uint32_t)*below(top, at) << 24 | (uint32_t)*below(top, at - 1) << 16 | (uint32_t)*below(top, at - 2) << 8 | *below(top, at - 3);
        if (word == FILL * 0x01010101u) continue;
        for (size_t kind = 0; kind < 4; kind++)
            for (size_t i = FIRST_ROUND; i < ROUND_WORDS; i++) found += word == rounds[kind][i];
    }
    return found;
}

/* The words of the round keys of a TEK whose octets are MARK. */
static void words_of_rounds(void) {
    uint8_t words[ROUND_WORDS][4], back[4], tek_of_marks[16];
    memset(tek_of_marks, MARK, sizeof tek_of_marks);
    expanded(words, tek_of_marks);
    for (size_t i = 0; i < ROUND_WORDS; i++) {
        mixed_back(back, words[i]);
        for (int j = 0; j < 4; j++) {
            rounds[0][i] = rounds[0][i] << 8 | words[i][j];
            rounds[1][i] = rounds[1][i] << 8 | words[i][3 - j];
            rounds[2][i] = rounds[2][i] << 8 | back[j];
            rounds[3][i] = rounds[3][i] << 8 | back[3 - j];
        }
    }
}

/* A call, how deep it goes, and how many keys it leaves before and after the wiping. */
__attribute__((noinline)) static size_t tried(void (*call)(void)) {
    volatile uint8_t here = 0;
    uintptr_t top = (uintptr_t)&here;
    for (size_t at = NEAR; at < DEPTH; at++) *below(top, at) = FILL;
    call();
    size_t depth = DEPTH - 1;
    while (depth > NEAR && *below(top, depth) == FILL) depth--;
    size_t left = marks(top);
    words_left += words(top);
    rounds_left += round_words(top);
    curlewreel_wipe_stack();
    wrong += marks(top) + words(top) + round_words(top);
    if (depth > deepest) deepest = depth;
    return left;
}

/* The words of SHA-1 behind the block of a key that is mixed with `pad`. */
static void words_of(uint32_t *sum, uint8_t pad) {
    static const uint32_t start[SHA1_WORDS] = {0x67452301, 0xefcdab89, 0x98badcfe, 0x10325476, 0xc3d2e1f0};
    uint8_t block[SHA1_BLOCK];
    memset(block, pad, sizeof block);
    for (size_t i = 0; i < sizeof key; i++) block[i] ^= key[i];
    memcpy(sum, start, sizeof start);
    sha1_block(sum, block);
}

int main(void) {
    size_t left = 0;
    memset(material, MARK, sizeof material);
    memset(key, MARK, sizeof key);
    words_of(mixed[0], 0x36);
    words_of(mixed[1], 0x5c);
    words_of_rounds();
    for (size_t i = 0; i < FRAME; i++) frame[i] = (uint8_t)(3 * i + 1);
    left += tried(headend_new) + tried(headend_list) + tried(modem_new) + tried(modem_established);
    message = up + CURLEWREEL_OCTETS_HEAD; /* behind the Authentication Information */
    left += tried(headend_receive) + tried(modem_receive);

    uint8_t requests[CURLEWREEL_OCTETS_SENT];
    size_t n = came;
    memcpy(requests, up, n);
    for (message = requests; message < requests + n; message += curlewreel_message_octets(message)) {
        left += tried(headend_receive) + tried(read_again) + tried(write_again) + tried(modem_receive);
    }
    wrong += fields[CURLEWREEL_FIELD_DIGEST_HOLDS] != CURLEWREEL_DIGEST_YES;
    left += tried(headend_seal) + tried(headend_open) + tried(modem_seal) + tried(modem_open);
    wrong += rounds_left; /* none so far: what is found below is of the cipher */
    left += tried(headend_seal_frame) + tried(modem_open_frame) + tried(modem_seal_frame) + tried(headend_open_frame);
    message = up;
    left += tried(headend_no_key) + tried(read_again) + tried(write_again) + tried(modem_receive); /* the modem asks for its pair */
    left += tried(headend_receive) + tried(modem_receive);
    left += tried(modem_no_key) + tried(headend_receive) + tried(modem_receive);
    left += tried(headend_frame_no_key) + tried(modem_frame_no_key) + tried(headend_receive) + tried(modem_receive);
    left += tried(modem_reauth);
    message = up;
    left += tried(headend_receive) + tried(modem_receive); /* the machines go on: the deepest call */
    left += tried(headend_clock) + tried(modem_clock);

    if (wrong > 0 || left == 0 || words_left == 0 || rounds_left == 0 || deepest > CURLEWREEL_OCTETS_STACK) {
        printf("outside: stack: %zu octets at the deepest of %d, %zu keys, %zu words of HMAC and %zu of round keys left by calls, %zu wrong answers or "
               "keys not wiped\n", deepest, CURLEWREEL_OCTETS_STACK, left, words_left, rounds_left, wrong);
        return 1;
    }
    printf("outside: stack, %zu octets at the deepest of %d; %zu copies of keys, %zu words of HMAC and %zu of round keys left by calls, none after the "
           "wiping\n", deepest, CURLEWREEL_OCTETS_STACK, left, words_left, rounds_left);
    return 0;
}
