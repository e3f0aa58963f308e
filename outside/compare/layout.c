/* The layout of include/curlewreel.h against the library, by what the calls do: each field is read by its name where a call gave it a value
 * of its own, and given a value by its name that the next call has to use or to refuse. `layout` checks; `layout table` prints every size
 * and offset, for comparison with the structs of engine.rs. */
#include "curlewreel.h"
#include <stdio.h>
#include <string.h>

#include "layout_table.h"

static const curlewreel_settings settings = {.tek_life = 1800, .tek_grace = 301, .ak_life = 86402, .ak_grace = 303, .authorize = 11,
    .reauthorize = 12, .operational = 13, .rekey = 14, .reject = 15};
static const uint8_t auth_key[1] = {9};
/* The message keys of what goes up and of what goes down, whichever the authorization key is. */
static const uint8_t key_up[20] = {1}, key_down[20] = {2};
static curlewreel_headend h;
static curlewreel_modem m;
static curlewreel_record records[64];
static uint8_t material[64 * 64], out[342], answer[342], tek[16], vector[16];
static int checked, wrong;

static void same(const char *what, uint64_t given, uint64_t due) {
    checked++;
    if (given == due) return;
    wrong++;
    printf("outside: layout: %s is %llu, due %llu\n", what, (unsigned long long)given, (unsigned long long)due);
}

static void same_octets(const char *what, const uint8_t *given, const uint8_t *due, size_t n) {
    checked++;
    if (memcmp(given, due, n) == 0) return;
    wrong++;
    printf("outside: layout: %s has other octets\n", what);
}

#define SAME(given, due) same(#given, (uint64_t)(given), (uint64_t)(due))
#define OCTETS(given, due, n) same_octets(#given, given, due, n)

static size_t head(curlewreel_headend_call c) {
    same("a head-end's call", c.number, 0);
    h = c.headend;
    return c.count;
}

static size_t modem(curlewreel_modem_call c) {
    same("a modem's call", c.number, 0);
    m = c.modem;
    return c.count;
}

/* A message of the modem goes to the head-end, and its answer comes back: what the modem sends then is in `out`. */
static size_t exchange(uint64_t address, const uint8_t *message, size_t n) {
    uint8_t copy[64];
    memcpy(copy, message, n);
    size_t count = head(curlewreel_headend_receive(h, records, 64, address, copy, n, key_up, 20, key_down, 20, auth_key, 1, answer, sizeof answer));
    same("an answer has its own length", count, 4 + ((size_t)answer[2] << 8 | answer[3]));
    return modem(curlewreel_modem_receive(m, answer, count, key_down, 20, key_up, 20, out, sizeof out));
}

/* A key against its 32 octets of material, of which `width` count. */
static void same_key(const curlewreel_key *k, uint8_t number, uint64_t deadline, const uint8_t *fresh, size_t width) {
    static const uint8_t zeros[16];
    SAME(k->number, number);
    SAME(k->deadline, deadline);
    OCTETS(k->tek, fresh, width);
    OCTETS(k->tek + width, zeros, 16 - width);
    OCTETS(k->vector, fresh + 16, width);
    OCTETS(k->vector + width, zeros, 16 - width);
}

/* The SAID and suite of a record: each SAID another, both suites. */
static uint16_t said_of(size_t i) { return (uint16_t)(1000 + 7 * i); }
static uint16_t suite_of(size_t i) { return i % 3 == 1 ? 256 : 768; }
static size_t width_of(size_t i) { return i % 3 == 1 ? 8 : 16; }

static void list_one(size_t i) {
    curlewreel_listing listing = {.count = 4};
    for (size_t j = 0; j < 4; j++) {
        listing.saids[j] = said_of(4 * i + j);
        listing.suites[j] = suite_of(4 * i + j);
    }
    SAME(head(curlewreel_headend_list(h, records, 64, 256 + i, i != 5, listing, material + 256 * i, 256)), 0);
    SAME(h.modems, i + 1);
    SAME(h.used, 4 * i + 4);
    SAME(h.entries[i].address, 256 + i);
    SAME(h.entries[i].allowed, i != 5);
    SAME(h.entries[i].listing.count, 4);
    SAME(h.entries[i].keys.next, 0);
    for (size_t j = 0; j < 4; j++) {
        size_t at = 4 * i + j;
        SAME(h.entries[i].listing.saids[j], said_of(at));
        SAME(h.entries[i].listing.suites[j], suite_of(at));
        SAME(records[at].said, said_of(at));
        SAME(records[at].suite, suite_of(at));
        same_key(&records[at].older, 0, 900, material + 64 * at, width_of(at));
        same_key(&records[at].newer, 1, 1800, material + 64 * at + 32, width_of(at));
    }
}

static void lists(void) {
    for (size_t i = 0; i < sizeof material; i++) material[i] = (uint8_t)(1 + (i * 31 + i / 64 * 5) % 255);
    head(curlewreel_headend_new(settings));
    for (size_t i = 0; i < 16; i++) list_one(i);
    SAME(head(curlewreel_headend_clock(h, records, 64, 100, material, sizeof material)), 0);
    SAME(h.clock, 100);
}

/* Authorization of the modem of the last entry, at second 100. */
static void authorizes(void) {
    modem(curlewreel_modem_new(settings, 271, 77));
    SAME(m.address, 271);
    SAME(m.said, 77);
    SAME(m.authorization.state, 0);
    SAME(modem(curlewreel_modem_clock(m, 100, key_up, 20, out, sizeof out)), 0);
    SAME(m.clock, 100);
    SAME(modem(curlewreel_modem_established(m, out, sizeof out)), 13);
    SAME(m.authorization.state, 1);
    SAME(m.authorization.identifier, 1);
    SAME(m.authorization.timer.on, 1);
    SAME(m.authorization.timer.at, 111);
    SAME(exchange(271, out + 4, 9), 144);
    SAME(m.authorization.state, 2);
    SAME(m.authorization.timer.at, 100 + 86402 - 303);
    SAME(h.entries[15].keys.next, 1);
    SAME(h.entries[15].keys.older, 0);
    SAME(h.entries[15].keys.newer, 100 + 86402);
    SAME(m.used, 4);
    SAME(m.counter, 5);
}

/* The four key exchanges; their requests stand in `out`, 36 octets each. */
static void exchanges(void) {
    uint8_t requests[144];
    memcpy(requests, out, sizeof requests);
    for (size_t j = 0; j < 4; j++) {
        size_t at = 60 + j;
        SAME(m.teks[j].said, said_of(at));
        SAME(m.teks[j].suite, suite_of(at));
        SAME(m.teks[j].state, 1);
        SAME(m.teks[j].identifier, 2 + j);
        SAME(m.teks[j].timer.on, 1);
        SAME(m.teks[j].timer.at, 113);
        SAME(m.teks[j].held, 0);
        SAME(exchange(271, requests + 36 * j, 36), 0);
        SAME(m.teks[j].state, 3);
        SAME(m.teks[j].timer.at, 1800 - 301);
        SAME(m.teks[j].held, 1);
        same_key(&m.teks[j].older, 0, 900, material + 64 * at, width_of(at));
        same_key(&m.teks[j].newer, 1, 1800, material + 64 * at + 32, width_of(at));
    }
}

/* Reauthorization, the rollover, the rekeying and a reject: the waits that are left. */
static void rolls(void) {
    SAME(modem(curlewreel_modem_reauth(m, out, sizeof out)), 9);
    SAME(m.authorization.state, 3);
    SAME(m.authorization.timer.at, 112);
    SAME(exchange(271, out, 9), 0);
    SAME(m.authorization.ak_number, 1);
    SAME(m.authorization.identifier, 6);
    SAME(h.entries[15].keys.next, 2);
    SAME(h.entries[15].keys.older, 100 + 86402);
    SAME(h.entries[15].keys.newer, 100 + 2 * 86402);
    head(curlewreel_headend_clock(h, records, 64, 1499, material, sizeof material));
    SAME(modem(curlewreel_modem_clock(m, 1499, key_up, 20, out, sizeof out)), 144);
    SAME(m.teks[3].state, 4);
    SAME(m.teks[3].timer.at, 1499 + 14);
    SAME(m.teks[3].identifier, 10);
    same_key(&records[63].older, 1, 1800, material + 64 * 63 + 32, width_of(63));
    same_key(&records[63].newer, 2, 2700, material + 64 * 63, width_of(63));
    curlewreel_modem kept = m;
    modem(curlewreel_modem_new(settings, 999, 77));
    modem(curlewreel_modem_established(m, out, sizeof out));
    SAME(exchange(999, out + 4, 9), 0);
    SAME(m.authorization.state, 4);
    SAME(m.authorization.timer.at, 15);
    m = kept;
}

/* Frames: three taken and one refused at the head-end, two and one at the modem. */
static void frames(void) {
    curlewreel_sealed s = curlewreel_headend_seal(h, records, 64, 271, said_of(60), tek, 16, vector, 16);
    SAME(s.number, 0);
    SAME(s.key, 1);
    SAME(s.width, 16);
    OCTETS(tek, records[60].older.tek, 16);
    s = curlewreel_modem_seal(m, said_of(61), tek, 16, vector, 16);
    SAME(s.number, 0);
    SAME(s.key, 1);
    SAME(s.width, 8);
    OCTETS(vector, m.teks[1].newer.vector, 8);
    for (int i = 0; i < 4; i++) {
        curlewreel_headend_opening o =
            curlewreel_headend_open(h, records, 64, 0, 271, said_of(61), i == 2 ? 9 : 2, key_down, 20, tek, 16, vector, 16, out, 40);
        SAME(o.number, i == 2 ? 13 : 0);
        SAME(o.width, i == 2 ? 0 : 8);
        SAME(o.count, i == 2 ? 40 : 0);
        h = o.headend;
    }
    SAME(h.taken, 3);
    SAME(h.refused, 1);
    for (int i = 0; i < 3; i++) {
        curlewreel_modem_opening o = curlewreel_modem_open(m, 1, 271, said_of(61), i == 2 ? 9 : 1, key_up, 20, tek, 16, vector, 16, out, 216);
        SAME(o.number, i == 2 ? 13 : 0);
        SAME(o.width, i == 2 ? 0 : 8);
        SAME(o.count, i == 2 ? 36 : 0);
        m = o.modem;
    }
    SAME(m.taken, 2);
    SAME(m.refused, 1);
}

/* The header's places in a message's fields: whether the digest holds is the last octet. */
static void fields_of_messages(void) {
    uint8_t fields[CURLEWREEL_FIELDS_WRITTEN] = {12}, back[CURLEWREEL_FIELDS];
    curlewreel_written w = curlewreel_write(fields, sizeof fields, auth_key, 0, key_up, 20, out, sizeof out);
    SAME(w.number, 0);
    SAME(w.count, 4);
    fields[CURLEWREEL_FIELD_CODE] = 13;
    SAME(curlewreel_write(fields, sizeof fields, auth_key, 0, key_up, 20, out, sizeof out).number, 1);
    fields[CURLEWREEL_FIELD_CODE] = 7;
    fields[CURLEWREEL_FIELD_AK_NUMBER] = 5;
    SAME(curlewreel_write(fields, sizeof fields, auth_key, 0, key_up, 19, out, sizeof out).number, 2);
    w = curlewreel_write(fields, sizeof fields, auth_key, 0, key_up, 20, out, sizeof out);
    SAME(w.count, 36);
    SAME(curlewreel_read(CURLEWREEL_HEAD_END, out, w.count, key_up, 20, back, sizeof back), 0);
    OCTETS(back, fields, CURLEWREEL_FIELDS_WRITTEN);
    SAME(back[CURLEWREEL_FIELD_DIGEST_START + 1], 16);
    SAME(back[CURLEWREEL_FIELD_DIGEST_LENGTH + 1], 20);
    SAME(back[CURLEWREEL_FIELD_DIGEST_HOLDS], CURLEWREEL_DIGEST_YES);
    SAME(curlewreel_read(CURLEWREEL_HEAD_END, out, w.count, key_down, 20, back, sizeof back), 0);
    SAME(back[CURLEWREEL_FIELD_DIGEST_HOLDS], CURLEWREEL_DIGEST_NO);
    SAME(curlewreel_read(CURLEWREEL_HEAD_END, out, w.count, key_up, 19, back, sizeof back), 2);
}

#include "layout_frames.h"
#include "layout_given.h"

int main(int argc, char **argv) {
    if (argc > 1 && strcmp(argv[1], "table") == 0) {
        table();
        return 0;
    }
    fields_of_messages();
    lists();
    authorizes();
    exchanges();
    rolls();
    frames_sealed_here();
    frames();
    given_to_modem();
    given_to_headend();
    if (wrong == 0) printf("outside: layout, %d values at the places that the header names\n", checked);
    return wrong != 0;
}
