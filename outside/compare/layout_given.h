/* Values given by name: one out of its limit has to be refused with 1, and what has no limit has to be used by the next call. */
/* The call asks nothing but the state: done with it as it is, refused with 1 with one field out of its limit. */
#define MODEM_REFUSES(field, value) do { \
    curlewreel_modem d = m; \
    d.field = (value); \
    same("modem." #field " out of its limit", curlewreel_modem_established(d, out, sizeof out).number, 1); \
} while (0)
#define HEADEND_REFUSES(field, value) do { \
    curlewreel_headend d = h; \
    d.field = (value); \
    same("headend." #field " out of its limit", curlewreel_headend_clock(d, records, 64, 1499, material, sizeof material).number, 1); \
} while (0)
#define RECORD_REFUSES(field, value) do { \
    curlewreel_record kept = records[61]; \
    records[61].field = (value); \
    same("record." #field " out of its limit", curlewreel_headend_clock(h, records, 64, 1499, material, sizeof material).number, 1); \
    records[61] = kept; \
} while (0)

static void modem_refuses(void) {
    MODEM_REFUSES(settings.tek_life, 1801);
    MODEM_REFUSES(settings.tek_grace, 900);
    MODEM_REFUSES(settings.ak_life, 86399);
    MODEM_REFUSES(settings.ak_grace, 43202);
    MODEM_REFUSES(settings.authorize, 601);
    MODEM_REFUSES(settings.reauthorize, 601);
    MODEM_REFUSES(settings.operational, 601);
    MODEM_REFUSES(settings.rekey, 601);
    MODEM_REFUSES(settings.reject, 601);
    MODEM_REFUSES(address, 1ull << 48);
    MODEM_REFUSES(said, 16384);
    MODEM_REFUSES(clock, 1000000000001);
    MODEM_REFUSES(authorization.state, 6);
    MODEM_REFUSES(authorization.ak_number, 16);
    MODEM_REFUSES(authorization.timer.on, 2);
    MODEM_REFUSES(authorization.timer.at, 1499 + 12096001);
    MODEM_REFUSES(used, 5);
    MODEM_REFUSES(teks[3].said, 16384);
    MODEM_REFUSES(teks[3].suite, 257);
    MODEM_REFUSES(teks[3].state, 6);
    MODEM_REFUSES(teks[3].timer.on, 2);
    MODEM_REFUSES(teks[3].timer.at, 1499 + 15);
    MODEM_REFUSES(teks[3].held, 2);
    MODEM_REFUSES(teks[3].older.number, 16);
    MODEM_REFUSES(teks[3].older.deadline, 1800);
    MODEM_REFUSES(teks[3].newer.number, 16);
    MODEM_REFUSES(teks[3].newer.deadline, 1499 + 604801);
    MODEM_REFUSES(teks[1].older.tek[0], 1);
    MODEM_REFUSES(teks[1].newer.vector[15], 1);
}

/* What has no limit: Identifiers, counts of frames, the octets of keys. */
static void given_to_modem(void) {
    same("the modem as it is", curlewreel_modem_established(m, out, sizeof out).number, 0);
    modem_refuses();
    curlewreel_modem d = m;
    d.counter = 199;
    d.teks[2].identifier = 44;
    d.authorization.identifier = 33;
    d.taken = 1000;
    d.refused = 2000;
    d.teks[3].older.deadline = 1700;
    d.teks[3].older.tek[15] = 91;
    d.teks[3].older.vector[15] = 92;
    d.teks[3].newer.tek[15] = 93;
    d.teks[3].newer.vector[15] = 94;
    SAME(curlewreel_modem_clock(d, 1513, key_up, 20, out, sizeof out).count, 144);
    same("teks[2].identifier in a Key Request sent again", out[36 * 2 + 1], 44);
    curlewreel_modem_call c = curlewreel_modem_reauth(d, out, sizeof out);
    same("counter and one in a new request", out[1], 200);
    SAME(c.modem.authorization.identifier, 200);
    c = curlewreel_modem_clock(c.modem, 1511, key_up, 20, out, sizeof out);
    same("authorization.identifier in a request sent again", out[1], 200);
    curlewreel_modem_opening o = curlewreel_modem_open(d, 1, 271, said_of(63), 0, key_up, 20, tek, 16, vector, 16, out, 216);
    SAME(o.modem.taken, 1001);
    SAME(o.modem.refused, 2000);
    same("older.tek opens", tek[15], 91);
    same("older.vector opens", vector[15], 92);
    o = curlewreel_modem_open(d, 1, 271, said_of(63), 1, key_up, 20, tek, 16, vector, 16, out, 216);
    same("newer.tek opens", tek[15], 93);
    same("newer.vector opens", vector[15], 94);
    o = curlewreel_modem_open(d, 1, 272, said_of(63), 1, key_up, 20, tek, 16, vector, 16, out, 216);
    SAME(o.modem.refused, 2001);
}

static void headend_refuses(void) {
    HEADEND_REFUSES(settings.tek_life, 1801);
    HEADEND_REFUSES(settings.reject, 601);
    HEADEND_REFUSES(clock, 1000000000001);
    HEADEND_REFUSES(modems, 17);
    HEADEND_REFUSES(used, 65);
    HEADEND_REFUSES(entries[15].address, 1ull << 48);
    HEADEND_REFUSES(entries[15].allowed, 2);
    HEADEND_REFUSES(entries[15].listing.count, 5);
    HEADEND_REFUSES(entries[15].listing.saids[3], 16384);
    HEADEND_REFUSES(entries[15].listing.suites[3], 257);
    HEADEND_REFUSES(entries[15].keys.next, 16);
    HEADEND_REFUSES(entries[15].keys.older, 1499 + 86403);
    HEADEND_REFUSES(entries[15].keys.newer, 100 + 2 * 86402 + 1);
    RECORD_REFUSES(said, 16384);
    RECORD_REFUSES(suite, 257);
    RECORD_REFUSES(older.number, 16);
    RECORD_REFUSES(older.deadline, 1499);
    RECORD_REFUSES(newer.number, 16);
    RECORD_REFUSES(newer.deadline, 2701);
    RECORD_REFUSES(older.tek[15], 1);
    RECORD_REFUSES(newer.vector[8], 1);
}

static void given_to_headend(void) {
    same("the head-end as it is", curlewreel_headend_clock(h, records, 64, 1499, material, sizeof material).number, 0);
    headend_refuses();
    curlewreel_headend d = h;
    d.taken = 1000;
    d.refused = 2000;
    records[62].older.tek[15] = 91;
    records[62].older.vector[15] = 92;
    records[62].newer.tek[15] = 93;
    records[62].newer.vector[15] = 94;
    curlewreel_headend_opening o = curlewreel_headend_open(d, records, 64, 0, 271, said_of(62), 1, key_down, 20, tek, 16, vector, 16, out, 40);
    SAME(o.headend.taken, 1001);
    same("a record's older.tek opens", tek[15], 91);
    same("a record's older.vector opens", vector[15], 92);
    o = curlewreel_headend_open(d, records, 64, 0, 271, said_of(62), 2, key_down, 20, tek, 16, vector, 16, out, 40);
    same("a record's newer.tek opens", tek[15], 93);
    same("a record's newer.vector opens", vector[15], 94);
    o = curlewreel_headend_open(d, records, 64, 0, 271, said_of(1), 2, key_down, 20, tek, 16, vector, 16, out, 40);
    SAME(o.headend.refused, 2001);
}
