/* Curlewreel, the key engine of Baseline Privacy Plus, for C and C++. `make install` puts the library where pkg-config finds it; in the
 * repository, link libcurlewreel.a (made by `tools/prove curlewreel`).
 * Every function of the library is proved to do what its contract says, for all arguments; the comments here retell the contracts and are not
 * proved, nor is the rest of the header, with the small functions that are defined in it: outside/compare/layout.c looks for each field where it
 * stands here, and the programs under examples/ and outside/ call each function; the gate runs them. A slice is passed as a pointer and a length;
 * a pointer is never null unless its length is 0, and the lent slices of one call do not overlap.
 *
 * What is yours to do
 * - TEKs leave in clear. Wrap those of a Key Reply before it is sent, and unwrap them before the modem receives it: curlewreel_read gives the
 *   fields (with `end` CURLEWREEL_MODEM, the end that receives the code, at both places), and curlewreel_write writes them again with other
 *   octets for the TEKs, and with the digest over those. On arrival look first whether the digest holds over the message as it came
 *   (CURLEWREEL_FIELD_DIGEST_HOLDS). Where it does, unwrap and write again under the same key; where it does not, hand the message on as it came, and
 *   it is refused with 12. RSA and certificates are yours too.
 * - The frame cipher. `seal` and `open` give TEK and vector to a cipher block of yours; `seal_frame` and `open_frame` seal and open the octets
 *   themselves, for suite 768 alone ("Frames sealed here" below). The two kinds go together: one end may have a block, and the other none.
 * - Message keys. Digests are worked out and checked here, but the keys are yours to derive and to keep: two of 20 octets for each authorization
 *   key (AK), SHA-1 over 64 octets 0x5C (for messages that go up) or 0x3A (for those that go down) and the AUTH-Key behind them. (Document 000, 11.4
 *   and I.4.3; the text there says 63 times, and 64 gives the keys that it prints. examples/message_keys.h does it.) "Which message key goes where"
 *   below says which one a call asks. A key of another length is refused with 2. Under a wrong one the modem refuses a message with 12, and the
 *   head-end answers a Key Request with an Authorization Invalid, error 5.
 * - Material has to be random, fresh for each call, and never used twice, not even what a call dropped.
 * - Call `clock` often, each second at best: no timer fires elsewhere. One clock has to give both ends' seconds; it never goes back.
 * - When Reject Wait has run out, the modem is in Start and stays there: call `established` again. Silent is left by no call: make a new modem.
 * - A Key Reject leaves the SAID's machine in Start, without keys, until the next Authorization Reply that lists the SAID; `reauth` asks for one.
 * - Key numbers come round after 16. The claim on frames (crates/demand_plant/specs/Demand3.antt) holds where a message to the modem arrives at most
 *   D and a frame at most F seconds after it was sent, and D and F together are at most 7 TEK lives: drop what is older; and where the modem takes
 *   nothing but copies of what its head-end sent: Authorization Reply, Reject and Invalid have no digest, so a forged one is taken. Both ends begin
 *   fresh, with the same settings.
 *
 * Copies and restarts
 * A state or records restored from an older copy, or a head-end that restarts alone, may hold other keys than the other end under the same
 * numbers, and nothing notices: each end's state is within its limits, and a frame is opened with the wrong key.
 * - Never restore an older copy. Keep what the last call handed back, state and records together, or nothing.
 * - After a restart of the head-end: `new`, list every modem anew, with fresh material, and have every modem begin anew (`new`, `established`).
 *   Nothing sent before it may arrive after it: drop frames for F and messages for D seconds.
 * - After a restart of a modem: `new` and `established`.
 * A fresh end starts at second 0: tell it the common clock's second with `clock` before anything else; a listing mints at the head-end's second.
 *
 * Threads, memory, stack
 * - The library has no static data that changes, no heap and no system calls; it needs `memcpy` alone. Calls on different states and slices may
 *   run at the same time. One state is one caller's: two calls on copies of it make two states, of which one is lost.
 * - Structs have the C compiler's padding, which is not kept: compare states field by field. They need no alignment beyond their members'.
 *   The archive is for x86-64 with the System V calling convention, and there is none for another machine.
 * - The deepest call is curlewreel_modem_receive: 15,984 octets of stack, added up in the archive's machine code (outside/depth), and 664 for the
 *   state that it gets by value; at the head-end curlewreel_headend_open, 12,320 and 1,136. No call recurses, and none takes more for longer
 *   input.
 * - Keys stay on the dead stack after a call, as in each copy of a state or a record. curlewreel_wipe_stack overwrites the one, the copies are
 *   yours to clear. */
#ifndef CURLEWREEL_H
#define CURLEWREEL_H

#include <stddef.h>
#include <stdint.h>

#define CURLEWREEL_VERSION_MAJOR 0
#define CURLEWREEL_VERSION_MINOR 2
#define CURLEWREEL_VERSION "0.2"

#ifdef __cplusplus
extern "C" {
#endif

/* Which message key goes where. `read_key` is that of the message that the call is handed, `write_key` that of what the call writes. Each is
 * asked with every call of its row, also where nothing is read or written that has a digest: then any 20 octets do.
 *
 *   call                         read_key                                    write_key
 *   curlewreel_headend_receive   the AK that the message names, up           the same AK, down
 *   curlewreel_headend_open      none                                        the modem's newest AK, down: number `keys.next` - 1 mod 16 of its entry
 *   .._headend_open_frame        none                                        the same
 *   curlewreel_modem_receive     the AK that the message names, down         the modem's AK, up: number `authorization.ak_number`; on an
 *                                                                            Authorization Reply that of the Reply's own AK, since the Key Requests
 *                                                                            that it leads to name that one
 *   curlewreel_modem_clock       none                                        the modem's AK, up
 *   curlewreel_modem_open        none                                        the modem's AK, up
 *   curlewreel_modem_open_frame  none                                        the modem's AK, up
 *   curlewreel_read              the AK that the message names, its own way  none
 *   curlewreel_write             none                                        the AK of the fields, its own way
 *
 * `established` and `reauth` write messages without a digest, `list`, `seal`, `seal_frame` and the head-end's `clock` write none: they take no key.
 * Which AK a message names curlewreel_read tells before the call, lent any 20 octets: CURLEWREEL_FIELD_AK_NUMBER. It never answers 12. Read with the
 * right key, it tells too whether the digest holds.
 * Where you have no key of the AK that a message names: at the head-end any 20 octets do for `read_key`, since error 4 comes before error 5 (an AK that
 * is active there is one that you made). At the modem drop a Key Reply, a Key Reject or a TEK Invalid: the AK that it names is not asked there, and with
 * octets that others know for `read_key` it would be taken from whoever signed it with them.
 * Keep the keys of an Authorization Reply only where curlewreel_modem_receive took it (0): one that comes again late is refused, and the AK in use stays. */

/* How many octets a call asks. */
enum {
    CURLEWREEL_OCTETS_HEAD = 4,       /* of each message: code, Identifier, and two of Length, which counts the octets after these four */
    CURLEWREEL_OCTETS_MESSAGE = 1494, /* the longest message, its head too */
    CURLEWREEL_OCTETS_AUTH_KEY = 256, /* the longest AUTH-Key; the shortest has 1 */
    CURLEWREEL_OCTETS_MESSAGE_KEY = 20, /* `read_key` and `write_key`, exactly */
    CURLEWREEL_OCTETS_ANSWER = 342,   /* `out` of the head-end's receive, at least */
    CURLEWREEL_OCTETS_INVALID = 40,   /* `invalid` of the head-end's open and open_frame, at least */
    CURLEWREEL_OCTETS_SENT = 216,     /* `out` of each of the modem's calls, at least: six messages */
    CURLEWREEL_OCTETS_TEK = 16,       /* `tek`, at least; as many in a key, zeros past the width */
    CURLEWREEL_OCTETS_VECTOR = 16,    /* `vector`, the same */
    CURLEWREEL_OCTETS_FRAME = 12,     /* `frame`, at least: the two addresses, which stay clear; there is no upper limit */
    CURLEWREEL_OCTETS_KEYS = 64,      /* `keys` of the frame decision, exactly */
    CURLEWREEL_OCTETS_MATERIAL = 64   /* `material` for each SAID, exactly: TEK and vector of two keys, 16 octets each */
};

/* How many there are, and how far numbers go. */
enum {
    CURLEWREEL_MODEMS = 16,              /* at a head-end, at most */
    CURLEWREEL_RECORDS = 64,             /* in use, at most */
    CURLEWREEL_SAIDS = 4,                /* of a modem, at most; at least 1 */
    CURLEWREEL_SAID_MAX = 16383,         /* 14 bits */
    CURLEWREEL_KEY_NUMBER_MAX = 15,      /* of both kinds of key */
    CURLEWREEL_TEK_LIFE_MAX = 604800,    /* seconds */
    CURLEWREEL_AK_REPLY_LIFE_MAX = 12096000 /* seconds, in an Authorization Reply: two lives of the longest setting */
};
#define CURLEWREEL_CLOCK_MAX UINT64_C(1000000000000)
#define CURLEWREEL_ADDRESS_MAX UINT64_C(0xffffffffffff)

/* Suites: DES in CBC mode with 8 octets of TEK and of vector, AES in CBC mode with 16. */
enum { CURLEWREEL_SUITE_DES = 256, CURLEWREEL_SUITE_AES = 768 };

/* Codes of messages. Up go 4, 7 and 12, down the others. */
enum {
    CURLEWREEL_MESSAGE_AUTHORIZATION_REQUEST = 4,
    CURLEWREEL_MESSAGE_AUTHORIZATION_REPLY = 5,
    CURLEWREEL_MESSAGE_AUTHORIZATION_REJECT = 6,
    CURLEWREEL_MESSAGE_KEY_REQUEST = 7,
    CURLEWREEL_MESSAGE_KEY_REPLY = 8,
    CURLEWREEL_MESSAGE_KEY_REJECT = 9,
    CURLEWREEL_MESSAGE_AUTHORIZATION_INVALID = 10,
    CURLEWREEL_MESSAGE_TEK_INVALID = 11,
    CURLEWREEL_MESSAGE_AUTHENTICATION_INFORMATION = 12
};

/* Error codes that the head-end writes. The modem tells 6 in an Authorization Reject from all others, and takes any octet. */
enum {
    CURLEWREEL_ERROR_UNAUTHORIZED_MODEM = 1, /* the address is not listed */
    CURLEWREEL_ERROR_UNAUTHORIZED_SAID = 2,  /* the SAID is not this modem's */
    CURLEWREEL_ERROR_KEY_NUMBER = 4,         /* no such authorization key is active; in a TEK Invalid, no such TEK */
    CURLEWREEL_ERROR_DIGEST = 5,             /* a Key Request's digest does not hold */
    CURLEWREEL_ERROR_PERMANENT = 6           /* the modem is barred */
};

/* States of the modem's authorization machine. */
enum {
    CURLEWREEL_AUTH_START = 0,
    CURLEWREEL_AUTH_AUTH_WAIT = 1,
    CURLEWREEL_AUTH_AUTHORIZED = 2,
    CURLEWREEL_AUTH_REAUTH_WAIT = 3,
    CURLEWREEL_AUTH_REJECT_WAIT = 4,
    CURLEWREEL_AUTH_SILENT = 5
};

/* States of a TEK machine. */
enum {
    CURLEWREEL_TEK_START = 0,
    CURLEWREEL_TEK_OP_WAIT = 1,
    CURLEWREEL_TEK_OP_REAUTH_WAIT = 2,
    CURLEWREEL_TEK_OPERATIONAL = 3,
    CURLEWREEL_TEK_REKEY_WAIT = 4,
    CURLEWREEL_TEK_REKEY_REAUTH_WAIT = 5
};

/* Directions of a frame: the head-end opens what comes up, the modem what comes down. */
enum { CURLEWREEL_UP = 0, CURLEWREEL_DOWN = 1 };

/* Whether a message's digest holds, as a reading gives it. */
enum { CURLEWREEL_DIGEST_NO = 0, CURLEWREEL_DIGEST_YES = 1 };

/* Numbers of refusals: document 01's, and 15 of document 02. 0 is done. */
enum {
    CURLEWREEL_DONE = 0,
    CURLEWREEL_OUT_OF_LIMITS = 1,
    CURLEWREEL_WRONG_LENGTH = 2,
    CURLEWREEL_CLOCK_OUT_OF_ORDER = 3,
    CURLEWREEL_NO_FREE_PLACE = 4,
    CURLEWREEL_NOT_NEW = 5,
    CURLEWREEL_CUT_MESSAGE = 6,
    CURLEWREEL_CODE_NOT_RECEIVED = 7,
    CURLEWREEL_BAD_ATTRIBUTE = 8,
    CURLEWREEL_WRONG_ATTRIBUTES = 9,
    CURLEWREEL_UNKNOWN_SAID = 10,
    CURLEWREEL_WRONG_IDENTIFIER = 11,
    CURLEWREEL_DIGEST_FAILS = 12,
    CURLEWREEL_NO_KEY_FOR_FRAME = 13,
    CURLEWREEL_NO_KEY_TO_SEAL = 14,
    CURLEWREEL_SHORT_FRAME = 15
};

/* The frame decision: which of a held pair's keys opens a frame numbered `number` at the second `clock`. A key opens frames of
 * its own number while its deadline is after the clock.
 *   keys: 64 octets: TEK and vector of the older key, then of the newer, 16 octets for each, zero past the width.
 * Gives 0 and writes the key's first `width` octets of TEK and of vector at the front of `tek` and `vector`; their other octets
 * stay as they were.
 * Refuses, and then writes nothing:
 *   1  the clock is above 10^12, the width is not 8 or 16, a number is above 15, the newer's number is not the older's and 1
 *      mod 16, the older's deadline is not below the newer's, the newer's is more than 604,800 s after the clock, or an octet past
 *      the width is not zero (octets that a short `keys` lacks count as zero)
 *   2  `keys` has not 64 octets, or `tek` or `vector` fewer than 16
 *   13 no held key opens the frame */
uint8_t curlewreel_frame(uint64_t clock, uint8_t older_number, uint64_t older_deadline, uint8_t newer_number,
                         uint64_t newer_deadline, size_t width, const uint8_t *keys, size_t keys_len, uint8_t number,
                         uint8_t *tek, size_t tek_len, uint8_t *vector, size_t vector_len);

/* The fields of a message in octets. A number of two or four octets has the higher first. What a message's code does not carry is
 * zero. The first CURLEWREEL_FIELDS_WRITTEN octets are what a writing takes; a reading gives all CURLEWREEL_FIELDS. */
enum {
    CURLEWREEL_FIELD_CODE = 0,           /* 1 octet */
    CURLEWREEL_FIELD_IDENTIFIER = 1,     /* 1 */
    CURLEWREEL_FIELD_AK_NUMBER = 2,      /* 1: the authorization key's number */
    CURLEWREEL_FIELD_ERROR = 3,          /* 1: the error code */
    CURLEWREEL_FIELD_COUNT = 4,          /* 1: how many descriptors there are */
    CURLEWREEL_FIELD_SAID = 5,           /* 2 */
    CURLEWREEL_FIELD_LIFE = 7,           /* 4: the authorization key's life in seconds */
    CURLEWREEL_FIELD_DESCRIPTORS = 11,   /* four of CURLEWREEL_DESCRIPTOR octets */
    CURLEWREEL_FIELD_OLDER = 31,         /* TEK-Parameters, CURLEWREEL_PARAMS octets */
    CURLEWREEL_FIELD_NEWER = 70,         /* the same */
    CURLEWREEL_FIELDS_WRITTEN = 109,     /* the octets before this place are the fields that a message is written from */
    CURLEWREEL_FIELD_KEY_START = 109,    /* 2: where the AUTH-Key's octets start in the message */
    CURLEWREEL_FIELD_KEY_LENGTH = 111,   /* 2: how many they are */
    CURLEWREEL_FIELD_DIGEST_START = 113, /* 2: the same of the digest */
    CURLEWREEL_FIELD_DIGEST_LENGTH = 115,
    CURLEWREEL_FIELD_DIGEST_HOLDS = 117, /* 1: CURLEWREEL_DIGEST_YES where it holds under the key; CURLEWREEL_DIGEST_NO where not, or where there is none */
    CURLEWREEL_FIELDS = 118
};

/* Within a descriptor. */
enum {
    CURLEWREEL_DESCRIPTOR_SAID = 0,  /* 2 */
    CURLEWREEL_DESCRIPTOR_TYPE = 2,  /* 1 */
    CURLEWREEL_DESCRIPTOR_SUITE = 3, /* 2 */
    CURLEWREEL_DESCRIPTOR = 5
};

/* Within TEK-Parameters. TEK and vector stand at the front of 16 octets each, zeros after them. */
enum {
    CURLEWREEL_PARAMS_NUMBER = 0,        /* 1 */
    CURLEWREEL_PARAMS_LIFE = 1,          /* 4 */
    CURLEWREEL_PARAMS_TEK_WIDTH = 5,     /* 1: 8 or 16 */
    CURLEWREEL_PARAMS_TEK = 6,           /* 16 */
    CURLEWREEL_PARAMS_VECTOR_WIDTH = 22, /* 1 */
    CURLEWREEL_PARAMS_VECTOR = 23,       /* 16 */
    CURLEWREEL_PARAMS = 39
};

/* The ends that read. */
enum { CURLEWREEL_HEAD_END = 0, CURLEWREEL_MODEM = 1 };

/* Reads a message of any octets at an end. Octets after the message's own length are padding.
 * Gives 0 and writes the fields, the two places, and whether the digest holds under `read_key` to the first CURLEWREEL_FIELDS octets of `fields`;
 * its other octets stay as they were. The digest is over all octets from the code on up to the type octet of the digest attribute.
 * Refuses, and then writes nothing:
 *   1  `end` is not 0 or 1
 *   2  `read_key` has not 20 octets, or `fields` fewer than CURLEWREEL_FIELDS
 *   6  fewer than four octets, a length above 1,490, or fewer octets than the length says
 *   7  a code that this end does not receive
 *   8  an attribute that runs past its holder, or a needed one whose length or value is out of its range, inside compounds too
 *   9  a needed attribute is not there as often as told, the digest is not the last, or what two attributes say does not agree
 *   11 TEK Invalid or Authentication Information with an Identifier other than 0; other Identifiers need an end's state and are not asked
 * What it takes in the standard order, curlewreel_write writes again from these octets, with the AUTH-Key's octets (at
 * CURLEWREEL_FIELD_KEY_START of the message) for an Authorization Reply and the digest that its key gives: octet for octet, where the digest held
 * under the same key. Of what curlewreel_write wrote it gives back the first CURLEWREEL_FIELDS_WRITTEN octets as they were given, and under the same
 * key the digest holds. */
uint8_t curlewreel_read(uint8_t end, const uint8_t *message, size_t message_len, const uint8_t *read_key, size_t read_key_len,
                        uint8_t *fields, size_t fields_len);

/* What a writing answers: the number, and how many octets it wrote. */
typedef struct {
    uint8_t number;
    size_t count;
} curlewreel_written;

/* Writes the message of the fields in the first CURLEWREEL_FIELDS_WRITTEN octets of `fields`: the needed attributes in the standard
 * order, with the digest that `write_key` gives in 7, 8, 9 and 11. A reading's CURLEWREEL_FIELDS octets may be given as they are.
 *   auth_key: the AUTH-Key's octets, 1 to 256 of them, which an Authorization Reply carries; not looked at for another code.
 *   write_key: the message key, 20 octets, asked also for a code that carries no digest.
 * Gives number 0 and the count of octets at the front of `out`; its other octets stay as they were.
 * Refuses with count 0, and then writes nothing:
 *   1  the code is not 4 to 12; the Identifier is not 0 in 11 or 12; a field is out of its range, or not zero where the code does not
 *      carry it (octets past a width and descriptors behind the count too); there are not 1 to 4 descriptors with different SAIDs; the
 *      newer's number is not the older's and 1 mod 16, or the older's life not below the newer's (octets that a short `fields` lacks
 *      count as zero)
 *   2  `fields` has fewer than CURLEWREEL_FIELDS_WRITTEN octets, the AUTH-Key has not 1 to 256 where the code carries one, `write_key` has
 *      not 20, or `out` is shorter than the message */
curlewreel_written curlewreel_write(const uint8_t *fields, size_t fields_len, const uint8_t *auth_key, size_t auth_key_len,
                                    const uint8_t *write_key, size_t write_key_len, uint8_t *out, size_t out_len);

/* The modem. Its state passes by value in and out: start with curlewreel_modem_new, keep what each call hands back, and give it to the
 * next. Every call asks the whole state (1), so one that is out of its limits is refused, and a refusal hands the modem back as it was, but for 13
 * at an opening and for the count of frames refused with 10 or 13, and gives 0 for counts, widths and a key's number, but for what 13 puts out.
 * Messages of one call stand end to end, each with its own length. */

/* The comments in the structs are the limits that question 1 asks; where a field has none, any value is taken. Both ends get the same settings. */
typedef struct {
    uint64_t tek_life, tek_grace;                                 /* 1,800 to 604,800 s and even; 300 to life / 2 - 1 */
    uint64_t ak_life, ak_grace;                                   /* 86,400 to 6,048,000 s; 300 to life / 2 */
    uint64_t authorize, reauthorize, operational, rekey, reject;  /* the waits, 1 to 600 s */
} curlewreel_settings;

typedef struct {
    uint8_t on;  /* 0 or 1 */
    uint64_t at; /* the second at which it fires, with the next clock call that reaches it; 0 where it is off */
} curlewreel_timer;

typedef struct {
    uint8_t number;                                                  /* 0 to 15 */
    uint64_t deadline;                                               /* the key counts while this is after the clock; limits at each holder */
    uint8_t tek[CURLEWREEL_OCTETS_TEK], vector[CURLEWREEL_OCTETS_VECTOR]; /* zeros past the suite's width */
} curlewreel_key;

typedef struct {
    uint8_t state;          /* 0 to 5 for A Start, B Auth Wait, C Authorized, D Reauth Wait, E Reject Wait, F Silent */
    uint8_t identifier;     /* of the last request */
    uint8_t ak_number;      /* 0 to 15, of the last Reply */
    curlewreel_timer timer; /* on in B, C, D, E, at most 12,096,000 s after the clock; off in A and F */
} curlewreel_authorization;

/* A TEK machine. One that is not in use is all zero. */
typedef struct {
    uint16_t said, suite;        /* at most 16,383; 256 or 768 */
    uint8_t state;               /* 0 to 5 for A Start, B Op Wait, C Op Reauth Wait, D Operational, E Rekey Wait, F Rekey Reauth Wait */
    uint8_t identifier;          /* of the last request */
    curlewreel_timer timer;      /* on in B, D, E, at most the operational wait, 604,800 s and the rekey wait after the clock; off in A, C, F */
    uint8_t held;                /* 1 where a pair is held: in D, E, F and in no other state */
    curlewreel_key older, newer; /* newer number = older + 1 mod 16; older deadline < newer deadline, and that at most 604,800 s after the clock;
                                  * both all zero where none is held */
} curlewreel_tek;

typedef struct {
    curlewreel_settings settings;
    uint64_t address; /* 48 bits */
    uint16_t said;    /* its own, which Authorization Requests carry; at most 16,383 */
    uint64_t clock;   /* at most 10^12 */
    uint8_t counter;  /* the Identifier of the last new request; 0 before the first, and 1 follows 255 */
    curlewreel_authorization authorization;
    size_t used;                           /* how many of the four machines are in use, from the front; 0 to 4 */
    curlewreel_tek teks[CURLEWREEL_SAIDS]; /* those in use have different SAIDs */
    uint64_t taken, refused;               /* frames */
} curlewreel_modem;

/* What a call answers: the number, how many octets of messages it wrote, and the modem after it. */
typedef struct {
    uint8_t number;
    size_t count;
    curlewreel_modem modem;
} curlewreel_modem_call;

/* A fresh modem at clock 0. Refuses with 1 settings out of their limits, an address of more than 48 bits or a SAID of more than 14, and
 * then hands back a modem that is all zero. */
curlewreel_modem_call curlewreel_modem_new(curlewreel_settings settings, uint64_t address, uint16_t said);

/* The modem is established; it is to reauthorize. Where the machine has a blank, done with nothing sent.
 * Each writes its messages at the front of `out`; its other octets stay as they were.
 * Refuses, and then writes and changes nothing: 1 the state; 2 `out` has fewer than 216 octets. */
curlewreel_modem_call curlewreel_modem_established(curlewreel_modem modem, uint8_t *out, size_t out_len);
curlewreel_modem_call curlewreel_modem_reauth(curlewreel_modem modem, uint8_t *out, size_t out_len);

/* The clock goes to `second`, and due timers fire. Refuses as above, with 2 also a `write_key` that has not 20 octets, and with 3 a second before
 * the last or above 10^12. */
curlewreel_modem_call curlewreel_modem_clock(curlewreel_modem modem, uint64_t second, const uint8_t *write_key, size_t write_key_len,
                                             uint8_t *out, size_t out_len);

/* A message comes.
 * Refuses as above, with 2 also a `read_key` or a `write_key` that has not 20 octets, then with 6 to 9 as curlewreel_read does (9 also widths that
 * are not the SAID's suite's); 10 a SAID that is not known (8, 9, 11); 11 an Identifier that is not the waiting Authorization Request's (5, 6), not
 * that of the SAID's waiting Key Request (8, 9), neither 0 nor a waiting Key Request's (10), or not 0 (11); 12 a digest that does not hold under
 * `read_key` (8, 9, 11; other codes carry none). The numbers in brackets are the messages' codes. */
curlewreel_modem_call curlewreel_modem_receive(curlewreel_modem modem, const uint8_t *message, size_t message_len, const uint8_t *read_key,
                                               size_t read_key_len, const uint8_t *write_key, size_t write_key_len, uint8_t *out,
                                               size_t out_len);

/* What sealing answers: the number, the key's number, and how many octets were written: of TEK and of vector each (8 or 16), or by a `_frame`
 * call of the frame (its length). */
typedef struct {
    uint8_t number;
    uint8_t key;
    size_t width;
} curlewreel_sealed;

/* The newer key of a SAID, to seal a frame with, at the front of `tek` and `vector`; their other octets stay as they were.
 * Refuses, and then writes nothing: 1 the state or the SAID; 2 a slice of fewer than 16 octets; 10 an unknown SAID; 14 no key. */
curlewreel_sealed curlewreel_modem_seal(curlewreel_modem modem, uint16_t said, uint8_t *tek, size_t tek_len, uint8_t *vector,
                                        size_t vector_len);

/* What opening answers: the number, how many octets were written of TEK and of vector each, or by open_frame of the frame, how many of messages,
 * and the modem after it. */
typedef struct {
    uint8_t number;
    size_t width;
    size_t count;
    curlewreel_modem modem;
} curlewreel_modem_opening;

/* The held key with the frame's number whose deadline is after the clock, at the front of `tek` and `vector`; the modem's `taken` is one more
 * (2^64 - 1 stays). Refuses, and then writes no key: 1 the state or a field (a frame comes down: direction 1); 2 slices of fewer than 16, 16
 * and 216 octets, or a `write_key` that has not 20; 10 another address or an unknown SAID; 13 no such key. On 10 and 13 `refused` is one more
 * (2^64 - 1 stays); on 13 the SAID's machine takes TEK Invalid, and what it sends is written to `out`. */
curlewreel_modem_opening curlewreel_modem_open(curlewreel_modem modem, uint8_t direction, uint64_t address, uint16_t said, uint8_t number,
                                               const uint8_t *write_key, size_t write_key_len, uint8_t *tek, size_t tek_len, uint8_t *vector,
                                               size_t vector_len, uint8_t *out, size_t out_len);

/* Frames sealed here. These calls seal and open the octets themselves, with AES of 128 bits in CBC mode as DOCSIS has it (document 000, 11.1 and
 * I.7): the first 12 octets of a frame, its two addresses, stay clear; whole blocks of 16 are chained from the vector on; what is left, 1 to 15
 * octets, is added to the left-most octets of the encrypted last ciphertext block, or of the encrypted vector where there is no whole block. A frame
 * of exactly 12 octets meets the same questions, and is then carried as it came. A frame has no upper limit.
 * They write as many octets as the frame has at the front of `sealed` or `opened`; its other octets stay as they were. Input and output do not
 * overlap: a frame is not sealed in its own place. A refusal writes nothing to `sealed` or `opened`, and gives the width 0.
 * Nothing tells a frame that was changed on its way from one that was not: it is opened to other octets. Suite 768 has no check of its own.
 * AES looks things up in tables by octets that depend on the key, so who shares a processor's cache with a call may learn about the key from how
 * long calls take: on shared hardware use a cipher block (docs/DECISIONS.md, "Frames sealed here").
 *
 * The newer key of a SAID seals the frame. Refuses: 1 the state or the SAID; 2 `sealed` shorter than the frame; 15 a frame of fewer than 12 octets;
 * 10 an unknown SAID, or one of suite 256; 14 no key. A short frame into a slice that is shorter still is refused with 2. */
curlewreel_sealed curlewreel_modem_seal_frame(curlewreel_modem modem, uint16_t said, const uint8_t *frame, size_t frame_len, uint8_t *sealed,
                                              size_t sealed_len);

/* The held key with the frame's number opens it. Refuses: 1 as curlewreel_modem_open; 2 `opened` shorter than the frame, `out` of fewer than 216
 * octets, or a `write_key` that has not 20; 15 a frame of fewer than 12 octets; 10 another address, an unknown SAID, or one of suite 256; 13 no such
 * key. `taken`, `refused` and what 13 does and sends are as in curlewreel_modem_open: 10 and 13 count, 15 does not. */
curlewreel_modem_opening curlewreel_modem_open_frame(curlewreel_modem modem, uint8_t direction, uint64_t address, uint16_t said, uint8_t number,
                                                     const uint8_t *frame, size_t frame_len, const uint8_t *write_key, size_t write_key_len,
                                                     uint8_t *opened, size_t opened_len, uint8_t *out, size_t out_len);

/* The head-end. Its state passes by value in and out like the modem's; the records of its associations are a slice of the caller's, of
 * any length, of which at most 64 come into use; `list` and `clock` change them and the other calls read them. The state says how many are in
 * use, from the front; what stands behind them is neither asked nor changed but by a listing. Every call asks the whole state and each record
 * in use (1), and that the slice has them (2). A SAID that an entry lists has its record among those in use, with the entry's suite: asked
 * (1) where a Key Reply, a sealing or an opening uses it. A refusal leaves state and records as they were, but for the count of frames
 * refused with 10 or 13, and gives 0 for counts, widths and a key's number, but for what 13 puts out. */

typedef struct {
    uint16_t said, suite;         /* at most 16,383; suite 256 (8 octets of TEK and of vector) or 768 (16) */
    curlewreel_key older, newer;  /* the older's deadline is after the clock, the newer's half a TEK life more; newer number = older + 1 mod 16 */
} curlewreel_record;

/* The SAIDs of a modem with their suites, in listing order: the first `count` of four places. None twice: asked with 1 in an entry, with 5 in a
 * listing that is handed to `list`. */
typedef struct {
    size_t count;                                             /* 1 to 4 */
    uint16_t saids[CURLEWREEL_SAIDS], suites[CURLEWREEL_SAIDS]; /* of the first `count`: at most 16,383; 256 or 768 */
} curlewreel_listing;

typedef struct {
    uint8_t next;           /* the number that the modem's next authorization key gets, 0 to 15 */
    uint64_t older, newer;  /* the deadlines of the last two made, 0 for none. The older's is at most ak_life after the clock, the newer's at most
                             * ak_life after the older's, or after the clock where the older's is past; older < newer, or both are 0 */
} curlewreel_auth_keys;

typedef struct {
    uint64_t address; /* 48 bits, another than that of each other entry in use */
    uint8_t allowed;  /* 1, or 0 for a barred modem */
    curlewreel_listing listing; /* no SAID in common with another entry in use */
    curlewreel_auth_keys keys;
} curlewreel_entry;

typedef struct {
    curlewreel_settings settings;
    uint64_t clock;                              /* at most 10^12 */
    size_t modems;                               /* how many of the entries are in use, from the front; 0 to 16 */
    curlewreel_entry entries[CURLEWREEL_MODEMS]; /* those not in use are not asked */
    size_t used;                                 /* how many of the records are in use; 0 to 64 */
    uint64_t taken, refused;                     /* frames */
} curlewreel_headend;

/* What a call answers: the number, how many octets of an answer it wrote, and the head-end after it. */
typedef struct {
    uint8_t number;
    size_t count;
    curlewreel_headend headend;
} curlewreel_headend_call;

/* A fresh head-end at clock 0. Refuses with 1 settings out of their limits, and then hands back a head-end that is all zero. */
curlewreel_headend_call curlewreel_headend_new(curlewreel_settings settings);

/* Lists a modem with 1 to 4 SAIDs. `material` has 64 octets for each: generations 0 and 1 are minted from them into the records behind those
 * in use. Refuses, and then changes nothing: 1 the state, a record or a field; 2 fewer records than are in use, or another length of
 * `material`; 4 no free place among 16 modems, 64 records or the records lent; 5 an address or a SAID that is listed already, or a SAID twice. */
curlewreel_headend_call curlewreel_headend_list(curlewreel_headend headend, curlewreel_record *records, size_t records_len, uint64_t address,
                                                uint8_t allowed, curlewreel_listing listing, const uint8_t *material,
                                                size_t material_len);

/* The clock goes to `second`: keys that are over go, and new ones are minted from 64 octets of `material` for each record in use.
 * Refuses, and then changes nothing: 1 and 2 as above; 3 a second before the last or above 10^12. */
curlewreel_headend_call curlewreel_headend_clock(curlewreel_headend headend, curlewreel_record *records, size_t records_len, uint64_t second,
                                                 const uint8_t *material, size_t material_len);

/* A message comes from the modem of that address; `auth_key` has the AUTH-Key's octets for an Authorization Reply. It has to be that of the
 * authorization key that the Reply will name. Where the entry's `keys.older` is after the clock, none is made, and it is the last one made,
 * number `keys.next` - 1 mod 16: lend the same octets again. Else a new one is made, with number `keys.next`. 1 to 256 octets are asked with
 * every message.
 * The answer is written at the front of `out`, with the digest that `write_key` gives where it carries one; its other octets stay as they were. A
 * Key Request whose digest does not hold under `read_key` gets error 5, where its authorization key is active.
 * Refuses, and then writes and changes nothing: 1 the state, a record or the address, or a Key Reply whose lives would be
 * above 604,800 s (a lent record may have deadlines that far ahead; the calls make none); 2 fewer records than are in use, `out` of
 * fewer than 342 octets, an AUTH-Key that has not 1 to 256, or a `read_key` or a `write_key` that has not 20; then 6 to 9 as curlewreel_read does,
 * and 11 an Authentication Information whose Identifier is not 0. */
curlewreel_headend_call curlewreel_headend_receive(curlewreel_headend headend, const curlewreel_record *records, size_t records_len,
                                                   uint64_t address, const uint8_t *message, size_t message_len, const uint8_t *read_key,
                                                   size_t read_key_len, const uint8_t *write_key, size_t write_key_len,
                                                   const uint8_t *auth_key, size_t auth_key_len, uint8_t *out, size_t out_len);

/* The older key of a SAID of that modem, to seal a frame with, at the front of `tek` and `vector`; their other octets stay as they were.
 * Refuses, and then writes nothing: 1 the state, a record, the address or the SAID; 2 fewer records than are in use, or a slice of fewer
 * than 16 octets; 10 an address that is not listed, or a SAID that is not that modem's. */
curlewreel_sealed curlewreel_headend_seal(curlewreel_headend headend, const curlewreel_record *records, size_t records_len,
                                          uint64_t address, uint16_t said, uint8_t *tek, size_t tek_len, uint8_t *vector,
                                          size_t vector_len);

/* What opening answers: the number, how many octets were written of TEK and of vector each, or by open_frame of the frame, how many of a TEK
 * Invalid, and the head-end after it. */
typedef struct {
    uint8_t number;
    size_t width;
    size_t count;
    curlewreel_headend headend;
} curlewreel_headend_opening;

/* The held key with the frame's number, at the front of `tek` and `vector`; the head-end's `taken` is one more (2^64 - 1 stays).
 * Refuses, and then writes no key: 1 the state, a record or a field (a frame comes up: direction 0); 2 fewer records than are in use, or slices
 * of fewer than 16, 16 and 40 octets, or a `write_key` that has not 20; 10 an address that is not listed, or a SAID that is not that modem's;
 * 13 no such key. On 10 and 13 `refused` is one more (2^64 - 1 stays); on 13 a TEK Invalid for the modem is written to `invalid`, where an
 * authorization key of it is active. */
curlewreel_headend_opening curlewreel_headend_open(curlewreel_headend headend, const curlewreel_record *records, size_t records_len,
                                                   uint8_t direction, uint64_t address, uint16_t said, uint8_t number,
                                                   const uint8_t *write_key, size_t write_key_len, uint8_t *tek, size_t tek_len,
                                                   uint8_t *vector, size_t vector_len, uint8_t *invalid, size_t invalid_len);

/* Frames sealed here, as at the modem. The older key of a SAID of that modem seals the frame. Refuses: 1 as curlewreel_headend_seal; 2 fewer records
 * than are in use, or `sealed` shorter than the frame; 15 a frame of fewer than 12 octets; 10 an address that is not listed, a SAID that is not
 * that modem's, or one of suite 256. */
curlewreel_sealed curlewreel_headend_seal_frame(curlewreel_headend headend, const curlewreel_record *records, size_t records_len,
                                                uint64_t address, uint16_t said, const uint8_t *frame, size_t frame_len, uint8_t *sealed,
                                                size_t sealed_len);

/* The held key with the frame's number opens it. Refuses: 1 as curlewreel_headend_open; 2 fewer records than are in use, `opened` shorter than the
 * frame, `invalid` of fewer than 40 octets, or a `write_key` that has not 20; 15 a frame of fewer than 12 octets; 10 an address that is not listed, a
 * SAID that is not that modem's, or one of suite 256; 13 no such key. `taken`, `refused` and the TEK Invalid of 13 are as in
 * curlewreel_headend_open: 10 and 13 count, 15 does not. */
curlewreel_headend_opening curlewreel_headend_open_frame(curlewreel_headend headend, const curlewreel_record *records, size_t records_len,
                                                         uint8_t direction, uint64_t address, uint16_t said, uint8_t number,
                                                         const uint8_t *frame, size_t frame_len, const uint8_t *write_key,
                                                         size_t write_key_len, uint8_t *opened, size_t opened_len, uint8_t *invalid,
                                                         size_t invalid_len);

/* Small functions for the caller. They are no part of the library and are not proved. */

/* How many octets a message has by its own head, of which four have to be there; messages of one call stand end to end. */
static inline size_t curlewreel_message_octets(const uint8_t *message) {
    size_t high = message[2], low = message[3];
    return CURLEWREEL_OCTETS_HEAD + (high << 8) + low;
}

/* The name of an answer's number. */
static inline const char *curlewreel_refusal_name(uint8_t number) {
    switch (number) {
    case CURLEWREEL_DONE: return "done";
    case CURLEWREEL_OUT_OF_LIMITS: return "out of limits";
    case CURLEWREEL_WRONG_LENGTH: return "wrong length";
    case CURLEWREEL_CLOCK_OUT_OF_ORDER: return "clock out of order";
    case CURLEWREEL_NO_FREE_PLACE: return "no free place";
    case CURLEWREEL_NOT_NEW: return "not new";
    case CURLEWREEL_CUT_MESSAGE: return "cut message";
    case CURLEWREEL_CODE_NOT_RECEIVED: return "code not received";
    case CURLEWREEL_BAD_ATTRIBUTE: return "bad attribute";
    case CURLEWREEL_WRONG_ATTRIBUTES: return "wrong attributes";
    case CURLEWREEL_UNKNOWN_SAID: return "unknown SAID";
    case CURLEWREEL_WRONG_IDENTIFIER: return "wrong Identifier";
    case CURLEWREEL_DIGEST_FAILS: return "digest fails";
    case CURLEWREEL_NO_KEY_FOR_FRAME: return "no key for frame";
    case CURLEWREEL_NO_KEY_TO_SEAL: return "no key to seal";
    case CURLEWREEL_SHORT_FRAME: return "short frame";
    default: return "no such number";
    }
}

static inline const char *curlewreel_authorization_state_name(uint8_t state) {
    switch (state) {
    case CURLEWREEL_AUTH_START: return "Start";
    case CURLEWREEL_AUTH_AUTH_WAIT: return "Auth Wait";
    case CURLEWREEL_AUTH_AUTHORIZED: return "Authorized";
    case CURLEWREEL_AUTH_REAUTH_WAIT: return "Reauth Wait";
    case CURLEWREEL_AUTH_REJECT_WAIT: return "Reject Wait";
    case CURLEWREEL_AUTH_SILENT: return "Silent";
    default: return "no such state";
    }
}

static inline const char *curlewreel_tek_state_name(uint8_t state) {
    switch (state) {
    case CURLEWREEL_TEK_START: return "Start";
    case CURLEWREEL_TEK_OP_WAIT: return "Op Wait";
    case CURLEWREEL_TEK_OP_REAUTH_WAIT: return "Op Reauth Wait";
    case CURLEWREEL_TEK_OPERATIONAL: return "Operational";
    case CURLEWREEL_TEK_REKEY_WAIT: return "Rekey Wait";
    case CURLEWREEL_TEK_REKEY_REAUTH_WAIT: return "Rekey Reauth Wait";
    default: return "no such state";
    }
}

/* The deepest call with its state by value, and some 4,400 octets for a function between it and the wiping. */
enum { CURLEWREEL_OCTETS_STACK = 21120 };

/* Inlined, it would overwrite a part of its caller's frame instead. */
#if defined(__GNUC__)
#define CURLEWREEL_OWN_FRAME static __attribute__((noinline, unused))
#else
#define CURLEWREEL_OWN_FRAME static inline
#endif

/* Overwrites as much stack below the caller's frame as a call of the library may have used. Call it from the function that made the call or, to reach
 * that one's frame too, from the one above it. It does not reach its caller's own frame, where the state handed back stands and maybe the one
 * handed in, nor registers. */
CURLEWREEL_OWN_FRAME void curlewreel_wipe_stack(void) {
    volatile uint8_t dead[CURLEWREEL_OCTETS_STACK];
    for (size_t i = 0; i < sizeof dead; i++) dead[i] = 0;
}

#ifdef __cplusplus
}
#endif

#endif
