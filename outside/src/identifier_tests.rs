//! Tests of the Identifiers of requests (document 02, M-101): 255 is followed by 1 at the modem, and the head-end answers a request numbered 0.

use crate::both::{split, Both, ADDRESS, DOWN, SAID, UP};
use crate::message::{read, write, End, Fields};

/// An Authorization Invalid, error 4.
fn invalid(identifier: u8) -> [u8; 8] {
    [10, identifier, 0, 4, 16, 0, 1, 4]
}

/// Code and Identifier of each message.
fn numbers(messages: &[Vec<u8>]) -> Vec<(u8, u8)> {
    messages.iter().map(|m| (m[0], m[1])).collect()
}

/// Two machines in Rekey Wait, under 1 and 2 after the counter came round.
fn rekeying() -> Both {
    let mut b = Both::operational();
    b.modem.counter = 255;
    assert_eq!(numbers(&b.clock(1_500)), [(7, 1), (7, 2)]);
    b
}

#[test]
fn four_key_requests_of_one_clock_call_skip_0() {
    let mut b = Both::listed(&[(SAID, 256), (SAID + 1, 768), (3, 256), (4, 768)]);
    let requests = b.authorized();
    b.settle(requests);
    b.modem.counter = 254;
    assert_eq!(numbers(&b.clock(1_500)), [(7, 255), (7, 1), (7, 2), (7, 3)]);
    assert_eq!(b.modem.counter, 3);
}

#[test]
fn authorization_request_after_255_is_numbered_1() {
    let mut b = Both::new();
    b.modem.counter = 255;
    assert_eq!(numbers(&split(&b.modem.established().unwrap())), [(12, 0), (4, 1)]);
    let mut b = Both::operational();
    b.modem.counter = 255;
    assert_eq!(numbers(&split(&b.modem.reauth().unwrap())), [(4, 1)]);
    // grace and both refresh timers in one clock call
    let mut b = Both::operational();
    b.modem.counter = 254;
    assert_eq!(numbers(&b.clock(86_100)), [(4, 255), (7, 1), (7, 2)]);
}

#[test]
fn resends_of_255_keep_it() {
    let mut b = Both::new();
    b.modem.counter = 254;
    let sent = split(&b.modem.established().unwrap());
    assert_eq!(numbers(&sent), [(12, 0), (4, 255)]);
    assert_eq!((b.clock(10), b.modem.counter), (sent, 255));
    let mut b = Both::operational();
    b.modem.counter = 254;
    let requests = b.clock(1_500);
    assert_eq!(numbers(&requests), [(7, 255), (7, 1)]);
    assert_eq!((b.clock(1_510), b.modem.counter), (requests, 1));
}

#[test]
fn requests_go_round_without_0() {
    let mut b = Both::operational();
    let first = usize::from(b.modem.counter);
    for n in first..first + 600 {
        // no such key: the machine asks anew
        let request = split(&b.modem.open(1, ADDRESS, SAID, 9, &UP).unwrap_err().1);
        assert_eq!(numbers(&request), [(7, (n % 255 + 1) as u8)]);
        b.settle(request);
    }
}

#[test]
fn head_end_answers_requests_numbered_0() {
    let mut b = Both::operational();
    let reply = b.up(&[4, 0, 0, 5, 12, 0, 2, 0x22, 0x60]);
    assert_eq!((reply[0], reply[1]), (5, 0));
    let key = Fields { code: 7, said: SAID as u16, ..Fields::default() };
    let request = write(&key, &[], &UP, 36).unwrap();
    assert_eq!(request[1], 0);
    let reply = b.up(&request);
    let reading = read(End::Modem, &reply).unwrap();
    assert_eq!((reading.fields.code, reading.fields.identifier, reading.fields.said), (8, 0, SAID as u16));
    assert!(reading.holds(&reply, &DOWN));
}

#[test]
fn invalid_after_255_puts_op_wait_into_op_reauth_wait() {
    let mut b = Both::new();
    b.modem.counter = 254;
    let requests = b.authorized();
    assert_eq!(numbers(&requests), [(7, 1), (7, 2)]);
    assert_eq!(numbers(&b.down(&invalid(1))), [(4, 3)]);
    assert_eq!((b.modem.state, b.modem.slots[0].state, b.modem.slots[1].state), (b'D', b'C', b'B'));
    // it asks no more: only the others are sent again
    assert_eq!(numbers(&b.clock(10)), [(4, 3), (7, 2)]);
}

#[test]
fn invalid_after_255_puts_rekey_wait_into_rekey_reauth_wait() {
    let mut b = rekeying();
    assert_eq!(numbers(&b.down(&invalid(1))), [(4, 3)]);
    assert_eq!((b.modem.state, b.modem.slots[0].state, b.modem.slots[1].state), (b'D', b'F', b'E'));
    // in Reauth Wait too
    assert!(b.down(&invalid(2)).is_empty());
    assert_eq!((b.modem.state, b.modem.slots[1].state), (b'D', b'F'));
    assert_eq!(numbers(&b.clock(1_510)), [(4, 3)]);
    // the Reply completes both
    let reply = b.up(&[4, 3, 0, 5, 12, 0, 2, 0x22, 0x60]);
    assert_eq!(numbers(&b.down(&reply)), [(7, 4), (7, 5)]);
}

/// Such a state no list of calls makes, and question 1 does not ask it: the request is sent again as it is, and an Authorization Invalid for it is
/// unsolicited; the next one has another number.
#[test]
fn request_that_waits_under_0() {
    let mut b = rekeying();
    b.modem.slots[0].identifier = 0;
    assert_eq!(numbers(&b.clock(1_510)), [(7, 0), (7, 2)]);
    assert_eq!(numbers(&b.down(&invalid(0))), [(4, 3)]);
    assert_eq!((b.modem.state, b.modem.slots[0].state), (b'D', b'E'));
    assert_eq!(numbers(&split(&b.modem.open(1, ADDRESS, SAID, 9, &UP).unwrap_err().1)), [(7, 4)]);
}
