//! Tests of the message keys at both ends: lengths, wrong keys, changed messages, and what the sum is over.

use crate::both::{split, Both, ADDRESS, DOWN, SAID, UP};
use crate::digest::{hmac, KEY};
use crate::message::{read, write, Descriptor, End, Fields, Params};

/// Keys that have not 20 octets; the first and the last give the same digests as `UP` without its last octet, and as `UP`.
fn other_lengths() -> Vec<Vec<u8>> {
    let longer = |n: usize| [&UP[..], &vec![0; n - KEY]].concat();
    vec![UP[..19].to_vec(), vec![], vec![9; 19], vec![9; 21], vec![9; 65], longer(64), longer(21)]
}

/// The message with its digest made anew.
fn anew(mut message: Vec<u8>, key: &[u8]) -> Vec<u8> {
    let at = message.len() - 20;
    let digest = hmac(key, &message[..at - 3]);
    message[at..].copy_from_slice(&digest);
    message
}

/// The message with these octets of attributes put in at a place, and its Length with them.
fn with_more(message: &[u8], at: usize, more: &[u8]) -> Vec<u8> {
    let mut out = message.to_vec();
    out.splice(at..at, more.iter().copied());
    let length = (out.len() - 4) as u16;
    out[2..4].copy_from_slice(&length.to_be_bytes());
    out
}

#[test]
fn lengths_at_the_head_end() {
    let mut b = Both::operational();
    let request = b.clock(1_500)[0].clone();
    let (before, h) = (b.head.clone(), &mut b.head);
    for key in other_lengths() {
        // whatever the message is, and whatever would be written
        for message in [&request[..], &[12, 0, 0, 0], &[4, 9, 0, 5, 12, 0, 2, 0, 5], &[12, 9, 0, 0], &request[..9], &[], &[5, 0, 0, 0]] {
            assert_eq!(h.receive(ADDRESS, &key, &DOWN, &[1], message), Err(2));
            assert_eq!(h.receive(ADDRESS, &UP, &key, &[1], message), Err(2));
            assert_eq!(h.receive(1 << 48, &key, &key, &[1], message), Err(1));
        }
        // a frame that a key opens, one that none does, one of a SAID that is not this modem's, and one out of the limits
        for (said, number, due) in [(SAID, 1, 2), (SAID, 9, 2), (5, 1, 2), (SAID, 16, 1)] {
            assert_eq!(h.open(0, ADDRESS, said, number, &key), Err((due, vec![])));
        }
    }
    assert_eq!(*h, before);
}

#[test]
fn lengths_at_the_modem() {
    let mut b = Both::operational();
    let request = b.clock(1_500)[0].clone();
    let reply = b.up(&request);
    let (before, m) = (b.modem.clone(), &mut b.modem);
    for key in other_lengths() {
        for message in [&reply[..], &[10, 0, 0, 4, 16, 0, 1, 4], &[4, 0, 0, 0], &reply[..9], &[]] {
            assert_eq!(m.receive(&key, &UP, message), Err(2));
            assert_eq!(m.receive(&DOWN, &key, message), Err(2));
        }
        // nothing due, timers due, and a clock that goes back: 2 comes before 3
        for second in [1_500, 90_000, 3] {
            assert_eq!(m.clock(second, &key), Err(2));
        }
        for (said, number, due) in [(SAID, 1, 2), (SAID, 9, 2), (5, 1, 2), (SAID, 16, 1)] {
            assert_eq!(m.open(1, ADDRESS, said, number, &key), Err((due, vec![])));
        }
    }
    assert_eq!(*m, before);
}

#[test]
fn lengths_at_the_writer() {
    for key in other_lengths() {
        for fields in [Fields { code: 7, ..Fields::default() }, Fields { code: 12, ..Fields::default() }] {
            assert_eq!(write(&fields, &[], &key, 342), Err(2));
            assert_eq!(write(&Fields { ak_number: 16, ..fields }, &[], &key, 342), Err(1));
        }
    }
}

/// A digest is worked out with a key of any length: where it holds, question 1 of the Key Reply's record comes before 2.
#[test]
fn record_before_length() {
    let mut b = Both::operational();
    let request = b.clock(1_500)[0].clone();
    let far = b.head.clock + 604_801;
    (b.head.records[0].older.deadline, b.head.records[0].newer.deadline) = (far - 900, far);
    let mut ask = |read_key: &[u8], write_key: &[u8]| b.head.receive(ADDRESS, read_key, write_key, &[1], &request);
    assert_eq!(ask(&UP, &DOWN), Err(1));
    assert_eq!(ask(&UP, &[]), Err(1));
    assert_eq!(ask(&[&UP[..], &[0]].concat(), &DOWN), Err(1));
    assert_eq!(ask(&[&UP[..], &[1]].concat(), &DOWN), Err(2));
    assert_eq!(ask(&UP[..19], &DOWN), Err(2));
    assert_eq!(ask(&DOWN, &DOWN).unwrap(), [10, request[1], 0, 4, 16, 0, 1, 5]);
}

#[test]
fn changed_identifier_is_error_5() {
    let mut b = Both::operational();
    let mut request = b.clock(1_500)[0].clone();
    assert_eq!(b.up(&request)[0], 8);
    request[1] ^= 1;
    assert_eq!(b.up(&request), [10, request[1], 0, 4, 16, 0, 1, 5]);
    // made anew it holds again, and the SAID is asked after it
    let request = anew(request, &UP);
    assert_eq!(b.up(&request)[0], 8);
    let mut other = request.clone();
    other[12] ^= 0x80;
    assert_eq!(b.up(&other)[7], 5);
    assert_eq!(b.up(&anew(other, &UP))[0], 9);
    // an authorization key that is not active is asked before it
    let mut inactive = request;
    inactive[7] = 3;
    assert_eq!(b.up(&inactive)[7], 4);
}

#[test]
fn old_key_reply_is_refused() {
    let mut b = Both::operational();
    let first = b.clock(1_500)[0].clone();
    let mut old = b.up(&first);
    b.down(&old);
    let asked = split(&b.modem.open(1, ADDRESS, SAID, 9, &UP).unwrap_err().1);
    assert_eq!(b.modem.receive(&DOWN, &UP, &old), Err(11));
    old[1] = asked[0][1];
    let before = b.modem.clone();
    assert_eq!(b.modem.receive(&DOWN, &UP, &old), Err(12));
    assert_eq!(b.modem, before);
    // 12 comes after 11, and the key of the other direction does not do either
    let reply = b.up(&asked[0]);
    assert_eq!(b.modem.receive(&UP, &DOWN, &reply), Err(12));
    assert!(b.down(&reply).is_empty());
    assert_eq!(b.modem.receive(&UP, &DOWN, &reply), Err(11));
}

#[test]
fn digest_of_a_reply_is_skipped() {
    let mut b = Both::new();
    let sent = split(&b.modem.established().unwrap());
    let reply = b.up(&sent[1]);
    for length in [20, 0, 2] {
        let more = [&[11, 0, length][..], &vec![7; usize::from(length)]].concat();
        for at in [4, reply.len()] {
            let mut m = b.modem.clone();
            let requests = split(&m.receive(&[9; 20], &UP, &with_more(&reply, at, &more)).unwrap());
            assert_eq!((m.state, requests.len()), (b'C', 2));
            let reading = read(End::HeadEnd, &requests[0]).unwrap();
            assert!(reading.holds(&requests[0], &UP));
        }
        let skipped = read(End::Modem, &with_more(&reply, 4, &more)).unwrap();
        assert_eq!(skipped.digest, (0, 0));
        assert!(!skipped.holds(&reply, &DOWN));
    }
}

#[test]
fn padding_is_not_in_the_sum() {
    let mut b = Both::operational();
    let request = b.clock(1_500)[0].clone();
    for padding in [1, 20, 64, 1_400] {
        let padded = [&request[..], &vec![7; padding]].concat();
        let reading = read(End::HeadEnd, &padded).unwrap();
        assert!(reading.holds(&padded, &UP) && !reading.holds(&padded, &DOWN));
        assert_eq!(b.up(&padded), b.up(&request));
        let mut wrong = padded.clone();
        wrong[35] ^= 1;
        assert!(!read(End::HeadEnd, &wrong).unwrap().holds(&wrong, &UP));
        assert_eq!(b.up(&wrong)[7], 5);
    }
}

#[test]
fn skipped_attributes_are_in_the_sum() {
    let mut b = Both::operational();
    let request = b.clock(1_500)[0].clone();
    // unknown, empty, and of a type that a Key Request does not need, before the first, between, and just before the digest
    for more in [&[99, 0, 1, 5][..], &[200, 0, 0], &[7, 0, 2, 1, 1]] {
        for at in [4, 8, 13] {
            let longer = with_more(&request, at, more);
            assert_eq!(b.up(&longer)[7], 5);
            let right = anew(longer, &UP);
            assert_eq!(b.up(&right), b.up(&request));
            let mut other = right.clone();
            other[at] ^= 0x40;
            assert_eq!(b.up(&other)[7], 5);
        }
    }
    // the order counts: what is needed may stand in any, and the sum is of the octets as they are
    let turned = [&request[..4], &request[8..13], &request[4..8], &request[13..]].concat();
    assert_eq!(b.up(&turned)[7], 5);
    assert_eq!(b.up(&anew(turned, &UP)), b.up(&request));
}

#[test]
fn what_is_written_holds() {
    let params = |number, life| Params { number, life, tek: vec![number; 8], vector: vec![life as u8; 16] };
    let named = Fields { ak_number: 7, said: 8_800, ..Fields::default() };
    let all = [
        (End::HeadEnd, Fields { code: 7, identifier: 115, ..named.clone() }),
        (End::Modem, Fields { code: 8, identifier: 115, older: params(15, 1), newer: params(0, 604_800), ..named.clone() }),
        (End::Modem, Fields { code: 9, identifier: 0, error: 2, ..named.clone() }),
        (End::Modem, Fields { code: 11, error: 4, ..named }),
    ];
    for (end, fields) in all {
        let m = write(&fields, &[], &DOWN, 342).unwrap();
        let reading = read(end, &m).unwrap();
        assert_eq!(reading.fields, fields);
        assert!(reading.holds(&m, &DOWN) && !reading.holds(&m, &UP));
        for at in 0..m.len() {
            let mut other = m.clone();
            other[at] ^= 1;
            assert!(!read(end, &other).is_ok_and(|r| r.holds(&other, &DOWN)), "{at} of code {}", fields.code);
        }
    }
    let descriptors = vec![Descriptor { said: 1, sa_type: 0, suite: 256 }];
    let reply = Fields { code: 5, life: 1, descriptors, ..Fields::default() };
    let m = write(&reply, &[1], &DOWN, 342).unwrap();
    assert_eq!(m, write(&reply, &[1], &UP, 342).unwrap());
    assert!(!read(End::Modem, &m).unwrap().holds(&m, &DOWN));
}
