//! Tests of records whose deadlines are further ahead than the calls make them, and of the order of questions 9 to 11 at the ends.

use crate::both::{DOWN, UP};
use crate::headend::HeadEnd;
use crate::limits::headend_fits;
use crate::message::{read, write, End, Fields};
use crate::modem::Modem;
use crate::settings::Settings;

const LINE: u64 = 604_800;

fn settings() -> Settings {
    let (life, grace, aklife, akgrace) = (1_800, 300, 86_400, 300);
    Settings { life, grace, aklife, akgrace, authorize: 10, reauthorize: 10, operational: 10, rekey: 10, reject: 60 }
}

/// A head-end at clock 100 with a modem of address 5 and SAID 1, its authorization key number 0 active, and a Key Request.
fn authorized() -> (HeadEnd, Vec<u8>) {
    let mut h = HeadEnd::new(settings()).unwrap();
    h.list(5, true, &[1; 64], &[(1, 256)]).unwrap();
    h.clock(100, &[2; 64]).unwrap();
    h.receive(5, &UP, &DOWN, &[1], &[4, 1, 0, 5, 12, 0, 2, 0, 1]).unwrap();
    let request = write(&Fields { code: 7, identifier: 9, said: 1, ..Fields::default() }, &[], &UP, 36).unwrap();
    (h, request)
}

/// Its record with the newer key's life this long.
fn with_life(h: &HeadEnd, life: u64) -> HeadEnd {
    let mut h = h.clone();
    let newer = h.clock + life;
    (h.records[0].older.deadline, h.records[0].newer.deadline) = (newer - 900, newer);
    h
}

#[test]
fn limits_of_deadlines() {
    let (h, _) = authorized();
    for life in [901, 1_800, 1_801, 3_600, LINE, LINE + 1, 1 << 40, u64::MAX - h.clock] {
        assert!(headend_fits(&with_life(&h, life)), "{life}");
    }
    assert!(!headend_fits(&with_life(&h, 900)));
    let mut wrapped = h.clone();
    (wrapped.records[0].older.deadline, wrapped.records[0].newer.deadline) = (u64::MAX - 100, 799);
    assert!(!headend_fits(&wrapped));
    let mut apart = with_life(&h, LINE);
    apart.records[0].newer.deadline += 1;
    assert!(!headend_fits(&apart));
}

#[test]
fn key_requests() {
    let (h, request) = authorized();
    for life in [901, 1_800, 3_600, LINE - 1, LINE] {
        let reply = with_life(&h, life).receive(5, &UP, &DOWN, &[1], &request).unwrap();
        let f = read(End::Modem, &reply).unwrap().fields;
        assert_eq!((u64::from(f.older.life), u64::from(f.newer.life)), (life - 900, life));
    }
    // the last of these would have a life within the limits in 32 bits
    for life in [LINE + 1, LINE + 900, LINE + 901, 1 << 40, u64::MAX - h.clock, (1 << 32) + 1_800] {
        let before = with_life(&h, life);
        let mut h = before.clone();
        assert_eq!(h.receive(5, &UP, &DOWN, &[1], &request), Err(1));
        // question 1 comes before 2
        assert_eq!(h.receive(5, &UP, &DOWN, &[], &request), Err(1));
        assert_eq!(h, before);
        // what gets no Key Reply is answered
        assert_eq!(h.receive(5, &DOWN, &DOWN, &[1], &request).unwrap(), [10, 9, 0, 4, 16, 0, 1, 5]);
        assert_eq!(h.receive(6, &UP, &DOWN, &[1], &request).unwrap(), [10, 9, 0, 4, 16, 0, 1, 1]);
        assert_eq!(h.receive(5, &UP, &DOWN, &[], &request[..9]), Err(2));
        assert_eq!(h.receive(5, &UP, &DOWN, &[1], &request[..9]), Err(6));
        assert_eq!(h.receive(5, &UP, &DOWN, &[1], &[4, 2, 0, 5, 12, 0, 2, 0, 1]).unwrap()[0], 5);
        // frames go on
        assert_eq!(h.seal(5, 1).unwrap(), (0, vec![1; 8], vec![1; 8]));
        assert!(h.open(0, 5, 1, 0, &DOWN).is_ok() && h.open(0, 5, 1, 1, &DOWN).is_ok());
        assert_eq!(h.open(0, 5, 1, 2, &DOWN).unwrap_err().0, 13);
    }
}

#[test]
fn rolled_as_any() {
    let (h, _) = authorized();
    let far = with_life(&h, 5_000);
    let at = |t: u64| {
        let mut h = far.clone();
        h.clock(t, &[3; 64]).unwrap();
        let r = h.records[0].clone();
        [(r.older.number, r.older.deadline), (r.newer.number, r.newer.deadline)]
    };
    assert_eq!(at(4_199), [(0, 4_200), (1, 5_100)]);
    assert_eq!(at(4_200), [(1, 5_100), (2, 6_000)]);
    assert_eq!(at(5_099), [(1, 5_100), (2, 6_000)]);
    assert_eq!(at(5_100), [(2, 6_000), (3, 6_900)]);
    let mut last = with_life(&h, u64::MAX - h.clock);
    let records = last.records.clone();
    last.clock(1_000_000_000_000, &[3; 64]).unwrap();
    assert_eq!(last.records, records);
    assert!(headend_fits(&last));
}

#[test]
fn ends_keep_their_order() {
    let f = Fields { code: 11, said: 1, error: 4, ..Fields::default() };
    let mut invalid = write(&f, &[], &DOWN, 40).unwrap();
    invalid[1] = 7;
    let mut m = Modem::new(settings(), 5, 1).unwrap();
    // at the modem 10 comes before 11
    assert_eq!(m.receive(&DOWN, &UP, &invalid), Err(10));
    m.established().unwrap();
    let (mut h, _) = authorized();
    let reply = h.receive(5, &UP, &DOWN, &[1], &[4, 1, 0, 5, 12, 0, 2, 0, 1]).unwrap();
    m.receive(&DOWN, &UP, &reply).unwrap();
    assert_eq!(m.receive(&UP, &UP, &invalid), Err(11));
    invalid[1] = 0;
    assert_eq!(m.receive(&UP, &UP, &invalid), Err(12));
    // at the head-end message 12 with another Identifier is 11, after 2 and 8
    assert_eq!(h.receive(5, &UP, &DOWN, &[1], &[12, 7, 0, 2, 99, 0]), Err(8));
    assert_eq!(h.receive(5, &UP, &DOWN, &[1], &[12, 7, 0, 0]), Err(11));
    assert_eq!(h.receive(5, &UP, &DOWN, &[], &[12, 7, 0, 0]), Err(2));
}
