//! Tests of both ends together: edges, first exchange, rollover, refusals.

use crate::both::{material, split, Both, ADDRESS, DOWN, SAID, UP};
use crate::message::{read, write, End, Fields};
use crate::settings::LAST_SECOND;

fn deadlines(b: &Both) -> [(u8, u64); 2] {
    let r = &b.head.records[0];
    [(r.older.number, r.older.deadline), (r.newer.number, r.newer.deadline)]
}

#[test]
fn clock_edges() {
    let mut b = Both::new();
    let before = b.head.records.clone();
    b.clock(899);
    assert_eq!(b.head.records, before);
    b.clock(900);
    assert_eq!(deadlines(&b), [(1, 1_800), (2, 2_700)]);
    assert_eq!(b.head.records[0].newer.tek[..8], material(2, 2)[..8]);
    assert_eq!(b.head.records[1].newer.vector, material(2, 2)[80..96]);
    let mut b = Both::new();
    b.clock(1_799);
    assert_eq!(deadlines(&b), [(1, 1_800), (2, 2_700)]);
    let mut b = Both::new();
    b.clock(1_800);
    assert_eq!(deadlines(&b), [(2, 2_700), (3, 3_600)]);
    assert_eq!(b.head.records[0].newer.tek[..8], material(2, 1)[32..40]);
    let mut b = Both::new();
    (1..=15).for_each(|i| drop(b.clock(900 * i)));
    assert_eq!(deadlines(&b)[1], (0, 900 * 17));
}

#[test]
fn first_exchange() {
    let mut b = Both::new();
    let sent = split(&b.modem.established().unwrap());
    assert_eq!(sent[0], [12, 0, 0, 0]);
    assert_eq!(sent[1], [4, 1, 0, 5, 12, 0, 2, 0x22, 0x60]);
    let reply = b.up(&sent[1]);
    let f = read(End::Modem, &reply).unwrap().fields;
    assert_eq!((f.code, f.identifier, f.ak_number, f.life), (5, 1, 0, 86_400));
    assert_eq!((f.descriptors[0].sa_type, f.descriptors[1].sa_type), (0, 1));
    assert_eq!(b.modem.seal(SAID), Err(10));
    let requests = b.down(&reply);
    assert_eq!(requests.len(), 2);
    assert_eq!((requests[0][1], requests[1][1]), (2, 3));
    assert_eq!(b.modem.timer, Some(86_100));
    assert_eq!(b.modem.seal(SAID), Err(14));
    b.settle(requests);
    assert_eq!(b.modem.slots[0].timer, Some(1_500));
    let down = b.head.seal(ADDRESS, SAID + 1).unwrap();
    assert_eq!(down.0, 0);
    let opened = b.modem.open(1, ADDRESS, SAID + 1, 0, &UP).unwrap();
    assert_eq!(opened, (down.1, down.2));
    let up = b.modem.seal(SAID).unwrap();
    assert_eq!((up.0, up.1.len()), (1, 8));
    assert_eq!(b.head.open(0, ADDRESS, SAID, 1, &DOWN), Ok((up.1, up.2)));
    assert_eq!((b.head.taken, b.modem.taken), (1, 1));
}

#[test]
fn rollover() {
    let mut b = Both::operational();
    for t in (100..=40_000).step_by(100) {
        let messages = b.clock(t);
        b.settle(messages);
        let (n, tek, _) = b.head.seal(ADDRESS, SAID).unwrap();
        let opened = b.modem.open(1, ADDRESS, SAID, u64::from(n), &UP).unwrap();
        assert_eq!(opened.0, tek, "down at {t}");
        let (n, tek, _) = b.modem.seal(SAID).unwrap();
        let opened = b.head.open(0, ADDRESS, SAID, u64::from(n), &DOWN).unwrap();
        assert_eq!(opened.0, tek, "up at {t}");
    }
    assert_eq!((b.head.refused, b.modem.refused), (0, 0));
    // Past the authorization grace: a second key, 86,400 after the first.
    let messages = b.clock(86_100);
    assert_eq!(b.modem.state, b'D');
    b.settle(messages);
    assert_eq!((b.modem.state, b.modem.ak), (b'C', 1));
    assert_eq!(b.modem.timer, Some(172_500));
}

#[test]
fn identifiers() {
    let mut b = Both::new();
    b.modem.counter = 254;
    let requests = b.authorized();
    assert_eq!((b.modem.asked, requests[0][1], requests[1][1]), (255, 1, 2));
    // A resend keeps it.
    assert_eq!(b.clock(10), requests);
    // 0 is unsolicited.
    let request = b.down(&[10, 0, 0, 4, 16, 0, 1, 4]);
    assert_eq!(request, [vec![4, 3, 0, 5, 12, 0, 2, 0x22, 0x60]]);
    assert_eq!((b.modem.state, b.modem.slots[0].state), (b'D', b'B'));
    // In D it sends nothing, keeps the timer, and tells Pend to the request it answers.
    assert!(b.down(&[10, 2, 0, 4, 16, 0, 1, 4]).is_empty());
    assert_eq!((b.modem.timer, b.modem.slots[1].state), (Some(20), b'C'));
    // D-C completes: the second asks anew, the first goes on waiting.
    let reply = b.up(&request[0]);
    let requests = b.down(&reply);
    assert_eq!((requests.len(), requests[0][1]), (1, 4));
    assert_eq!((b.modem.ak, b.modem.slots[0].identifier), (1, 1));
}

#[test]
fn late_reply() {
    let mut b = Both::new();
    let requests = b.authorized();
    let reply = b.up(&requests[0]);
    (1..=14).for_each(|i| drop(b.clock(900 * i)));
    assert_eq!(b.modem.clock, 12_600);
    b.down(&reply);
    b.clock(13_500);
    b.clock(14_399);
    let (number, tek, _) = b.modem.seal(SAID).unwrap();
    assert_eq!(number, 1);
    assert_eq!(b.head.open(0, ADDRESS, SAID, 1, &DOWN).unwrap_err().0, 13);
    b.clock(14_400);
    assert_eq!(b.head.records[0].made, 18);
    assert_eq!(b.modem.seal(SAID), Err(14));
    let opened = b.head.open(0, ADDRESS, SAID, 1, &DOWN).unwrap();
    assert_ne!(opened.0, tek);
}

#[test]
fn invalid_tek() {
    let mut b = Both::operational();
    let (number, invalid) = b.head.open(0, ADDRESS, SAID, 9, &DOWN).unwrap_err();
    assert_eq!((number, invalid.len(), b.head.refused), (13, 40, 1));
    // F + TEK Invalid: C, keys gone.
    b.clock(1_500);
    let id = b.modem.slots[0].identifier;
    b.down(&[10, id, 0, 4, 16, 0, 1, 4]);
    assert_eq!((b.modem.state, b.modem.slots[0].state), (b'D', b'F'));
    assert!(b.down(&invalid).is_empty());
    assert_eq!((b.modem.slots[0].state, b.modem.slots[0].keys), (b'C', None));
    // 13 at the modem: E-B sends a new request.
    let (number, out) = b.modem.open(1, ADDRESS, SAID + 1, 7, &UP).unwrap_err();
    assert_eq!((number, split(&out).len(), b.modem.slots[1].state), (13, 1, b'B'));
}

#[test]
fn rejects() {
    let mut b = Both::operational();
    let request = split(&b.modem.reauth().unwrap());
    let id = request[0][1];
    let mut silent = b.modem.clone();
    assert!(b.down(&[6, id, 0, 4, 16, 0, 1, 1]).is_empty());
    assert_eq!((b.modem.state, b.modem.timer), (b'E', Some(60)));
    assert!(b.modem.slots.iter().all(|s| s.state == b'A' && s.keys.is_none()));
    assert_eq!(b.modem.seal(SAID), Err(14));
    assert!(b.clock(60).is_empty());
    assert_eq!((b.modem.state, b.modem.timer), (b'A', None));
    silent.receive(&DOWN, &UP, &[6, id, 0, 4, 16, 0, 1, 6]).unwrap();
    assert_eq!((silent.state, silent.timer), (b'F', None));
}

#[test]
fn head_end_answers() {
    let mut b = Both::operational();
    b.head.list(7, false, &material(1, 9), &[(1, 256)]).unwrap();
    let ask = [4, 9, 0, 5, 12, 0, 2, 0, 5];
    let mut up = |a, m: &[u8]| b.head.receive(a, &UP, &DOWN, &[1; 256], m).unwrap();
    assert_eq!(up(7, &ask), [6, 9, 0, 4, 16, 0, 1, 6]);
    assert_eq!(up(8, &ask), [6, 9, 0, 4, 16, 0, 1, 1]);
    let mut key = Fields { code: 7, identifier: 3, said: 1, ..Fields::default() };
    let octets = write(&key, &[], &UP, 36).unwrap();
    assert_eq!(up(8, &octets), [10, 3, 0, 4, 16, 0, 1, 1]);
    assert_eq!(up(7, &octets), [10, 3, 0, 4, 16, 0, 1, 4]);
    let reject = read(End::Modem, &up(ADDRESS, &octets)).unwrap().fields;
    assert_eq!((reject.code, reject.error, reject.said), (9, 2, 1));
    key.ak_number = 1;
    let octets = write(&key, &[], &UP, 36).unwrap();
    assert_eq!(up(ADDRESS, &octets)[7], 4);
    up(ADDRESS, &ask);
    assert_eq!(up(ADDRESS, &octets)[0], 9);
    let life = |m: &[u8]| read(End::Modem, m).unwrap().fields.life;
    assert_eq!(life(&up(ADDRESS, &ask)), 172_800);
    let no = b.head.receive(ADDRESS, &DOWN, &DOWN, &[1], &octets).unwrap();
    assert_eq!(no, [10, 3, 0, 4, 16, 0, 1, 5]);
    assert_eq!(b.head.open(0, 7, 1, 5, &DOWN), Err((13, vec![])));
}

#[test]
fn refusals() {
    let mut b = Both::operational();
    let (h, m) = (&mut b.head, &mut b.modem);
    let before = (h.clone(), m.clone());
    assert_eq!(h.list(1 << 48, true, &[], &[]), Err(1));
    assert_eq!(h.list(1, true, &[0; 63], &[(1, 256)]), Err(2));
    assert_eq!(h.clock(LAST_SECOND + 1, &[0; 128]), Err(3));
    assert_eq!(h.list(1, true, &[0; 128], &[(1, 256), (1, 256)]), Err(5));
    assert_eq!(h.list(ADDRESS, true, &[0; 64], &[(1, 256)]), Err(5));
    assert_eq!(m.receive(&DOWN, &UP, &[5, 0, 0]), Err(6));
    assert_eq!(m.receive(&DOWN, &UP, &[4, 0, 0, 0]), Err(7));
    assert_eq!(m.receive(&DOWN, &UP, &[5, 0, 0, 2, 1, 1]), Err(8));
    assert_eq!(m.receive(&DOWN, &UP, &[5, 0, 0, 0]), Err(9));
    assert_eq!(m.seal(5), Err(10));
    assert_eq!(h.receive(1, &UP, &DOWN, &[1], &[12, 1, 0, 0]), Err(11));
    let (_, invalid) = h.clone().open(0, ADDRESS, SAID, 9, &DOWN).unwrap_err();
    assert_eq!(m.receive(&UP, &UP, &invalid), Err(12));
    assert_eq!(before, (h.clone(), m.clone()));
    assert_eq!(m.open(1, 1, SAID, 0, &UP), Err((10, vec![])));
    assert_eq!(m.refused, 1);
    assert_eq!(m.open(0, ADDRESS, SAID, 0, &UP), Err((1, vec![])));
    assert_eq!(m.open(1, ADDRESS, SAID, 5, &UP).unwrap_err().0, 13);
    assert_eq!(m.refused, 2);
    assert_eq!(m.seal(SAID), Err(14));
    for i in 1..16 {
        h.list(i, true, &[0; 64], &[(i, 256)]).unwrap();
    }
    assert_eq!(h.list(16, true, &[0; 64], &[(16, 256)]), Err(4));
    h.refused = u64::MAX;
    assert_eq!(h.open(0, 99, SAID, 0, &DOWN), Err((10, vec![])));
    assert_eq!(h.refused, u64::MAX);
}

#[test]
fn widths() {
    let mut b = Both::new();
    let requests = b.authorized();
    let mut f = read(End::Modem, &b.up(&requests[0])).unwrap().fields;
    f.older.tek = vec![1; 16];
    let wide = write(&f, &[], &DOWN, 342).unwrap();
    assert_eq!(b.modem.receive(&DOWN, &UP, &wide), Err(9));
    f.said = 5;
    let unknown = write(&f, &[], &DOWN, 342).unwrap();
    assert_eq!(b.modem.receive(&DOWN, &UP, &unknown), Err(10));
}
