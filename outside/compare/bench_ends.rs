//! The benchmark's rows of both ends' calls, and the stack that the main calls use.

use crate::engine::*;
use crate::table::{Side, Table, OF_CALLS};
use crate::{as_c, library, stack};
use curlewreel_outside::digest::KEY;
use curlewreel_outside::headend::HeadEnd;
use curlewreel_outside::limits::{headend_fits, modem_fits};
use curlewreel_outside::modem;
use curlewreel_outside::settings;
use std::hint::black_box;

const SETTINGS: settings::Settings = settings::Settings {
    life: 1_800,
    grace: 300,
    aklife: 86_400,
    akgrace: 300,
    authorize: 10,
    reauthorize: 10,
    operational: 10,
    rekey: 10,
    reject: 60,
};
const AUTH_KEY: [u8; 128] = [5; 128];

/// The message keys of what goes up and of what goes down.
pub const UP: [u8; KEY] = [1; KEY];
pub const DOWN: [u8; KEY] = [2; KEY];

/// A head-end's state in C's structs, with its records and a slice for its answer.
#[derive(Clone)]
pub struct HeadC {
    pub headend: Headend,
    pub records: Vec<Record>,
    pub out: [u8; 342],
}

#[derive(Clone)]
pub struct ModemC {
    pub modem: Modem,
    pub out: [u8; 216],
}

pub fn head_of(head: &HeadEnd) -> HeadC {
    let headend = as_c::headend_of(head, &[Entry::default(); 16]);
    HeadC { headend, records: head.records.iter().map(as_c::record_of).collect(), out: [0; 342] }
}

pub fn modem_of(m: &modem::Modem) -> ModemC {
    ModemC { modem: as_c::modem_of(m), out: [0; 216] }
}

/// A head-end with this many records, up to four for a modem; the address and the SAIDs of the last modem.
fn head_with(records: usize) -> (HeadEnd, u64) {
    let mut head = HeadEnd::new(SETTINGS).expect("settings");
    let (mut address, mut next) = (100, 0);
    while next < records {
        let n = (records - next).min(4);
        address += 1;
        let saids: Vec<(u64, u64)> = (next..next + n).map(|i| (1_000 + i as u64, 768)).collect();
        head.list(address, true, &vec![7; 64 * n], &saids).expect("a listing");
        next += n;
    }
    (head, address)
}

/// Both ends after the modem's authorization, and its Key Requests.
pub fn authorized(records: usize) -> (HeadEnd, modem::Modem, Vec<u8>) {
    let (mut head, address) = head_with(records);
    let mut m = modem::Modem::new(SETTINGS, address, 5).expect("a modem");
    let sent = m.established().expect("established");
    let reply = head.receive(address, &UP, &DOWN, &AUTH_KEY, &sent[4..]).expect("an Authorization Reply");
    let requests = m.receive(&DOWN, &UP, &reply).expect("Key Requests");
    (head, m, requests)
}

/// Key Request to Key Reply, of the last record.
fn key_request(table: &mut Table, records: usize) {
    let (head, m, requests) = authorized(records);
    let (address, request) = (m.address, &requests[requests.len() - 36..]);
    let c = head_of(&head);
    let mut engine = |h: &mut HeadC| {
        let n = receive(h, address, black_box(request));
        black_box(n);
    };
    let mut out = [0; 342];
    let mut outside = |h: &mut HeadEnd| {
        assert!(headend_fits(h));
        let octets = h.receive(black_box(address), black_box(&UP), &DOWN, &AUTH_KEY, black_box(request)).expect("a Key Reply");
        black_box(&mut out)[..octets.len()].copy_from_slice(&octets);
    };
    let name = format!("head-end: Key Request to Key Reply, {records} records");
    table.row(&name, OF_CALLS, 64, Side { make: &|| c.clone(), call: &mut engine }, Side { make: &|| head.clone(), call: &mut outside });
}

fn receive(h: &mut HeadC, address: u64, request: &[u8]) -> usize {
    let (records, n, out) = (h.records.as_ptr(), h.records.len(), h.out.as_mut_ptr());
    let (message, length, auth_key) = (request.as_ptr(), request.len(), AUTH_KEY.as_ptr());
    let (up, down) = (UP.as_ptr(), DOWN.as_ptr());
    let c = unsafe {
        curlewreel_headend_receive(h.headend, records, n, address, message, length, up, KEY, down, KEY, auth_key, AUTH_KEY.len(), out, 342)
    };
    assert!(c.number == 0 && h.out[0] == 8, "the library answered {}", c.number);
    h.headend = c.headend;
    c.count
}

fn head_clock(h: &mut HeadC, second: u64, material: &[u8]) {
    let (records, n) = (h.records.as_mut_ptr(), h.records.len());
    let c = unsafe { curlewreel_headend_clock(h.headend, records, n, second, material.as_ptr(), material.len()) };
    assert!(c.number == 0, "the library answered {}", c.number);
    h.headend = c.headend;
}

fn clock_of_head(table: &mut Table, name: &str, records: usize, second: u64) {
    let (head, _) = head_with(records);
    let (c, material) = (head_of(&head), vec![9; 64 * records]);
    let mut engine = |h: &mut HeadC| head_clock(h, black_box(second), black_box(&material));
    let mut outside = |h: &mut HeadEnd| {
        assert!(headend_fits(h));
        h.clock(black_box(second), black_box(&material)).expect("a clock call");
    };
    let name = format!("head-end: clock, {records} records, {name}");
    table.row(&name, OF_CALLS, 64, Side { make: &|| c.clone(), call: &mut engine }, Side { make: &|| head.clone(), call: &mut outside });
}

fn modem_receive(m: &mut ModemC, message: &[u8]) -> usize {
    let (octets, length, down, up) = (message.as_ptr(), message.len(), DOWN.as_ptr(), UP.as_ptr());
    let c = unsafe { curlewreel_modem_receive(m.modem, octets, length, down, KEY, up, KEY, m.out.as_mut_ptr(), 216) };
    assert!(c.number == 0, "the library answered {}", c.number);
    m.modem = c.modem;
    c.count
}

fn modem_clock(m: &mut ModemC, second: u64) -> usize {
    let c = unsafe { curlewreel_modem_clock(m.modem, second, UP.as_ptr(), KEY, m.out.as_mut_ptr(), 216) };
    assert!(c.number == 0, "the library answered {}", c.number);
    m.modem = c.modem;
    c.count
}

/// The modem before its last Key Reply, and that reply.
pub fn before_reply() -> (modem::Modem, Vec<u8>) {
    let (mut head, mut m, requests) = authorized(4);
    let answer = |r: &[u8]| head.receive(m.address, &UP, &DOWN, &AUTH_KEY, r).expect("a Key Reply");
    let mut replies: Vec<Vec<u8>> = requests.chunks(36).map(answer).collect();
    let last = replies.pop().expect("four replies");
    replies.iter().for_each(|r| drop(m.receive(&DOWN, &UP, r).expect("a Key Reply")));
    (m, last)
}

fn key_reply(table: &mut Table) {
    let (m, reply) = before_reply();
    let c = modem_of(&m);
    let mut engine = |m: &mut ModemC| {
        black_box(modem_receive(m, black_box(&reply)));
    };
    let mut outside = |m: &mut modem::Modem| {
        assert!(modem_fits(m));
        black_box(m.receive(black_box(&DOWN), &UP, black_box(&reply))).expect("a Key Reply");
    };
    let (engine, outside) = (Side { make: &|| c.clone(), call: &mut engine }, Side { make: &|| m.clone(), call: &mut outside });
    table.row("modem: Key Reply", OF_CALLS, 200, engine, outside);
}

fn clock_of_modem(table: &mut Table, name: &str, second: u64, octets: usize) {
    let (mut m, reply) = before_reply();
    m.receive(&DOWN, &UP, &reply).expect("a Key Reply");
    let (c, mut out) = (modem_of(&m), [0; 216]);
    let mut engine = |m: &mut ModemC| assert_eq!(modem_clock(m, black_box(second)), octets);
    let mut outside = |m: &mut modem::Modem| {
        assert!(modem_fits(m));
        let sent = m.clock(black_box(second), black_box(&UP)).expect("a clock call");
        black_box(&mut out)[..sent.len()].copy_from_slice(&sent);
    };
    let (engine, outside) = (Side { make: &|| c.clone(), call: &mut engine }, Side { make: &|| m.clone(), call: &mut outside });
    table.row(&format!("modem: clock, {name}"), OF_CALLS, 200, engine, outside);
}

/// The plain cost of a head-end by value, in and out.
#[inline(never)]
extern "C" fn headend_handed(headend: Headend) -> HeadendCall {
    HeadendCall { number: black_box(1), count: 0, headend }
}

#[inline(never)]
extern "C" fn modem_handed(modem: Modem) -> ModemCall {
    ModemCall { number: black_box(1), count: 0, modem }
}

/// A state by value, in and out: a call of the library that is refused at once, and a Rust function that hands the struct back.
fn handed(table: &mut Table) {
    let (wrong_head, wrong_modem) = (HeadC { headend: Headend::default(), records: vec![], out: [0; 342] }, Modem::default());
    let mut engine = |h: &mut HeadC| {
        let c = unsafe { curlewreel_headend_clock(h.headend, h.records.as_mut_ptr(), 0, 0, AUTH_KEY.as_ptr(), 0) };
        assert_eq!(c.number, 1);
        h.headend = c.headend;
    };
    let mut outside = |h: &mut HeadC| h.headend = black_box(headend_handed(h.headend)).headend;
    let make = || wrong_head.clone();
    table.row(
        "head-end: by value, refused at once",
        OF_CALLS,
        64,
        Side { make: &make, call: &mut engine },
        Side { make: &make, call: &mut outside },
    );
    let mut engine = |m: &mut ModemC| {
        let c = unsafe { curlewreel_modem_clock(m.modem, 0, UP.as_ptr(), KEY, m.out.as_mut_ptr(), 216) };
        assert_eq!(c.number, 1);
        m.modem = c.modem;
    };
    let mut outside = |m: &mut ModemC| m.modem = black_box(modem_handed(m.modem)).modem;
    let make = || ModemC { modem: wrong_modem, out: [0; 216] };
    table.row(
        "modem: by value, refused at once",
        OF_CALLS,
        200,
        Side { make: &make, call: &mut engine },
        Side { make: &make, call: &mut outside },
    );
}

pub fn rows(table: &mut Table) {
    [1, 16, 64].into_iter().for_each(|n| key_request(table, n));
    [1, 16, 64].into_iter().for_each(|n| clock_of_head(table, "none due", n, 899));
    [1, 16, 64].into_iter().for_each(|n| clock_of_head(table, "all due, one key each", n, 900));
    clock_of_head(table, "all due, two keys each", 64, 1_800);
    key_reply(table);
    clock_of_modem(table, "nothing due", 1, 0);
    clock_of_modem(table, "all five timers due", 100_000, 153);
    handed(table);
}

/// The stack of the main calls, with the structs that are passed by value.
pub fn stacks() {
    println!("{:<52} {:>9}", "stack of a call in octets", "library");
    let show = |name: &str, used: usize| println!("{name:<52} {used:>9}");
    let (octets, mut fields) = (crate::bench_messages::unknown(1_490), [0; library::FIELDS]);
    show("read 1490 octets", stack::used(&mut || assert_eq!(library::read(0, &octets, &UP, &mut fields), 0)));
    let (laid_out, mut out) = (library::laid_out(&crate::bench_messages::authorization_reply()), [0; 400]);
    show("write an Authorization Reply", stack::used(&mut || assert_eq!(library::write(&laid_out, &[5; 256], &UP, &mut out).number, 0)));
    let (head, m, requests) = authorized(64);
    let (mut h, address) = (head_of(&head), m.address);
    show("head-end: Key Request to Key Reply", stack::used(&mut || assert_eq!(receive(&mut h, address, &requests[108..]), 140)));
    let material = vec![9; 64 * 64];
    show("head-end: clock, 64 records due", stack::used(&mut || head_clock(&mut h, 900, &material)));
    let (m, reply) = before_reply();
    let mut m = modem_of(&m);
    show("modem: Key Reply", stack::used(&mut || assert_eq!(modem_receive(&mut m, &reply), 0)));
    show("modem: clock, all five timers due", stack::used(&mut || assert_eq!(modem_clock(&mut m, 100_000), 153)));
}
