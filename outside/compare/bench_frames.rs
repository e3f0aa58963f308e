//! The benchmark's rows of whole calls that seal and open a frame's octets.

use crate::bench_ends::{authorized, before_reply, head_of, modem_of, HeadC, ModemC, DOWN, UP};
use crate::engine::*;
use crate::table::{Side, Table, OF_CALLS};
use curlewreel_outside::digest::KEY;
use curlewreel_outside::headend::HeadEnd;
use curlewreel_outside::limits::{headend_fits, modem_fits};
use curlewreel_outside::modem;
use std::hint::black_box;

const LENGTHS: [usize; 2] = [64, 1_518];
const LONGEST: usize = 1_518;
const RECORDS: usize = 64;
const HEADS: usize = 64;
const MODEMS: usize = 200;

fn frame(length: usize) -> Vec<u8> {
    (0..length).map(|i| (i * 7 + i / 256) as u8).collect()
}

/// A head-end with 64 records, the last of its modems, that one's last SAID, and the number of the key that seals there.
fn headend() -> (HeadEnd, u64, u16, u8) {
    let (head, m, _) = authorized(RECORDS);
    let record = head.records.last().expect("64 records");
    let (said, number) = (record.said, record.older.number);
    (head, m.address, said, number)
}

/// A modem with four pairs, its last SAID, and the number of the key that seals there.
fn modem_with_keys() -> (modem::Modem, u16, u8) {
    let (mut m, reply) = before_reply();
    m.receive(&DOWN, &UP, &reply).expect("a Key Reply");
    let slot = m.slots.last().expect("four machines");
    let (said, number) = (slot.said, slot.keys.expect("a pair").1.number);
    (m, said, number)
}

/// Sealing at the head-end: nanoseconds a call of the library.
fn seal_down(table: &mut Table, length: usize) -> f64 {
    let ((head, address, said, _), frame) = (headend(), frame(length));
    let (c, mut out, mut other) = (head_of(&head), [0; LONGEST], [0; LONGEST]);
    let mut engine = |h: &mut HeadC| {
        let (records, n, octets, out) = (h.records.as_ptr(), h.records.len(), black_box(&frame), black_box(&mut out));
        let s = unsafe {
            curlewreel_headend_seal_frame(h.headend, records, n, address, said, octets.as_ptr(), length, out.as_mut_ptr(), LONGEST)
        };
        assert!(s.number == 0 && s.width == length, "the library answered {}", s.number);
    };
    let mut outside = |h: &mut HeadEnd| {
        assert!(headend_fits(h));
        let (_, octets) = h.seal_frame(black_box(address), said.into(), black_box(&frame)).expect("a sealed frame");
        black_box(&mut other)[..length].copy_from_slice(&octets);
    };
    let name = format!("head-end: seal {length} octets, {RECORDS} records");
    let sides = (Side { make: &|| c.clone(), call: &mut engine }, Side { make: &|| head.clone(), call: &mut outside });
    let took = table.row(&name, OF_CALLS, HEADS, sides.0, sides.1);
    assert_eq!(out[..length], other[..length]);
    took.0
}

fn open_up(table: &mut Table, length: usize) -> f64 {
    let ((head, address, said, number), frame) = (headend(), frame(length));
    let (c, mut out, mut other) = (head_of(&head), [0; LONGEST], [0; LONGEST]);
    let mut engine = |h: &mut HeadC| {
        let (records, n, octets, out) = (h.records.as_ptr(), h.records.len(), black_box(&frame).as_ptr(), black_box(&mut out).as_mut_ptr());
        let (key, invalid) = (DOWN.as_ptr(), h.out.as_mut_ptr());
        let o = unsafe {
            curlewreel_headend_open_frame(
                h.headend, records, n, 0, address, said, number, octets, length, key, KEY, out, LONGEST, invalid, 342,
            )
        };
        assert!(o.number == 0 && o.width == length, "the library answered {}", o.number);
        h.headend = o.headend;
    };
    let mut outside = |h: &mut HeadEnd| {
        assert!(headend_fits(h));
        let octets = h.open_frame(0, black_box(address), said.into(), number.into(), &DOWN, black_box(&frame)).expect("an opened frame");
        black_box(&mut other)[..length].copy_from_slice(&octets);
    };
    let name = format!("head-end: open {length} octets, {RECORDS} records");
    let sides = (Side { make: &|| c.clone(), call: &mut engine }, Side { make: &|| head.clone(), call: &mut outside });
    let took = table.row(&name, OF_CALLS, HEADS, sides.0, sides.1);
    assert_eq!(out[..length], other[..length]);
    took.0
}

fn seal_up(table: &mut Table, length: usize) {
    let ((m, said, _), frame) = (modem_with_keys(), frame(length));
    let (c, mut out, mut other) = (modem_of(&m), [0; LONGEST], [0; LONGEST]);
    let mut engine = |m: &mut ModemC| {
        let (octets, out) = (black_box(&frame), black_box(&mut out));
        let s = unsafe { curlewreel_modem_seal_frame(m.modem, said, octets.as_ptr(), length, out.as_mut_ptr(), LONGEST) };
        assert!(s.number == 0 && s.width == length, "the library answered {}", s.number);
    };
    let mut outside = |m: &mut modem::Modem| {
        assert!(modem_fits(m));
        let (_, octets) = m.seal_frame(black_box(said.into()), black_box(&frame)).expect("a sealed frame");
        black_box(&mut other)[..length].copy_from_slice(&octets);
    };
    let sides = (Side { make: &|| c.clone(), call: &mut engine }, Side { make: &|| m.clone(), call: &mut outside });
    table.row(&format!("modem: seal {length} octets"), OF_CALLS, MODEMS, sides.0, sides.1);
    assert_eq!(out[..length], other[..length]);
}

fn open_down(table: &mut Table, length: usize) {
    let ((m, said, number), frame) = (modem_with_keys(), frame(length));
    let (c, address, mut out, mut other) = (modem_of(&m), m.address, [0; LONGEST], [0; LONGEST]);
    let mut engine = |m: &mut ModemC| {
        let (octets, out, sent) = (black_box(&frame).as_ptr(), black_box(&mut out).as_mut_ptr(), m.out.as_mut_ptr());
        let o = unsafe {
            curlewreel_modem_open_frame(m.modem, 1, address, said, number, octets, length, UP.as_ptr(), KEY, out, LONGEST, sent, 216)
        };
        assert!(o.number == 0 && o.width == length, "the library answered {}", o.number);
        m.modem = o.modem;
    };
    let mut outside = |m: &mut modem::Modem| {
        assert!(modem_fits(m));
        let octets = m.open_frame(1, black_box(address), said.into(), number.into(), &UP, black_box(&frame)).expect("an opened frame");
        black_box(&mut other)[..length].copy_from_slice(&octets);
    };
    let sides = (Side { make: &|| c.clone(), call: &mut engine }, Side { make: &|| m.clone(), call: &mut outside });
    table.row(&format!("modem: open {length} octets"), OF_CALLS, MODEMS, sides.0, sides.1);
    assert_eq!(out[..length], other[..length]);
}

/// The rows; then the octets a second of the head-end's whole calls on the longest frames.
pub fn rows(table: &mut Table) -> String {
    let sealing = LENGTHS.map(|length| seal_down(table, length));
    let opening = LENGTHS.map(|length| open_up(table, length));
    LENGTHS.into_iter().for_each(|length| seal_up(table, length));
    LENGTHS.into_iter().for_each(|length| open_down(table, length));
    let a_second = |took: [f64; 2]| LONGEST as f64 / took[1] * 1e9;
    format!(
        "head-end with {RECORDS} records, whole calls on {LONGEST} octets: {:.0} octets a second sealed, {:.0} opened",
        a_second(sealing),
        a_second(opening)
    )
}
