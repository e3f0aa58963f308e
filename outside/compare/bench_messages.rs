//! The benchmark's rows of the reader, the writer and the frame decision.

use crate::library;
use crate::table::{Side, Table, OF_MESSAGES};
use curlewreel_outside::digest::KEY;
use curlewreel_outside::frame::{self, Pair};
use curlewreel_outside::message::{self, Descriptor, End, Fields, Params};
use std::hint::black_box;

pub const BATCH: usize = 2_000;

/// The message key of all that is read and written here.
pub const MESSAGE_KEY: [u8; KEY] = [3; KEY];

fn params(number: u8, life: u32, first: u8) -> Params {
    Params { number, life, tek: (first..first + 8).collect(), vector: (first + 16..first + 24).collect() }
}

/// The Key Reply of appendix I.6: its numbers and widths.
pub fn key_reply() -> Fields {
    let (older, newer) = (params(2, 43_200, 0x40), params(3, 86_400, 0x80));
    Fields { code: 8, identifier: 115, ak_number: 7, said: 8_800, older, newer, ..Fields::default() }
}

/// An Authorization Reply with four descriptors.
pub fn authorization_reply() -> Fields {
    let descriptor = |i: u16| Descriptor { said: 100 + i, sa_type: u8::from(i > 0), suite: 256 };
    Fields { code: 5, identifier: 9, ak_number: 3, life: 604_800, descriptors: (0..4).map(descriptor).collect(), ..Fields::default() }
}

/// An Authentication Information of `length` octets of attributes that are not known: empty ones, the last as long as the rest.
pub fn unknown(length: usize) -> Vec<u8> {
    let mut out = vec![12, 0, (length >> 8) as u8, length as u8];
    while 4 + length - out.len() >= 6 {
        out.extend([99, 0, 0]);
    }
    let rest = 4 + length - out.len() - 3;
    out.extend([99, 0, rest as u8]);
    out.resize(4 + length, 0);
    out
}

fn reading(table: &mut Table, name: &str, end: u8, octets: &[u8]) {
    let which = if end == 0 { End::HeadEnd } else { End::Modem };
    let mut fields = [0; library::FIELDS];
    assert_eq!(library::read(end, octets, &MESSAGE_KEY, &mut fields), 0);
    let read = |octets: &[u8], key: &[u8]| message::read_alone(which, octets).map(|r| (r.holds(octets, key), r));
    assert_eq!(read(octets, &MESSAGE_KEY).map(|(holds, r)| library::laid_out_reading(&r, holds)), Ok(fields.to_vec()));
    let mut engine = |(): &mut ()| {
        black_box(library::read(end, black_box(octets), black_box(&MESSAGE_KEY), black_box(&mut fields)));
    };
    let mut outside = |(): &mut ()| {
        black_box(read(black_box(octets), black_box(&MESSAGE_KEY))).expect("it was read before");
    };
    table.row(name, OF_MESSAGES, BATCH, Side { make: &|| (), call: &mut engine }, Side { make: &|| (), call: &mut outside });
}

fn writing(table: &mut Table, name: &str, fields: &Fields, key: &[u8]) {
    let laid_out = library::laid_out(fields);
    let (mut out, mut other) = ([0; 400], [0; 400]);
    let count = library::write(&laid_out, key, &MESSAGE_KEY, &mut out).count;
    assert_eq!(message::write(fields, key, &MESSAGE_KEY, 400), Ok(out[..count].to_vec()));
    let mut engine = |(): &mut ()| {
        black_box(library::write(black_box(&laid_out), black_box(key), black_box(&MESSAGE_KEY), black_box(&mut out)).count);
    };
    let mut outside = |(): &mut ()| {
        let octets = message::write(black_box(fields), black_box(key), black_box(&MESSAGE_KEY), 400).expect("it was written before");
        black_box(&mut other)[..octets.len()].copy_from_slice(&octets);
    };
    table.row(name, OF_MESSAGES, BATCH, Side { make: &|| (), call: &mut engine }, Side { make: &|| (), call: &mut outside });
}

fn deciding(table: &mut Table) {
    let (keys, mut tek, mut vector) = ([7; 64], [0; 16], [0; 16]);
    let pair = Pair { clock: 5, older_number: 15, older_deadline: 900, newer_number: 0, newer_deadline: 1_800, width: 16, number: 0 };
    assert_eq!(library::frame(&pair, &keys, &mut tek, &mut vector), 0);
    let (mut other_tek, mut other_vector) = ([0; 16], [0; 16]);
    let mut engine = |(): &mut ()| {
        black_box(library::frame(black_box(&pair), black_box(&keys), black_box(&mut tek), black_box(&mut vector)));
    };
    let mut outside = |(): &mut ()| {
        let (t, v) = frame::decide(black_box(&pair), black_box(&keys), 16, 16).expect("a key opens it");
        black_box(&mut other_tek).copy_from_slice(&t);
        black_box(&mut other_vector).copy_from_slice(&v);
    };
    table.row("frame decision", OF_MESSAGES, BATCH, Side { make: &|| (), call: &mut engine }, Side { make: &|| (), call: &mut outside });
}

pub fn rows(table: &mut Table) {
    let octets = message::write(&key_reply(), &[], &MESSAGE_KEY, 400).expect("a Key Reply");
    assert_eq!(octets.len(), 108);
    reading(table, "read a Key Reply, 108 octets, with its digest", 1, &octets);
    for length in [100, 400, 1_490] {
        reading(table, &format!("read {length} octets of unknown attributes"), 0, &unknown(length));
    }
    writing(table, "write a Key Reply with its digest", &key_reply(), &[]);
    writing(table, "write an Authorization Reply, AUTH-Key of 256", &authorization_reply(), &[5; 256]);
    deciding(table);
}
