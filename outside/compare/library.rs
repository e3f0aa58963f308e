//! The library's reader, writer and frame decision on slices, and its layout of a message's fields.
// each program uses a part of them
#![allow(dead_code)]

use crate::engine::{curlewreel_frame, curlewreel_read, curlewreel_write, Written};
use curlewreel_outside::frame::Pair;
use curlewreel_outside::message::{Descriptor, Fields, Params, Reading};

pub const WRITTEN: usize = 109;
pub const DIGEST: usize = 113;
pub const HOLDS: usize = 117;
pub const FIELDS: usize = 118;

pub fn frame(p: &Pair, keys: &[u8], tek: &mut [u8], vector: &mut [u8]) -> u8 {
    unsafe {
        curlewreel_frame(
            p.clock,
            p.older_number,
            p.older_deadline,
            p.newer_number,
            p.newer_deadline,
            p.width,
            keys.as_ptr(),
            keys.len(),
            p.number,
            tek.as_mut_ptr(),
            tek.len(),
            vector.as_mut_ptr(),
            vector.len(),
        )
    }
}

pub fn read(end: u8, message: &[u8], read_key: &[u8], fields: &mut [u8]) -> u8 {
    let (key, key_len) = (read_key.as_ptr(), read_key.len());
    unsafe { curlewreel_read(end, message.as_ptr(), message.len(), key, key_len, fields.as_mut_ptr(), fields.len()) }
}

pub fn write(fields: &[u8], auth_key: &[u8], write_key: &[u8], out: &mut [u8]) -> Written {
    let ((auth_key, auth_key_len), (key, key_len)) = ((auth_key.as_ptr(), auth_key.len()), (write_key.as_ptr(), write_key.len()));
    unsafe { curlewreel_write(fields.as_ptr(), fields.len(), auth_key, auth_key_len, key, key_len, out.as_mut_ptr(), out.len()) }
}

fn put_params(out: &mut Vec<u8>, p: &Params) {
    out.push(p.number);
    out.extend(p.life.to_be_bytes());
    for octets in [&p.tek, &p.vector] {
        out.push(octets.len() as u8);
        let end = out.len() + 16;
        out.extend(octets);
        out.resize(end, 0);
    }
}

/// The 109 octets of fields.
pub fn laid_out(f: &Fields) -> Vec<u8> {
    let mut out = vec![f.code, f.identifier, f.ak_number, f.error, f.descriptors.len() as u8];
    out.extend(f.said.to_be_bytes());
    out.extend(f.life.to_be_bytes());
    for i in 0..4 {
        let d = f.descriptors.get(i).cloned().unwrap_or_default();
        out.extend(d.said.to_be_bytes());
        out.push(d.sa_type);
        out.extend(d.suite.to_be_bytes());
    }
    put_params(&mut out, &f.older);
    put_params(&mut out, &f.newer);
    assert_eq!(out.len(), WRITTEN);
    out
}

/// The 118 octets of a reading; the last says whether the digest holds.
pub fn laid_out_reading(r: &Reading, holds: bool) -> Vec<u8> {
    let mut out = laid_out(&r.fields);
    for n in [r.auth_key.0, r.auth_key.1, r.digest.0, r.digest.1] {
        out.extend((n as u16).to_be_bytes());
    }
    assert_eq!(out.len(), HOLDS);
    out.push(u8::from(holds));
    assert_eq!(out.len(), FIELDS);
    out
}

fn params_at(o: &[u8]) -> Option<Params> {
    let part = |at: usize| {
        let width = o[at] as usize;
        let rest = o[at + 1..at + 17].iter().skip(width);
        (matches!(width, 0 | 8 | 16) && rest.clone().all(|b| *b == 0)).then(|| o[at + 1..at + 1 + width].to_vec())
    };
    let life = u32::from_be_bytes([o[1], o[2], o[3], o[4]]);
    Some(Params { number: o[0], life, tek: part(5)?, vector: part(22)? })
}

/// The fields in 109 octets; none where no fields have that layout, which the library refuses with 1.
pub fn taken(o: &[u8]) -> Option<Fields> {
    let two = |at: usize| u16::from_be_bytes([o[at], o[at + 1]]);
    let all: Vec<Descriptor> =
        (0..4).map(|i| 11 + 5 * i).map(|at| Descriptor { said: two(at), sa_type: o[at + 2], suite: two(at + 3) }).collect();
    let count = o[4] as usize;
    if count > 4 || all[count..].iter().any(|d| *d != Descriptor::default()) {
        return None;
    }
    Some(Fields {
        code: o[0],
        identifier: o[1],
        ak_number: o[2],
        error: o[3],
        said: two(5),
        life: u32::from_be_bytes([o[7], o[8], o[9], o[10]]),
        descriptors: all[..count].to_vec(),
        older: params_at(&o[31..70])?,
        newer: params_at(&o[70..109])?,
    })
}
