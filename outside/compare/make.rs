//! Random messages: sound ones, ones with values at and past their limits, and damaged ones.
// each program uses a part of it
#![allow(dead_code)]

use crate::random::Random;
use curlewreel_outside::digest::{hmac, DIGEST};
use curlewreel_outside::message::{read, End};

const TYPES: [u8; 14] = [7, 8, 9, 10, 11, 12, 13, 15, 16, 20, 23, 24, 1, 99];

pub fn life(r: &mut Random) -> u32 {
    match r.below(8) {
        0 => r.pick(&[0, 1, 604_799, 604_800, 604_801, 12_096_000, 12_096_001, u32::MAX]),
        1 => r.below(12_096_000) as u32 + 1,
        _ => r.below(604_800) as u32 + 1,
    }
}

pub fn said(r: &mut Random) -> u16 {
    if r.one_in(40) {
        r.pick(&[16_383, 16_384, 65_535])
    } else if r.one_in(3) {
        r.below(4) as u16
    } else {
        r.below(16_384) as u16
    }
}

pub fn suite(r: &mut Random) -> u16 {
    if r.one_in(40) {
        r.pick(&[0, 255, 257, 512, 767, 769])
    } else {
        r.pick(&[256, 768])
    }
}

fn small(r: &mut Random, highest: u64) -> u8 {
    if r.one_in(40) {
        (highest + 1 + r.below(3)) as u8
    } else {
        r.below(highest + 1) as u8
    }
}

fn tlv(kind: u8, value: &[u8]) -> Vec<u8> {
    let mut out = vec![kind];
    out.extend((value.len() as u16).to_be_bytes());
    out.extend(value);
    out
}

fn width(r: &mut Random) -> usize {
    if r.one_in(60) {
        r.pick(&[0, 7, 9, 15, 17, 24])
    } else {
        r.pick(&[8, 16])
    }
}

/// TEK-Parameters with this number and life.
fn params(r: &mut Random, number: u8, life: u32) -> Vec<u8> {
    let w = width(r);
    let v = if r.one_in(20) { width(r) } else { w };
    let mut parts = vec![tlv(8, &r.octets(w)), tlv(9, &life.to_be_bytes()), tlv(10, &[number]), tlv(15, &r.octets(v))];
    disturb(r, &mut parts);
    tlv(13, &parts.concat())
}

fn descriptor(r: &mut Random) -> Vec<u8> {
    let mut parts = vec![tlv(12, &said(r).to_be_bytes()), tlv(24, &[small(r, 2)]), tlv(20, &suite(r).to_be_bytes())];
    disturb(r, &mut parts);
    tlv(23, &parts.concat())
}

fn attribute(r: &mut Random, kind: u8) -> Vec<u8> {
    match kind {
        7 => {
            let n = if r.one_in(20) { r.pick(&[0, 1, 255, 256, 257]) } else { 1 + r.below(130) as usize };
            tlv(7, &r.octets(n))
        }
        8 | 15 => {
            let w = width(r);
            tlv(kind, &r.octets(w))
        }
        9 => tlv(9, &life(r).to_be_bytes()),
        10 => tlv(10, &[small(r, 15)]),
        11 => tlv(11, &r.octets(20)),
        12 => tlv(12, &said(r).to_be_bytes()),
        13 => {
            let (number, l) = (small(r, 15), life(r));
            params(r, number, l)
        }
        16 => tlv(16, &[r.next() as u8]),
        20 => tlv(20, &suite(r).to_be_bytes()),
        23 => descriptor(r),
        24 => tlv(24, &[small(r, 2)]),
        other => {
            let n = r.below(12) as usize;
            tlv(other, &r.octets(n))
        }
    }
}

/// The two TEK-Parameters of a Key Reply: mostly numbers that follow and rising lives.
fn pair(r: &mut Random) -> Vec<Vec<u8>> {
    let number = small(r, 15);
    let newer = if r.one_in(12) { small(r, 15) } else { (number + 1) % 16 };
    let (a, b) = (life(r), life(r));
    let (older, other) = if r.one_in(12) { (a, b) } else { (a.min(b), a.max(b)) };
    vec![params(r, number, older), params(r, newer, other)]
}

/// Sometimes an attribute is left out, doubled, moved, put in, cut or given another length.
fn disturb(r: &mut Random, parts: &mut Vec<Vec<u8>>) {
    if !r.one_in(8) {
        return;
    }
    let at = r.below(parts.len() as u64 + 1) as usize;
    let kind = r.pick(&TYPES);
    match r.below(6) {
        0 | 1 => {
            let extra = if kind == 13 || kind == 23 { tlv(kind, &[]) } else { attribute(r, kind) };
            parts.insert(at, extra);
        }
        2 if at < parts.len() => {
            let same = parts[at].clone();
            parts.push(same);
        }
        3 if at < parts.len() => {
            let moved = parts.remove(at);
            parts.insert(0, moved);
        }
        4 if at < parts.len() => {
            parts.remove(at);
        }
        5 if at < parts.len() => {
            let place = r.below(parts[at].len().min(3) as u64) as usize;
            parts[at][place] = parts[at][place].wrapping_add(r.pick(&[1, 255, 4]));
        }
        _ => {}
    }
}

fn attributes(r: &mut Random, code: u8) -> Vec<Vec<u8>> {
    let kinds: &[u8] = match code {
        4 => &[12],
        5 => &[7, 9, 10, 23],
        6 | 10 => &[16],
        7 => &[10, 12, 11],
        8 => &[10, 12, 13, 11],
        9 | 11 => &[10, 12, 16, 11],
        _ => &[],
    };
    let mut parts = Vec::new();
    for kind in kinds {
        match kind {
            13 => parts.extend(pair(r)),
            23 => {
                let n = if r.one_in(20) { r.pick(&[0, 5]) } else { 1 + r.below(4) };
                for _ in 0..n {
                    parts.push(descriptor(r));
                }
            }
            _ => parts.push(attribute(r, *kind)),
        }
    }
    if r.one_in(6) && parts.len() > 1 {
        let last = parts.len() - 1;
        let (a, b) = (r.below(last as u64) as usize, r.below(last as u64) as usize);
        parts.swap(a, b);
    }
    parts
}

/// A message of any kind.
pub fn message(r: &mut Random) -> Vec<u8> {
    if r.one_in(50) {
        let n = r.below(40) as usize;
        return r.octets(n);
    }
    let code = if r.one_in(25) { r.next() as u8 } else { r.pick(&[4, 5, 5, 6, 7, 8, 8, 8, 9, 10, 11, 12]) };
    let mut parts = attributes(r, code);
    disturb(r, &mut parts);
    if r.one_in(200) {
        let n = r.pick(&[1_300, 1_400, 1_480, 1_490]);
        parts.insert(0, tlv(200, &vec![0; n]));
    }
    let body = parts.concat();
    let mut out = vec![code, if r.one_in(2) { 0 } else { r.next() as u8 }];
    let length = if r.one_in(25) { body.len() as u64 + r.below(9) } else { body.len() as u64 + 4 };
    out.extend(((length.wrapping_sub(4)) as u16).to_be_bytes());
    out.extend(body);
    damage(r, &mut out);
    out
}

/// Padding, a cut end, octets changed.
pub fn damage(r: &mut Random, out: &mut Vec<u8>) {
    if r.one_in(10) {
        let n = r.below(8) as usize;
        out.extend(r.octets(n));
    }
    if r.one_in(20) {
        let n = r.below(out.len() as u64 + 1) as usize;
        out.truncate(n);
    }
    while r.one_in(6) && !out.is_empty() {
        let at = r.below(out.len() as u64) as usize;
        out[at] = r.pick(&[0, 1, 8, 16, 255, 4, 13, 23]);
    }
}

/// A message's own attributes, each with its type and length.
fn parts_of(out: &[u8]) -> Vec<Vec<u8>> {
    let (mut parts, mut rest) = (Vec::new(), out.get(4..).unwrap_or_default());
    while rest.len() >= 3 {
        let n = (3 + usize::from(rest[1]) * 256 + usize::from(rest[2])).min(rest.len());
        parts.push(rest[..n].to_vec());
        rest = &rest[n..];
    }
    parts
}

/// Puts these attributes into the message; Length as they have it.
fn put_parts(out: &mut Vec<u8>, parts: &[Vec<u8>]) {
    let body = parts.concat();
    out.truncate(2);
    out.extend((body.len() as u16).to_be_bytes());
    out.extend(body);
}

/// A message's own attributes in another order, or one of them left out, doubled, put in or cut.
pub fn rearrange(r: &mut Random, out: &mut Vec<u8>) {
    let mut parts = parts_of(out);
    if parts.len() > 1 && r.one_in(2) {
        let (a, b) = (r.below(parts.len() as u64) as usize, r.below(parts.len() as u64) as usize);
        parts.swap(a, b);
    } else {
        (0..4).for_each(|_| disturb(r, &mut parts));
    }
    put_parts(out, &parts);
}

/// One to three attributes that are skipped: of types that no message needs, and a digest where the code needs none. They stand before the last
/// one, which may be a digest that has to stay the last; where none is needed they may stand behind it too.
pub fn put_skipped(r: &mut Random, out: &mut Vec<u8>) {
    let (mut parts, digest) = (parts_of(out), matches!(out.first(), Some(7 | 8 | 9 | 11)));
    for _ in 0..1 + r.below(3) {
        let places = if digest { parts.len().max(1) } else { parts.len() + 1 };
        let (at, n) = (r.below(places as u64) as usize, r.pick(&[0, 1, 8, 19, 20, 21, 60, 200]));
        let kind = if !digest && r.one_in(2) { 11 } else { r.pick(&[0, 1, 5, 14, 99, 127, 255]) };
        parts.insert(at, tlv(kind, &r.octets(n)));
    }
    put_parts(out, &parts);
}

/// Where the digest's octets stand, if the message can be read and carries one.
pub fn digest_place(octets: &[u8]) -> Option<usize> {
    let end = if matches!(octets.first(), Some(4 | 7 | 12)) { End::HeadEnd } else { End::Modem };
    read(end, octets).ok().filter(|m| m.digest.1 == DIGEST).map(|m| m.digest.0)
}

/// Makes the digest right under a key.
pub fn digest_anew(octets: &mut [u8], key: &[u8]) {
    if let Some(at) = digest_place(octets) {
        let digest = hmac(key, &octets[..at - 3]);
        octets[at..at + DIGEST].copy_from_slice(&digest);
    }
}

/// Changes one bit of the digest.
pub fn spoil_digest(r: &mut Random, octets: &mut [u8]) {
    if let Some(at) = digest_place(octets) {
        octets[at + r.below(DIGEST as u64) as usize] ^= 1 << r.below(8);
    }
}
