//! Messages: reading, writing (document 01, "Messages" and questions 6 to 9).

use crate::attributes::{counted, first, first_number, is_needed, life_fits, needed, number, scan};
use crate::attributes::{suite_fits, Attribute, Holder};
use crate::digest::{hmac, DIGEST, KEY};

/// An attribute's type and length stand before its value.
const HEAD_OF_ATTRIBUTE: usize = 3;

/// The end that reads.
#[derive(Clone, Copy, PartialEq, Eq, Debug)]
pub enum End {
    HeadEnd,
    Modem,
}

/// The fields of a message. What the code does not carry is zero or empty.
#[derive(Clone, PartialEq, Eq, Debug, Default)]
pub struct Fields {
    pub code: u8,
    pub identifier: u8,
    pub ak_number: u8,
    pub error: u8,
    pub said: u16,
    pub life: u32,
    pub descriptors: Vec<Descriptor>,
    pub older: Params,
    pub newer: Params,
}

/// SA-Descriptor.
#[derive(Clone, PartialEq, Eq, Debug, Default)]
pub struct Descriptor {
    pub said: u16,
    pub sa_type: u8,
    pub suite: u16,
}

/// TEK-Parameters; TEK and vector have 8 or 16 octets, none where the code carries no parameters.
#[derive(Clone, PartialEq, Eq, Debug, Default)]
pub struct Params {
    pub number: u8,
    pub life: u32,
    pub tek: Vec<u8>,
    pub vector: Vec<u8>,
}

/// A message that was read: the fields, and where the AUTH-Key's and the digest's octets stand in it, as (start, length); (0, 0) for none.
#[derive(Clone, PartialEq, Eq, Debug, Default)]
pub struct Reading {
    pub fields: Fields,
    pub auth_key: (usize, usize),
    pub digest: (usize, usize),
}

impl Reading {
    /// Does the digest of the octets that were read hold under a key? The sum is over all that stands before the attribute's type octet. A message
    /// that carries none has none that holds.
    pub fn holds(&self, octets: &[u8], key: &[u8]) -> bool {
        let (at, length) = self.digest;
        length == DIGEST && octets[at..at + DIGEST] == hmac(key, &octets[..at - HEAD_OF_ATTRIBUTE])
    }
}

fn read_params(octets: &[u8], from: usize, to: usize) -> Result<Params, u8> {
    let holder = Holder::Compound(13);
    let found = scan(holder, octets, from, to)?;
    counted(holder, &found)?;
    let value = |kind| first(holder, &found, kind).map_or(vec![], |(a, b)| octets[a..b].to_vec());
    Ok(Params {
        number: first_number(holder, octets, &found, 10) as u8,
        life: first_number(holder, octets, &found, 9),
        tek: value(8),
        vector: value(15),
    })
}

fn read_descriptor(octets: &[u8], from: usize, to: usize) -> Result<Descriptor, u8> {
    let holder = Holder::Compound(23);
    let found = scan(holder, octets, from, to)?;
    counted(holder, &found)?;
    Ok(Descriptor {
        said: first_number(holder, octets, &found, 12) as u16,
        sa_type: first_number(holder, octets, &found, 24) as u8,
        suite: first_number(holder, octets, &found, 20) as u16,
    })
}

/// Different SAIDs (document 01, "Needed", 5).
fn differ(descriptors: &[Descriptor]) -> bool {
    let twice = |(i, d): (usize, &Descriptor)| descriptors[..i].iter().any(|e| e.said == d.said);
    !descriptors.iter().enumerate().any(twice)
}

/// Question 9: newer number = older + 1 mod 16, older life below newer.
fn follows(older: &Params, newer: &Params) -> bool {
    newer.number == (older.number + 1) % 16 && older.life < newer.life
}

/// Question 7.
fn received(end: End, code: u8) -> bool {
    match end {
        End::HeadEnd => matches!(code, 4 | 7 | 12),
        End::Modem => matches!(code, 5 | 6 | 8..=11),
    }
}

/// The reader by itself: questions 6 to 9, then the half of 11 that needs no state.
pub fn read_alone(end: End, octets: &[u8]) -> Result<Reading, u8> {
    let reading = read(end, octets)?;
    let zero_told = matches!(reading.fields.code, 11 | 12);
    if zero_told && reading.fields.identifier != 0 {
        return Err(11);
    }
    Ok(reading)
}

/// Reads a message at an end: questions 6 to 9, without what a known suite tells.
pub fn read(end: End, octets: &[u8]) -> Result<Reading, u8> {
    if octets.len() < 4 {
        return Err(6);
    }
    let length = number(&octets[2..4]) as usize;
    if length > 1_490 || octets.len() - 4 < length {
        return Err(6);
    }
    let code = octets[0];
    if !received(end, code) {
        return Err(7);
    }
    let holder = Holder::Message(code);
    let found = scan(holder, octets, 4, 4 + length)?;
    counted(holder, &found)?;
    let place = |kind| first(holder, &found, kind).map_or((0, 0), |(a, b)| (a, b - a));
    let value = |kind| first_number(holder, octets, &found, kind);
    let mut fields = Fields {
        code,
        identifier: octets[1],
        ak_number: value(10) as u8,
        error: value(16) as u8,
        said: value(12) as u16,
        life: value(9),
        ..Fields::default()
    };
    read_compounds(octets, &found, &mut fields)?;
    Ok(Reading { fields, auth_key: place(7), digest: place(11) })
}

/// The compounds of codes 5 and 8, and what question 9 asks between them.
fn read_compounds(octets: &[u8], found: &[Attribute], fields: &mut Fields) -> Result<(), u8> {
    if fields.code == 5 {
        for a in found.iter().filter(|a| a.0 == 23) {
            fields.descriptors.push(read_descriptor(octets, a.1, a.2)?);
        }
        if !differ(&fields.descriptors) {
            return Err(9);
        }
    }
    if fields.code == 8 {
        let mut pair = Vec::new();
        for a in found.iter().filter(|a| a.0 == 13) {
            pair.push(read_params(octets, a.1, a.2)?);
        }
        fields.newer = pair.pop().ok_or(9)?;
        fields.older = pair.pop().ok_or(9)?;
        if !follows(&fields.older, &fields.newer) {
            return Err(9);
        }
    }
    Ok(())
}

/// The fields with only what the code carries.
fn carried(f: &Fields) -> Fields {
    let mut kept = Fields { code: f.code, identifier: f.identifier, ..Fields::default() };
    for n in needed(Holder::Message(f.code)) {
        match n.0 {
            9 => kept.life = f.life,
            10 => kept.ak_number = f.ak_number,
            12 => kept.said = f.said,
            16 => kept.error = f.error,
            13 => (kept.older, kept.newer) = (f.older.clone(), f.newer.clone()),
            23 => kept.descriptors = f.descriptors.clone(),
            _ => {}
        }
    }
    kept
}

fn params_fit(p: &Params) -> bool {
    let width = |n: usize| n == 8 || n == 16;
    p.number <= 15 && life_fits(Holder::Compound(13), p.life) && width(p.tek.len()) && width(p.vector.len())
}

fn descriptor_fits(d: &Descriptor) -> bool {
    d.said <= 16_383 && d.sa_type <= 2 && suite_fits(u32::from(d.suite))
}

/// Question 1 of fields to be written.
fn fields_fit(f: &Fields) -> bool {
    let compounds = match f.code {
        5 => {
            life_fits(Holder::Message(5), f.life)
                && (1..=4).contains(&f.descriptors.len())
                && f.descriptors.iter().all(descriptor_fits)
                && differ(&f.descriptors)
        }
        8 => params_fit(&f.older) && params_fit(&f.newer) && follows(&f.older, &f.newer),
        11 | 12 => f.identifier == 0,
        _ => true,
    };
    (4..=12).contains(&f.code) && f.ak_number <= 15 && f.said <= 16_383 && compounds && carried(f) == *f
}

fn put(out: &mut Vec<u8>, kind: u8, value: &[u8]) {
    out.push(kind);
    out.extend((value.len() as u16).to_be_bytes());
    out.extend(value);
}

fn put_params(out: &mut Vec<u8>, p: &Params) {
    let mut inside = Vec::new();
    put(&mut inside, 8, &p.tek);
    put(&mut inside, 9, &p.life.to_be_bytes());
    put(&mut inside, 10, &[p.number]);
    put(&mut inside, 15, &p.vector);
    put(out, 13, &inside);
}

fn put_descriptor(out: &mut Vec<u8>, d: &Descriptor) {
    let mut inside = Vec::new();
    put(&mut inside, 12, &d.said.to_be_bytes());
    put(&mut inside, 24, &[d.sa_type]);
    put(&mut inside, 20, &d.suite.to_be_bytes());
    put(out, 23, &inside);
}

/// Writes a message in the standard order, with the digest that the key gives, into a slice of `room` octets. The key is asked of every code.
pub fn write(fields: &Fields, auth_key: &[u8], write_key: &[u8], room: usize) -> Result<Vec<u8>, u8> {
    if !fields_fit(fields) {
        return Err(1);
    }
    if fields.code == 5 && !(1..=256).contains(&auth_key.len()) || write_key.len() != KEY {
        return Err(2);
    }
    let mut body = Vec::new();
    for n in needed(Holder::Message(fields.code)) {
        match n.0 {
            7 => put(&mut body, 7, auth_key),
            9 => put(&mut body, 9, &fields.life.to_be_bytes()),
            10 => put(&mut body, 10, &[fields.ak_number]),
            11 => put(&mut body, 11, &[0; DIGEST]),
            12 => put(&mut body, 12, &fields.said.to_be_bytes()),
            13 => {
                put_params(&mut body, &fields.older);
                put_params(&mut body, &fields.newer);
            }
            16 => put(&mut body, 16, &[fields.error]),
            _ => fields.descriptors.iter().for_each(|d| put_descriptor(&mut body, d)),
        }
    }
    let mut out = vec![fields.code, fields.identifier];
    out.extend((body.len() as u16).to_be_bytes());
    out.extend(body);
    if out.len() > room {
        return Err(2);
    }
    if is_needed(Holder::Message(fields.code), 11) {
        let at = out.len() - DIGEST;
        let digest = hmac(write_key, &out[..at - HEAD_OF_ATTRIBUTE]);
        out[at..].copy_from_slice(&digest);
    }
    Ok(out)
}

#[cfg(test)]
#[path = "message_tests.rs"]
mod tests;
