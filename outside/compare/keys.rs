//! The message keys of a plant: the AUTH-Keys that each end has by number, and which keys a call is lent.
// each program uses a part of them
#![allow(dead_code)]

use crate::random::Random;
use curlewreel_outside::digest::{down_key, up_key, KEY};
use std::collections::BTreeMap;

/// The AUTH-Keys at the head-end, by a modem's address and the authorization key's number, and at the modem, by the number.
#[derive(Default)]
pub struct AuthKeys {
    headend: BTreeMap<(u64, u8), Vec<u8>>,
    modem: BTreeMap<u8, Vec<u8>>,
}

/// The message keys of one authorization key.
#[derive(Clone, Copy)]
pub struct Pair {
    pub up: [u8; KEY],
    pub down: [u8; KEY],
}

/// Those of an AUTH-Key.
pub fn pair_of(auth_key: &[u8]) -> Pair {
    Pair { up: up_key(auth_key), down: down_key(auth_key) }
}

/// Those of an end's AUTH-Key; random ones where it has none, since any fixed ones would be the same at both ends, and digests would hold by them.
fn pair_or_any(r: &mut Random, auth_key: Option<&Vec<u8>>) -> Pair {
    let mut any = || r.octets(KEY).try_into().expect("20 octets");
    auth_key.map_or_else(|| Pair { up: any(), down: any() }, |k| pair_of(k))
}

impl AuthKeys {
    /// The head-end's AUTH-Key of that modem and number, if one was made.
    pub fn made(&self, address: u64, number: u8) -> Option<&Vec<u8>> {
        self.headend.get(&(address, number))
    }

    pub fn at_headend(&self, r: &mut Random, address: u64, number: u8) -> Pair {
        pair_or_any(r, self.made(address, number))
    }

    pub fn at_modem(&self, r: &mut Random, number: u8) -> Pair {
        pair_or_any(r, self.modem.get(&number))
    }

    /// The head-end wrote an Authorization Reply.
    pub fn put_headend(&mut self, address: u64, number: u8, auth_key: &[u8]) {
        self.headend.insert((address, number), auth_key.to_vec());
    }

    /// The modem took one.
    pub fn put_modem(&mut self, number: u8, auth_key: &[u8]) {
        self.modem.insert(number, auth_key.to_vec());
    }
}

/// A key that has not 20 octets. Zeros behind the right one give its digests all the same.
pub fn of_other_length(r: &mut Random, right: &[u8]) -> Vec<u8> {
    let mut key = right.to_vec();
    key.resize(KEY, 0);
    match r.below(8) {
        0 | 1 => key.clear(),
        2 | 3 => key.truncate(KEY - 1),
        4 | 5 => key.push(0),
        6 => key.push(r.next() as u8),
        _ => key.resize(r.pick(&[1, 22, 40, 64, 65, 128]), 0),
    }
    key
}

/// The key that a call is lent: the right one mostly, now and then the other direction's, any other, or one of another length.
pub fn lent(r: &mut Random, right: &[u8; KEY], other: &[u8; KEY]) -> Vec<u8> {
    match r.below(60) {
        0 => other.to_vec(),
        1 => r.octets(KEY),
        2 => of_other_length(r, right),
        _ => right.to_vec(),
    }
}
