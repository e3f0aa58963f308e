//! What was reached of the calls that seal and open a frame's octets (document 02, M-103).
// each program uses a part of it
#![allow(dead_code)]

use crate::plant::{frames::LENGTHS, unhex, Plant};
use crate::tally::{fail, number_of};
use curlewreel_outside::cipher::{opened, CLEAR};
use curlewreel_outside::digest::KEY;
use curlewreel_outside::frame::SHORT_FRAME;
use std::collections::BTreeMap;

/// The calls by their lines.
const CALLS: [&str; 4] = ["sealdownframe", "sealupframe", "openupframe", "opendownframe"];

/// Of the lengths on purpose those that are refused with 15, and those that are sealed.
const SHORT: usize = 3;
const SEALED: usize = LENGTHS.len() - SHORT;

/// A TEK and its vector, as the outside implementation holds them.
type Key = (Vec<u8>, Vec<u8>);

#[derive(Default)]
pub struct Frames {
    /// What these calls sealed in this list: the octets before and the key, by direction, address, SAID, number and octets after.
    sealed: BTreeMap<([u64; 4], Vec<u8>), (Vec<u8>, Key)>,
    /// The last octets, before and after, by direction, address, SAID and number.
    last: BTreeMap<[u64; 4], (Vec<u8>, Vec<u8>)>,
    /// Frames taken at both ends before a call.
    taken: [u64; 2],
    /// By call: 15, 10 for suite 256, and 2 for an output shorter than the frame, of all frames and of those below 12 octets.
    short: [u64; 4],
    of_des: [u64; 4],
    narrow: [u64; 4],
    short_and_narrow: [u64; 4],
    /// By call and length on purpose: 15.
    short_by_length: [[u64; SHORT]; 4],
    /// By call: 15 where question 10 would refuse too, for a SAID that is not known there and for suite 256.
    before_unknown: [u64; 4],
    before_of_des: [u64; 4],
    /// 13 at the head-end and at the modem, and 14.
    no_key: [u64; 3],
    /// Of what these calls sealed, under the fields that it was sealed with: opened with the key that sealed it to its own octets, by direction and
    /// length, and of any length; and opened with another key to other octets.
    own: [[u64; SEALED]; 2],
    all_own: u64,
    others: u64,
    /// By direction: frames of 12 octets that were counted as taken.
    twelve: [u64; 2],
    /// By direction: sealed with a key that was given and opened by these calls, and the other way.
    to_octets: [u64; 2],
    to_keys: [u64; 2],
}

impl Frames {
    /// Another list begins.
    pub fn begin(&mut self, plant: &Plant) {
        self.sealed.clear();
        self.last.clear();
        self.taken = [plant.ends.head.taken, plant.ends.modem.taken];
    }

    /// A call in text with its answer; the plant after it.
    pub fn add(&mut self, call: &str, answer: &str, plant: &Plant) {
        let (fields, given): (Vec<&str>, Vec<&str>) = (call.split(',').collect(), answer.split(',').collect());
        let before = std::mem::replace(&mut self.taken, [plant.ends.head.taken, plant.ends.modem.taken]);
        let (at, Some(answered)) = (CALLS.iter().position(|name| *name == fields[0]), number_of(answer)) else { return };
        match (at, answered) {
            (Some(at), SHORT_FRAME) => {
                self.short[at] += 1;
                let length = unhex(fields[fields.len() - 1]).len();
                named(&LENGTHS[..SHORT], length).into_iter().for_each(|named| self.short_by_length[at][named] += 1);
                let (before_10, of_des) = (is_refused_with_10(&fields, plant), is_of_des(at, &fields, plant));
                self.before_unknown[at] += u64::from(before_10 && !of_des);
                self.before_of_des[at] += u64::from(before_10 && of_des);
            }
            (Some(at), 10) => self.of_des[at] += u64::from(is_of_des(at, &fields, plant)),
            (Some(at @ (2 | 3)), 13) => self.no_key[at - 2] += 1,
            (Some(1), 14) => self.no_key[2] += 1,
            (Some(at @ (0 | 1)), 0) => self.add_sealed(at, &fields, &given, plant),
            (Some(2 | 3), 0) => self.add_opened(&fields, &unhex(given[1]), before, plant),
            (None, 0) if matches!(fields[0], "openup" | "opendown") => self.add_key(&fields, &given),
            _ => {}
        }
    }

    fn add_sealed(&mut self, at: usize, fields: &[&str], given: &[&str], plant: &Plant) {
        let (direction, address, said) = if at == 0 { (1, number(fields[1]), fields[2]) } else { (0, plant.ends.modem.address, fields[1]) };
        let (before, after) = (unhex(fields[fields.len() - 1]), unhex(given[2]));
        let of = [direction, address, number(said), number(given[1])];
        self.sealed.insert((of, after.clone()), (before.clone(), sealing_key(of, plant)));
        self.last.insert(of, (before, after));
    }

    fn add_opened(&mut self, fields: &[&str], opened: &[u8], before: [u64; 2], plant: &Plant) {
        let (of, octets) = ([1, 2, 3, 4].map(|at| number(fields[at])), unhex(fields[6]));
        let at = of[0] as usize;
        if octets.len() == CLEAR {
            if octets != opened || before[at].saturating_add(1) != self.taken[at] {
                fail(&format!("a frame of 12 octets was changed or not counted as taken: {fields:?}"));
            }
            self.twelve[at] += u64::from(before[at] < self.taken[at]);
        }
        if let Some((plain, key)) = self.sealed.get(&(of, octets.clone())) {
            match (*key == opening_key(of, plant), plain == opened) {
                (true, true) => {
                    self.all_own += 1;
                    named(&LENGTHS[SHORT..], octets.len()).into_iter().for_each(|named| self.own[at][named] += 1);
                }
                (true, false) => fail(&format!("a frame was opened to other octets with the key that sealed it: {fields:?}")),
                (false, false) => self.others += 1,
                // nothing of 12 octets is sealed, and few more can come out the same by chance
                (false, true) => {}
            }
        }
        let crossed = octets.len() > CLEAR && plant.crossed.get(&octets).is_some_and(|plain| plain == opened);
        self.to_octets[at] += u64::from(crossed);
    }

    /// An opening that gives the key: does it open what was sealed here under these fields?
    fn add_key(&mut self, fields: &[&str], given: &[&str]) {
        let of = [1, 2, 3, 4].map(|at| number(fields[at]));
        let (Some((before, after)), Ok(tek), Ok(vector)) = (self.last.get(&of), unhex(given[1]).try_into(), unhex(given[2]).try_into())
        else {
            return;
        };
        let crossed = after.len() > CLEAR && opened(&tek, &vector, after) == *before;
        self.to_keys[of[0] as usize] += u64::from(crossed);
    }

    /// A call on octets was refused with 2 for an output shorter than its frame.
    pub fn add_narrow(&mut self, call: &str, octets: usize) {
        if let Some(at) = CALLS.iter().position(|name| *name == call) {
            self.narrow[at] += 1;
            self.short_and_narrow[at] += u64::from(octets < CLEAR);
        }
    }

    /// Prints the counts; one that is 0 is a failure. `lends`: slices were lent, some too short.
    pub fn told(&self, of: &str, lends: bool) {
        let Frames { short, short_by_length, before_unknown, before_of_des, of_des, no_key, own, twelve, to_octets, to_keys, .. } = self;
        let narrow = format!(", output too short {:?}, for a frame below 12 {:?}", self.narrow, self.short_and_narrow);
        println!(
            "outside: {of}, octets sealed down and up and opened up and down, 15: {short:?}, of {:?} octets {short_by_length:?}, 15 before 10 \
             for an unknown SAID: {before_unknown:?}, for suite 256: {before_of_des:?}, 10 for suite 256: {of_des:?}, 13 and 13: {:?}, 14: {}{}",
            &LENGTHS[..SHORT],
            &no_key[..2],
            no_key[2],
            if lends { narrow } else { String::new() }
        );
        println!(
            "outside: {of}, under the fields of their sealing opened with its key to their own octets: {} (with another key to others: {}), of {:?} \
             octets up {:?}, down {:?}; up and down: of 12 taken {twelve:?}, with a given key sealed {to_octets:?}, opened {to_keys:?}",
            self.all_own,
            self.others,
            &LENGTHS[SHORT..],
            own[0],
            own[1]
        );
        let mut all = vec![
            ("15 at one of the calls on octets", &short[..]),
            ("15 at one of them where 10 is due for an unknown SAID", before_unknown),
            ("15 at one of them where 10 is due for suite 256", before_of_des),
            ("10 for suite 256 at one of them", of_des),
            ("13 or 14 of them", no_key),
            ("a length opened to its own octets upwards", &own[0]),
            ("a length opened to its own octets downwards", &own[1]),
            ("12 octets counted as taken", twelve),
            ("octets sealed with a given key and opened here", to_octets),
            ("octets sealed here and opened with a given key", to_keys),
        ];
        all.extend(short_by_length.iter().map(|counts| ("15 for 0, 1 or 11 octets at one of the calls on octets", &counts[..])));
        if lends {
            all.extend([
                ("an output shorter than its frame", &self.narrow[..]),
                ("one for a frame below 12 octets", &self.short_and_narrow),
            ]);
        }
        if let Some((what, _)) = all.iter().find(|(_, counts)| counts.contains(&0)) {
            fail(&format!("{of}: never reached: {what}"));
        }
    }
}

fn number(field: &str) -> u64 {
    field.parse().expect("a number")
}

/// The place of a length among those on purpose.
fn named(lengths: &[usize], length: usize) -> Option<usize> {
    lengths.iter().position(|n| *n == length)
}

/// The key that seals frames of this direction, address and SAID now; sealing changes no state.
fn sealing_key(of: [u64; 4], plant: &Plant) -> Key {
    let sealed = if of[0] == 1 { plant.ends.head.seal(of[1], of[2]) } else { plant.ends.modem.seal(of[2]) };
    let (_, tek, vector) = sealed.expect("a key that has just sealed");
    (tek, vector)
}

/// The key that opens frames of these fields now, at a copy of the end; an opening changes no more than the counts.
fn opening_key([direction, address, said, number]: [u64; 4], plant: &Plant) -> Key {
    let (mut head, mut modem, write_key) = (plant.ends.head.clone(), plant.ends.modem.clone(), [0; KEY]);
    let opened = match direction {
        0 => head.open(direction, address, said, number, &write_key),
        _ => modem.open(direction, address, said, number, &write_key),
    };
    opened.expect("a key that has just opened")
}

/// Would question 10 refuse a call on octets? The outside end is asked at a copy, with 12 octets in the frame's place: a call refused with 15 changed nothing.
fn is_refused_with_10(fields: &[&str], plant: &Plant) -> bool {
    let (octets, mut ends) = ("00".repeat(CLEAR), plant.ends.clone());
    let call = [&fields[..fields.len() - 1], &[&octets]].concat().join(",");
    ends.call(call.as_bytes()).as_deref() == Some("10")
}

/// Is the SAID of a call on octets known where it is made, under the address that it names, with suite 256?
fn is_of_des(at: usize, fields: &[&str], plant: &Plant) -> bool {
    let (address, said) = match at {
        0 => (number(fields[1]), fields[2]),
        1 => (plant.ends.modem.address, fields[1]),
        _ => (number(fields[2]), fields[3]),
    };
    let (said, modem) = (number(said) as u16, &plant.ends.modem);
    match at {
        0 | 2 => plant.ends.head.entries.iter().any(|e| e.address == address && e.saids.contains(&(said, 256))),
        _ => address == modem.address && modem.slots.iter().any(|s| (s.said, s.suite) == (said, 256)),
    }
}
