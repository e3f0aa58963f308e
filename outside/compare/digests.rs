//! How often an answer rested on a digest that holds and on one that does not, by the code of the message; messages with another Identifier, and ones
//! with a digest that is skipped; and which calls were lent a message key of another length.
// each program uses a part of it
#![allow(dead_code)]

use crate::plant::unhex;
use crate::renumbered::Renumbered;
use crate::skipped::Skipped;
use crate::tally::{fail, number_of};
use curlewreel_outside::message::{read, write, End};
use std::collections::BTreeMap;

/// The codes that carry a digest.
pub const CODES: [usize; 4] = [7, 8, 9, 11];

/// The keys that calls are lent: the line's name, the field, and what it is.
const KEYS: [(&str, usize, &str); 9] = [
    ("clock", 3, "the clock's write_key"),
    ("up", 2, "the head-end's read_key"),
    ("up", 3, "the head-end's write_key"),
    ("down", 1, "the modem's read_key"),
    ("down", 2, "the modem's write_key"),
    ("openup", 5, "write_key of opening at the head-end"),
    ("opendown", 5, "write_key of opening at the modem"),
    ("openupframe", 5, "write_key of opening octets at the head-end"),
    ("opendownframe", 5, "write_key of opening octets at the modem"),
];

/// The lengths that each key has to have had, all refused.
pub const LENGTHS: [usize; 3] = [0, 19, 21];

#[derive(Default)]
pub struct Digests {
    held: [u64; 13],
    /// Of those that held: messages that are not as the writer writes them.
    unusual: [u64; 13],
    failed: [u64; 13],
    pub renumbered: Renumbered,
    skipped: Skipped,
    lengths: BTreeMap<(&'static str, usize), u64>,
}

impl Digests {
    /// A call in text with its answer.
    pub fn add(&mut self, call: &str, answer: &str) {
        let (fields, Some(number)) = (call.split(',').collect::<Vec<_>>(), number_of(answer)) else { return };
        for (_, at, what) in KEYS.iter().filter(|k| k.0 == fields[0] && number == 2) {
            self.add_length(what, fields[*at].len() / 2);
        }
        match fields[0] {
            // error 5, or what comes behind it
            "up" if answer.starts_with("0,0a") && answer.ends_with("10000105") => self.failed[7] += 1,
            "up" if answer.starts_with("0,08") || answer.starts_with("0,09") => self.add_held(End::HeadEnd, fields[2], fields[5]),
            "down" if number == 12 => self.failed[code_of(fields[3])] += 1,
            "down" if number == 0 => self.add_held(End::Modem, fields[1], fields[3]),
            _ => {}
        }
        self.add_cases(&fields, number, answer);
    }

    /// The cases that document 02's M-100 brings and that are counted by themselves.
    fn add_cases(&mut self, fields: &[&str], number: u8, answer: &str) {
        match fields[0] {
            "up" => self.renumbered.add_up(fields[2], fields[5], answer),
            "down" => self.renumbered.add_down(fields[1], fields[3], answer),
            _ => {}
        }
        if number == 0 && matches!(fields[0], "up" | "down") {
            self.skipped.add(&unhex(fields[fields.len() - 1]));
        }
        if matches!((fields[0], number), ("up" | "down" | "clock", 0) | ("opendown" | "opendownframe", 13)) {
            self.renumbered.put_out(&unhex(answer.split(',').nth(1).unwrap_or_default()));
        }
    }

    /// A list with its answers.
    pub fn add_list(&mut self, input: &str, answers: &str) {
        self.renumbered.begin();
        input.lines().skip(4).zip(answers.lines()).for_each(|(call, answer)| self.add(call, answer));
    }

    fn add_held(&mut self, end: End, key: &str, octets: &str) {
        let (code, key, octets) = (code_of(octets), unhex(key), unhex(octets));
        if CODES.contains(&code) {
            self.held[code] += 1;
            let fields = read(end, &octets).map(|m| m.fields).unwrap_or_default();
            self.unusual[code] += u64::from(write(&fields, &[], &key, octets.len()).as_ref() != Ok(&octets));
        }
    }

    /// A call was refused with a key of this length.
    pub fn add_length(&mut self, what: &'static str, length: usize) {
        *self.lengths.entry((what, length)).or_default() += 1;
    }

    /// Prints the counts; one that is 0 is a failure.
    pub fn told(&self, of: &str) {
        for (what, counts) in [("held", &self.held), ("held, of unusual messages", &self.unusual), ("did not hold", &self.failed)] {
            println!("outside: {of}, digests of codes 7, 8, 9, 11 that {what}: {:?}", CODES.map(|code| counts[code]));
            if let Some(code) = CODES.iter().find(|code| counts[**code] == 0) {
                fail(&format!("{of}: no digest of code {code} {what}"));
            }
        }
        self.renumbered.told(of);
        self.skipped.told(of);
        for (_, _, what) in KEYS {
            if let Some(n) = LENGTHS.iter().find(|n| !self.lengths.contains_key(&(what, **n))) {
                fail(&format!("{of}: {what} never had {n} octets"));
            }
        }
        println!("outside: {of}, message keys of 0, 19 and 21 octets in every call that takes one");
    }
}

fn code_of(octets: &str) -> usize {
    octets.get(..2).and_then(|code| usize::from_str_radix(code, 16).ok()).unwrap_or_default()
}
