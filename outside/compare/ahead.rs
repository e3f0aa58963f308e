//! Records with deadlines further ahead than the calls make them: both moved by as much, which question 1 of a record lets pass.

use crate::calls::Call;
use crate::random::Random;
use crate::state::State;
use crate::tally::fail;
use curlewreel_outside::association::Record;
use curlewreel_outside::headend::HeadEnd;
use curlewreel_outside::message::{read, End};

/// The longest life of a traffic key that a message carries.
const LONGEST: u64 = 604_800;

/// How far a record is moved: somewhat, to the longest life or a second past it, about as far as that, or as far as 32 and 64 bits go.
fn amount(r: &mut Random, clock: u64, half: u64, newer: u64) -> u64 {
    match r.below(8) {
        0 => 0,
        1 | 2 => 1 + r.below(2 * half),
        3 => clock + LONGEST - newer,
        4 => clock + LONGEST + 1 - newer,
        5 => LONGEST - 2 * half + r.below(4 * half),
        6 => 1 << 40,
        _ => r.pick(&[1 << 32, u64::MAX - newer]),
    }
}

/// Moves the records in use, each by its own amount, in both implementations.
pub fn move_records(r: &mut Random, state: &mut State, head: &mut HeadEnd) {
    let (clock, half) = (head.clock, head.settings.half());
    for (i, record) in head.records.iter_mut().enumerate() {
        let by = amount(r, clock, half, record.newer.deadline);
        record.older.deadline += by;
        record.newer.deadline += by;
        let mut given = state.record(i);
        given.older.deadline += by;
        given.newer.deadline += by;
        state.put_record(i, given);
    }
}

/// A message's line with a zero behind the key of what is read.
pub fn longer_key(line: &str) -> String {
    let mut fields: Vec<String> = line.split(',').map(str::to_string).collect();
    fields[2] += "00";
    fields.join(",")
}

/// How often a call with moved records did each of these.
#[derive(Default)]
pub struct Ahead {
    /// Key Requests answered from a record further ahead than the calls make it, and refused for it; of these, with a newer key's life of
    /// 604,800 and of 604,801.
    replied: u64,
    longest: u64,
    refused: u64,
    past_longest: u64,
    /// Refused for it under a key of 21 octets, and with 2 for that key where the record is not too far ahead.
    before_length: u64,
    by_length: u64,
    /// Frames sealed and opened with a record too far ahead for a Key Reply, and frames' octets.
    sealed: u64,
    opened: u64,
    octets_sealed: u64,
    octets_opened: u64,
    /// Records further ahead than the calls make them that the clock rolled, and that it left.
    rolled: u64,
    left: u64,
}

impl Ahead {
    fn key_request(&mut self, wanted: &str, life: u64, made: u64) {
        if wanted.starts_with("0,08") {
            self.replied += u64::from(life > made);
            self.longest += u64::from(life == LONGEST);
        } else {
            self.refused += 1;
            self.past_longest += u64::from(life == LONGEST + 1);
        }
    }

    /// A call that answers `plain` without moved records and `wanted` with them; the head-end before and after it.
    pub fn add(&mut self, call: &Call, plain: &str, wanted: &str, before: &HeadEnd, after: &HeadEnd) {
        let life = |r: &Record| r.newer.deadline - before.clock;
        let of_said = |said: u16| before.records.iter().find(|r| r.said == said).map_or(0, life);
        match call {
            Call::Up { read_key, .. } if plain.starts_with("0,08") && read_key.len() != 20 => {
                self.before_length += u64::from(wanted == "1");
                self.by_length += u64::from(wanted == "2");
            }
            Call::Up { octets, .. } if plain.starts_with("0,08") => {
                let said = read(End::HeadEnd, octets).map_or(0, |m| m.fields.said);
                self.key_request(wanted, of_said(said), before.settings.life);
            }
            Call::SealDown { said, .. } if wanted.starts_with("0,") => self.sealed += u64::from(of_said(*said) > LONGEST),
            Call::OpenUp(f) if wanted.starts_with("0,") => self.opened += u64::from(of_said(f.said) > LONGEST),
            Call::SealDownFrame { said, .. } if wanted.starts_with("0,") => self.octets_sealed += u64::from(of_said(*said) > LONGEST),
            Call::OpenUpFrame(f, _) if wanted.starts_with("0,") => self.octets_opened += u64::from(of_said(f.said) > LONGEST),
            Call::Clock { .. } if wanted.starts_with("0,") => {
                let far = |p: &(&Record, &Record)| life(p.0) > before.settings.life;
                for (a, b) in before.records.iter().zip(&after.records).filter(far) {
                    let same = a == b;
                    self.rolled += u64::from(!same);
                    self.left += u64::from(same);
                }
            }
            _ => {}
        }
    }

    /// Prints the counts; one that is 0 is a failure.
    pub fn told(&self) {
        let counts = [
            ("Key Requests answered", self.replied),
            ("with a life of 604,800", self.longest),
            ("refused", self.refused),
            ("with a life of 604,801", self.past_longest),
            ("under a key of 21 octets", self.before_length),
            ("for that key", self.by_length),
            ("frames sealed", self.sealed),
            ("opened", self.opened),
            ("octets sealed", self.octets_sealed),
            ("octets opened", self.octets_opened),
            ("records rolled", self.rolled),
            ("left", self.left),
        ];
        let shown: Vec<String> = counts.iter().map(|(what, n)| format!("{what}: {n}")).collect();
        println!("outside: records moved ahead, {}", shown.join(", "));
        if let Some((what, _)) = counts.iter().find(|(_, n)| *n == 0) {
            fail(&format!("records moved ahead: none of {what}"));
        }
    }
}
