//! Messages that need no digest and hold an attribute of its type all the same, which is skipped, whatever its length is: how many were taken.
// each program uses a part of it
#![allow(dead_code)]

use crate::tally::fail;

/// The codes that need no digest.
pub const CODES: [usize; 5] = [4, 5, 6, 10, 12];

/// What is asked of an Authorization Reply's.
const KINDS: [&str; 4] = ["of 0 octets", "of 20", "of any other number", "behind all other attributes"];

#[derive(Default)]
pub struct Skipped {
    codes: [u64; 13],
    /// Authorization Replies, by `KINDS`; one may be of more than one kind.
    replies: [u64; 4],
}

impl Skipped {
    /// A message that was taken; does it count?
    pub fn add(&mut self, octets: &[u8]) -> bool {
        let code = usize::from(octets[0]);
        let found = if CODES.contains(&code) { digests_in(octets) } else { Vec::new() };
        if found.is_empty() {
            return false;
        }
        self.codes[code] += 1;
        if code == 5 {
            let has = |is: &dyn Fn(&(usize, bool)) -> bool| u64::from(found.iter().any(is));
            let other = |n: usize| n != 0 && n != 20;
            let kinds = [has(&|d| d.0 == 0), has(&|d| d.0 == 20), has(&|d| other(d.0)), has(&|d| d.1)];
            self.replies.iter_mut().zip(kinds).for_each(|(count, one)| *count += one);
        }
        true
    }

    /// Prints the counts; one that is 0 is a failure.
    pub fn told(&self, of: &str) {
        println!("outside: {of}, taken with a digest that is skipped, codes 4, 5, 6, 10, 12: {:?}", CODES.map(|code| self.codes[code]));
        let kinds: Vec<String> = KINDS.iter().zip(self.replies).map(|(kind, count)| format!("{kind}: {count}")).collect();
        println!("outside: {of}, taken Authorization Replies with a digest {}", kinds.join(", "));
        if let Some(code) = CODES.iter().find(|code| self.codes[**code] == 0) {
            fail(&format!("{of}: no message of code {code} was taken with a digest that is skipped"));
        }
        if let Some(at) = (0..KINDS.len()).find(|at| self.replies[*at] == 0) {
            fail(&format!("{of}: no Authorization Reply was taken with a digest {}", KINDS[at]));
        }
    }
}

/// The attributes of type 11 that a message holds by itself, not in a compound: how many octets, and is it the last attribute?
fn digests_in(octets: &[u8]) -> Vec<(usize, bool)> {
    let two = |at: usize| usize::from(octets[at]) * 256 + usize::from(octets[at + 1]);
    let (mut found, mut at, end) = (Vec::new(), 4, 4 + two(2));
    while at < end {
        let (kind, length) = (octets[at], two(at + 1));
        at += 3 + length;
        if kind == 11 {
            found.push((length, at == end));
        }
    }
    found
}
