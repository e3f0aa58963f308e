//! What `compare` has seen of reading and writing: the answers, the codes, digests that held and that did not, and message keys by length.

use crate::library;
use crate::skipped::Skipped;
use crate::tally::{check, Tally};
use std::collections::BTreeSet;

/// The codes that carry a digest.
pub const WITH_DIGEST: [usize; 4] = [7, 8, 9, 11];

#[derive(Default)]
pub struct Seen {
    reads: Tally,
    writes: Tally,
    codes: [u64; 13],
    /// By code: digests that held, that did not, and messages whose digest held that were written again octet for octet.
    held: [u64; 13],
    failed: [u64; 13],
    again: [u64; 13],
    skipped: Skipped,
    /// Lengths of the keys that were refused with 2.
    read_keys: BTreeSet<usize>,
    write_keys: BTreeSet<usize>,
}

impl Seen {
    /// A reading's number, the length of its key, the message, and the fields that it gave.
    pub fn add_reading(&mut self, number: u8, key: usize, octets: &[u8], fields: &[u8]) {
        self.reads.add(number);
        if number == 2 {
            self.read_keys.insert(key);
        }
        if number == 0 {
            let code = usize::from(fields[0]);
            self.codes[code] += 1;
            let counts = if fields[library::HOLDS] == 1 { &mut self.held } else { &mut self.failed };
            counts[code] += 1;
            // neither a place nor a digest that holds
            let none = fields[library::DIGEST..].iter().all(|octet| *octet == 0);
            check(!self.skipped.add(octets) || none, || format!("a digest that is skipped was told of: {octets:02x?}"));
        }
    }

    pub fn add_writing(&mut self, number: u8, key: usize) {
        self.writes.add(number);
        if number == 2 {
            self.write_keys.insert(key);
        }
    }

    /// A message whose digest held was written again as it came.
    pub fn add_again(&mut self, code: u8) {
        self.again[usize::from(code)] += 1;
    }

    /// Prints the counts; one that is 0 is a failure.
    pub fn told(&self) {
        self.reads.told("reading", &[0, 1, 2, 6, 7, 8, 9, 11]);
        self.writes.told("writing", &[0, 1, 2]);
        println!("outside: read by code 4 to 12: {:?}", &self.codes[4..]);
        for (code, times) in self.codes.iter().enumerate().skip(4) {
            check(*times > 0, || format!("no message of code {code} was read"));
        }
        for (what, counts) in [("held", &self.held), ("did not hold", &self.failed), ("held and were written again", &self.again)] {
            println!("outside: digests of codes 7, 8, 9, 11 that {what}: {:?}", WITH_DIGEST.map(|code| counts[code]));
            WITH_DIGEST.iter().for_each(|code| check(counts[*code] > 0, || format!("no digest of code {code} {what}")));
        }
        self.skipped.told("reading");
        for (what, lengths) in [("reading", &self.read_keys), ("writing", &self.write_keys)] {
            [0, 19, 21].iter().for_each(|n| check(lengths.contains(n), || format!("{what} was never lent a key of {n} octets")));
        }
        println!("outside: reading and writing were lent message keys of 0, 19 and 21 octets");
    }
}
