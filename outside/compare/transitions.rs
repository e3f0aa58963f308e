//! Which transitions of the modem's two machines a run has reached, by the states before and after each call.

use crate::engine::Modem;
use crate::tally::fail;
use std::collections::BTreeMap;

/// Document 01's transitions to another state, whichever event makes them.
const AUTHORIZATION: [&str; 9] = ["AB", "BC", "BE", "BF", "CD", "DC", "DE", "DF", "EA"];
const TEK: [&str; 16] = ["AB", "BA", "BC", "BD", "CA", "CB", "DA", "DB", "DE", "EA", "EB", "ED", "EF", "FA", "FC", "FE"];

#[derive(Default)]
pub struct Transitions {
    authorization: BTreeMap<String, u64>,
    tek: BTreeMap<String, u64>,
}

fn add(to: &mut BTreeMap<String, u64>, before: u8, after: u8) {
    if before != after {
        let name = [before, after].map(|state| char::from(b'A' + state)).iter().collect();
        *to.entry(name).or_default() += 1;
    }
}

/// Prints how often each was reached; one that was not is a failure.
fn told(what: &str, reached: &BTreeMap<String, u64>, due: &[&str]) {
    let counts: Vec<String> = reached.iter().map(|(name, n)| format!("{name}: {n}")).collect();
    println!("outside: transitions of the modem's {what}: {}", counts.join(", "));
    if let Some(name) = due.iter().find(|name| !reached.contains_key(**name)) {
        fail(&format!("the modem's {what} never went {name}"));
    }
}

impl Transitions {
    /// The machines of the SAIDs that are in the same place before and after a call.
    pub fn add(&mut self, before: &Modem, after: &Modem) {
        add(&mut self.authorization, before.authorization.state, after.authorization.state);
        for (a, b) in before.teks.iter().zip(&after.teks).take(before.used.min(after.used)) {
            if (a.said, a.suite) == (b.said, b.suite) {
                add(&mut self.tek, a.state, b.state);
            }
        }
    }

    pub fn told(&self) {
        told("authorization machine", &self.authorization, &AUTHORIZATION);
        told("TEK machines", &self.tek, &TEK);
    }
}
