//! The Identifiers of requests (document 02, M-101). Counted are new requests of the modem that are numbered 1 after 255; requests that it put out and
//! that reach the head-end numbered 0, with a digest that holds, and get a Reply numbered 0; and Authorization Invalids that put the machine whose Key
//! Request they answer into its reauthorization wait, after the counter came round. No request that the modem puts out may be numbered 0.
// each program uses a part of it
#![allow(dead_code)]

use crate::plant::{apart, unhex};
use crate::tally::fail;
use curlewreel_outside::modem::Modem;
use std::collections::BTreeSet;

/// What is looked at of a modem: its counter, the authorization machine's state, and state and Identifier of each TEK machine by slot. States are
/// letters.
pub struct Machines {
    pub counter: u8,
    pub authorization: u8,
    pub teks: Vec<(u8, u8)>,
}

impl Machines {
    /// Those of the outside modem.
    pub fn of(m: &Modem) -> Machines {
        Machines { counter: m.counter, authorization: m.state, teks: m.slots.iter().map(|s| (s.state, s.identifier)).collect() }
    }

    /// The first slot whose Key Request waits under an Identifier.
    fn waiting(&self, identifier: u8) -> Option<usize> {
        self.teks.iter().position(|t| matches!(t.0, b'B' | b'E') && t.1 == identifier)
    }
}

#[derive(Default)]
pub struct Identifiers {
    /// Has the counter come round in this list?
    round: bool,
    /// Requests that were put out in this list, without Identifiers and digests.
    sent: BTreeSet<Vec<u8>>,
    requests: u64,
    /// Authorization Requests and Key Requests: numbered 1 after 255, and answered under 0.
    first: [u64; 2],
    answered: [u64; 2],
    /// Authorization Invalids after the counter came round: B-C and E-F.
    invalids: [u64; 2],
}

/// The requests that the modem put out in a call.
fn requests_of(call: &str, answer: &str) -> Vec<Vec<u8>> {
    let name = call.split(',').next().unwrap_or_default();
    let out = match (name, answer.split_once(',')) {
        ("clock" | "established" | "reauth" | "down", Some(("0", out))) | ("opendown" | "opendownframe", Some(("13", out))) => out,
        _ => return Vec::new(),
    };
    apart(&unhex(out)).into_iter().filter(|m| matches!(m[0], 4 | 7)).collect()
}

/// A request with 0 for its Identifier and for the octets of its digest, as the modem writes it.
fn bare(request: &[u8]) -> Vec<u8> {
    let mut out = request.to_vec();
    out[1] = 0;
    out.iter_mut().skip(16).for_each(|octet| *octet = 0);
    out
}

/// The numbers of the new requests between two values of the counter; all that there are where it is 0 afterwards, as it must not be.
fn numbers(before: u8, after: u8) -> Vec<u8> {
    let (mut out, mut n) = (Vec::new(), before);
    while n != after && out.len() < 255 {
        n = n % 255 + 1;
        out.push(n);
    }
    out
}

impl Identifiers {
    /// Another list begins.
    pub fn begin(&mut self) {
        self.round = false;
        self.sent.clear();
    }

    /// A call's answer: no request in it may be numbered 0.
    pub fn none_numbered_0(call: &str, answer: &str) {
        if requests_of(call, answer).iter().any(|m| m[1] == 0) {
            fail(&format!("the modem put out a request numbered 0: {call}, {answer}"));
        }
    }

    /// A call in text with its answer, and the modem before and after it.
    pub fn add(&mut self, call: &str, answer: &str, before: &Machines, after: &Machines) {
        let fields: Vec<&str> = call.split(',').collect();
        match fields[0] {
            "up" if answer.starts_with("0,") => self.add_up(&unhex(fields[5]), answer),
            "down" if answer.starts_with("0,") => self.add_down(&unhex(fields[3]), before, after),
            _ => {}
        }
        self.add_requests(&requests_of(call, answer), before.counter, after.counter);
    }

    /// A list with its answers; `modems` has the modem before the first call and after each, or nothing where it is not known.
    pub fn add_list(&mut self, input: &str, answers: &str, modems: &[Machines]) {
        self.begin();
        let calls = || input.lines().skip(4).zip(answers.lines());
        calls().for_each(|(call, answer)| Identifiers::none_numbered_0(call, answer));
        for ((call, answer), modem) in calls().zip(modems.windows(2)) {
            self.add(call, answer, &modem[0], &modem[1]);
        }
    }

    /// A message that the head-end took: every answer carries the request's Identifier.
    fn add_up(&mut self, octets: &[u8], answer: &str) {
        if !matches!(octets[..2], [4 | 7, 0]) {
            return;
        }
        if answer.get(4..6) != Some("00") {
            fail(&format!("a request numbered 0 was answered under another number: {answer}"));
        }
        if self.sent.contains(&bare(octets)) {
            self.answered[0] += u64::from(answer.starts_with("0,05"));
            self.answered[1] += u64::from(answer.starts_with("0,08"));
        }
    }

    /// A message that the modem took: an Authorization Invalid with an Identifier other than 0 answers a Key Request, and its machine asks no more.
    fn add_down(&mut self, octets: &[u8], before: &Machines, after: &Machines) {
        let (10, identifier @ 1..) = (octets[0], octets[1]) else { return };
        let Some(at) = before.waiting(identifier) else {
            fail(&format!("an Authorization Invalid numbered {identifier} was taken, and no Key Request waits under it"))
        };
        let states = [before.teks[at].0, after.teks[at].0, after.authorization];
        let kind = match &states {
            b"BCD" => 0,
            b"EFD" => 1,
            _ => fail(&format!("an Authorization Invalid numbered {identifier} was taken, with the states {}", states.escape_ascii())),
        };
        self.invalids[kind] += u64::from(self.round);
    }

    /// The requests of a call, which the counter tells the new ones of.
    fn add_requests(&mut self, requests: &[Vec<u8>], before: u8, after: u8) {
        let mut given = requests.iter().map(|m| m[1]);
        if !numbers(before, after).iter().all(|n| given.any(|m| m == *n)) {
            fail(&format!("the counter went from {before} to {after} with the requests {requests:?}"));
        }
        if after < before {
            self.round = true;
            let ones: Vec<&Vec<u8>> = requests.iter().filter(|m| m[1] == 1).collect();
            // two of them: one may be sent again, having waited a whole round
            if let [one] = ones[..] {
                self.first[usize::from(one[0] == 7)] += 1;
            }
        }
        self.requests += requests.len() as u64;
        self.sent.extend(requests.iter().map(|m| bare(m)));
    }

    /// Prints the counts; one that is 0 is a failure.
    pub fn told(&self, of: &str) {
        println!("outside: {of}, requests of the modem: {}, none numbered 0", self.requests);
        let requests = ["Authorization Requests", "Key Requests"];
        let all = [
            ("numbered 1 after 255", requests, self.first),
            ("numbered 0 at the head-end and answered with a Reply numbered 0", requests, self.answered),
            ("Authorization Invalids after 255 for a Key Request that waits", ["in Op Wait", "in Rekey Wait"], self.invalids),
        ];
        for (what, kinds, counts) in all {
            println!("outside: {of}, {what}, {}: {}, {}: {}", kinds[0], counts[0], kinds[1], counts[1]);
            if let Some(at) = (0..2).find(|at| counts[*at] == 0) {
                fail(&format!("{of}: {what}, none of {}", kinds[at]));
            }
        }
    }
}
