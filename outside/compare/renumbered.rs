//! Messages that one end put out and that reach the other with another Identifier, nothing else being changed: the digest no longer holds. Counted are Key
//! Requests that get error 5 for it, and old Key Replies that got the Identifier of the request that waits and are refused with 12.
// each program uses a part of it
#![allow(dead_code)]

use crate::plant::unhex;
use crate::tally::fail;
use curlewreel_outside::message::{read, End};
use std::collections::BTreeMap;

#[derive(Default)]
pub struct Renumbered {
    /// Key Requests and Key Replies that were put out in this list, without their Identifiers; and these.
    sent: BTreeMap<Vec<u8>, u8>,
    requests: u64,
    replies: u64,
}

/// The message with 0 for its Identifier.
fn unnumbered(message: &[u8]) -> Vec<u8> {
    let mut out = message.to_vec();
    out[1] = 0;
    out
}

impl Renumbered {
    /// Another list begins.
    pub fn begin(&mut self) {
        self.sent.clear();
    }

    /// What a call put out: messages end to end.
    pub fn put_out(&mut self, octets: &[u8]) {
        let mut rest = octets;
        while rest.len() >= 4 {
            let (message, behind) = rest.split_at(4 + usize::from(rest[2]) * 256 + usize::from(rest[3]));
            if matches!(message[0], 7 | 8) {
                self.sent.insert(unnumbered(message), message[1]);
            }
            rest = behind;
        }
    }

    /// Was this message put out with another Identifier, and does the digest that it had then hold under the key?
    fn is_renumbered(&self, end: End, key: &[u8], octets: &[u8]) -> bool {
        if octets.len() < 4 {
            return false;
        }
        let Some(identifier) = self.sent.get(&unnumbered(octets)).filter(|identifier| **identifier != octets[1]) else { return false };
        let mut sent = octets.to_vec();
        sent[1] = *identifier;
        read(end, &sent).is_ok_and(|m| m.holds(&sent, key))
    }

    /// A message to the head-end, and what it answered. An address or an authorization key may be refused before the digest is asked.
    pub fn add_up(&mut self, key: &str, message: &str, answer: &str) {
        let octets = unhex(message);
        if !self.is_renumbered(End::HeadEnd, &unhex(key), &octets) {
            return;
        }
        if answer.starts_with("0,08") || answer.starts_with("0,09") {
            fail(&format!("a Key Request with another Identifier passed error 5: {message}, {answer}"));
        }
        self.requests += u64::from(answer == format!("0,0a{:02x}000410000105", octets[1]));
    }

    /// A message to the modem: 12 is answered where all before it is met, so that the Identifier is that of the waiting request.
    pub fn add_down(&mut self, key: &str, message: &str, answer: &str) {
        if !self.is_renumbered(End::Modem, &unhex(key), &unhex(message)) {
            return;
        }
        if answer.starts_with("0,") {
            fail(&format!("a Key Reply with another Identifier was taken: {message}, {answer}"));
        }
        self.replies += u64::from(answer == "12");
    }

    /// Prints the counts; one that is 0 is a failure.
    pub fn told(&self, of: &str) {
        let (requests, replies) = (self.requests, self.replies);
        println!("outside: {of}, by another Identifier alone, Key Requests with error 5: {requests}, old Key Replies with 12: {replies}");
        if requests == 0 || replies == 0 {
            fail(&format!("{of}: no Key Request got error 5, or no old Key Reply 12, for its Identifier alone"));
        }
    }
}
