//! What a modem's call sends: messages end to end, each with the digest that the lent key gives.

use crate::digest::KEY;
use crate::message::{write, Fields};

/// What a call sends, and the message key that it is written with.
pub struct Sent<'a> {
    key: &'a [u8],
    pub octets: Vec<u8>,
}

/// For calls that send no message with a digest.
pub const NO_KEY: &[u8] = &[0; KEY];

impl Sent<'_> {
    pub fn new(key: &[u8]) -> Sent<'_> {
        Sent { key, octets: vec![] }
    }

    pub fn message(&mut self, code: u8, identifier: u8, ak_number: u8, said: u16) {
        let fields = Fields { code, identifier, ak_number, said, ..Fields::default() };
        self.octets.extend(write(&fields, &[], self.key, 36).expect("a modem's message is within the limits"));
    }
}
