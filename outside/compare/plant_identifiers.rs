//! What a plant does for the Identifiers of requests (document 02, M-101): it brings the modem's counter near 255, and delivers requests
//! numbered 0.

use super::{hex, Plant};
use crate::make;
use curlewreel_outside::digest::KEY;
use curlewreel_outside::message::{write, Descriptor, Fields};

impl Plant {
    /// A call that brings the counter on, from the first Reply until it is near 255, where this list does so.
    pub(super) fn to_255(&mut self) -> Option<String> {
        let counter = self.ends.modem.counter;
        self.near = self.near.filter(|near| counter < *near);
        match self.ends.modem.state {
            b'C' if self.near.is_some() => Some("reauth".to_string()),
            b'D' if self.near.is_some() => Some(self.reply_to_ask_anew()),
            _ => None,
        }
    }

    /// A Reply after which four machines ask, or as many as come to 255: of each SAID it names another suite than the modem has.
    fn reply_to_ask_anew(&mut self) -> String {
        let (identifier, left, slots) = (self.ends.modem.asked, 255 - self.ends.modem.counter, &self.ends.modem.slots);
        let suite = |said: u16| if slots.iter().any(|s| s.said == said && s.suite == 256) { 768 } else { 256 };
        let saids = self.saids.iter().map(|said| *said as u16).chain(16_000..).take(usize::from(left.min(4)));
        let descriptors = saids.map(|said| Descriptor { said, sa_type: 0, suite: suite(said) }).collect();
        let (ak_number, life) = (self.r.below(16) as u8, 1 + self.r.below(12_096_000) as u32);
        let reply = Fields { code: 5, identifier, ak_number, life, descriptors, ..Fields::default() };
        let octets = write(&reply, &self.r.octets(8), &[0; KEY], 400).expect("a Reply within the limits");
        self.under_right_keys(false, &octets)
    }

    /// A request that the modem sent, numbered 0, with a digest that holds. None where there is none.
    pub(super) fn numbered_0(&mut self) -> Option<String> {
        let code = self.r.pick(&[4, 7]);
        let of_code: Vec<usize> = (0..self.up.len()).filter(|at| self.up[*at][0] == code).collect();
        let at = self.place(of_code.len())?;
        let mut octets = self.up[of_code[at]].clone();
        octets[1] = 0;
        let (address, pair) = (self.address, self.at_headend(self.address, &octets));
        make::digest_anew(&mut octets, &pair.up);
        let auth_key = self.auth_key(address);
        Some(format!("up,{address},{},{},{},{}", hex(&pair.up), hex(&pair.down), hex(&auth_key), hex(&octets)))
    }
}
