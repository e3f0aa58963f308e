//! The frames of a plant that carry octets (document 02, M-103). They are sealed by the calls on octets, or with the key that a call gave, and reach the
//! other end late, twice, changed or under other fields, at either kind of call.

use super::{hex, unhex, Frame, Plant};
use curlewreel_outside::cipher::{sealed, CLEAR};
use curlewreel_outside::settings::AES;

/// Lengths around those of the clear octets and of blocks, and a long one.
pub const LENGTHS: [usize; 10] = [0, 1, 11, 12, 13, 27, 28, 29, 44, 1_518];

impl Plant {
    /// A frame's octets before it is sealed.
    fn plain(&mut self) -> Vec<u8> {
        let n = match self.r.below(20) {
            0..=9 => self.r.pick(&LENGTHS),
            10..=18 => self.r.below(100) as usize,
            _ => self.r.below(2_001) as usize,
        };
        self.r.octets(n)
    }

    /// A call on octets: two in five seal, the others deliver.
    pub(super) fn on_octets(&mut self) -> String {
        if self.sealed.is_empty() || self.r.below(5) < 2 {
            return self.seal_octets();
        }
        self.deliver_octets()
    }

    /// Mostly for a SAID whose keys the modem has.
    fn seal_octets(&mut self) -> String {
        let plain = hex(&self.plain());
        let held: Vec<u64> = self.ends.modem.slots.iter().filter(|s| s.keys.is_some() && s.suite == AES).map(|s| s.said.into()).collect();
        let (address, said) = match held.is_empty() || self.r.one_in(4) {
            true => (self.some_address(), self.said()),
            false => (self.address, self.r.pick(&held)),
        };
        if self.r.one_in(2) {
            return format!("sealupframe,{said},{plain}");
        }
        format!("sealdownframe,{address},{said},{plain}")
    }

    fn deliver_octets(&mut self) -> String {
        let Some(at) = self.place(self.sealed.len()) else { return self.seal_octets() };
        let (Frame(mut direction, mut address, mut said, mut number), mut octets) = self.sealed[at].clone();
        // one in eight comes to the end that sealed it
        let up = (direction == 0) != self.r.one_in(8);
        direction = u64::from(!up);
        match self.r.below(25) {
            0 => direction = self.r.below(3),
            1 => address = self.some_address(),
            2 => said = self.said(),
            3 => said = self.said_of_des().unwrap_or(said),
            4 | 5 => number = self.r.below(17),
            6 | 7 => self.change(&mut octets),
            8 => octets = self.plain(),
            9 => {
                octets.truncate(self.r.pick(&[0, 1, CLEAR - 1]));
                // where 10 is due too, which comes after 15
                if self.r.one_in(2) {
                    said = self.said_for_10();
                }
            }
            _ => {}
        }
        let key = if up { self.invalid_key(address) } else { self.request_key() };
        let receiver = if up { "openup" } else { "opendown" };
        // one in five at the call that gives the key
        if self.r.one_in(5) {
            return format!("{receiver},{direction},{address},{said},{number},{key}");
        }
        format!("{receiver}frame,{direction},{address},{said},{number},{key},{}", hex(&octets))
    }

    /// A SAID of suite 256 that is the modem's.
    fn said_of_des(&mut self) -> Option<u64> {
        let entry = self.ends.head.entries.iter().find(|e| e.address == self.address)?;
        let all: Vec<u64> = entry.saids.iter().filter(|s| s.1 != AES).map(|s| s.0.into()).collect();
        (!all.is_empty()).then(|| self.r.pick(&all))
    }

    /// A SAID that question 10 refuses: of suite 256, or any of 14 bits, which is seldom known.
    fn said_for_10(&mut self) -> u64 {
        let of_des = if self.r.one_in(2) { self.said_of_des() } else { None };
        of_des.unwrap_or_else(|| self.r.below(16_384))
    }

    /// An octet changed, the end cut off, or octets behind it.
    fn change(&mut self, octets: &mut Vec<u8>) {
        let at = self.r.below(octets.len().max(1) as u64) as usize;
        match self.r.below(3) {
            0 if !octets.is_empty() => octets[at] ^= 1 << self.r.below(8),
            1 => octets.truncate(at),
            _ => {
                let n = 1 + self.r.below(20) as usize;
                octets.extend(self.r.octets(n));
            }
        }
    }

    /// A call that brings keys to the modem, now and then, where this list does so: the request that waits goes up, or its answer comes down.
    pub(super) fn to_keys(&mut self) -> Option<String> {
        if !self.calm || self.r.one_in(2) {
            return None;
        }
        let m = &self.ends.modem;
        // what waits: codes of request and answer, Identifier
        let waiting = match m.state {
            b'A' => return Some("established".to_string()),
            b'B' | b'D' => Some((4, 5, m.asked)),
            b'C' => m.slots.iter().find(|s| s.waits()).map(|s| (7, 8, s.identifier)),
            _ => None,
        };
        let (request, answer, identifier) = waiting?;
        let newest = |all: &[Vec<u8>], code: u8| all.iter().rev().find(|o| o[..2] == [code, identifier]).cloned();
        if let Some(octets) = newest(&self.down, answer).filter(|_| !self.r.one_in(4)) {
            return Some(self.under_right_keys(false, &octets));
        }
        newest(&self.up, request).map(|octets| self.under_right_keys(true, &octets))
    }

    /// Keeps a frame that was sealed; where a call gave a key of 16 octets, octets are sealed with it here.
    pub(super) fn keep_sealed(&mut self, frame: Frame, given: &[&str]) {
        match given {
            [_, _, octets] => self.sealed.push((frame, unhex(octets))),
            [_, _, tek, vector] => {
                if let (Ok(tek), Ok(vector)) = (unhex(tek).try_into(), unhex(vector).try_into()) {
                    let mut plain = self.plain();
                    plain.resize(plain.len().max(CLEAR), 0);
                    let octets = sealed(&tek, &vector, &plain);
                    self.crossed.insert(octets.clone(), plain);
                    self.sealed.push((frame.clone(), octets));
                }
                self.frames.push(frame);
            }
            _ => {}
        }
    }
}
