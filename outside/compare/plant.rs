//! A plant: random lists of calls, worked out with the outside implementation. Copies of messages and frames come late, twice, in another
//! order and damaged, with right and with wrong keys; listings and clocks are refused now and then; some lines are no calls.
// each program uses a part of it
#![allow(dead_code)]

use crate::keys::AuthKeys;
use crate::random::Random;
use crate::text;
use curlewreel_outside::replay::Ends;
use std::collections::BTreeMap;

#[path = "plant_frames.rs"]
pub mod frames;
#[path = "plant_identifiers.rs"]
mod identifiers;
#[path = "plant_lists.rs"]
pub mod lists;
#[path = "plant_messages.rs"]
mod messages;

/// A message put out, or a frame sealed: its fields direction, address, SAID, number.
#[derive(Clone)]
struct Frame(u64, u64, u64, u64);

pub struct Plant {
    r: Random,
    pub ends: Ends,
    life: u64,
    aklife: u64,
    address: u64,
    clock: u64,
    /// How many calls of a hundred are listings.
    listings: u64,
    /// Does the first clock call go near the clock's last second?
    far: bool,
    /// Does every other call bring keys to the modem, so that there is traffic?
    calm: bool,
    saids: Vec<u64>,
    up: Vec<Vec<u8>>,
    down: Vec<Vec<u8>>,
    frames: Vec<Frame>,
    /// Frames with their octets after the sealing; and of those sealed with a key that a call gave, the octets before it by those after it.
    sealed: Vec<(Frame, Vec<u8>)>,
    pub crossed: BTreeMap<Vec<u8>, Vec<u8>>,
    auth_keys: AuthKeys,
    first: bool,
    /// The Identifier that the modem's requests are brought to, until they are there.
    near: Option<u8>,
}

pub fn hex(octets: &[u8]) -> String {
    octets.iter().map(|o| format!("{o:02x}")).collect()
}

pub fn unhex(text: &str) -> Vec<u8> {
    (0..text.len() / 2).map(|i| u8::from_str_radix(&text[2 * i..2 * i + 2], 16).expect("hexadecimal")).collect()
}

/// The messages that stand end to end.
pub fn apart(octets: &[u8]) -> Vec<Vec<u8>> {
    let (mut out, mut rest) = (Vec::new(), octets);
    while rest.len() >= 4 {
        let n = 4 + usize::from(rest[2]) * 256 + usize::from(rest[3]);
        out.push(rest[..n].to_vec());
        rest = &rest[n..];
    }
    out
}

impl Plant {
    /// A plant of a seed, and the four lines of its set-up.
    pub fn new(seed: u64) -> (Plant, String) {
        let mut r = Random(seed);
        let (input, life, aklife, address) = lists::set_up(&mut r);
        let ends = Ends::start(&input.as_bytes().split(|c| *c == b'\n').collect::<Vec<_>>()).expect("a start");
        // by the seed itself, so that a few lists have each kind
        let (listings, far) = (if seed % 8 == 3 { 30 } else { 2 }, seed % 12 == 7);
        let (saids, up, down, frames, sealed) = (Vec::new(), Vec::new(), Vec::new(), Vec::new(), Vec::new());
        let (auth_keys, near) = (AuthKeys::default(), lists::is_near_255(seed).then(|| r.pick(&[245, 250, 255])));
        let (clock, calm, first, crossed) = (0, lists::is_calm(seed), true, BTreeMap::new());
        let plant = Plant {
            r,
            ends,
            life,
            aklife,
            address,
            clock,
            listings,
            far,
            calm,
            saids,
            up,
            down,
            frames,
            sealed,
            crossed,
            auth_keys,
            first,
            near,
        };
        (plant, input)
    }

    /// The next call, and what the outside implementation answers.
    pub fn next(&mut self) -> (String, String) {
        let lists = std::mem::replace(&mut self.first, false) && !self.r.one_in(20);
        let mut call = if lists { self.list() } else { self.call() };
        if !lists && self.r.one_in(50) {
            call = if self.r.one_in(3) { text::spoilt(&mut self.r, &call) } else { text::odd_line(&mut self.r) };
        }
        let answer = self.ends.call(call.as_bytes()).unwrap_or("?".to_string());
        self.keep(&call, &answer);
        (call, answer)
    }

    /// The line that ends the answers.
    pub fn frames(&self) -> String {
        self.ends.frames()
    }

    /// One of the newest mostly, any of them now and then.
    fn place(&mut self, n: usize) -> Option<usize> {
        if n == 0 {
            return None;
        }
        let back = if self.r.one_in(6) { n } else { n.min(3) };
        Some(n - 1 - self.r.below(back as u64) as usize)
    }

    fn said(&mut self) -> u64 {
        match self.r.below(20) {
            0 => self.r.pick(&[0, 16_383, 16_384, 65_536]),
            1 => self.r.below(40),
            _ if self.saids.is_empty() => 1,
            _ => {
                let at = self.r.below(self.saids.len().min(4) as u64) as usize;
                self.saids[at]
            }
        }
    }

    fn some_address(&mut self) -> u64 {
        match self.r.below(20) {
            0 => self.r.pick(&[1 << 48, u64::MAX]),
            1 | 2 => 1 + self.r.below(5),
            _ => self.address,
        }
    }

    fn list(&mut self) -> String {
        let n = if self.r.one_in(12) { 5 } else { 1 + self.r.below(4) };
        // a list with many listings has SAIDs enough to fill all places
        let range = if self.listings > 2 { 8_000 } else { 200 };
        let mut text = String::new();
        for _ in 0..n {
            let said = if self.r.one_in(15) { self.r.pick(&[1, 2, 16_384]) } else { self.r.below(range) };
            let suite = if self.r.one_in(15) { 512 } else { self.r.pick(&[256, 768]) };
            text += &format!(",{said},{suite}");
        }
        let octets = if self.r.one_in(12) { self.r.below(300) as usize } else { 64 * n as usize };
        let address = if self.saids.is_empty() || self.r.one_in(10) { self.address } else { 1 + self.r.below(40) };
        let (allowed, material) = (self.r.below(10).min(1), hex(&self.r.octets(octets)));
        format!("list,{address},{allowed},{material}{text}")
    }

    fn clock(&mut self) -> String {
        let half = self.life / 2;
        let last = 1_000_000_000_000;
        let ahead = match self.r.below(24) {
            0 => self.life,
            1 => half * self.r.below(20),
            2 if self.r.one_in(2) => self.aklife,
            3..=8 => self.r.below(half),
            9 | 10 => half - self.clock % half,
            11 | 12 => half - 1 - self.clock % half,
            _ => self.r.below(60),
        };
        let t = match self.r.below(60) {
            0 => self.clock.saturating_sub(1 + self.r.below(50)),
            1 if self.r.one_in(10) => self.r.pick(&[last + 1, u64::MAX]),
            2 if self.clock + half > last => last,
            _ if self.far && self.clock == 0 => last - self.r.below(20_000),
            _ => self.clock + ahead,
        };
        // now and then two questions are not met, one of them by both ends
        let seldom = if t < self.clock || t > last { 4 } else { 40 };
        let n = if self.r.one_in(seldom) { self.r.below(200) as usize } else { 64 * self.saids.len() };
        format!("clock,{t},{},{}", hex(&self.r.octets(n)), self.request_key())
    }

    fn frame(&mut self) -> String {
        let n = self.frames.len();
        let Some(at) = self.place(n) else { return "sealup,1".to_string() };
        let Frame(mut direction, mut address, mut said, mut number) = self.frames[at].clone();
        let receiver = if direction == 0 { "openup" } else { "opendown" };
        match self.r.below(25) {
            0 => direction = self.r.below(3),
            1 => address = self.some_address(),
            2 => said = self.said(),
            3 | 4 => number = self.r.below(17),
            _ => {}
        }
        let key = if receiver == "openup" { self.invalid_key(address) } else { self.request_key() };
        format!("{receiver},{direction},{address},{said},{number},{key}")
    }

    fn call(&mut self) -> String {
        if let Some(call) = self.to_255() {
            return call;
        }
        if self.r.below(100) < self.listings {
            return self.list();
        }
        if let Some(call) = self.to_keys() {
            return call;
        }
        match self.r.below(if self.calm { 200 } else { 125 }) {
            0..=17 => self.clock(),
            18..=20 => "established".to_string(),
            21 => "reauth".to_string(),
            22..=46 => self.message(true),
            47..=71 => self.message(false),
            72..=78 => format!("sealdown,{},{}", self.some_address(), self.said()),
            79..=85 => format!("sealup,{}", self.said()),
            86..=99 => self.frame(),
            _ => self.on_octets(),
        }
    }

    /// Keeps what a call that was done put out.
    fn keep(&mut self, call: &str, answer: &str) {
        let (fields, given): (Vec<&str>, Vec<&str>) = (call.split(',').collect(), answer.split(',').collect());
        let number = |at: usize| fields[at].parse::<u64>().expect("a number");
        match (fields[0], given[0]) {
            ("list", "0") => self.saids.extend((4..fields.len()).step_by(2).map(number)),
            ("clock", "0") => {
                self.clock = number(1);
                self.up.extend(apart(&unhex(given[1])));
            }
            ("established" | "reauth", "0") | ("opendown" | "opendownframe", "13") => self.up.extend(apart(&unhex(given[1]))),
            ("down", "0") => {
                self.keep_auth_key(None, &unhex(fields[3]));
                self.up.extend(apart(&unhex(given[1])));
            }
            ("up", "0") | ("openup" | "openupframe", "13") => {
                self.keep_auth_key(Some(number(if fields[0] == "up" { 1 } else { 2 })), &unhex(given[1]));
                self.down.extend(apart(&unhex(given[1])));
            }
            ("sealdown" | "sealdownframe", "0") => {
                self.keep_sealed(Frame(1, number(1), number(2), given[1].parse().expect("a number")), &given);
            }
            ("sealup" | "sealupframe", "0") => {
                self.keep_sealed(Frame(0, self.address, number(1), given[1].parse().expect("a number")), &given);
            }
            _ => {}
        }
    }
}
