//! A record of traffic keys and an entry of a modem, by value (document 01, "Traffic keys at the head-end", "Head-end answers").

use crate::frame::Held;
use crate::settings::width;

/// An association: two generations held, `made` minted so far.
#[derive(Clone, PartialEq, Eq, Debug)]
pub struct Record {
    pub said: u16,
    pub suite: u16,
    pub made: u64,
    pub older: Held,
    pub newer: Held,
}

/// A listed modem. Authorization keys: how many were made, deadlines of the last two, 0 for none.
#[derive(Clone, PartialEq, Eq, Debug)]
pub struct Entry {
    pub address: u64,
    pub allowed: bool,
    pub saids: Vec<(u16, u16)>,
    pub aks: u64,
    pub older_ak: u64,
    pub newer_ak: u64,
}

/// Mints one generation from 32 octets: the TEK starts at 0, the vector at 16.
fn mint(generation: u64, deadline: u64, suite: u16, material: &[u8]) -> Held {
    let w = width(u64::from(suite));
    let number = (generation % 16) as u8;
    Held::new(number, deadline, &material[..w], &material[16..16 + w])
}

impl Record {
    /// Listing mints generations 0 and 1.
    pub fn new(said: u16, suite: u16, now: u64, half: u64, material: &[u8]) -> Record {
        let mut record = Record { said, suite, made: 0, older: Held::default(), newer: Held::default() };
        record.mint_two(now, half, material);
        record
    }

    /// Mints two, deadlines now + H and now + 2H.
    fn mint_two(&mut self, now: u64, half: u64, material: &[u8]) {
        self.older = mint(self.made, now + half, self.suite, &material[..32]);
        self.newer = mint(self.made + 1, now + 2 * half, self.suite, &material[32..]);
        self.made += 2;
    }

    /// Clock to t, for each SAID.
    pub fn roll(&mut self, t: u64, half: u64, material: &[u8]) {
        if self.older.deadline > t {
            return;
        }
        if self.newer.deadline > t {
            let deadline = self.newer.deadline + half;
            self.older = self.newer;
            self.newer = mint(self.made, deadline, self.suite, &material[..32]);
            self.made += 1;
        } else {
            self.mint_two(t, half, material);
        }
    }
}

impl Entry {
    /// A modem listed, with no authorization key yet.
    pub fn new(address: u64, allowed: bool, saids: Vec<(u16, u16)>) -> Entry {
        Entry { address, allowed, saids, aks: 0, older_ak: 0, newer_ak: 0 }
    }

    /// The newest authorization key's number.
    pub fn newest(&self) -> u8 {
        ((self.aks - 1) % 16) as u8
    }

    /// An authorization request of an allowed modem: none active, one, two.
    pub fn authorize(&mut self, clock: u64, aklife: u64) {
        if self.older_ak > clock {
            return;
        }
        let from = self.newer_ak.max(clock);
        self.older_ak = self.newer_ak;
        self.newer_ak = from + aklife;
        self.aks += 1;
    }

    /// Is an authorization key of this number active?
    pub fn active(&self, clock: u64, number: u8) -> bool {
        let is = |back: u64, deadline: u64| deadline > clock && self.aks >= back && (self.aks - back) % 16 == u64::from(number);
        is(1, self.newer_ak) || is(2, self.older_ak)
    }
}
