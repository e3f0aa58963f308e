//! Both ends for the tests, with the message keys of each direction.

use crate::digest::KEY;
use crate::headend::HeadEnd;
use crate::modem::Modem;
use crate::settings::Settings;

pub const ADDRESS: u64 = 0x0000_a0b1_c2d3;
pub const SAID: u64 = 8_800;

/// The message keys of what goes up and of what goes down, whichever the authorization key is.
pub const UP: [u8; KEY] = [1; KEY];
pub const DOWN: [u8; KEY] = [2; KEY];

pub fn settings() -> Settings {
    Settings {
        life: 1_800,
        grace: 300,
        aklife: 86_400,
        akgrace: 300,
        authorize: 10,
        reauthorize: 10,
        operational: 10,
        rekey: 10,
        reject: 60,
    }
}

/// Fresh material for n SAIDs, another with each seed.
pub fn material(n: usize, seed: u64) -> Vec<u8> {
    (0..64 * n).map(|i| (i as u64 * 7 + seed * 31 + 1) as u8).collect()
}

pub struct Both {
    pub head: HeadEnd,
    pub modem: Modem,
    seed: u64,
}

impl Both {
    /// Both ends, the modem listed with SAIDs 8,800 (suite 256) and 8,801 (768).
    pub fn new() -> Both {
        Both::listed(&[(SAID, 256), (SAID + 1, 768)])
    }

    /// Both ends, the modem listed with these SAIDs.
    pub fn listed(saids: &[(u64, u64)]) -> Both {
        let mut head = HeadEnd::new(settings()).unwrap();
        let modem = Modem::new(settings(), ADDRESS, SAID).unwrap();
        head.list(ADDRESS, true, &material(saids.len(), 0), saids).unwrap();
        Both { head, modem, seed: 0 }
    }

    pub fn clock(&mut self, t: u64) -> Vec<Vec<u8>> {
        self.seed += 1;
        let fresh = material(self.head.records.len(), self.seed);
        self.head.clock(t, &fresh).unwrap();
        split(&self.modem.clock(t, &UP).unwrap())
    }

    pub fn up(&mut self, message: &[u8]) -> Vec<u8> {
        self.head.receive(ADDRESS, &UP, &DOWN, &[5], message).unwrap()
    }

    pub fn down(&mut self, message: &[u8]) -> Vec<Vec<u8>> {
        split(&self.modem.receive(&DOWN, &UP, message).unwrap())
    }

    /// Delivers all, both ways, until none is left.
    pub fn settle(&mut self, mut messages: Vec<Vec<u8>>) {
        while let Some(m) = messages.pop() {
            let answer = self.up(&m);
            if !answer.is_empty() {
                messages.extend(self.down(&answer));
            }
        }
    }

    pub fn authorized(&mut self) -> Vec<Vec<u8>> {
        let sent = split(&self.modem.established().unwrap());
        assert_eq!(self.up(&sent[0]), []);
        let reply = self.up(&sent[1]);
        self.down(&reply)
    }

    pub fn operational() -> Both {
        let mut b = Both::new();
        let requests = b.authorized();
        b.settle(requests);
        b
    }
}

/// The messages of a call.
pub fn split(mut octets: &[u8]) -> Vec<Vec<u8>> {
    let mut all = vec![];
    while !octets.is_empty() {
        let n = 4 + usize::from(octets[2]) * 256 + usize::from(octets[3]);
        all.push(octets[..n].to_vec());
        octets = &octets[n..];
    }
    all
}
