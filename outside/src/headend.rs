//! The head-end (document 01, "Traffic keys at the head-end" and "Head-end answers").

use crate::association::{Entry, Record};
use crate::digest::KEY;
use crate::frame::{Held, Opened, Opener, Sealed};
use crate::message::{read, write, Descriptor, End, Fields, Params};
use crate::settings::{address_fits, said_fits, width, Settings, LAST_SECOND};

/// Places for modems and for records.
pub const MODEMS: usize = 16;
pub const RECORDS: usize = 64;

/// The head-end's state.
#[derive(Clone, PartialEq, Eq, Debug)]
pub struct HeadEnd {
    pub settings: Settings,
    pub clock: u64,
    pub entries: Vec<Entry>,
    pub records: Vec<Record>,
    pub taken: u64,
    pub refused: u64,
}

/// An answer that carries an error alone.
fn error(code: u8, identifier: u8, error: u8) -> Fields {
    Fields { code, identifier, error, ..Fields::default() }
}

fn params(key: &Held, width: usize, clock: u64) -> Params {
    let (tek, vector) = key.octets(width);
    // a life that is too long stays too long
    let life = u32::try_from(key.deadline - clock).unwrap_or(u32::MAX);
    Params { number: key.number, life, tek, vector }
}

impl HeadEnd {
    /// A fresh head-end, at clock 0.
    pub fn new(settings: Settings) -> Result<HeadEnd, u8> {
        if !settings.fits() {
            return Err(1);
        }
        Ok(HeadEnd { settings, clock: 0, entries: vec![], records: vec![], taken: 0, refused: 0 })
    }

    fn entry(&self, address: u64) -> Option<&Entry> {
        self.entries.iter().find(|e| e.address == address)
    }

    /// Lists a modem: questions 1, 2, 4, 5.
    pub fn list(&mut self, address: u64, allowed: bool, material: &[u8], saids: &[(u64, u64)]) -> Result<(), u8> {
        let fits = |s: &(u64, u64)| said_fits(s.0) && width(s.1) > 0;
        if !address_fits(address) || !(1..=4).contains(&saids.len()) || !saids.iter().all(fits) {
            return Err(1);
        }
        if material.len() != 64 * saids.len() {
            return Err(2);
        }
        if self.entries.len() == MODEMS || self.records.len() + saids.len() > RECORDS {
            return Err(4);
        }
        let saids: Vec<(u16, u16)> = saids.iter().map(|s| (s.0 as u16, s.1 as u16)).collect();
        let known = |s: &(u16, u16)| self.records.iter().any(|r| r.said == s.0);
        let twice = (1..saids.len()).any(|i| saids[..i].iter().any(|s| s.0 == saids[i].0));
        if self.entry(address).is_some() || saids.iter().any(known) || twice {
            return Err(5);
        }
        for (s, fresh) in saids.iter().zip(material.chunks(64)) {
            let half = self.settings.half();
            self.records.push(Record::new(s.0, s.1, self.clock, half, fresh));
        }
        self.entries.push(Entry::new(address, allowed, saids));
        Ok(())
    }

    /// Questions 2 and 3 of a clock call.
    pub fn clock_refusal(&self, t: u64, material: &[u8]) -> Option<u8> {
        if material.len() != 64 * self.records.len() {
            return Some(2);
        }
        (t < self.clock || t > LAST_SECOND).then_some(3)
    }

    /// Clock to t.
    pub fn clock(&mut self, t: u64, material: &[u8]) -> Result<(), u8> {
        if let Some(n) = self.clock_refusal(t, material) {
            return Err(n);
        }
        self.clock = t;
        let half = self.settings.half();
        for (record, fresh) in self.records.iter_mut().zip(material.chunks(64)) {
            record.roll(t, half, fresh);
        }
        Ok(())
    }

    /// Receives a message, under the message key of what is read and with that of what is written; gives the answer's octets, none for
    /// Authentication Information.
    pub fn receive(&mut self, address: u64, read_key: &[u8], write_key: &[u8], auth_key: &[u8], octets: &[u8]) -> Result<Vec<u8>, u8> {
        if !address_fits(address) {
            return Err(1);
        }
        let asked = read(End::HeadEnd, octets);
        // question 1 of the fields to be written: the one refusal here is that of lives above their limit; a key of another length than 20 is
        // as good as any here
        let to_key_request = match &asked {
            Ok(m) if m.fields.code == 7 => {
                let holds = m.holds(octets, read_key);
                Some(write(&self.key_request(address, holds, &m.fields), &[], write_key, 342)?)
            }
            _ => None,
        };
        if !(1..=256).contains(&auth_key.len()) || read_key.len() != KEY || write_key.len() != KEY {
            return Err(2);
        }
        let asked = asked?.fields;
        match (asked.code, to_key_request) {
            (_, Some(answer)) => Ok(answer),
            (4, _) => write(&self.authorization(address, &asked), auth_key, write_key, 342),
            _ if asked.identifier != 0 => Err(11),
            _ => Ok(vec![]),
        }
    }

    /// Authorization Request (4).
    fn authorization(&mut self, address: u64, asked: &Fields) -> Fields {
        let (clock, aklife) = (self.clock, self.settings.aklife);
        let Some(entry) = self.entries.iter_mut().find(|e| e.address == address) else {
            return error(6, asked.identifier, 1);
        };
        if !entry.allowed {
            return error(6, asked.identifier, 6);
        }
        entry.authorize(clock, aklife);
        let describe = |(i, s): (usize, &(u16, u16))| Descriptor { said: s.0, sa_type: u8::from(i > 0), suite: s.1 };
        Fields {
            code: 5,
            identifier: asked.identifier,
            ak_number: entry.newest(),
            life: (entry.newer_ak - clock) as u32,
            descriptors: entry.saids.iter().enumerate().map(describe).collect(),
            ..Fields::default()
        }
    }

    /// Key Request (7), the first that applies.
    fn key_request(&self, address: u64, holds: bool, asked: &Fields) -> Fields {
        let Some(entry) = self.entry(address) else {
            return error(10, asked.identifier, 1);
        };
        if !entry.active(self.clock, asked.ak_number) {
            return error(10, asked.identifier, 4);
        }
        if !holds {
            return error(10, asked.identifier, 5);
        }
        let mut answer =
            Fields { code: 8, identifier: asked.identifier, ak_number: asked.ak_number, said: asked.said, ..Fields::default() };
        match self.association(address, u64::from(asked.said)) {
            None => (answer.code, answer.error) = (9, 2),
            Some(r) => {
                let w = width(u64::from(r.suite));
                answer.older = params(&r.older, w, self.clock);
                answer.newer = params(&r.newer, w, self.clock);
            }
        }
        answer
    }

    /// The record of a SAID that is this modem's.
    pub(crate) fn association(&self, address: u64, said: u64) -> Option<&Record> {
        let entry = self.entry(address)?;
        let listed = entry.saids.iter().any(|s| u64::from(s.0) == said);
        self.records.iter().find(|r| listed && u64::from(r.said) == said)
    }

    /// Seals a frame with the older: questions 1, 10. Number, TEK and vector.
    pub fn seal(&self, address: u64, said: u64) -> Sealed {
        if !address_fits(address) || !said_fits(said) {
            return Err(1);
        }
        let record = self.association(address, said).ok_or(10)?;
        let (tek, vector) = record.older.octets(width(u64::from(record.suite)));
        Ok((record.older.number, tek, vector))
    }

    /// Opens a frame: TEK and vector, or the number and, on 13, a TEK Invalid.
    pub fn open(&mut self, direction: u64, address: u64, said: u64, number: u64, write_key: &[u8]) -> Opened {
        if direction != 0 || !address_fits(address) || !said_fits(said) || number > 15 {
            return Err((1, vec![]));
        }
        if write_key.len() != KEY {
            return Err((2, vec![]));
        }
        let (key, width) = self.opener(address, said, number, write_key, |_| true)?;
        Ok(key.octets(width))
    }

    /// Questions 10 and 13 of an opening, and what it counts: the key that opens and its width. `takes` asks more of a SAID's record.
    pub(crate) fn opener(&mut self, address: u64, said: u64, number: u64, write_key: &[u8], takes: fn(&Record) -> bool) -> Opener {
        let clock = self.clock;
        let Some(r) = self.association(address, said).filter(|r| takes(r)) else {
            self.refused = self.refused.saturating_add(1);
            return Err((10, vec![]));
        };
        let opener = [r.older, r.newer].into_iter().find(|k| k.opens(clock, number));
        let Some(found) = opener.map(|k| (k, width(u64::from(r.suite)))) else {
            self.refused = self.refused.saturating_add(1);
            return Err((13, self.tek_invalid(address, said, write_key)));
        };
        self.taken = self.taken.saturating_add(1);
        Ok(found)
    }

    /// TEK Invalid (11), error 4, the newest authorization key's number; none where none is active.
    fn tek_invalid(&self, address: u64, said: u64, write_key: &[u8]) -> Vec<u8> {
        let newest = self.entry(address).filter(|e| e.newer_ak > self.clock);
        newest.map_or(vec![], |e| {
            let fields = Fields { code: 11, ak_number: e.newest(), said: said as u16, error: 4, ..Fields::default() };
            write(&fields, &[], write_key, 40).expect("a TEK Invalid is within the limits")
        })
    }
}
