//! The modem (document 01, "Modem: authorization machine", "Modem: TEK machine").

use crate::digest::KEY;
use crate::frame::{Held, Opened, Opener, Sealed};
use crate::machines::{next, AUTHORIZATION, TEK};
use crate::message::{read, End, Fields, Params};
use crate::sent::{Sent, NO_KEY};
use crate::settings::{address_fits, said_fits, Settings, LAST_SECOND};
use crate::slot::Slot;

/// The modem's state. `counter` is the Identifier of the last new request, 0 before the first; `asked` that of the last Authorization Request.
#[derive(Clone, PartialEq, Eq, Debug)]
pub struct Modem {
    pub settings: Settings,
    pub clock: u64,
    pub address: u64,
    pub own: u16,
    pub state: u8,
    pub timer: Option<u64>,
    pub counter: u8,
    pub asked: u8,
    pub ak: u8,
    pub slots: Vec<Slot>,
    pub taken: u64,
    pub refused: u64,
}

fn due(timer: Option<u64>, clock: u64) -> bool {
    timer.is_some_and(|t| t <= clock)
}

impl Modem {
    /// A fresh modem, at clock 0, with a SAID of its own.
    pub fn new(settings: Settings, address: u64, said: u64) -> Result<Modem, u8> {
        if !settings.fits() || !address_fits(address) || !said_fits(said) {
            return Err(1);
        }
        Ok(Modem {
            settings,
            clock: 0,
            address,
            own: said as u16,
            state: b'A',
            timer: None,
            counter: 0,
            asked: 0,
            ak: 0,
            slots: vec![],
            taken: 0,
            refused: 0,
        })
    }

    /// A new request's Identifier; 0 is skipped (document 02, M-101).
    fn identifier(&mut self) -> u8 {
        self.counter = self.counter.wrapping_add(1).max(1);
        self.counter
    }

    /// An event of the authorization machine: from and to, none for a blank.
    fn authorization(&mut self, event: usize, out: &mut Sent) -> Option<(u8, u8)> {
        let from = self.state;
        let to = next(&AUTHORIZATION, event, from)?;
        if event == 7 && from == b'D' {
            return Some((from, to));
        }
        (self.state, self.timer) = (to, None);
        if to == b'B' {
            out.message(12, 0, 0, 0);
        }
        if to == b'B' || to == b'D' {
            if event != 5 {
                self.asked = self.identifier();
            }
            out.message(4, self.asked, 0, self.own);
        }
        let s = &self.settings;
        self.timer = match to {
            b'B' => Some(self.clock + s.authorize),
            b'D' => Some(self.clock + s.reauthorize),
            b'E' => Some(self.clock + s.reject),
            _ => None,
        };
        if from == b'D' && (to == b'E' || to == b'F') {
            (0..self.slots.len()).for_each(|i| self.tek(i, 1, out));
        }
        Some((from, to))
    }

    /// An event of a TEK machine; event 8's pair and timer are set by its caller.
    fn tek(&mut self, slot: usize, event: usize, out: &mut Sent) {
        let Some(to) = next(&TEK, event, self.slots[slot].state) else {
            return;
        };
        let wait = match to {
            b'B' => Some(self.settings.operational),
            b'E' => Some(self.settings.rekey),
            _ => None,
        };
        let anew = wait.is_some() && event != 6;
        let fresh = anew.then(|| self.identifier());
        let s = &mut self.slots[slot];
        s.state = to;
        s.timer = wait.map(|w| self.clock + w);
        s.identifier = fresh.unwrap_or(s.identifier);
        if matches!(event, 1 | 5 | 9) {
            s.keys = None;
        }
        if wait.is_some() {
            out.message(7, s.identifier, self.ak, s.said);
        }
    }

    /// Event 1, established.
    pub fn established(&mut self) -> Result<Vec<u8>, u8> {
        let mut out = Sent::new(NO_KEY);
        self.authorization(1, &mut out);
        Ok(out.octets)
    }

    /// Event 8, reauth.
    pub fn reauth(&mut self) -> Result<Vec<u8>, u8> {
        let mut out = Sent::new(NO_KEY);
        self.authorization(8, &mut out);
        Ok(out.octets)
    }

    /// Questions 2 and 3 of a clock call.
    pub fn clock_refusal(&self, t: u64, write_key: &[u8]) -> Option<u8> {
        if write_key.len() != KEY {
            return Some(2);
        }
        (t < self.clock || t > LAST_SECOND).then_some(3)
    }

    /// Clock to t: fires due timers once each, authorization first, then slots in order.
    pub fn clock(&mut self, t: u64, write_key: &[u8]) -> Result<Vec<u8>, u8> {
        if let Some(n) = self.clock_refusal(t, write_key) {
            return Err(n);
        }
        self.clock = t;
        let mut out = Sent::new(write_key);
        if due(self.timer, t) {
            let event = if self.state == b'C' { 6 } else { 5 };
            self.authorization(event, &mut out);
        }
        for i in 0..self.slots.len() {
            if due(self.slots[i].timer, t) {
                let event = if self.slots[i].state == b'D' { 7 } else { 6 };
                self.tek(i, event, &mut out);
            }
        }
        Ok(out.octets)
    }

    pub(crate) fn slot(&self, said: u64) -> Option<usize> {
        self.slots.iter().position(|s| u64::from(s.said) == said)
    }

    /// The slot whose waiting Key Request an Authorization Invalid answers; 0 is unsolicited.
    fn answered(&self, identifier: u8) -> Option<usize> {
        let is = |s: &Slot| s.waits() && s.identifier == identifier;
        self.slots.iter().position(is).filter(|_| identifier != 0)
    }

    /// Question 11.
    fn identifier_fits(&self, f: &Fields, slot: Option<usize>) -> bool {
        let id = f.identifier;
        match f.code {
            5 | 6 => (self.state == b'B' || self.state == b'D') && self.asked == id,
            10 => id == 0 || self.answered(id).is_some(),
            11 => id == 0,
            _ => slot.is_some_and(|i| self.slots[i].waits() && self.slots[i].identifier == id),
        }
    }

    /// Receives a message, under the message key of what is read and with that of what is written: questions 2, 6 to 12; gives the messages
    /// that go out.
    pub fn receive(&mut self, read_key: &[u8], write_key: &[u8], octets: &[u8]) -> Result<Vec<u8>, u8> {
        if read_key.len() != KEY || write_key.len() != KEY {
            return Err(2);
        }
        let reading = read(End::Modem, octets)?;
        let f = &reading.fields;
        let named = matches!(f.code, 8 | 9 | 11);
        let slot = self.slot(u64::from(f.said)).filter(|_| named);
        if f.code == 8 && slot.is_some_and(|i| !self.slots[i].widths_fit(f)) {
            return Err(9);
        }
        if named && slot.is_none() {
            return Err(10);
        }
        if !self.identifier_fits(f, slot) {
            return Err(11);
        }
        if named && !reading.holds(octets, read_key) {
            return Err(12);
        }
        let mut out = Sent::new(write_key);
        match (f.code, slot) {
            (5, _) => self.reply(f, &mut out),
            (6, _) => {
                self.authorization(if f.error == 6 { 3 } else { 2 }, &mut out);
            }
            (8, Some(i)) => self.key_reply(i, f, &mut out),
            (9, Some(i)) => self.tek(i, 9, &mut out),
            (11, Some(i)) => self.tek(i, 5, &mut out),
            _ => self.invalid(f.identifier, &mut out),
        }
        Ok(out.octets)
    }

    /// Event 4, Reply: B-C and D-C.
    fn reply(&mut self, f: &Fields, out: &mut Sent) {
        let Some((from, _)) = self.authorization(4, out) else {
            return;
        };
        self.ak = f.ak_number;
        let grace = (self.clock + u64::from(f.life)).saturating_sub(self.settings.akgrace);
        self.timer = Some(grace.max(self.clock));
        self.slots.retain(|s| from == b'D' && s.kept_by(&f.descriptors));
        let kept = self.slots.len();
        for d in &f.descriptors {
            if !self.slots[..kept].iter().any(|s| s.said == d.said) {
                self.slots.push(Slot::new(d));
            }
        }
        for i in 0..self.slots.len() {
            self.tek(i, if i < kept { 4 } else { 2 }, out);
        }
    }

    /// Event 7, Invalid; it tells Pend where it is no blank.
    fn invalid(&mut self, identifier: u8, out: &mut Sent) {
        let slot = self.answered(identifier);
        if self.authorization(7, out).is_some() {
            if let Some(i) = slot {
                self.tek(i, 3, out);
            }
        }
    }

    /// Event 8, Key Reply.
    fn key_reply(&mut self, slot: usize, f: &Fields, out: &mut Sent) {
        self.tek(slot, 8, out);
        let now = self.clock;
        let hold = |p: &Params| Held::new(p.number, now + u64::from(p.life), &p.tek, &p.vector);
        let refresh = (now + u64::from(f.newer.life)).saturating_sub(self.settings.grace);
        let s = &mut self.slots[slot];
        s.keys = Some((hold(&f.older), hold(&f.newer)));
        s.timer = Some(refresh.max(now));
    }

    /// Seals a frame with the newer: questions 1, 10, 14. Number, TEK and vector.
    pub fn seal(&self, said: u64) -> Sealed {
        if !said_fits(said) {
            return Err(1);
        }
        let s = &self.slots[self.slot(said).ok_or(10)?];
        let (_, newer) = s.keys.filter(|k| k.1.deadline > self.clock).ok_or(14)?;
        let (tek, vector) = newer.octets(s.width());
        Ok((newer.number, tek, vector))
    }

    /// Opens a frame: TEK and vector, or the number and, on 13, what goes out.
    pub fn open(&mut self, direction: u64, address: u64, said: u64, number: u64, write_key: &[u8]) -> Opened {
        if direction != 1 || !address_fits(address) || !said_fits(said) || number > 15 {
            return Err((1, vec![]));
        }
        if write_key.len() != KEY {
            return Err((2, vec![]));
        }
        let (key, width) = self.opener(address, said, number, write_key, |_| true)?;
        Ok(key.octets(width))
    }

    /// Questions 10 and 13 of an opening, and what it counts: the key that opens and its width. `takes` asks more of a SAID's slot.
    pub(crate) fn opener(&mut self, address: u64, said: u64, number: u64, write_key: &[u8], takes: fn(&Slot) -> bool) -> Opener {
        let Some(i) = self.slot(said).filter(|i| address == self.address && takes(&self.slots[*i])) else {
            self.refused = self.refused.saturating_add(1);
            return Err((10, vec![]));
        };
        let s = &self.slots[i];
        let held = s.keys.and_then(|k| [k.0, k.1].into_iter().find(|k| k.opens(self.clock, number)));
        let Some(found) = held.map(|k| (k, s.width())) else {
            self.refused = self.refused.saturating_add(1);
            let mut out = Sent::new(write_key);
            self.tek(i, 5, &mut out);
            return Err((13, out.octets));
        };
        self.taken = self.taken.saturating_add(1);
        Ok(found)
    }
}
