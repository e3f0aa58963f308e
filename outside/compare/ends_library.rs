//! Both ends of the static library: a call with its lent slices, answered in the words of `replay`.

use crate::calls::{Call, Frame};
use crate::engine::*;
use crate::plant::hex;
use crate::state::State;
use curlewreel_outside::replay::Ends;

#[path = "ends_frames.rs"]
mod frames;

/// How long the lent slices of a call are.
#[derive(Clone, Copy)]
pub struct Lengths {
    pub records: usize,
    pub out: usize,
    pub tek: usize,
    pub vector: usize,
    /// For what comes of a frame's octets.
    pub frame: usize,
}

/// A number and the line of an answer; or what is wrong with it.
pub type Answer = Result<(u8, String), String>;

/// A slice to lend, filled with octets of its own.
struct Lent {
    before: Vec<u8>,
    now: Vec<u8>,
}

impl Lent {
    fn new(length: usize, first: u8) -> Lent {
        let before: Vec<u8> = (0..length).map(|i| first.wrapping_add((i % 251) as u8)).collect();
        Lent { now: before.clone(), before }
    }

    /// A copy of octets that a call reads, to see that it writes none of them.
    fn of(octets: &[u8]) -> Lent {
        Lent { before: octets.to_vec(), now: octets.to_vec() }
    }

    fn lend(&mut self) -> (*mut u8, usize) {
        (self.now.as_mut_ptr(), self.now.len())
    }

    /// What was written at the front; the rest has to be as it was lent.
    fn written(&self, count: usize) -> Result<String, String> {
        if count > self.now.len() || self.now[count..] != self.before[count..] {
            return Err(format!("octets past the {count} written were changed: {}", hex(&self.now)));
        }
        Ok(hex(&self.now[..count]))
    }
}

/// Octets that a call reads.
fn lent(octets: &[u8]) -> (*const u8, usize) {
    (octets.as_ptr(), octets.len())
}

fn sent(number: u8, out: String) -> Answer {
    match number {
        0 => Ok((0, format!("0,{out}"))),
        n if out.is_empty() => Ok((n, n.to_string())),
        n => Err(format!("refused with {n}, and wrote {out}")),
    }
}

fn sealed(s: &Sealed, tek: &Lent, vector: &Lent) -> Answer {
    let (tek, vector) = (tek.written(s.width)?, vector.written(s.width)?);
    match s.number {
        0 => Ok((0, format!("0,{},{tek},{vector}", s.key))),
        n if s.width == 0 && s.key == 0 => Ok((n, n.to_string())),
        n => Err(format!("refused with {n}, key {}, width {}", s.key, s.width)),
    }
}

fn opened(number: u8, tek: String, vector: String, out: String) -> Answer {
    match number {
        0 if out.is_empty() => Ok((0, format!("0,{tek},{vector}"))),
        13 if tek.is_empty() => Ok((13, format!("13,{out}"))),
        n if tek.is_empty() && out.is_empty() => Ok((n, n.to_string())),
        n => Err(format!("number {n} with TEK {tek} and messages {out}")),
    }
}

/// A call in the making: the state, which it changes, and its lent slices.
pub struct Run {
    pub state: State,
    lengths: Lengths,
    tek: Lent,
    vector: Lent,
    out: Lent,
    frame: Lent,
}

impl Run {
    /// `first` tells what the lent octets are before the call.
    pub fn new(state: &State, lengths: Lengths, first: u8) -> Run {
        let lent = |n: usize, k: u8| Lent::new(n, first.wrapping_add(k));
        let (tek, vector, out, frame) = (lent(lengths.tek, 0), lent(lengths.vector, 99), lent(lengths.out, 7), lent(lengths.frame, 55));
        Run { state: state.clone(), lengths, tek, vector, out, frame }
    }

    pub fn call(&mut self, call: &Call) -> Answer {
        match call {
            Call::List { address, allowed, listing, material } => self.list(*address, *allowed, *listing, material),
            Call::Clock { second, material, write_key } => self.clock(*second, material, write_key),
            Call::Up { address, read_key, write_key, auth_key, octets } => self.up(*address, [read_key, write_key], auth_key, octets),
            Call::SealDown { address, said } => self.seal_down(*address, *said),
            Call::OpenUp(frame) => self.open_up(frame),
            Call::Established => self.sends(|m, out, n| unsafe { curlewreel_modem_established(m, out, n) }),
            Call::Reauth => self.sends(|m, out, n| unsafe { curlewreel_modem_reauth(m, out, n) }),
            Call::Down { read_key, write_key, octets } => {
                let ((read, read_len), (write, write_len)) = (lent(read_key), lent(write_key));
                let (message, length) = lent(octets);
                self.sends(|m, out, n| unsafe { curlewreel_modem_receive(m, message, length, read, read_len, write, write_len, out, n) })
            }
            Call::SealUp { said } => self.seal_up(*said),
            Call::OpenDown(frame) => self.open_down(frame),
            Call::SealDownFrame { address, said, octets } => self.seal_down_frame(*address, *said, octets),
            Call::SealUpFrame { said, octets } => self.seal_up_frame(*said, octets),
            Call::OpenUpFrame(frame, octets) => self.open_up_frame(frame, octets),
            Call::OpenDownFrame(frame, octets) => self.open_down_frame(frame, octets),
        }
    }

    /// The call: its answer, and all that it leaves of the state `before` it, have to be the outside ends'. Gives the state after it, and the answer.
    pub fn compared(mut self, call: &Call, before: &State, wanted: &str, ends: &Ends) -> Result<(State, String), String> {
        let (number, given) = self.call(call)?;
        if given != wanted {
            return Err(format!("library {given}\n outside {wanted}"));
        }
        let lends_to_write = matches!(call, Call::List { .. } | Call::Clock { .. }) && number == 0;
        if !lends_to_write && self.state.places != before.places {
            return Err("a record was changed".to_string());
        }
        self.state.compare(before, ends)?;
        Ok((self.state, given))
    }

    fn records(&self) -> *const Record {
        self.state.places.as_ptr().cast()
    }

    fn records_mut(&mut self) -> *mut Record {
        self.state.places.as_mut_ptr().cast()
    }

    fn list(&mut self, address: u64, allowed: u8, listing: Listing, material: &[u8]) -> Answer {
        let (h, records, n) = (self.state.headend, self.records_mut(), self.lengths.records);
        let c = unsafe { curlewreel_headend_list(h, records, n, address, allowed, listing, material.as_ptr(), material.len()) };
        self.state.headend = c.headend;
        if c.count != 0 {
            return Err(format!("a listing with {} octets", c.count));
        }
        Ok((c.number, c.number.to_string()))
    }

    /// Refused for both where either refuses; the earlier question gives the number.
    fn clock(&mut self, second: u64, material: &[u8], write_key: &[u8]) -> Answer {
        let before = self.state.clone();
        let (records, n) = (self.records_mut(), self.lengths.records);
        let h = unsafe { curlewreel_headend_clock(before.headend, records, n, second, material.as_ptr(), material.len()) };
        let (out, room) = self.out.lend();
        let (key, key_len) = lent(write_key);
        let m = unsafe { curlewreel_modem_clock(before.modem, second, key, key_len, out, room) };
        let (messages, unwritten) = (self.out.written(m.count)?, m.number == 0 || m.count == 0);
        if h.number != 0 && (h.headend != before.headend || self.state.places != before.places) {
            return Err("the head-end refused the clock and changed".to_string());
        }
        if m.number != 0 && m.modem != before.modem || !unwritten || h.count != 0 {
            return Err("the modem refused the clock and changed or wrote, or the head-end says that it wrote".to_string());
        }
        if let Some(n) = [h.number, m.number].into_iter().filter(|n| *n != 0).min() {
            self.state = before;
            return Ok((n, n.to_string()));
        }
        (self.state.headend, self.state.modem) = (h.headend, m.modem);
        sent(0, messages)
    }

    fn up(&mut self, address: u64, keys: [&[u8]; 2], auth_key: &[u8], octets: &[u8]) -> Answer {
        let (h, records, n) = (self.state.headend, self.records(), self.lengths.records);
        let ((message, length), (auth_key, auth_key_len)) = (lent(octets), lent(auth_key));
        let [(read, read_len), (write, write_len)] = keys.map(lent);
        let (out, room) = self.out.lend();
        let c = unsafe {
            curlewreel_headend_receive(
                h,
                records,
                n,
                address,
                message,
                length,
                read,
                read_len,
                write,
                write_len,
                auth_key,
                auth_key_len,
                out,
                room,
            )
        };
        self.state.headend = c.headend;
        sent(c.number, self.out.written(c.count)?)
    }

    fn seal_down(&mut self, address: u64, said: u16) -> Answer {
        let (h, records, n) = (self.state.headend, self.records(), self.lengths.records);
        let ((tek, tek_len), (vector, vector_len)) = (self.tek.lend(), self.vector.lend());
        let s = unsafe { curlewreel_headend_seal(h, records, n, address, said, tek, tek_len, vector, vector_len) };
        sealed(&s, &self.tek, &self.vector)
    }

    fn open_up(&mut self, f: &Frame) -> Answer {
        let (h, records, n) = (self.state.headend, self.records(), self.lengths.records);
        let ((tek, tek_len), (vector, vector_len), (out, room)) = (self.tek.lend(), self.vector.lend(), self.out.lend());
        let o = unsafe {
            let (direction, address, said, number, (key, key_len)) = (f.direction, f.address, f.said, f.number, lent(&f.write_key));
            curlewreel_headend_open(
                h, records, n, direction, address, said, number, key, key_len, tek, tek_len, vector, vector_len, out, room,
            )
        };
        self.state.headend = o.headend;
        opened(o.number, self.tek.written(o.width)?, self.vector.written(o.width)?, self.out.written(o.count)?)
    }

    fn sends(&mut self, make: impl FnOnce(Modem, *mut u8, usize) -> ModemCall) -> Answer {
        let (out, room) = self.out.lend();
        let c = make(self.state.modem, out, room);
        self.state.modem = c.modem;
        sent(c.number, self.out.written(c.count)?)
    }

    fn seal_up(&mut self, said: u16) -> Answer {
        let ((tek, tek_len), (vector, vector_len)) = (self.tek.lend(), self.vector.lend());
        let s = unsafe { curlewreel_modem_seal(self.state.modem, said, tek, tek_len, vector, vector_len) };
        sealed(&s, &self.tek, &self.vector)
    }

    fn open_down(&mut self, f: &Frame) -> Answer {
        let ((tek, tek_len), (vector, vector_len), (out, room)) = (self.tek.lend(), self.vector.lend(), self.out.lend());
        let o = unsafe {
            let (m, direction, address, said, number) = (self.state.modem, f.direction, f.address, f.said, f.number);
            let (key, key_len) = lent(&f.write_key);
            curlewreel_modem_open(m, direction, address, said, number, key, key_len, tek, tek_len, vector, vector_len, out, room)
        };
        self.state.modem = o.modem;
        opened(o.number, self.tek.written(o.width)?, self.vector.written(o.width)?, self.out.written(o.count)?)
    }
}
