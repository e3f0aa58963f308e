//! Calls that have to be refused, made before the list's own: with a slice that is too short, a message key of another length, a state out of its limits, or
//! an entry that does not match its record.

use crate::calls::Call;
use crate::ends_library::{Lengths, Run};
use crate::random::Random;
use crate::state::{State, RECORDS};
use crate::{damage, keys, List};
use curlewreel_outside::message::{read, End};

/// What a call answers where fewer records are lent than are in use, as the header says.
const TOO_FEW_RECORDS: u8 = 2;

impl List<'_> {
    /// A call that has to be refused with `wanted` and to change nothing.
    fn refused(&mut self, call: &Call, lengths: Lengths, state: &State, wanted: u8) -> Result<(), String> {
        let mut run = Run::new(state, lengths, self.r.next() as u8);
        let (number, line) = run.call(call)?;
        if number != wanted || line != wanted.to_string() {
            return Err(format!("library {line}, due {wanted}"));
        }
        let now = &run.state;
        if now.headend != state.headend || now.modem != state.modem || now.places != state.places {
            return Err(format!("refused with {wanted}, and something was changed"));
        }
        self.count(call, number);
        Ok(())
    }

    /// One lent slice is too short: 2, or 4 for a listing's new records, where no earlier question refuses.
    pub fn short(&mut self, line: &str, call: &Call, answer: u8) -> Result<(), String> {
        let (mut lengths, used, adds) = (self.lengths(call), self.state.headend.used, call.adds());
        let mut due = 2;
        // by one only more often
        let shorter = |r: &mut Random, n: usize| if r.one_in(3) { n - 1 } else { r.below(n as u64) as usize };
        let octets = call.frame().map_or(0, <[u8]>::len);
        let narrow = octets > 0 && self.r.one_in(2);
        match self.r.below(4) {
            _ if narrow => lengths.frame = shorter(&mut self.r, octets),
            0 if call.room() > 0 => lengths.out = shorter(&mut self.r, call.room()),
            1 if call.keys() => lengths.tek = shorter(&mut self.r, 16),
            2 if call.keys() => lengths.vector = shorter(&mut self.r, 16),
            3 if adds > 0 && used + adds <= RECORDS => {
                lengths.records = used + shorter(&mut self.r, adds);
                due = if answer == 2 { 2 } else { 4 };
            }
            _ if call.ends().0 && used > 0 => {
                lengths.records = shorter(&mut self.r, used);
                due = TOO_FEW_RECORDS;
            }
            _ => return Ok(()),
        }
        let due = if answer == 1 { 1 } else { due };
        let state = self.state.clone();
        self.refused(call, lengths, &state, due).map_err(|e| {
            let Lengths { records, out, tek, vector, frame } = lengths;
            format!("{used} records in use, slices of {records} records, {out}, {tek}, {vector} and {frame} octets: {e}")
        })?;
        if narrow && due == 2 && answer != 2 {
            self.frames.add_narrow(line.split(',').next().unwrap_or_default(), octets);
        }
        Ok(())
    }

    /// One message key has another length: 2, where no earlier question refuses.
    pub fn other_length(&mut self, call: &Call, answer: u8) -> Result<(), String> {
        let (mut call, lengths, state) = (call.clone(), self.lengths(call), self.state.clone());
        let mut keys = call.message_keys();
        if keys.is_empty() {
            return Ok(());
        }
        let at = self.r.below(keys.len() as u64) as usize;
        let (what, key) = &mut keys[at];
        **key = keys::of_other_length(&mut self.r, key);
        let (what, length, due) = (*what, key.len(), if answer == 1 { 1 } else { 2 });
        self.refused(&call, lengths, &state, due).map_err(|e| format!("{what} of {length} octets: {e}"))?;
        self.digests.add_length(what, length);
        Ok(())
    }

    /// A call that uses a SAID's record: it has to be one of those in use and to have the suite that the entry names.
    pub fn unmatched(&mut self, call: &Call, answer: &str) -> Result<(), String> {
        let entries = &self.plant.ends.head.entries;
        let listed = |(address, said): &(u64, u16)| entries.iter().any(|e| e.address == *address && e.saids.iter().any(|s| s.0 == *said));
        let said = match (call, call.of_headend_frame().filter(listed)) {
            // question 1 comes first: before 15, and before 10 for suite 256
            (_, Some((_, said))) if answer != "1" && answer != "2" => said,
            (Call::Up { octets, .. }, _) if answer.starts_with("0,08") => read(End::HeadEnd, octets).map_or(0, |m| m.fields.said),
            _ => return Ok(()),
        };
        let (lengths, mut state) = (self.lengths(call), self.state.clone());
        if self.r.one_in(2) {
            state.headend.used = (0..state.headend.used).find(|i| state.record(*i).said == said).unwrap_or(0);
        } else {
            for listing in state.headend.entries.iter_mut().map(|e| &mut e.listing) {
                let of_said = |i: &usize| listing.saids[*i] == said;
                (0..4).filter(of_said).for_each(|i| listing.suites[i] = if listing.suites[i] == 256 { 768 } else { 256 });
            }
        }
        let (mut call, mut due) = (call.clone(), 1);
        // before the length of a key, wherever the digest holds under it: with a zero behind the right one, and not with another octet
        if let Call::Up { read_key, write_key, .. } = &mut call {
            match self.r.below(6) {
                0 => read_key.push(0),
                1 => write_key.truncate(19),
                2 => {
                    read_key.push(1);
                    due = 2;
                }
                _ => {}
            }
        }
        self.refused(&call, lengths, &state, due).map_err(|e| format!("the record of SAID {said} is not the entry's: {e}"))
    }

    /// A field of the state, a record or an argument that the text cannot give is out of its limits.
    pub fn damaged(&mut self, call: &Call) -> Result<(), String> {
        let (mut state, mut call) = (self.state.clone(), call.clone());
        let (lengths, out_of_range, ends) = (self.lengths(&call), 2 + self.r.below(254) as u8, call.ends());
        let what = match &mut call {
            Call::List { allowed, .. } if self.r.one_in(8) => {
                *allowed = out_of_range;
                "allowed"
            }
            Call::List { listing, .. } if self.r.one_in(8) => {
                listing.count = self.r.pick(&[0, 5, usize::MAX]);
                "a listing's count"
            }
            _ if ends.0 && (!ends.1 || self.r.one_in(2)) => damage::headend(&mut self.r, &mut state),
            _ => damage::modem(&mut self.r, &mut state.modem),
        };
        self.refused(&call, lengths, &state, 1)
            .map_err(|e| format!("{what} out of its limits: {e}\n{:?}\n{:?}", state.headend, state.modem))
    }
}
