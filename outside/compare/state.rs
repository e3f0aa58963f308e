//! The library's state of both ends with the lent records, and its comparison with the outside implementation's.

use crate::as_c::{headend_of, modem_of, record_of};
use crate::engine::{Headend, Modem, Record};
use crate::identifiers::Machines;
use curlewreel_outside::replay::Ends;

/// Records that are lent at most.
pub const RECORDS: usize = 64;
const WORDS: usize = std::mem::size_of::<Record>() / 8;

/// The lent records. They are kept as words, so that the octets between fields are compared too.
pub type Places = [u64; RECORDS * WORDS];

#[derive(Clone)]
pub struct State {
    pub headend: Headend,
    pub places: Places,
    pub modem: Modem,
}

/// The head-end with zeros behind the count of each listing in use.
fn counted(h: &Headend) -> Headend {
    let mut out = *h;
    for listing in out.entries.iter_mut().take(h.modems).map(|e| &mut e.listing) {
        listing.saids.iter_mut().chain(&mut listing.suites).enumerate().filter(|(i, _)| i % 4 >= listing.count).for_each(|(_, n)| *n = 0);
    }
    out
}

impl State {
    pub fn record(&self, at: usize) -> Record {
        assert!(at < RECORDS);
        unsafe { *self.places.as_ptr().cast::<Record>().add(at) }
    }

    /// The modem's counter and machines.
    pub fn machines(&self) -> Machines {
        let m = &self.modem;
        let teks = m.teks.iter().take(m.used).map(|t| (b'A' + t.state, t.identifier)).collect();
        Machines { counter: m.counter, authorization: b'A' + m.authorization.state, teks }
    }

    pub fn put_record(&mut self, at: usize, record: Record) {
        assert!(at < RECORDS);
        unsafe { *self.places.as_mut_ptr().cast::<Record>().add(at) = record }
    }

    /// Field by field against the outside ends; `before` is this state before the call, for what is not in use.
    pub fn compare(&self, before: &State, ends: &Ends) -> Result<(), String> {
        let (given, wanted) = (counted(&self.headend), headend_of(&ends.head, &before.headend.entries));
        if given != wanted {
            return Err(format!("the head-end's state\n library {given:?}\n outside {wanted:?}"));
        }
        let wanted = modem_of(&ends.modem);
        if self.modem != wanted {
            return Err(format!("the modem's state\n library {:?}\n outside {wanted:?}", self.modem));
        }
        for (i, record) in ends.head.records.iter().enumerate() {
            let (given, wanted) = (self.record(i), record_of(record));
            if given != wanted {
                return Err(format!("record {i}\n library {given:?}\n outside {wanted:?}"));
            }
        }
        let behind = ends.head.records.len() * WORDS;
        if self.places[behind..] != before.places[behind..] {
            return Err("records that are not in use".to_string());
        }
        Ok(())
    }
}
