//! The states of the outside implementation in C's structs.

use crate::engine::*;
use curlewreel_outside::association;
use curlewreel_outside::frame::Held;
use curlewreel_outside::headend;
use curlewreel_outside::modem;
use curlewreel_outside::settings;
use curlewreel_outside::slot::Slot;

pub fn settings_of(s: &settings::Settings) -> Settings {
    Settings {
        tek_life: s.life,
        tek_grace: s.grace,
        ak_life: s.aklife,
        ak_grace: s.akgrace,
        authorize: s.authorize,
        reauthorize: s.reauthorize,
        operational: s.operational,
        rekey: s.rekey,
        reject: s.reject,
    }
}

fn timer_of(at: Option<u64>) -> Timer {
    Timer { on: u8::from(at.is_some()), at: at.unwrap_or(0) }
}

fn key_of(k: &Held) -> Key {
    Key { number: k.number, deadline: k.deadline, tek: k.tek, vector: k.vector }
}

fn tek_of(s: &Slot) -> Tek {
    let (older, newer) = s.keys.map_or((Key::default(), Key::default()), |k| (key_of(&k.0), key_of(&k.1)));
    Tek {
        said: s.said,
        suite: s.suite,
        state: s.state - b'A',
        identifier: s.identifier,
        timer: timer_of(s.timer),
        held: u8::from(s.keys.is_some()),
        older,
        newer,
    }
}

pub fn modem_of(m: &modem::Modem) -> Modem {
    let mut teks = [Tek::default(); 4];
    for (place, slot) in teks.iter_mut().zip(&m.slots) {
        *place = tek_of(slot);
    }
    Modem {
        settings: settings_of(&m.settings),
        address: m.address,
        said: m.own,
        clock: m.clock,
        counter: m.counter,
        authorization: Authorization { state: m.state - b'A', identifier: m.asked, ak_number: m.ak, timer: timer_of(m.timer) },
        used: m.slots.len(),
        teks,
        taken: m.taken,
        refused: m.refused,
    }
}

pub fn record_of(r: &association::Record) -> Record {
    Record { said: r.said, suite: r.suite, older: key_of(&r.older), newer: key_of(&r.newer) }
}

pub fn entry_of(e: &association::Entry) -> Entry {
    let mut listing = Listing { count: e.saids.len(), ..Listing::default() };
    for (i, (said, suite)) in e.saids.iter().enumerate() {
        (listing.saids[i], listing.suites[i]) = (*said, *suite);
    }
    let keys = AuthKeys { next: (e.aks % 16) as u8, older: e.older_ak, newer: e.newer_ak };
    Entry { address: e.address, allowed: u8::from(e.allowed), listing, keys }
}

/// The head-end with `rest` in the entries that are not in use.
pub fn headend_of(h: &headend::HeadEnd, rest: &[Entry; 16]) -> Headend {
    let mut entries = *rest;
    for (place, entry) in entries.iter_mut().zip(&h.entries) {
        *place = entry_of(entry);
    }
    Headend {
        settings: settings_of(&h.settings),
        clock: h.clock,
        modems: h.entries.len(),
        entries,
        used: h.records.len(),
        taken: h.taken,
        refused: h.refused,
    }
}
