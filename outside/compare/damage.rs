//! Damaged states: one field out of its limits, so that each call has to answer 1.

use crate::engine::{Headend, Key, Modem, Settings, Tek};
use crate::random::Random;
use crate::state::State;

const LAST_SECOND: u64 = 1_000_000_000_000;

pub fn settings(r: &mut Random, s: &mut Settings) -> &'static str {
    match r.below(9) {
        0 => s.tek_life = r.pick(&[0, 1_798, s.tek_life + 1, 604_802, u64::MAX]),
        1 => s.tek_grace = r.pick(&[0, 299, s.tek_life / 2, u64::MAX]),
        2 => s.ak_life = r.pick(&[0, 86_399, 6_048_001, u64::MAX]),
        3 => s.ak_grace = r.pick(&[0, 299, s.ak_life / 2 + 1, u64::MAX]),
        4 => s.authorize = r.pick(&[0, 601]),
        5 => s.reauthorize = r.pick(&[0, 601]),
        6 => s.operational = r.pick(&[0, 601, u64::MAX]),
        7 => s.rekey = r.pick(&[0, 601]),
        _ => s.reject = r.pick(&[0, 601, u64::MAX]),
    }
    "a setting"
}

/// An octet past the width of 8.
fn past_width(r: &mut Random, k: &mut Key) {
    let at = 8 + r.below(8) as usize;
    let octets = if r.one_in(2) { &mut k.tek } else { &mut k.vector };
    octets[at] = 1 + r.below(255) as u8;
}

/// What a pair of held keys may not be, at the modem or in a record of suite `suite`.
fn pair(r: &mut Random, suite: u16, older: &mut Key, newer: &mut Key) -> &'static str {
    match r.below(6) {
        0 => older.number = r.pick(&[16, 17, 255]),
        1 => newer.number = r.pick(&[16, 17, 255]),
        2 => newer.number = (newer.number + 1 + r.below(15) as u8) % 16,
        3 => older.deadline = r.pick(&[newer.deadline, newer.deadline + 1, u64::MAX]),
        4 if suite == 256 => past_width(r, older),
        5 if suite == 256 => past_width(r, newer),
        _ => newer.deadline = u64::MAX,
    }
    "a held key"
}

fn entry(r: &mut Random, h: &mut Headend, at: usize) -> &'static str {
    let other = r.below(h.modems as u64) as usize;
    let (clock, life, first) = (h.clock, h.settings.ak_life, h.entries[other]);
    let e = &mut h.entries[at];
    let place = r.below(e.listing.count as u64) as usize;
    let (same, a, b) = (other == at, e.keys.older, e.keys.newer);
    match r.below(13) {
        0 => e.address = r.pick(&[1 << 48, u64::MAX]),
        1 => e.allowed = r.pick(&[2, 3, 255]),
        2 => e.listing.count = r.pick(&[0, 5, usize::MAX]),
        3 => e.listing.saids[place] = r.pick(&[16_384, 65_535]),
        4 => e.listing.suites[place] = r.pick(&[0, 255, 257, 512, 769, 65_535]),
        5 => e.keys.next = r.pick(&[16, 255]),
        6 if !same => e.address = first.address,
        7 if !same => e.listing.saids[place] = first.listing.saids[0],
        8 if place > 0 => e.listing.saids[place] = e.listing.saids[0],
        9 => (e.keys.older, e.keys.newer) = (clock + life + 1, clock + life + 2),
        10 => e.keys.newer = a.max(clock) + life + 1,
        11 => e.keys.older = if b == 0 { 1 } else { b },
        _ => e.keys.newer = u64::MAX,
    }
    "an entry"
}

fn record(r: &mut Random, state: &mut State) -> &'static str {
    let (h, at) = (&state.headend, r.below(state.headend.used as u64) as usize);
    let (clock, half, mut k) = (h.clock, h.settings.tek_life / 2, state.record(at));
    match r.below(7) {
        0 => k.said = r.pick(&[16_384, 65_535]),
        1 => k.suite = r.pick(&[0, 255, 257, 512, 769, 65_535]),
        2 => (k.older.deadline, k.newer.deadline) = (clock, clock + half),
        3 => {
            // the newer's is H more, past what 64 bits hold
            k.older.deadline = u64::MAX - r.below(half);
            k.newer.deadline = k.older.deadline.wrapping_add(half);
        }
        4 => k.newer.deadline += 1,
        _ => {
            pair(r, k.suite, &mut k.older, &mut k.newer);
        }
    }
    state.put_record(at, k);
    "a record in use"
}

/// Damages the head-end or a record in use; says what.
pub fn headend(r: &mut Random, state: &mut State) -> &'static str {
    let (h, kind) = (&mut state.headend, r.below(10));
    match kind {
        0..=3 if h.modems > 0 => {
            let at = r.below(h.modems as u64) as usize;
            return entry(r, h, at);
        }
        4..=6 if h.used > 0 => return record(r, state),
        7 => h.clock = r.pick(&[LAST_SECOND + 1, u64::MAX]),
        8 => h.modems = r.pick(&[17, usize::MAX]),
        9 => h.used = r.pick(&[65, usize::MAX]),
        _ => return settings(r, &mut h.settings),
    }
    "the head-end's clock or a count"
}

fn authorization(r: &mut Random, m: &mut Modem) -> &'static str {
    let (clock, a) = (m.clock, &mut m.authorization);
    match r.below(4) {
        0 => a.state = r.pick(&[6, 7, 255]),
        1 => a.ak_number = r.pick(&[16, 255]),
        2 if a.timer.on == 1 => a.timer.at = r.pick(&[clock + 12_096_001, u64::MAX]),
        3 => a.timer.on = r.pick(&[2, 255]),
        _ => a.timer.on = 1 - a.timer.on,
    }
    "the authorization machine"
}

fn tek(r: &mut Random, m: &mut Modem, at: usize) -> &'static str {
    let (clock, first, t) = (m.clock, m.teks[0].said, &mut m.teks[at]);
    match r.below(11) {
        0 => t.said = r.pick(&[16_384, 65_535]),
        1 => t.suite = r.pick(&[0, 255, 512, 65_535]),
        2 => t.state = r.pick(&[6, 255]),
        3 => t.timer.on = r.pick(&[2, 255]),
        4 => t.timer.on = 1 - t.timer.on,
        5 => t.timer.at = if t.timer.on == 1 { clock + 604_801 } else { 1 },
        6 => t.held = r.pick(&[2, 255]),
        7 => t.held = 1 - t.held,
        8 if at > 0 => t.said = first,
        9 if t.held == 1 => t.newer.deadline = clock + 604_801,
        _ if t.held == 1 => return pair(r, t.suite, &mut t.older, &mut t.newer),
        _ => unheld(r, t),
    }
    "a TEK machine"
}

/// A key that is not held has to be zero.
fn unheld(r: &mut Random, t: &mut Tek) {
    let k = if r.one_in(2) { &mut t.older } else { &mut t.newer };
    let at = r.below(16) as usize;
    match r.below(4) {
        0 => k.number = 1,
        1 => k.deadline = 1,
        2 => k.tek[at] = 1,
        _ => k.vector[at] = 1,
    }
}

/// A place that is not in use has to be zero.
fn unused(r: &mut Random, t: &mut Tek) -> &'static str {
    match r.below(7) {
        0 => t.said = 1,
        1 => t.suite = 256,
        2 => t.state = 1,
        3 => t.identifier = 1,
        4 => t.timer.at = 1,
        5 => t.held = 1,
        _ => unheld(r, t),
    }
    "a place of the modem that is not in use"
}

/// Damages the modem; says what.
pub fn modem(r: &mut Random, m: &mut Modem) -> &'static str {
    let at = r.below(4) as usize;
    match r.below(12) {
        0..=4 if at < m.used => return tek(r, m, at),
        0..=4 => return unused(r, &mut m.teks[at]),
        5..=7 => return authorization(r, m),
        8 => m.address = r.pick(&[1 << 48, u64::MAX]),
        9 => m.said = r.pick(&[16_384, 65_535]),
        10 => m.clock = r.pick(&[LAST_SECOND + 1, u64::MAX]),
        11 if r.one_in(2) => m.used = r.pick(&[5, usize::MAX]),
        _ => return settings(r, &mut m.settings),
    }
    "the modem"
}
