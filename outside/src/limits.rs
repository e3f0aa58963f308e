//! Question 1 of an end's whole state. The ends here own their state and keep it within these limits, so their calls do not ask it; the
//! tests and the benchmark do.

use crate::association::{Entry, Record};
use crate::frame::pair_fits;
use crate::headend::{HeadEnd, MODEMS, RECORDS};
use crate::modem::Modem;
use crate::settings::{address_fits, said_fits, width, LAST_SECOND};
use crate::slot::Slot;

/// The longest life of an authorization key in a reply, and of a traffic key.
const AUTHORIZATION_LIFE: u64 = 12_096_000;
const TRAFFIC_LIFE: u64 = 604_800;

fn record_fits(r: &Record, clock: u64, half: u64) -> bool {
    let w = width(u64::from(r.suite));
    let zeros = |o: &[u8; 16]| o[w..].iter().all(|x| *x == 0);
    said_fits(u64::from(r.said))
        && w > 0
        && r.older.number <= 15
        && r.newer.number == (r.older.number + 1) % 16
        && r.older.deadline > clock
        && Some(r.newer.deadline) == r.older.deadline.checked_add(half)
        && [&r.older.tek, &r.older.vector, &r.newer.tek, &r.newer.vector].into_iter().all(zeros)
}

fn entry_fits(e: &Entry, clock: u64, aklife: u64) -> bool {
    let differ = (1..e.saids.len()).all(|i| e.saids[..i].iter().all(|s| s.0 != e.saids[i].0));
    address_fits(e.address)
        && (1..=4).contains(&e.saids.len())
        && e.saids.iter().all(|s| said_fits(u64::from(s.0)) && width(u64::from(s.1)) > 0)
        && differ
        && e.older_ak <= clock + aklife
        && e.newer_ak <= e.older_ak.max(clock) + aklife
        && (e.newer_ak > e.older_ak || e.newer_ak == 0 && e.older_ak == 0)
}

/// No address and no SAID is also another entry's.
fn apart(e: &Entry, before: &[Entry]) -> bool {
    before.iter().all(|b| b.address != e.address && b.saids.iter().all(|s| e.saids.iter().all(|t| s.0 != t.0)))
}

/// Question 1 of the head-end and its records.
pub fn headend_fits(h: &HeadEnd) -> bool {
    let (clock, half) = (h.clock, h.settings.half());
    h.settings.fits()
        && clock <= LAST_SECOND
        && h.entries.len() <= MODEMS
        && h.records.len() <= RECORDS
        && h.entries.iter().enumerate().all(|(i, e)| entry_fits(e, clock, h.settings.aklife) && apart(e, &h.entries[..i]))
        && h.records.iter().all(|r| record_fits(r, clock, half))
}

fn slot_fits(s: &Slot, m: &Modem) -> bool {
    let last = match s.state {
        b'B' => Some(m.clock + m.settings.operational),
        b'D' => Some(m.clock + TRAFFIC_LIFE),
        b'E' => Some(m.clock + m.settings.rekey),
        _ => None,
    };
    let held = matches!(s.state, b'D' | b'E' | b'F');
    said_fits(u64::from(s.said))
        && s.width() > 0
        && (b'A'..=b'F').contains(&s.state)
        && s.timer.is_some() == last.is_some()
        && s.timer <= last
        && s.keys.is_some() == held
        && s.keys.is_none_or(|(older, newer)| pair_fits(m.clock, &older, &newer, s.width()))
}

/// Question 1 of the modem.
pub fn modem_fits(m: &Modem) -> bool {
    let differ = (1..m.slots.len()).all(|i| m.slots[..i].iter().all(|s| s.said != m.slots[i].said));
    m.settings.fits()
        && m.clock <= LAST_SECOND
        && address_fits(m.address)
        && said_fits(u64::from(m.own))
        && (b'A'..=b'F').contains(&m.state)
        && m.ak <= 15
        && m.timer.is_some() == matches!(m.state, b'B'..=b'E')
        && m.timer <= Some(m.clock + AUTHORIZATION_LIFE)
        && m.slots.len() <= 4
        && differ
        && m.slots.iter().all(|s| slot_fits(s, m))
}
