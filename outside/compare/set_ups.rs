//! Set-ups of both ends of the library: those that a list starts with, and those that have to be refused.

use crate::plant::Plant;
use crate::random::Random;
use crate::state::{Places, State, RECORDS};
use crate::tally::fail;
use crate::{as_c, damage, engine};

/// Both ends of the library as fresh as the plant's, with anything in the records and entries that are not in use. Some lists start with
/// counts of frames near their end and an Identifier near 255.
pub fn start(plant: &mut Plant, r: &mut Random) -> State {
    let (head, modem) = (&mut plant.ends.head, &mut plant.ends.modem);
    let settings = as_c::settings_of(&head.settings);
    let h = unsafe { engine::curlewreel_headend_new(settings) };
    let m = unsafe { engine::curlewreel_modem_new(settings, modem.address, modem.own) };
    if h.number != 0 || m.number != 0 || h.count != 0 || m.count != 0 {
        fail("a set-up was refused or wrote octets");
    }
    let mut places: Places = [0; RECORDS * std::mem::size_of::<engine::Record>() / 8];
    places.iter_mut().for_each(|word| *word = r.next());
    let mut state = State { headend: h.headend, places, modem: m.modem };
    for entry in &mut state.headend.entries {
        (entry.address, entry.allowed, entry.listing.count, entry.keys.next) =
            (r.next(), r.next() as u8, r.next() as usize, r.next() as u8);
    }
    if r.one_in(10) {
        let near = u64::MAX - r.below(3);
        (head.taken, head.refused, modem.taken, modem.refused) = (near, near, near, near);
        (modem.counter, state.modem.counter) = (250, 250);
        (state.headend.taken, state.headend.refused, state.modem.taken, state.modem.refused) = (near, near, near, near);
    }
    state
}

/// Set-ups out of their limits are refused with 1, and hand back an end that is all zero.
pub fn wrong_set_ups(r: &mut Random) {
    let good = engine::Settings { tek_life: 1_800, tek_grace: 300, ak_life: 86_400, ak_grace: 300, ..Default::default() };
    let good = engine::Settings { authorize: 10, reauthorize: 10, operational: 10, rekey: 10, reject: 60, ..good };
    for _ in 0..200 {
        let mut settings = good;
        damage::settings(r, &mut settings);
        let h = unsafe { engine::curlewreel_headend_new(settings) };
        let m = unsafe { engine::curlewreel_modem_new(settings, 1, 1) };
        let zero = h.headend == engine::Headend::default() && m.modem == engine::Modem::default();
        if (h.number, m.number, h.count, m.count) != (1, 1, 0, 0) || !zero {
            fail(&format!("a set-up out of its limits: {settings:?}: head-end {}, modem {}", h.number, m.number));
        }
    }
    for (address, said) in [(1 << 48, 1), (u64::MAX, 1), (1, 16_384), (1, 65_535)] {
        let m = unsafe { engine::curlewreel_modem_new(good, address, said) };
        if m.number != 1 || m.count != 0 || m.modem != engine::Modem::default() {
            fail(&format!("a modem of address {address} and SAID {said}: {}", m.number));
        }
    }
}
