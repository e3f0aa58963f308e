//! The messages of a plant on their way: copies, some changed, with digests that hold or do not, and the keys they are delivered with.

use super::{hex, Plant};
use crate::keys::{self, pair_of, Pair};
use crate::{forge, make};
use curlewreel_outside::message::{read, End, Reading};

impl Plant {
    /// A copy, and whether it is another message now; or a message of any kind.
    fn copy(&mut self, up: bool) -> (Vec<u8>, bool) {
        let n = if up { self.up.len() } else { self.down.len() };
        let Some(at) = self.place(n).filter(|_| !self.r.one_in(20)) else {
            return (make::message(&mut self.r), true);
        };
        if !up && self.r.one_in(8) {
            return (self.forged(), true);
        }
        let copied = if up { self.up[at].clone() } else { self.down[at].clone() };
        let mut octets = copied.clone();
        match self.r.below(30) {
            0..=2 => make::damage(&mut self.r, &mut octets),
            3 => make::rearrange(&mut self.r, &mut octets),
            4 => octets.extend(octets.clone()),
            5 | 6 => make::put_skipped(&mut self.r, &mut octets),
            // an Authorization Reply more often: a digest in it is skipped
            7..=14 if octets[0] == 5 => make::put_skipped(&mut self.r, &mut octets),
            _ => {}
        }
        if self.r.one_in(25) && octets.len() > 1 {
            octets[1] = octets[1].wrapping_add(self.r.pick(&[1, 255]));
        }
        let changed = octets != copied;
        (octets, changed)
    }

    /// A copy with another Identifier and nothing else changed, so that its digest no longer holds: a Key Request, or an old Key Reply that gets the
    /// Identifier of its SAID's waiting request. None where there is none.
    fn renumbered(&mut self, up: bool) -> Option<Vec<u8>> {
        let (more, slots) = (1 + self.r.below(255) as u8, &self.ends.modem.slots);
        // as the head-end writes it: a Key Reply's SAID stands in a fixed place
        let waiting = |m: &[u8]| slots.iter().find(|s| s.waits() && m[11..13] == s.said.to_be_bytes()).map(|s| s.identifier);
        let other = |m: &[u8]| match (up, m[0]) {
            (true, 7) => Some(m[1].wrapping_add(more)),
            (false, 8) => waiting(m).filter(|identifier| *identifier != m[1]),
            _ => None,
        };
        let copies = if up { &self.up } else { &self.down }.iter();
        let mut all: Vec<Vec<u8>> = copies.filter_map(|m| Some([&[m[0], other(m)?], &m[2..]].concat())).collect();
        self.place(all.len()).map(|at| all.swap_remove(at))
    }

    /// An answer to one of the modem's messages that the head-end did not give.
    fn forged(&mut self) -> Vec<u8> {
        let at = self.place(self.up.len());
        let request = at.map_or(vec![], |at| self.up[at].clone());
        let mut octets = forge::answer(&mut self.r, &request, &self.saids);
        if self.r.one_in(4) {
            make::put_skipped(&mut self.r, &mut octets);
        }
        octets
    }

    /// A message's digest is made right again mostly where something else was changed; now and then it is spoilt.
    fn digested(&mut self, octets: &mut [u8], changed: bool, key: &[u8]) {
        if changed && !self.r.one_in(4) {
            make::digest_anew(octets, key);
        }
        if self.r.one_in(40) {
            make::spoil_digest(&mut self.r, octets);
        }
    }

    pub(super) fn message(&mut self, up: bool) -> String {
        let renumbered = if self.r.one_in(12) { self.renumbered(up) } else { None };
        if let Some(octets) = renumbered {
            return self.under_right_keys(up, &octets);
        }
        let numbered_0 = if up && self.r.one_in(30) { self.numbered_0() } else { None };
        if let Some(call) = numbered_0 {
            return call;
        }
        let (mut octets, changed) = self.copy(up);
        if !up {
            let (read, write) = self.at_modem(&octets);
            self.digested(&mut octets, changed, &read.down);
            let keys = [keys::lent(&mut self.r, &read.down, &read.up), keys::lent(&mut self.r, &write.up, &write.down)];
            return format!("down,{},{},{}", hex(&keys[0]), hex(&keys[1]), hex(&octets));
        }
        let address = self.some_address();
        let pair = self.at_headend(address, &octets);
        self.digested(&mut octets, changed, &pair.up);
        let keys = [keys::lent(&mut self.r, &pair.up, &pair.down), keys::lent(&mut self.r, &pair.down, &pair.up)];
        let auth_key = self.auth_key(address);
        format!("up,{address},{},{},{},{}", hex(&keys[0]), hex(&keys[1]), hex(&auth_key), hex(&octets))
    }

    /// The message as it is, from the modem's own address.
    pub(super) fn under_right_keys(&mut self, up: bool, octets: &[u8]) -> String {
        if up {
            let (address, pair) = (self.address, self.at_headend(self.address, octets));
            return format!("up,{address},{},{},07,{}", hex(&pair.up), hex(&pair.down), hex(octets));
        }
        let (read, write) = self.at_modem(octets);
        format!("down,{},{},{}", hex(&read.down), hex(&write.up), hex(octets))
    }

    /// The keys of what a message to the head-end names.
    pub(super) fn at_headend(&mut self, address: u64, octets: &[u8]) -> Pair {
        let number = read(End::HeadEnd, octets).map_or(0, |m| m.fields.ak_number);
        self.auth_keys.at_headend(&mut self.r, address, number)
    }

    /// The keys of what a message to the modem names, and of what it leads to: after a Reply, those of the Reply's own authorization key.
    fn at_modem(&mut self, octets: &[u8]) -> (Pair, Pair) {
        let (own, message) = (self.auth_keys.at_modem(&mut self.r, self.ends.modem.ak), read(End::Modem, octets));
        let named = message.as_ref().map_or(own, |m| self.auth_keys.at_modem(&mut self.r, m.fields.ak_number));
        let reply = message.ok().filter(|m| m.fields.code == 5);
        (named, reply.map_or(own, |m| pair_of(auth_key_in(&m, octets))))
    }

    /// The octets lent for an Authorization Reply: the last ones again where no authorization key will be made.
    pub(super) fn auth_key(&mut self, address: u64) -> Vec<u8> {
        if self.r.one_in(25) {
            let n = self.r.pick(&[0, 256, 257]);
            return self.r.octets(n);
        }
        let entry = self.ends.head.entries.iter().find(|e| e.address == address && e.older_ak > self.clock);
        let made = entry.and_then(|e| self.auth_keys.made(address, e.newest())).cloned();
        let n = 1 + self.r.below(20) as usize;
        made.unwrap_or_else(|| self.r.octets(n))
    }

    /// The key of a TEK Invalid for a modem: its newest authorization key's, down.
    pub(super) fn invalid_key(&mut self, address: u64) -> String {
        let entry = self.ends.head.entries.iter().find(|e| e.address == address && e.aks > 0);
        let pair = self.auth_keys.at_headend(&mut self.r, address, entry.map_or(0, |e| e.newest()));
        hex(&keys::lent(&mut self.r, &pair.down, &pair.up))
    }

    /// The key of the modem's Key Requests.
    pub(super) fn request_key(&mut self) -> String {
        let pair = self.auth_keys.at_modem(&mut self.r, self.ends.modem.ak);
        hex(&keys::lent(&mut self.r, &pair.up, &pair.down))
    }

    /// An Authorization Reply that the head-end wrote for an address, or that the modem took: its AUTH-Key is kept.
    pub(super) fn keep_auth_key(&mut self, address: Option<u64>, octets: &[u8]) {
        let Some(m) = read(End::Modem, octets).ok().filter(|m| m.fields.code == 5) else { return };
        let (number, auth_key) = (m.fields.ak_number, auth_key_in(&m, octets));
        match address {
            Some(address) => self.auth_keys.put_headend(address, number, auth_key),
            None => self.auth_keys.put_modem(number, auth_key),
        }
    }
}

fn auth_key_in<'a>(m: &Reading, octets: &'a [u8]) -> &'a [u8] {
    &octets[m.auth_key.0..m.auth_key.0 + m.auth_key.1]
}
