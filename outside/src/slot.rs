//! A TEK machine's place at the modem (document 01, "Modem: TEK machine").

use crate::frame::Held;
use crate::message::{Descriptor, Fields, Params};
use crate::settings::width;

/// A TEK machine: its SAID and suite, state A to F, timer, the Identifier of its last request, its pair.
#[derive(Clone, PartialEq, Eq, Debug)]
pub struct Slot {
    pub said: u16,
    pub suite: u16,
    pub state: u8,
    pub timer: Option<u64>,
    pub identifier: u8,
    pub keys: Option<(Held, Held)>,
}

impl Slot {
    pub fn new(d: &Descriptor) -> Slot {
        Slot { said: d.said, suite: d.suite, state: b'A', timer: None, identifier: 0, keys: None }
    }

    pub fn width(&self) -> usize {
        width(u64::from(self.suite))
    }

    /// Does its request wait?
    pub fn waits(&self) -> bool {
        self.state == b'B' || self.state == b'E'
    }

    /// Does a reply keep this machine?
    pub fn kept_by(&self, listed: &[Descriptor]) -> bool {
        let same = |d: &Descriptor| d.said == self.said && d.suite == self.suite;
        self.state != b'A' && listed.iter().any(same)
    }

    /// Question 9: widths of the SAID's suite.
    pub fn widths_fit(&self, f: &Fields) -> bool {
        let both = |p: &Params| p.tek.len() == self.width() && p.vector.len() == self.width();
        both(&f.older) && both(&f.newer)
    }
}
