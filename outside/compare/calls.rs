//! A call of either end, from its line in the form of `replay`.

use crate::engine::Listing;
use crate::plant::unhex;

#[derive(Clone)]
pub struct Frame {
    pub direction: u8,
    pub address: u64,
    pub said: u16,
    pub number: u8,
    pub write_key: Vec<u8>,
}

#[derive(Clone)]
pub enum Call {
    List { address: u64, allowed: u8, listing: Listing, material: Vec<u8> },
    Clock { second: u64, material: Vec<u8>, write_key: Vec<u8> },
    Established,
    Reauth,
    Up { address: u64, read_key: Vec<u8>, write_key: Vec<u8>, auth_key: Vec<u8>, octets: Vec<u8> },
    Down { read_key: Vec<u8>, write_key: Vec<u8>, octets: Vec<u8> },
    SealDown { address: u64, said: u16 },
    SealUp { said: u16 },
    OpenUp(Frame),
    OpenDown(Frame),
    SealDownFrame { address: u64, said: u16, octets: Vec<u8> },
    SealUpFrame { said: u16, octets: Vec<u8> },
    OpenUpFrame(Frame, Vec<u8>),
    OpenDownFrame(Frame, Vec<u8>),
}

/// A number too large for C's type becomes its largest, which is out of the limits too.
fn two(n: u64) -> u16 {
    n.min(65_535) as u16
}

fn one(n: u64) -> u8 {
    n.min(255) as u8
}

impl Call {
    /// The call of a line that has the form of one.
    pub fn parse(line: &str) -> Call {
        let f: Vec<&str> = line.split(',').collect();
        let n = |at: usize| f[at].parse::<u64>().expect("a number");
        let frame = || Frame { direction: one(n(1)), address: n(2), said: two(n(3)), number: one(n(4)), write_key: unhex(f[5]) };
        match f[0] {
            "list" => Call::List { address: n(1), allowed: one(n(2)), listing: listing(&f[4..]), material: unhex(f[3]) },
            "clock" => Call::Clock { second: n(1), material: unhex(f[2]), write_key: unhex(f[3]) },
            "established" => Call::Established,
            "reauth" => Call::Reauth,
            "up" => {
                let (read_key, write_key) = (unhex(f[2]), unhex(f[3]));
                Call::Up { address: n(1), read_key, write_key, auth_key: unhex(f[4]), octets: unhex(f[5]) }
            }
            "down" => Call::Down { read_key: unhex(f[1]), write_key: unhex(f[2]), octets: unhex(f[3]) },
            "sealdown" => Call::SealDown { address: n(1), said: two(n(2)) },
            "sealup" => Call::SealUp { said: two(n(1)) },
            "openup" => Call::OpenUp(frame()),
            "sealdownframe" => Call::SealDownFrame { address: n(1), said: two(n(2)), octets: unhex(f[3]) },
            "sealupframe" => Call::SealUpFrame { said: two(n(1)), octets: unhex(f[2]) },
            "openupframe" => Call::OpenUpFrame(frame(), unhex(f[6])),
            "opendownframe" => Call::OpenDownFrame(frame(), unhex(f[6])),
            _ => Call::OpenDown(frame()),
        }
    }

    /// Is it asked of the head-end, of the modem?
    pub fn ends(&self) -> (bool, bool) {
        match self {
            Call::Clock { .. } => (true, true),
            Call::List { .. } | Call::Up { .. } | Call::SealDown { .. } | Call::OpenUp(_) => (true, false),
            Call::SealDownFrame { .. } | Call::OpenUpFrame(..) => (true, false),
            _ => (false, true),
        }
    }

    /// How many octets the slice for messages has to have.
    pub fn room(&self) -> usize {
        match self {
            Call::Up { .. } => 342,
            Call::OpenUp(_) | Call::OpenUpFrame(..) => 40,
            Call::List { .. } | Call::SealDown { .. } | Call::SealUp { .. } => 0,
            Call::SealDownFrame { .. } | Call::SealUpFrame { .. } => 0,
            _ => 216,
        }
    }

    /// Does it lend slices for a TEK and a vector?
    pub fn keys(&self) -> bool {
        matches!(self, Call::SealDown { .. } | Call::SealUp { .. } | Call::OpenUp(_) | Call::OpenDown(_))
    }

    /// The octets of a frame that it seals or opens itself: the slice for what comes of them has to have as many.
    pub fn frame(&self) -> Option<&[u8]> {
        match self {
            Call::SealDownFrame { octets, .. } | Call::SealUpFrame { octets, .. } => Some(octets),
            Call::OpenUpFrame(_, octets) | Call::OpenDownFrame(_, octets) => Some(octets),
            _ => None,
        }
    }

    /// The SAID at the head-end that a frame is sealed or opened for, and the address.
    pub fn of_headend_frame(&self) -> Option<(u64, u16)> {
        match self {
            Call::SealDown { address, said } | Call::SealDownFrame { address, said, .. } => Some((*address, *said)),
            Call::OpenUp(frame) | Call::OpenUpFrame(frame, _) => Some((frame.address, frame.said)),
            _ => None,
        }
    }

    /// Of a call on a frame's octets, that which gives or takes the key in its place.
    pub fn that_gives_keys(&self) -> Option<Call> {
        match self {
            Call::SealDownFrame { address, said, .. } => Some(Call::SealDown { address: *address, said: *said }),
            Call::SealUpFrame { said, .. } => Some(Call::SealUp { said: *said }),
            Call::OpenUpFrame(frame, _) => Some(Call::OpenUp(frame.clone())),
            Call::OpenDownFrame(frame, _) => Some(Call::OpenDown(frame.clone())),
            _ => None,
        }
    }

    /// The message keys that it lends, with a name for each.
    pub fn message_keys(&mut self) -> Vec<(&'static str, &mut Vec<u8>)> {
        match self {
            Call::Clock { write_key, .. } => vec![("the clock's write_key", write_key)],
            Call::Up { read_key, write_key, .. } => vec![("the head-end's read_key", read_key), ("the head-end's write_key", write_key)],
            Call::Down { read_key, write_key, .. } => vec![("the modem's read_key", read_key), ("the modem's write_key", write_key)],
            Call::OpenUp(frame) => vec![("write_key of opening at the head-end", &mut frame.write_key)],
            Call::OpenDown(frame) => vec![("write_key of opening at the modem", &mut frame.write_key)],
            Call::OpenUpFrame(frame, _) => vec![("write_key of opening octets at the head-end", &mut frame.write_key)],
            Call::OpenDownFrame(frame, _) => vec![("write_key of opening octets at the modem", &mut frame.write_key)],
            _ => vec![],
        }
    }

    /// How many records a listing adds.
    pub fn adds(&self) -> usize {
        match self {
            Call::List { listing, .. } => listing.count,
            _ => 0,
        }
    }
}

/// The SAIDs and suites of a line; a fifth pair is counted and has no place. What stands behind the count is not to be asked.
fn listing(pairs: &[&str]) -> Listing {
    let mut out = Listing { count: pairs.len() / 2, saids: [65_535; 4], suites: [7; 4] };
    for (i, pair) in pairs.chunks(2).take(4).enumerate() {
        out.saids[i] = two(pair[0].parse().expect("a SAID"));
        out.suites[i] = two(pair[1].parse().expect("a suite"));
    }
    out
}
