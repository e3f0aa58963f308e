//! Held keys, and the frame decision for C (question 13 on values).

use crate::settings::LAST_SECOND;

/// What sealing gives: number, TEK, vector; or the refusal's number.
pub type Sealed = Result<(u8, Vec<u8>, Vec<u8>), u8>;

/// What opening gives: TEK and vector; or the refusal's number and, on 13, what goes out.
pub type Opened = Result<(Vec<u8>, Vec<u8>), (u8, Vec<u8>)>;

/// What sealing of a frame's octets gives: the key's number and the sealed frame; or the refusal's number.
pub type SealedFrame = Result<(u8, Vec<u8>), u8>;

/// What opening of a frame's octets gives: the opened frame; or the refusal's number and, on 13, what goes out.
pub type OpenedFrame = Result<Vec<u8>, (u8, Vec<u8>)>;

/// The key that opens and its width; or the refusal's number and, on 13, what goes out.
pub type Opener = Result<(Held, usize), (u8, Vec<u8>)>;

/// The refusal of a frame with fewer octets than stay clear (document 02, M-103).
pub const SHORT_FRAME: u8 = 15;

/// A key that an end holds; octets past the width are zero.
#[derive(Clone, Copy, PartialEq, Eq, Debug, Default)]
pub struct Held {
    pub number: u8,
    pub deadline: u64,
    pub tek: [u8; 16],
    pub vector: [u8; 16],
}

impl Held {
    /// A key whose TEK and vector are these octets, at most 16 of each.
    pub fn new(number: u8, deadline: u64, tek: &[u8], vector: &[u8]) -> Held {
        let mut held = Held { number, deadline, ..Held::default() };
        held.tek[..tek.len()].copy_from_slice(tek);
        held.vector[..vector.len()].copy_from_slice(vector);
        held
    }

    /// Does it open a frame of this number at this second?
    pub fn opens(&self, clock: u64, number: u64) -> bool {
        u64::from(self.number) == number && self.deadline > clock
    }

    /// TEK and vector of a width.
    pub fn octets(&self, width: usize) -> (Vec<u8>, Vec<u8>) {
        (self.tek[..width].to_vec(), self.vector[..width].to_vec())
    }
}

/// Question 1 of the pair: numbers, deadlines, zeros past the width.
pub fn pair_fits(clock: u64, older: &Held, newer: &Held, width: usize) -> bool {
    let zeros = |o: &[u8; 16]| o[width..].iter().all(|x| *x == 0);
    older.number <= 15
        && newer.number <= 15
        && newer.number == (older.number + 1) % 16
        && older.deadline < newer.deadline
        && newer.deadline <= clock + 604_800
        && [older.tek, older.vector, newer.tek, newer.vector].iter().all(zeros)
}

/// The numbers of a frame decision.
#[derive(Clone, Copy, Debug)]
pub struct Pair {
    pub clock: u64,
    pub older_number: u8,
    pub older_deadline: u64,
    pub newer_number: u8,
    pub newer_deadline: u64,
    pub width: usize,
    pub number: u8,
}

/// The frame decision: questions 1, 2, 13. Octets that `keys` lacks count as zero in question 1.
pub fn decide(p: &Pair, keys: &[u8], tek_room: usize, vector_room: usize) -> Result<(Vec<u8>, Vec<u8>), u8> {
    let mut all = [0; 64];
    let there = keys.len().min(64);
    all[..there].copy_from_slice(&keys[..there]);
    let older = Held::new(p.older_number, p.older_deadline, &all[..16], &all[16..32]);
    let newer = Held::new(p.newer_number, p.newer_deadline, &all[32..48], &all[48..]);
    if p.clock > LAST_SECOND || (p.width != 8 && p.width != 16) || p.number > 15 {
        return Err(1);
    }
    if !pair_fits(p.clock, &older, &newer, p.width) {
        return Err(1);
    }
    if keys.len() != 64 || tek_room < 16 || vector_room < 16 {
        return Err(2);
    }
    let opener = [older, newer].into_iter().find(|k| k.opens(p.clock, u64::from(p.number)));
    opener.map(|k| k.octets(p.width)).ok_or(13)
}

#[cfg(test)]
mod tests {
    use super::*;

    #[test]
    fn decisions() {
        let mut keys = [0; 64];
        for i in 0..8 {
            (keys[i], keys[16 + i], keys[32 + i], keys[48 + i]) = (1, 2, 3, 4);
        }
        let pair = Pair { clock: 0, older_number: 15, older_deadline: 900, newer_number: 0, newer_deadline: 1_800, width: 8, number: 0 };
        let ask = |clock, width, keys: &[u8], number, room| decide(&Pair { clock, width, number, ..pair }, keys, room, 16);
        assert_eq!(ask(899, 8, &keys, 15, 16), Ok((vec![1; 8], vec![2; 8])));
        assert_eq!(ask(900, 8, &keys, 15, 16), Err(13));
        assert_eq!(ask(900, 8, &keys, 0, 16), Ok((vec![3; 8], vec![4; 8])));
        assert_eq!(ask(900, 8, &keys, 1, 16), Err(13));
        assert_eq!(ask(900, 8, &keys, 16, 16), Err(1));
        assert_eq!(ask(900, 9, &keys, 0, 16), Err(1));
        assert_eq!(ask(LAST_SECOND + 1, 8, &keys, 0, 16), Err(1));
        assert_eq!(ask(900, 8, &keys[..63], 0, 16), Err(2));
        assert_eq!(ask(900, 8, &keys, 0, 15), Err(2));
        keys[63] = 1;
        assert_eq!(ask(900, 8, &keys, 0, 16), Err(1));
        assert_eq!(ask(900, 8, &keys[..63], 0, 16), Err(2));
        assert_eq!(ask(900, 16, &keys, 0, 16).map(|k| k.1[15]), Ok(1));
        for (older_number, older_deadline, newer_number, newer_deadline) in [(1, 5, 3, 6), (1, 6, 2, 6), (1, 5, 2, 604_801), (255, 5, 0, 6)]
        {
            let wrong = Pair { older_number, older_deadline, newer_number, newer_deadline, number: 1, ..pair };
            assert_eq!(decide(&wrong, &[], 0, 0), Err(1));
        }
    }
}
