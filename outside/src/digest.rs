//! SHA-1 (FIPS 180-4) and HMAC-SHA-1 (RFC 2104), by which messages carry their digest.

/// Octets of a digest, of a message key, and of a block that SHA-1 takes at a time.
pub const DIGEST: usize = 20;
pub const KEY: usize = 20;
const BLOCK: usize = 64;

/// A sum in the making: the five words so far, and how many octets are in them.
struct Sum {
    words: [u32; 5],
    octets: usize,
}

/// Twenty rounds with their function and constant (FIPS 180-4, 6.1.2, step 3).
#[inline(always)]
fn rounds(words: [u32; 5], schedule: &[u32], constant: u32, mix: impl Fn(u32, u32, u32) -> u32) -> [u32; 5] {
    let [mut a, mut b, mut c, mut d, mut e] = words;
    for word in schedule {
        let next = a.rotate_left(5).wrapping_add(mix(b, c, d)).wrapping_add(e).wrapping_add(constant).wrapping_add(*word);
        (a, b, c, d, e) = (next, a, b.rotate_left(30), c, d);
    }
    [a, b, c, d, e]
}

/// The words after one more block.
fn compress(words: &mut [u32; 5], block: &[u8]) {
    let mut schedule = [0; 80];
    for (word, four) in schedule.iter_mut().zip(block.chunks_exact(4)) {
        *word = u32::from_be_bytes([four[0], four[1], four[2], four[3]]);
    }
    for t in 16..80 {
        schedule[t] = (schedule[t - 3] ^ schedule[t - 8] ^ schedule[t - 14] ^ schedule[t - 16]).rotate_left(1);
    }
    let choice = |b: u32, c: u32, d: u32| d ^ b & (c ^ d);
    let parity = |b: u32, c: u32, d: u32| b ^ c ^ d;
    let majority = |b: u32, c: u32, d: u32| b & c | d & (b | c);
    let mut after = rounds(*words, &schedule[..20], 0x5a82_7999, choice);
    after = rounds(after, &schedule[20..40], 0x6ed9_eba1, parity);
    after = rounds(after, &schedule[40..60], 0x8f1b_bcdc, majority);
    after = rounds(after, &schedule[60..], 0xca62_c1d6, parity);
    words.iter_mut().zip(after).for_each(|(word, more)| *word = word.wrapping_add(more));
}

impl Sum {
    fn new() -> Sum {
        Sum { words: [0x6745_2301, 0xefcd_ab89, 0x98ba_dcfe, 0x1032_5476, 0xc3d2_e1f0], octets: 0 }
    }

    /// The sum that starts with this block.
    fn of_block(block: &[u8; BLOCK]) -> Sum {
        let mut sum = Sum::new();
        compress(&mut sum.words, block);
        sum.octets = BLOCK;
        sum
    }

    /// The last octets, and the padding behind them: a bit, zeros, and the count of bits (FIPS 180-4, 5.1.1).
    fn end(mut self, last: &[u8]) -> [u8; DIGEST] {
        let blocks = last.chunks_exact(BLOCK);
        let rest = blocks.remainder();
        blocks.for_each(|block| compress(&mut self.words, block));
        let mut tail = [0; 2 * BLOCK];
        tail[..rest.len()].copy_from_slice(rest);
        tail[rest.len()] = 0x80;
        let end = if rest.len() + 9 > BLOCK { 2 * BLOCK } else { BLOCK };
        let bits = 8 * (self.octets + last.len()) as u64;
        tail[end - 8..end].copy_from_slice(&bits.to_be_bytes());
        tail[..end].chunks_exact(BLOCK).for_each(|block| compress(&mut self.words, block));
        let mut out = [0; DIGEST];
        out.chunks_exact_mut(4).zip(self.words).for_each(|(four, word)| four.copy_from_slice(&word.to_be_bytes()));
        out
    }
}

pub fn sha1(message: &[u8]) -> [u8; DIGEST] {
    Sum::new().end(message)
}

/// HMAC-SHA-1 under a key of any length: one above a block is hashed first, a shorter one has zeros behind it.
pub fn hmac(key: &[u8], message: &[u8]) -> [u8; DIGEST] {
    let mut block = [0; BLOCK];
    if key.len() > BLOCK {
        block[..DIGEST].copy_from_slice(&sha1(key));
    } else {
        block[..key.len()].copy_from_slice(key);
    }
    let inner = Sum::of_block(&block.map(|o| o ^ 0x36)).end(message);
    Sum::of_block(&block.map(|o| o ^ 0x5c)).end(&inner)
}

/// The message key of what goes up under an AUTH-Key (document 000, 11.4 and I.4.3). Both places say that the octet stands 63 times before it; only 64
/// times, a whole block, give the keys that are printed there.
pub fn up_key(auth_key: &[u8]) -> [u8; KEY] {
    Sum::of_block(&[0x5c; BLOCK]).end(auth_key)
}

/// The message key of what goes down.
pub fn down_key(auth_key: &[u8]) -> [u8; KEY] {
    Sum::of_block(&[0x3a; BLOCK]).end(auth_key)
}

#[cfg(test)]
#[path = "digest_tests.rs"]
mod tests;
