//! AES with a key of 128 bits (FIPS 197), by tables: an octet of a round is substituted, moved and mixed in one look-up.

pub const BLOCK: usize = 16;
pub const AES_KEY: usize = 16;
const ROUNDS: usize = 10;

/// A block or a round key: its four columns, the first octet of each the highest.
pub type Words = [u32; 4];

/// An octet of a word, 0 for the highest.
macro_rules! octet {
    ($word:expr, $at:literal) => {
        (($word >> (24 - 8 * $at)) & 0xff) as usize
    };
}

const fn twice(a: u8) -> u8 {
    (a << 1) ^ ((a >> 7) * 0x1b)
}

const fn times(a: u8, mut b: u8) -> u8 {
    let (mut sum, mut power) = (0, a);
    while b > 0 {
        sum ^= power * (b & 1);
        power = twice(power);
        b >>= 1;
    }
    sum
}

/// The substitution (FIPS 197, 5.1.1): `power` runs through the powers of 3 and `inverse` through their inverses.
const fn substitution() -> [u8; 256] {
    let mut table = [0x63; 256];
    let (mut power, mut inverse) = (1, 1);
    loop {
        // 0xf6 is 1 / 3
        (power, inverse) = (times(power, 3), times(inverse, 0xf6));
        let i: u8 = inverse;
        table[power as usize] = 0x63 ^ i ^ i.rotate_left(1) ^ i.rotate_left(2) ^ i.rotate_left(3) ^ i.rotate_left(4);
        if power == 1 {
            return table;
        }
    }
}

const fn inverted(table: &[u8; 256]) -> [u8; 256] {
    let (mut out, mut at) = ([0; 256], 0);
    while at < 256 {
        out[table[at] as usize] = at as u8;
        at += 1;
    }
    out
}

/// The column that an octet of each row gives when it is substituted and mixed with these factors.
const fn mixed(substituted: &[u8; 256], factors: [u8; 4]) -> [[u32; 256]; 4] {
    let (mut out, mut at) = ([[0; 256]; 4], 0);
    while at < 256 {
        let s = substituted[at];
        let column = [times(s, factors[0]), times(s, factors[1]), times(s, factors[2]), times(s, factors[3])];
        let word = u32::from_be_bytes(column);
        (out[0][at], out[1][at]) = (word, word.rotate_right(8));
        (out[2][at], out[3][at]) = (word.rotate_right(16), word.rotate_right(24));
        at += 1;
    }
    out
}

static SUBSTITUTED: [u8; 256] = substitution();
static RESTORED: [u8; 256] = inverted(&substitution());
static FORWARD: [[u32; 256]; 4] = mixed(&substitution(), [2, 1, 1, 3]);
static BACKWARD: [[u32; 256]; 4] = mixed(&inverted(&substitution()), [14, 9, 13, 11]);

/// The words of a block.
#[inline(always)]
pub fn words(block: &[u8]) -> Words {
    let word = |at: usize| u32::from_be_bytes([block[at], block[at + 1], block[at + 2], block[at + 3]]);
    [word(0), word(4), word(8), word(12)]
}

/// The octets of a block.
#[inline(always)]
pub fn octets(words: Words) -> [u8; BLOCK] {
    let mut out = [0; BLOCK];
    out.chunks_exact_mut(4).zip(words).for_each(|(four, word)| four.copy_from_slice(&word.to_be_bytes()));
    out
}

#[inline(always)]
pub fn sum(a: Words, b: Words) -> Words {
    [a[0] ^ b[0], a[1] ^ b[1], a[2] ^ b[2], a[3] ^ b[3]]
}

/// One column of a middle round, from the columns that its rows come from.
#[inline(always)]
fn column(t: &[[u32; 256]; 4], a: u32, b: u32, c: u32, d: u32) -> u32 {
    t[0][octet!(a, 0)] ^ t[1][octet!(b, 1)] ^ t[2][octet!(c, 2)] ^ t[3][octet!(d, 3)]
}

/// One column of the last round, which mixes nothing.
#[inline(always)]
fn last_column(t: &[u8; 256], a: u32, b: u32, c: u32, d: u32) -> u32 {
    u32::from_be_bytes([t[octet!(a, 0)], t[octet!(b, 1)], t[octet!(c, 2)], t[octet!(d, 3)]])
}

/// The round keys of the cipher.
pub struct Cipher([Words; ROUNDS + 1]);

impl Cipher {
    /// The key's expansion (FIPS 197, 5.2).
    pub fn new(key: &[u8; AES_KEY]) -> Cipher {
        let (mut keys, mut constant) = ([words(key); ROUNDS + 1], 1);
        for round in 1..=ROUNDS {
            let [a, b, c, d] = keys[round - 1];
            let turned = d.rotate_left(8);
            let first = a ^ last_column(&SUBSTITUTED, turned, turned, turned, turned) ^ u32::from(constant) << 24;
            keys[round] = [first, first ^ b, first ^ b ^ c, first ^ b ^ c ^ d];
            constant = twice(constant);
        }
        Cipher(keys)
    }

    #[inline(always)]
    pub fn encrypt(&self, block: Words) -> Words {
        let mut state = sum(block, self.0[0]);
        for key in &self.0[1..ROUNDS] {
            let [a, b, c, d] = state;
            let t = &FORWARD;
            state = sum([column(t, a, b, c, d), column(t, b, c, d, a), column(t, c, d, a, b), column(t, d, a, b, c)], *key);
        }
        let ([a, b, c, d], t) = (state, &SUBSTITUTED);
        let last = [last_column(t, a, b, c, d), last_column(t, b, c, d, a), last_column(t, c, d, a, b), last_column(t, d, a, b, c)];
        sum(last, self.0[ROUNDS])
    }

    /// The last round key, which the tests look at.
    #[cfg(test)]
    pub fn last_key(&self) -> [u8; BLOCK] {
        octets(self.0[ROUNDS])
    }
}

/// The round keys of the inverse cipher, the last first and the middle ones mixed back (FIPS 197, 5.3.5).
pub struct Inverse([Words; ROUNDS + 1]);

impl Inverse {
    pub fn new(cipher: &Cipher) -> Inverse {
        let mut keys = cipher.0;
        keys.reverse();
        let mixed_back = |word: u32| {
            let substituted = last_column(&SUBSTITUTED, word, word, word, word);
            column(&BACKWARD, substituted, substituted, substituted, substituted)
        };
        keys[1..ROUNDS].iter_mut().for_each(|key| *key = key.map(mixed_back));
        Inverse(keys)
    }

    #[inline(always)]
    pub fn decrypt(&self, block: Words) -> Words {
        let mut state = sum(block, self.0[0]);
        for key in &self.0[1..ROUNDS] {
            let [a, b, c, d] = state;
            let t = &BACKWARD;
            state = sum([column(t, a, d, c, b), column(t, b, a, d, c), column(t, c, b, a, d), column(t, d, c, b, a)], *key);
        }
        let ([a, b, c, d], t) = (state, &RESTORED);
        let last = [last_column(t, a, d, c, b), last_column(t, b, a, d, c), last_column(t, c, b, a, d), last_column(t, d, c, b, a)];
        sum(last, self.0[ROUNDS])
    }
}
