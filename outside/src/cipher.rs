//! The frame cipher of suite 768: AES in CBC mode (NIST 800-38A) with DOCSIS' residual block (document 000, 11.1 and I.7). The first 12 octets of
//! a frame stay clear.

use crate::aes::{octets, sum, words, Cipher, Inverse, Words, AES_KEY, BLOCK};

/// The octets of a frame that stay clear, and so the least that a frame has.
pub const CLEAR: usize = 12;

/// Fewer octets than a block are added to the left-most of the last ciphertext block, or of the vector where there is none, encrypted once more.
fn residual(cipher: &Cipher, last: Words, rest: &[u8], out: &mut [u8]) {
    if !rest.is_empty() {
        let mask = octets(cipher.encrypt(last));
        out.iter_mut().zip(rest).zip(mask).for_each(|((place, octet), mask)| *place = octet ^ mask);
    }
}

/// Seals a frame of at least 12 octets into the front of `out`.
pub fn seal(tek: &[u8; AES_KEY], vector: &[u8; BLOCK], frame: &[u8], out: &mut [u8]) {
    let cipher = Cipher::new(tek);
    let ((clear, payload), (head, body)) = (frame.split_at(CLEAR), out[..frame.len()].split_at_mut(CLEAR));
    head.copy_from_slice(clear);
    let (blocks, mut places) = (payload.chunks_exact(BLOCK), body.chunks_exact_mut(BLOCK));
    let (rest, mut last) = (blocks.remainder(), words(vector));
    for (block, place) in blocks.zip(&mut places) {
        last = cipher.encrypt(sum(words(block), last));
        place.copy_from_slice(&octets(last));
    }
    residual(&cipher, last, rest, places.into_remainder());
}

/// Opens a frame of at least 12 octets into the front of `out`.
pub fn open(tek: &[u8; AES_KEY], vector: &[u8; BLOCK], frame: &[u8], out: &mut [u8]) {
    let cipher = Cipher::new(tek);
    let inverse = Inverse::new(&cipher);
    let ((clear, payload), (head, body)) = (frame.split_at(CLEAR), out[..frame.len()].split_at_mut(CLEAR));
    head.copy_from_slice(clear);
    let (blocks, mut places) = (payload.chunks_exact(BLOCK), body.chunks_exact_mut(BLOCK));
    let (rest, mut last) = (blocks.remainder(), words(vector));
    for (block, place) in blocks.zip(&mut places) {
        let block = words(block);
        place.copy_from_slice(&octets(sum(inverse.decrypt(block), last)));
        last = block;
    }
    residual(&cipher, last, rest, places.into_remainder());
}

/// A frame of at least 12 octets, sealed.
pub fn sealed(tek: &[u8; AES_KEY], vector: &[u8; BLOCK], frame: &[u8]) -> Vec<u8> {
    let mut out = vec![0; frame.len()];
    seal(tek, vector, frame, &mut out);
    out
}

/// A frame of at least 12 octets, opened.
pub fn opened(tek: &[u8; AES_KEY], vector: &[u8; BLOCK], frame: &[u8]) -> Vec<u8> {
    let mut out = vec![0; frame.len()];
    open(tek, vector, frame, &mut out);
    out
}

#[cfg(test)]
#[path = "cipher_tests.rs"]
mod tests;
