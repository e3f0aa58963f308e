//! The benchmark's rows of the frame cipher alone, the key's expansion too: frames of 64 and 1,518 octets, of which 12 stay clear. `bench_cipher ROUNDS`.
//!
//! The library's is `cipher_cbc_seal` and `cipher_cbc_open`; they are no part of the header, and their archive is linked here alone. With the feature
//! `crypto` OpenSSL's CBC is measured beside the outside cipher, on the whole blocks of the same frames. Where OPENSSL_ia32cap is set, which takes AES
//! instructions from it, OpenSSL's rows alone are shown.

mod table;

use curlewreel_outside::aes::{AES_KEY, BLOCK};
use curlewreel_outside::cipher;
use std::hint::black_box;
use table::{Side, Table, OF_MESSAGES};

const BATCH: usize = 400;
const LENGTHS: [usize; 2] = [64, 1_518];
const LONGEST: usize = 1_518;
const TEK: [u8; AES_KEY] = [0x2b, 0x7e, 0x15, 0x16, 0x28, 0xae, 0xd2, 0xa6, 0xab, 0xf7, 0x15, 0x88, 0x09, 0xcf, 0x4f, 0x3c];
const VECTOR: [u8; BLOCK] = [0x10; BLOCK];

type OfLibrary = unsafe extern "C" fn(*const u8, usize, *const u8, usize, *const u8, usize, *mut u8, usize) -> u8;
type OfOutside = fn(&[u8; AES_KEY], &[u8; BLOCK], &[u8], &mut [u8]);

#[link(name = "cipher_cbc", kind = "static")]
extern "C" {
    fn cipher_cbc_seal(
        key: *const u8,
        key_len: usize,
        vector: *const u8,
        vector_len: usize,
        frame: *const u8,
        frame_len: usize,
        out: *mut u8,
        out_len: usize,
    ) -> u8;
    fn cipher_cbc_open(
        key: *const u8,
        key_len: usize,
        vector: *const u8,
        vector_len: usize,
        frame: *const u8,
        frame_len: usize,
        out: *mut u8,
        out_len: usize,
    ) -> u8;
}

fn of_library(call: OfLibrary, key: &[u8], vector: &[u8], frame: &[u8], out: &mut [u8]) -> u8 {
    unsafe { call(key.as_ptr(), key.len(), vector.as_ptr(), vector.len(), frame.as_ptr(), frame.len(), out.as_mut_ptr(), out.len()) }
}

fn frame(length: usize) -> Vec<u8> {
    (0..length).map(|i| (i * 7 + i / 256) as u8).collect()
}

/// Both have to give the same octets, and to leave those behind them.
fn same(library: OfLibrary, outside: OfOutside) {
    for length in (12..200).chain(LENGTHS) {
        let (frame, mut given, mut wanted) = (frame(length), vec![0xee; length + 3], vec![0xee; length + 3]);
        assert_eq!(of_library(library, &TEK, &VECTOR, &frame, &mut given), 0);
        outside(&TEK, &VECTOR, &frame, &mut wanted);
        assert_eq!(given, wanted, "{length} octets");
    }
    let (whole, mut out) = (frame(12), [0xee; 12]);
    assert_eq!(of_library(library, &TEK[1..], &VECTOR, &whole, &mut out), 1);
    assert_eq!(of_library(library, &TEK, &VECTOR[1..], &whole, &mut out), 1);
    assert_eq!(of_library(library, &TEK, &VECTOR, &whole, &mut out[1..]), 2);
    assert_eq!(of_library(library, &TEK, &VECTOR, &whole[1..], &mut out), 15);
    assert_eq!(out, [0xee; 12]);
}

fn row(table: &mut Table, name: &str, length: usize, library: OfLibrary, outside: OfOutside) {
    let (frame, mut out, mut other) = (frame(length), [0; LONGEST], [0; LONGEST]);
    let mut engine = |(): &mut ()| {
        let out = &mut black_box(&mut out)[..length];
        black_box(of_library(library, black_box(&TEK), black_box(&VECTOR), black_box(&frame), out));
    };
    let mut outside = |(): &mut ()| outside(black_box(&TEK), black_box(&VECTOR), black_box(&frame), black_box(&mut other));
    let (engine, outside) = (Side { make: &|| (), call: &mut engine }, Side { make: &|| (), call: &mut outside });
    table.row(&format!("{name} a frame of {length} octets"), OF_MESSAGES, BATCH, engine, outside);
}

#[cfg(feature = "crypto")]
#[path = "bench_crypto.rs"]
mod crypto;

fn main() {
    let rounds = std::env::args().nth(1).map_or(31, |n| n.parse().expect("a number of rounds"));
    if std::env::var_os("OPENSSL_ia32cap").is_none() {
        same(cipher_cbc_seal, cipher::seal);
        same(cipher_cbc_open, cipher::open);
        let mut table = Table::new(rounds);
        LENGTHS.into_iter().for_each(|length| row(&mut table, "seal", length, cipher_cbc_seal, cipher::seal));
        LENGTHS.into_iter().for_each(|length| row(&mut table, "open", length, cipher_cbc_open, cipher::open));
        table.told();
    }
    #[cfg(feature = "crypto")]
    crypto::rows(rounds);
}
