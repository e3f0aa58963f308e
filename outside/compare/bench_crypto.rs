//! OpenSSL's CBC on the whole blocks of a frame, by EVP, beside the outside cipher: one context for all calls, key and vector anew with each.

use super::{black_box, frame, OfOutside, AES_KEY, BATCH, BLOCK, LENGTHS, LONGEST, TEK, VECTOR};
use crate::table::{median, timed};
use curlewreel_outside::cipher::{self, CLEAR};
use std::ffi::{c_int, c_void};
use std::ptr::null;

#[link(name = "crypto")]
extern "C" {
    fn EVP_aes_128_cbc() -> *const c_void;
    fn EVP_CIPHER_CTX_new() -> *mut c_void;
    fn EVP_CIPHER_CTX_free(context: *mut c_void);
    fn EVP_CIPHER_CTX_set_padding(context: *mut c_void, padding: c_int) -> c_int;
    fn EVP_CipherInit_ex(
        context: *mut c_void,
        cipher: *const c_void,
        engine: *const c_void,
        key: *const u8,
        vector: *const u8,
        encrypts: c_int,
    ) -> c_int;
    fn EVP_CipherUpdate(context: *mut c_void, out: *mut u8, out_len: *mut c_int, octets: *const u8, length: c_int) -> c_int;
}

struct Context(*mut c_void);

impl Context {
    fn new() -> Context {
        let context = unsafe { EVP_CIPHER_CTX_new() };
        let begun = unsafe { EVP_CipherInit_ex(context, EVP_aes_128_cbc(), null(), TEK.as_ptr(), VECTOR.as_ptr(), 1) };
        assert_eq!(begun, 1, "OpenSSL has AES of 128 bits in CBC mode");
        Context(context)
    }

    /// Encrypts or decrypts whole blocks.
    fn run(&self, encrypts: bool, key: &[u8; AES_KEY], vector: &[u8; BLOCK], octets: &[u8], out: &mut [u8]) {
        assert!(octets.len() == out.len() && octets.len().is_multiple_of(BLOCK));
        let mut written = 0;
        let done = unsafe {
            EVP_CipherInit_ex(self.0, null(), null(), key.as_ptr(), vector.as_ptr(), c_int::from(encrypts)) == 1
                && EVP_CIPHER_CTX_set_padding(self.0, 0) == 1
                && EVP_CipherUpdate(self.0, out.as_mut_ptr(), &mut written, octets.as_ptr(), octets.len() as c_int) == 1
        };
        assert!(done && written as usize == octets.len());
    }
}

impl Drop for Context {
    fn drop(&mut self) {
        unsafe { EVP_CIPHER_CTX_free(self.0) };
    }
}

/// One row: the frame's whole blocks at OpenSSL, the whole frame at the outside cipher, in the same rounds.
fn row(rounds: usize, context: &Context, encrypts: bool, length: usize) {
    let (outside, name): (OfOutside, _) = if encrypts { (cipher::seal, "seal") } else { (cipher::open, "open") };
    let (frame, whole) = (frame(length), (length - CLEAR) / BLOCK * BLOCK);
    let blocks = &frame[CLEAR..CLEAR + whole];
    let (mut out, mut other) = ([0; LONGEST], [0; LONGEST]);
    context.run(encrypts, &TEK, &VECTOR, blocks, &mut out[..whole]);
    outside(&TEK, &VECTOR, &frame, &mut other);
    assert_eq!(out[..whole], other[CLEAR..CLEAR + whole]);
    let (mut theirs, mut ours) = (Vec::new(), Vec::new());
    for _ in 0..rounds {
        let mut call =
            |(): &mut ()| context.run(encrypts, black_box(&TEK), black_box(&VECTOR), black_box(blocks), &mut black_box(&mut out)[..whole]);
        theirs.push(timed(BATCH, &|| (), &mut call));
        let mut call = |(): &mut ()| outside(black_box(&TEK), black_box(&VECTOR), black_box(&frame), black_box(&mut other));
        ours.push(timed(BATCH, &|| (), &mut call));
    }
    println!(
        "{:<52} {:>9.0} {:>9.0}",
        format!("{name} a frame of {length} octets ({whole} in whole blocks)"),
        median(theirs),
        median(ours)
    );
}

pub fn rows(rounds: usize) {
    let kind = if std::env::var_os("OPENSSL_ia32cap").is_none() { "OpenSSL" } else { "without" };
    println!("\n{:<52} {kind:>9} {:>9}", "nanoseconds a call, median of rounds", "outside");
    let context = Context::new();
    for encrypts in [true, false] {
        LENGTHS.into_iter().for_each(|length| row(rounds, &context, encrypts, length));
    }
    if kind == "without" {
        println!("without: OpenSSL without AES instructions (OPENSSL_ia32cap), in its own other forms");
    }
}
