//! The benchmark's rows of HMAC-SHA-1 alone, over what stands before the digest in a Key Reply and over a longest message. `bench_hmac ROUNDS`.
//!
//! The library's is `digest_hmac_holds`, which compares the digest too; it is no part of the header, and its archive is linked here alone. With
//! the feature `crypto` OpenSSL's HMAC is measured beside the outside one.

mod table;

use curlewreel_outside::digest::{hmac, DIGEST, KEY};
use std::hint::black_box;
use table::{Side, Table, OF_MESSAGES};

const BATCH: usize = 2_000;
const MESSAGE_KEY: [u8; KEY] = [3; KEY];

#[link(name = "digest_hmac", kind = "static")]
extern "C" {
    /// Are the 20 octets at `at` the HMAC of those before `upto`?
    fn digest_hmac_holds(message: *const u8, message_len: usize, upto: usize, key: *const u8, key_len: usize, at: usize) -> bool;
}

fn library_holds(message: &[u8], upto: usize, key: &[u8], at: usize) -> bool {
    unsafe { digest_hmac_holds(message.as_ptr(), message.len(), upto, key.as_ptr(), key.len(), at) }
}

fn outside_holds(message: &[u8], upto: usize, key: &[u8], at: usize) -> bool {
    message[at..at + DIGEST] == hmac(key, &message[..upto])
}

/// `length` octets, and their digest behind a digest attribute's type and length.
fn message(length: usize) -> Vec<u8> {
    let mut out: Vec<u8> = (0..length).map(|i| (i * 7) as u8).collect();
    let digest = hmac(&MESSAGE_KEY, &out);
    out.extend([11, 0, DIGEST as u8]);
    out.extend(digest);
    out
}

fn row(table: &mut Table, length: usize) {
    let (right, at) = (message(length), length + 3);
    let mut wrong = right.clone();
    wrong[length - 1] ^= 1;
    assert!(library_holds(&right, length, &MESSAGE_KEY, at) && outside_holds(&right, length, &MESSAGE_KEY, at));
    assert!(!library_holds(&wrong, length, &MESSAGE_KEY, at) && !outside_holds(&wrong, length, &MESSAGE_KEY, at));
    let mut engine = |(): &mut ()| {
        black_box(library_holds(black_box(&right), black_box(length), black_box(&MESSAGE_KEY), at));
    };
    let mut outside = |(): &mut ()| {
        black_box(outside_holds(black_box(&right), black_box(length), black_box(&MESSAGE_KEY), at));
    };
    let (engine, outside) = (Side { make: &|| (), call: &mut engine }, Side { make: &|| (), call: &mut outside });
    table.row(&format!("HMAC of {length} octets"), OF_MESSAGES, BATCH, engine, outside);
}

#[cfg(feature = "crypto")]
mod crypto {
    use super::{black_box, hmac, message, BATCH, DIGEST, MESSAGE_KEY};
    use crate::table::{median, timed};
    use std::ffi::{c_int, c_uint, c_void};

    #[link(name = "crypto")]
    extern "C" {
        fn EVP_sha1() -> *const c_void;
        fn HMAC(
            sum: *const c_void,
            key: *const c_void,
            key_len: c_int,
            data: *const u8,
            data_len: usize,
            out: *mut u8,
            out_len: *mut c_uint,
        ) -> *mut u8;
    }

    fn of_openssl(key: &[u8], data: &[u8]) -> [u8; DIGEST] {
        let (mut out, mut length) = ([0; DIGEST], 0);
        let (key, key_len) = (key.as_ptr().cast(), key.len() as c_int);
        unsafe { HMAC(EVP_sha1(), key, key_len, data.as_ptr(), data.len(), out.as_mut_ptr(), &mut length) };
        out
    }

    fn time_of(sum: fn(&[u8], &[u8]) -> [u8; DIGEST], data: &[u8]) -> f64 {
        let mut call = |(): &mut ()| {
            black_box(sum(black_box(&MESSAGE_KEY), black_box(data)));
        };
        timed(BATCH, &|| (), &mut call)
    }

    /// OpenSSL's, and the outside one's in the same rounds.
    pub fn rows(rounds: usize) {
        println!("\n{:<52} {:>9} {:>9}", "nanoseconds a call, median of rounds", "OpenSSL", "outside");
        for length in [85, 1_490] {
            let data = &message(length)[..length];
            assert_eq!(of_openssl(&MESSAGE_KEY, data), hmac(&MESSAGE_KEY, data));
            let (mut theirs, mut ours) = (Vec::new(), Vec::new());
            for _ in 0..rounds {
                theirs.push(time_of(of_openssl, data));
                ours.push(time_of(hmac, data));
            }
            println!("{:<52} {:>9.0} {:>9.0}", format!("HMAC of {length} octets"), median(theirs), median(ours));
        }
    }
}

fn main() {
    let rounds = std::env::args().nth(1).map_or(31, |n| n.parse().expect("a number of rounds"));
    let mut table = Table::new(rounds);
    [85, 1_490].into_iter().for_each(|length| row(&mut table, length));
    table.told();
    #[cfg(feature = "crypto")]
    crypto::rows(rounds);
}
