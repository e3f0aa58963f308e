//! The writer of this tree beside that of an older archive, on the same fields in the same rounds, in nanoseconds a call with their ratio.
//! `bench_older ROUNDS`; `outside/bench_older` makes the older archive's names others and builds it.

#[allow(dead_code)] // its rows are not used
mod bench_messages;
mod engine;
mod library;
mod table;

use bench_messages::{authorization_reply, key_reply, BATCH, MESSAGE_KEY};
use curlewreel_outside::message::Fields;
use engine::Written;
use std::hint::black_box;
use table::{median, timed};

#[link(name = "curlewreel_older", kind = "static")]
extern "C" {
    fn older_curlewreel_write(
        fields: *const u8,
        fields_len: usize,
        auth_key: *const u8,
        auth_key_len: usize,
        write_key: *const u8,
        write_key_len: usize,
        out: *mut u8,
        out_len: usize,
    ) -> Written;
}

fn older_write(fields: &[u8], auth_key: &[u8], write_key: &[u8], out: &mut [u8]) -> Written {
    let ((auth_key, auth_key_len), (key, key_len)) = ((auth_key.as_ptr(), auth_key.len()), (write_key.as_ptr(), write_key.len()));
    unsafe { older_curlewreel_write(fields.as_ptr(), fields.len(), auth_key, auth_key_len, key, key_len, out.as_mut_ptr(), out.len()) }
}

type Writer = fn(&[u8], &[u8], &[u8], &mut [u8]) -> Written;

fn time_of(write: Writer, fields: &[u8], key: &[u8]) -> f64 {
    let mut out = [0; 400];
    let mut call = |(): &mut ()| {
        black_box(write(black_box(fields), black_box(key), black_box(&MESSAGE_KEY), black_box(&mut out)).count);
    };
    timed(BATCH, &|| (), &mut call)
}

/// All octets of a slice after a message was written into it.
fn octets(write: Writer, fields: &[u8], key: &[u8]) -> Vec<u8> {
    let mut out = vec![0xa5; 400];
    assert_eq!(write(fields, key, &MESSAGE_KEY, &mut out).number, 0);
    out
}

fn row(rounds: usize, name: &str, fields: &Fields, key: &[u8]) {
    let fields = library::laid_out(fields);
    assert_eq!(octets(library::write, &fields, key), octets(older_write, &fields, key));
    let (mut today, mut older) = (Vec::new(), Vec::new());
    // which is first changes from round to round; the first two rounds warm up and are not kept
    for round in 0..rounds + 2 {
        let mut sides: [(Writer, &mut Vec<f64>); 2] = [(library::write, &mut today), (older_write, &mut older)];
        if round % 2 == 1 {
            sides.reverse();
        }
        for (write, times) in sides {
            let took = time_of(write, &fields, key);
            if round > 1 {
                times.push(took);
            }
        }
    }
    let (t, o) = (median(today), median(older));
    println!("{name:<52} {t:>9.0} {o:>9.0} {:>7.2}", t / o);
}

fn main() {
    let rounds = std::env::args().nth(1).map_or(31, |n| n.parse().expect("a number of rounds"));
    println!("{:<52} {:>9} {:>9} {:>7}", "nanoseconds a call, median of rounds", "this tree", "older", "ratio");
    let plain = |code| Fields { code, identifier: 9, ..Fields::default() };
    row(rounds, "write a Key Reply with its digest", &key_reply(), &[]);
    row(rounds, "write an Authorization Reply, AUTH-Key of 256", &authorization_reply(), &[5; 256]);
    row(rounds, "write a Key Request with its digest", &Fields { ak_number: 7, said: 8_800, ..plain(7) }, &[]);
    row(rounds, "write a Key Reject with its digest", &Fields { ak_number: 7, said: 8_800, error: 4, ..plain(9) }, &[]);
    row(rounds, "write an Authorization Request", &Fields { said: 8_800, ..plain(4) }, &[]);
}
