//! Frames sealed here: the questions and their order, the counts, what 13 does, and both kinds of call crosswise.

use crate::both::{Both, ADDRESS, DOWN, SAID, UP};
use crate::cipher::{opened, sealed};
use crate::digest::KEY;
use crate::frame::SHORT_FRAME;
use crate::replay::replay;

/// SAIDs of suite 256, of suite 768, and one that is nobody's.
const DES: u64 = SAID;
const AES: u64 = SAID + 1;
const NONE: u64 = SAID + 2;

fn frame(n: usize) -> Vec<u8> {
    (0..n).map(|i| (i * 5 + 3) as u8).collect()
}

fn counts(b: &Both) -> [u64; 4] {
    [b.head.taken, b.head.refused, b.modem.taken, b.modem.refused]
}

#[test]
fn each_way() {
    let mut b = Both::operational();
    for (done, n) in [12, 13, 27, 28, 29, 44, 1_518].into_iter().enumerate() {
        let plain = frame(n);
        let (number, there) = b.head.seal_frame(ADDRESS, AES, &plain).unwrap();
        assert_eq!((number, there == plain), (0, n == 12));
        assert_eq!(b.modem.open_frame(1, ADDRESS, AES, 0, &UP, &there), Ok(plain.clone()));
        let (number, back) = b.modem.seal_frame(AES, &plain).unwrap();
        assert_eq!((number, back == plain), (1, n == 12));
        assert_eq!(b.head.open_frame(0, ADDRESS, AES, 1, &DOWN, &back), Ok(plain.clone()));
        assert!(n == 12 || there != back, "the older and the newer key seal alike");
        let taken = done as u64 + 1;
        assert_eq!(counts(&b), [taken, 0, taken, 0]);
    }
}

/// 1, 2, 15, 10, then 13 or 14: where two are not met, the earlier one gives the number.
#[test]
fn questions_in_order() {
    let mut b = Both::operational();
    let (short, whole) = (frame(11), frame(12));
    assert_eq!(b.head.seal_frame(1 << 48, NONE, &short), Err(1));
    assert_eq!(b.head.seal_frame(ADDRESS, 16_384, &short), Err(1));
    assert_eq!(b.modem.seal_frame(16_384, &short), Err(1));
    for frame in [&[][..], &short] {
        assert_eq!(b.head.seal_frame(ADDRESS, AES, frame), Err(SHORT_FRAME));
        assert_eq!(b.head.seal_frame(ADDRESS, DES, frame), Err(SHORT_FRAME));
        assert_eq!(b.modem.seal_frame(NONE, frame), Err(SHORT_FRAME));
        assert_eq!(b.head.open_frame(0, ADDRESS, NONE, 0, &DOWN, frame), Err((SHORT_FRAME, vec![])));
        assert_eq!(b.modem.open_frame(1, ADDRESS, DES, 9, &UP, frame), Err((SHORT_FRAME, vec![])));
        for key in [&[][..], &[1; KEY - 1], &[1; KEY + 1]] {
            assert_eq!(b.head.open_frame(0, ADDRESS, AES, 0, key, frame), Err((2, vec![])));
            assert_eq!(b.modem.open_frame(1, ADDRESS, AES, 0, key, frame), Err((2, vec![])));
        }
    }
    for (direction, address, said, number) in [(1, ADDRESS, AES, 0), (0, 1 << 48, AES, 0), (0, ADDRESS, 16_384, 0), (0, ADDRESS, AES, 16)] {
        assert_eq!(b.head.open_frame(direction, address, said, number, &[], &short), Err((1, vec![])));
        assert_eq!(b.modem.open_frame(1 - direction, address, said, number, &[], &short), Err((1, vec![])));
    }
    assert_eq!(counts(&b), [0; 4]);
    for said in [DES, NONE] {
        assert_eq!(b.head.seal_frame(ADDRESS, said, &whole), Err(10));
        assert_eq!(b.modem.seal_frame(said, &whole), Err(10));
        // 9 is no key's number: 10 comes before 13
        assert_eq!(b.head.open_frame(0, ADDRESS, said, 9, &DOWN, &whole), Err((10, vec![])));
        assert_eq!(b.modem.open_frame(1, ADDRESS, said, 9, &UP, &whole), Err((10, vec![])));
    }
    assert_eq!(b.head.seal_frame(ADDRESS + 1, AES, &whole), Err(10));
    assert_eq!(b.modem.open_frame(1, ADDRESS + 1, AES, 0, &UP, &whole), Err((10, vec![])));
    assert_eq!(counts(&b), [0, 2, 0, 3]);
}

/// 13 does what it does where keys are given, and 14 is answered until the pair comes again.
#[test]
fn no_key() {
    let (mut b, mut other) = (Both::operational(), Both::operational());
    let plain = frame(60);
    let Err((13, invalid)) = b.head.open_frame(0, ADDRESS, AES, 9, &DOWN, &plain) else { panic!("not 13") };
    assert_eq!(other.head.open(0, ADDRESS, AES, 9, &DOWN), Err((13, invalid.clone())));
    assert_eq!((invalid.len(), invalid[0]), (40, 11));
    let Err((13, request)) = b.modem.open_frame(1, ADDRESS, AES, 9, &UP, &plain) else { panic!("not 13") };
    assert_eq!(other.modem.open(1, ADDRESS, AES, 9, &UP), Err((13, request.clone())));
    assert_eq!((request.len(), request[0]), (36, 7));
    assert!(b.head == other.head && b.modem == other.modem);
    assert_eq!(b.modem.seal_frame(AES, &plain), Err(14));
    assert_eq!(b.modem.seal_frame(AES, &frame(11)), Err(SHORT_FRAME));
    assert_eq!(b.modem.open_frame(1, ADDRESS, AES, 0, &UP, &plain), Err((13, vec![])));
    assert_eq!(counts(&b), [0, 1, 0, 2]);
    b.settle(vec![request]);
    assert!(b.modem.seal_frame(AES, &plain).is_ok());
}

/// A newer key that has run out seals nothing; suite 256 without a key is 10 and not 14.
#[test]
fn run_out() {
    let mut b = Both::operational();
    b.modem.clock(1_800, &UP).unwrap();
    assert_eq!(b.modem.seal_frame(AES, &frame(12)), Err(14));
    assert_eq!(b.modem.seal_frame(DES, &frame(12)), Err(10));
    let mut b = Both::new();
    b.authorized();
    assert_eq!((b.modem.seal_frame(AES, &frame(12)), b.modem.seal_frame(DES, &frame(12))), (Err(14), Err(10)));
}

/// One end may have a cipher block: the octets are those that the given key and vector seal and open.
#[test]
fn crosswise() {
    let mut b = Both::operational();
    let (plain, whole) = (frame(61), |octets: Vec<u8>| <[u8; 16]>::try_from(octets).unwrap());
    let (number, tek, vector) = b.head.seal(ADDRESS, AES).unwrap();
    let there = sealed(&whole(tek), &whole(vector), &plain);
    assert_eq!(b.head.seal_frame(ADDRESS, AES, &plain), Ok((number, there.clone())));
    assert_eq!(b.modem.open_frame(1, ADDRESS, AES, number.into(), &UP, &there), Ok(plain.clone()));
    let (number, there) = b.modem.seal_frame(AES, &plain).unwrap();
    let (tek, vector) = b.head.open(0, ADDRESS, AES, number.into(), &DOWN).unwrap();
    assert_eq!(opened(&whole(tek), &whole(vector), &there), plain);
}

#[test]
fn counts_stay_at_their_end() {
    let mut b = Both::operational();
    (b.head.taken, b.head.refused, b.modem.taken, b.modem.refused) = (u64::MAX, u64::MAX, u64::MAX, u64::MAX);
    assert!(b.head.open_frame(0, ADDRESS, AES, 0, &DOWN, &frame(12)).is_ok());
    assert!(b.head.open_frame(0, ADDRESS, AES, 9, &DOWN, &frame(12)).is_err());
    assert!(b.modem.open_frame(1, ADDRESS, AES, 0, &UP, &frame(12)).is_ok());
    assert!(b.modem.open_frame(1, ADDRESS, DES, 0, &UP, &frame(12)).is_err());
    assert_eq!(counts(&b), [u64::MAX; 4]);
}

const START: &str = "life,grace,aklife,akgrace,authorize,reauthorize,operational,rekey,reject\n\
    1800,300,86400,300,10,10,10,10,60\naddress,said\n5,8800\n";

/// The lines of the text form, at a head-end whose keys are those of I.10's second row.
#[test]
fn lines() {
    let key = "01".repeat(20);
    let tek = "e6600fd8852ef5abe6600fd8852ef5ab810e528e1c5fda1a810e528e1c5fda1a";
    let (head, plain, there) =
        ("010203040506f1f2f3f4f5f6", "000102030405060708090a0b0c0d0e91d2d19f", "9dd1674bba61101b56756474364f101d44d473");
    let calls = format!(
        "list,5,1,{tek}{tek}{tek}{tek},8800,256,8801,768\nsealdownframe,5,8801,{head}{plain}\nopenupframe,0,5,8801,1,{key},{head}{there}\n\
         openupframe,0,5,8801,0,{key},{head}\nsealdownframe,5,8800,{head}\nsealdownframe,5,8801,{plain}\nsealdownframe,5,8801,0102\n\
         openupframe,0,5,8801,2,{key},{head}\nopenupframe,0,5,8801,2,{key}00,00\nopenupframe,256,5,8801,2,{key},00\n\
         openupframe,0,5,8801,2,{key},\nopendownframe,1,5,8801,0,{key},{head}\nopendownframe,0,5,8801,0,{key},{head}\nsealupframe,8801,{head}\n\
         sealupframe,65537,\nsealupframe,8801,\nsealupframe,8801\nsealupframe,8801,{head},\nsealupframe,8801,0\nsealdownframe,5,8801\n\
         openupframe,0,5,8801,0,{key}\nopendownframe,1,5,8801,0,{key},0A\nopendownframe,1,5,8801,,{key},{head}\n"
    );
    let wanted = format!(
        "0\n0,0,{head}{there}\n0,{head}{plain}\n0,{head}\n10\n0,0,{}\n15\n13,\n2\n1\n15\n10\n1\n10\n1\n15\n?\n?\n?\n?\n?\n?\n?\nframes,2,1,0,1\n",
        sealed_here(plain)
    );
    assert_eq!(replay(format!("{START}{calls}").as_bytes()), wanted);
}

fn sealed_here(plain: &str) -> String {
    let octets = |text: &str| (0..text.len() / 2).map(|i| u8::from_str_radix(&text[2 * i..2 * i + 2], 16).unwrap()).collect::<Vec<u8>>();
    let (tek, vector) = (octets("e6600fd8852ef5abe6600fd8852ef5ab"), octets("810e528e1c5fda1a810e528e1c5fda1a"));
    let there = sealed(&tek.try_into().unwrap(), &vector.try_into().unwrap(), &octets(plain));
    there.iter().map(|o| format!("{o:02x}")).collect()
}

/// A line of 16,384 characters holds a frame of 8,000 octets and more; one more character is no call.
#[test]
fn longest_line() {
    let line = format!("sealupframe,8801,{}", "0".repeat(16_366));
    let at_most = format!("{}0", line.replace(",8801,", ",08801,"));
    assert_eq!((line.len(), at_most.len()), (16_383, 16_385));
    assert_eq!(replay(format!("{START}{line}\n{at_most}\n").as_bytes()), "10\n?\nframes,0,0,0,0\n");
    let full = format!("sealupframe,08801,{}", "0".repeat(16_366));
    assert_eq!(full.len(), 16_384);
    assert_eq!(replay(format!("{START}{full}\n").as_bytes()), "10\nframes,0,0,0,0\n");
}
