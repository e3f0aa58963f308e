//! Tests of the frame cipher: FIPS 197's vectors, the AES rows of document 000's I.10, and every length.
use super::*;
use crate::digest::sha1;

fn hex(octets: &[u8]) -> String {
    octets.iter().map(|o| format!("{o:02x}")).collect()
}

fn unhex(text: &str) -> Vec<u8> {
    (0..text.len() / 2).map(|i| u8::from_str_radix(&text[2 * i..2 * i + 2], 16).expect("hexadecimal")).collect()
}

fn block(text: &str) -> [u8; BLOCK] {
    unhex(text).try_into().expect("16 octets")
}

/// I.10's two keys and vectors: the octets of I.6, each written twice.
const KEY_1: &str = "0123456789abcdef0123456789abcdef";
const VECTOR_1: &str = "1234567890abcdef1234567890abcdef";
const KEY_2: &str = "e6600fd8852ef5abe6600fd8852ef5ab";
const VECTOR_2: &str = "810e528e1c5fda1a810e528e1c5fda1a";
const HEAD: &str = "010203040506f1f2f3f4f5f6";

#[test]
fn key_of_fips_197() {
    // A.1
    let cipher = Cipher::new(&block("2b7e151628aed2a6abf7158809cf4f3c"));
    assert_eq!(hex(&cipher.last_key()), "d014f9a8c9ee2589e13f0cc8b6630ca6");
}

#[test]
fn blocks_of_fips_197() {
    // appendix B, then C.1
    let rows = [
        ("2b7e151628aed2a6abf7158809cf4f3c", "3243f6a8885a308d313198a2e0370734", "3925841d02dc09fbdc118597196a0b32"),
        ("000102030405060708090a0b0c0d0e0f", "00112233445566778899aabbccddeeff", "69c4e0d86a7b0430d8cdb78070b4c55a"),
    ];
    for (key, plain, encrypted) in rows {
        let cipher = Cipher::new(&block(key));
        assert_eq!(hex(&octets(cipher.encrypt(words(&unhex(plain))))), encrypted);
        assert_eq!(hex(&octets(Inverse::new(&cipher).decrypt(words(&unhex(encrypted))))), plain);
    }
}

/// A payload behind 12 clear octets, each way.
fn check(key: &str, vector: &str, plain: &str, encrypted: &str) {
    let (key, vector) = (block(key), block(vector));
    let (frame, wanted) = (unhex(&format!("{HEAD}{plain}")), unhex(&format!("{HEAD}{encrypted}")));
    assert_eq!(hex(&sealed(&key, &vector, &frame)), hex(&wanted));
    assert_eq!(hex(&opened(&key, &vector, &wanted)), hex(&frame));
}

#[test]
fn rows_of_i_10() {
    check(KEY_1, VECTOR_1, "4e6f77206973207468652074696d6520", "7d51acd5b379ac2f8f46f31cafd791b4");
    check(KEY_2, VECTOR_2, "000102030405060708090a0b88416506", "5a79baca6a2d38991176e3119ff119c7");
    // 19 octets, and the residual row with its padding: the block before it is the vector, and the mask is its encryption
    check(KEY_2, VECTOR_2, "000102030405060708090a0b0c0d0e91d2d19f", "9dd1674bba61101b56756474364f101d44d473");
    check_cfb(KEY_2, "9dd1674bba61101b56756474364f101d", "d2d19f00000000000000000000000000", "44d473dd839cee464cff83b72796d655");
    // 7 octets, no whole block
    check(KEY_2, VECTOR_2, "00010288ee597e", "fc68a3556037dc");
    check_cfb(KEY_2, VECTOR_2, "00010288ee597e000000000000000000", "fc68a3556037dcd74c6e5c5e50d598b2");
    // CFB128 of a whole block: the forward cipher alone
    check_cfb(KEY_1, VECTOR_1, "4e6f77206973207468652074696d6520", "43bc0ad0fc8d93ff80e0bff141fc6708");
}

/// A block in CFB128: the vector's encryption is added.
fn check_cfb(key: &str, vector: &str, plain: &str, encrypted: &str) {
    let mask = Cipher::new(&block(key)).encrypt(words(&unhex(vector)));
    assert_eq!(hex(&octets(sum(mask, words(&unhex(plain))))), encrypted);
}

/// Octets of their own for each length.
fn some(n: usize, first: u8) -> Vec<u8> {
    (0..n).flat_map(|i| sha1(&[first, n as u8, (n >> 8) as u8, i as u8])).take(n).collect()
}

#[test]
fn every_length_is_given_back() {
    for n in (12..=200).chain([1_518, 2_000]) {
        let (tek, vector, frame) = (some(16, 1).try_into().unwrap(), some(16, 2 + n as u8).try_into().unwrap(), some(n, 3));
        let there = sealed(&tek, &vector, &frame);
        assert_eq!(there[..CLEAR], frame[..CLEAR]);
        assert_eq!(opened(&tek, &vector, &there), frame);
        // with one or two octets a mask may be zero
        assert!(n < CLEAR + 3 || there != frame, "{n} octets stay as they are");
        let (mut longer, mut behind) = (vec![0xee; n + 5], vec![0xee; n + 5]);
        seal(&tek, &vector, &frame, &mut longer);
        open(&tek, &vector, &there, &mut behind);
        assert!(longer[..n] == there && behind[..n] == frame && longer[n..] == [0xee; 5] && behind[n..] == [0xee; 5]);
    }
}

#[test]
fn twelve_octets_stay() {
    let frame = some(12, 9);
    assert_eq!(sealed(&[7; 16], &[8; 16], &frame), frame);
    assert_eq!(opened(&[7; 16], &[8; 16], &frame), frame);
}

/// What is left over hangs on the block before it and on no octet behind it.
#[test]
fn residual_hangs_on_the_block_before() {
    let (tek, vector, frame) = ([3; 16], [4; 16], some(12 + 32 + 9, 5));
    let there = sealed(&tek, &vector, &frame);
    let alone = sealed(&tek, &there[28..44].try_into().unwrap(), &[&frame[..12], &frame[44..]].concat());
    assert_eq!(alone[12..], there[44..]);
    for n in 44..=frame.len() {
        assert_eq!(sealed(&tek, &vector, &frame[..n]), there[..n]);
    }
}
