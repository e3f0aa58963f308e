//! Tests of the digest: FIPS 180's messages, RFC 2202's cases, and what appendix I of document 000 prints.
use super::*;
use crate::message::{read, write, End};

fn hex(octets: &[u8]) -> String {
    octets.iter().map(|o| format!("{o:02x}")).collect()
}

fn octets(text: &str) -> Vec<u8> {
    (0..text.len() / 2).map(|i| u8::from_str_radix(&text[2 * i..2 * i + 2], 16).expect("hexadecimal")).collect()
}

const AUTH_KEY: &str = "4e8527ffc412728e6184dec920b6e064f0bc0b75";

/// I.5, with the octets that its print has lost.
const KEY_REQUEST: &str = "077300d00500ad01000c3030303030303132333435360200032553410300060000ca01040104008c30818902818100e0e06c8dbeb28b\
    c9f3a63da112eaf799f73d3efaa3b1e2429571b571d2327ada1040e25b0974690878463771343e69a7376df8701daaa534b033a343ac4deb415e0a8afda60a4b097f5a\
    18f29ec222a66b9a697322d537c963b088f5605d991633545330ed35de0c873b54ba59223eb279909661dbf34a37184c7fa8caeed63102030100010a0001070c000222\
    600b001486b833b7489c4ba1516744d7a6e6ca2133f5229e";

/// I.6.
const KEY_REPLY: &str = "087300680a0001070c000222600d0021080008b64d548c3f6b25690900040000a8c00a0001020f0008810e528e1c5fda1a0d0021080008\
    5ebd03aa5ed5e294090004000151800a0001030f0008253567c309218c2c0b0014a5e33325ea72f8501c2ab665456bccde8b4f2202";

#[test]
fn sums() {
    let of = |message: &[u8]| hex(&sha1(message));
    assert_eq!(of(b""), "da39a3ee5e6b4b0d3255bfef95601890afd80709");
    assert_eq!(of(b"abc"), "a9993e364706816aba3e25717850c26c9cd0d89d");
    let of_448_bits = b"abcdbcdecdefdefgefghfghighijhijkijkljklmklmnlmnomnopnopq";
    assert_eq!(of(of_448_bits), "84983e441c3bd26ebaae4aa1f95129e5e54670f1");
    assert_eq!(of(&vec![b'a'; 1_000_000]), "34aa973cd4c4daa4f61eeb2bdbad27316534016f");
}

/// Where the padding begins a block of its own, and where it does not: sums of one sum for each length, so that each counts.
#[test]
fn ends_of_blocks() {
    let all: Vec<u8> = (0..200).flat_map(|n| sha1(&vec![n as u8; n])).collect();
    assert_eq!(hex(&sha1(&all)), "3945425e01de26456751bc7df82ff27809984d08");
}

#[test]
fn rfc_2202() {
    let cases: [(&[u8], &[u8], &str); 7] = [
        (&[0x0b; 20], b"Hi There", "b617318655057264e28bc0b6fb378c8ef146be00"),
        (b"Jefe", b"what do ya want for nothing?", "effcdf6ae5eb2fa2d27416d5f184df9c259a7c79"),
        (&[0xaa; 20], &[0xdd; 50], "125d7342b9ac11cd91a39af48aa17b4f63f175d3"),
        (&(1..=25).collect::<Vec<u8>>(), &[0xcd; 50], "4c9007f4026250c6bc8414f9bf50c86c2d7235da"),
        (&[0x0c; 20], b"Test With Truncation", "4c1a03424b55e07fe7f27be1d58bb9324a9a5a04"),
        (&[0xaa; 80], b"Test Using Larger Than Block-Size Key - Hash Key First", "aa4ae5e15272d00e95705637ce8a3b55ed402112"),
        (
            &[0xaa; 80],
            b"Test Using Larger Than Block-Size Key and Larger Than One Block-Size Data",
            "e8e99d0f45237d786d6bbaa7965c7808bbff1a91",
        ),
    ];
    for (key, message, digest) in cases {
        assert_eq!(hex(&hmac(key, message)), digest);
    }
}

/// Zeros behind a key up to a block change nothing; a key above it is its own sum.
#[test]
fn lengths_of_keys() {
    let (key, message) = ([7; 19], [1, 2, 3]);
    let longer = |n: usize| [&key[..], &vec![0; n - 19]].concat();
    assert_eq!(hmac(&key, &message), hmac(&longer(64), &message));
    assert_ne!(hmac(&key, &message), hmac(&longer(65), &message));
    assert_eq!(hmac(&sha1(&longer(65)), &message), hmac(&longer(65), &message));
}

#[test]
fn message_keys() {
    assert_eq!(hex(&up_key(&octets(AUTH_KEY))), "feb9f1e246a76d7ca77b5eb09825fd0b57ca90c7");
    assert_eq!(hex(&down_key(&octets(AUTH_KEY))), "93d39d70c3b6f592c46bd3927646f4f1903a52fd");
}

#[test]
fn key_request_of_i_5() {
    let (m, key) = (octets(KEY_REQUEST), up_key(&octets(AUTH_KEY)));
    assert_eq!(m.len(), 212);
    assert_eq!(hex(&hmac(&key, &m[..189])), "86b833b7489c4ba1516744d7a6e6ca2133f5229e");
    let reading = read(End::HeadEnd, &m).unwrap();
    assert_eq!((reading.fields.identifier, reading.fields.ak_number, reading.fields.said), (115, 7, 8_800));
    assert_eq!(reading.digest, (192, 20));
    assert!(reading.holds(&m, &key));
    assert!(!reading.holds(&m, &down_key(&octets(AUTH_KEY))));
    // what it is not: without the header, with the attribute's own type and length, under the key of the other direction
    assert_eq!(hex(&hmac(&key, &m[4..189])), "87e51005014fcaa7a39880ae3e0d6e19a3a943d7");
    assert_eq!(hex(&hmac(&key, &m[..192])), "c992829d9b81b6999e139baa9e8b8a3da5e96a1d");
    assert_eq!(hex(&hmac(&down_key(&octets(AUTH_KEY)), &m[..189])), "371a6cb9503c041d2bb8f559e98ac59442d9f204");
}

#[test]
fn key_reply_of_i_6() {
    let (m, key) = (octets(KEY_REPLY), down_key(&octets(AUTH_KEY)));
    assert_eq!(m.len(), 108);
    assert_eq!(hex(&hmac(&key, &m[..85])), "a5e33325ea72f8501c2ab665456bccde8b4f2202");
    assert_eq!(hex(&hmac(&up_key(&octets(AUTH_KEY)), &m[..85])), "80cdd8409cbab7df3d21ce43c707fca537b675b1");
    let reading = read(End::Modem, &m).unwrap();
    assert!(reading.holds(&m, &key));
    // in the standard order: written again octet for octet
    assert_eq!(write(&reading.fields, &[], &key, 108), Ok(m));
}
