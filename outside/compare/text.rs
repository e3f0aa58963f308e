//! Lines that are no calls, lines that only just are, and set-ups that are wrong in form or out of their limits.
// each program uses a part of them
#![allow(dead_code)]

use crate::random::Random;

/// The longest line that may be a call.
const LINE: usize = 16_384;

/// In the lines below a `K` stands for a message key, and an `F` for a frame of 13 octets.
const KEY: &str = "2b2b2b2b2b2b2b2b2b2b2b2b2b2b2b2b2b2b2b2b";
const FRAME: &str = "0102030405060708090a0b0c0d";

/// Lines that are no calls, whatever came before.
const NO_CALLS: [&str; 65] = [
    "",
    " ",
    ",",
    "?",
    "frames,0,0,0,0",
    "life,grace",
    "Established",
    "established,",
    " established",
    "established\r",
    "established,K",
    "reauth,1",
    "reauth ",
    "reauth,K",
    "clock,5,K",
    "clock,,,K",
    "clock,5,0,K",
    "clock,5,,K,",
    "clock,-5,,K",
    "clock,+5,,K",
    "clock, 5,,K",
    "clock,0x5,,K",
    "clock,5,,K2",
    "clock,5,,0G",
    "sealup",
    "sealup,",
    "sealup,1,1",
    "sealup,1\r",
    "sealup,000000000000000000001",
    "sealup,18446744073709551616",
    "sealup,99999999999999999999",
    "sealdown,1",
    "sealdown,1,1,K",
    "openup,0,1,1,K",
    "openup,0,1,1,1",
    "opendown,1,1,1,1,K,",
    "opendown,1,1,1,1,2",
    "down,K,K",
    "down,1,0600000410000101",
    "down,K,0600000410000101",
    "down,K,K,060",
    "down,K,K,0g",
    "down,K,K,0A",
    "down,K,K,06 00",
    "down,K2,K,0600000410000101",
    "up,1,K,K,07",
    "up,1,1,07,0c000000",
    "up,1,K,K2,07,0c000000",
    "sealupframe",
    "sealupframe,1",
    "sealupframe,,F",
    "sealupframe,1,F0",
    "sealupframe,1,F,",
    "sealupframe,1,0A",
    "sealupframe,F",
    "Sealupframe,1,F",
    "sealdownframe,1,1",
    "sealdownframe,1,F",
    "sealdownframe,1,1,1,F",
    "sealdownframe,18446744073709551616,1,F",
    "openupframe,0,1,1,1,K",
    "openupframe,0,1,1,K,F",
    "openupframe,0,1,1,1,K2,F",
    "opendownframe,1,1,1,1,K,F,",
    "opendownframe,1,1,1,1,K,F0",
];

/// Calls with a number at the end of what the text or C can hold; with a frame below 12 octets too, which is asked behind it.
const FAR_NUMBERS: [&str; 28] = [
    "sealup,18446744073709551615",
    "sealup,65536",
    "sealup,65537",
    "sealup,00000000000000000001",
    "sealdown,18446744073709551615,1",
    "sealdown,281474976710656,1",
    "sealdown,1,65537",
    "opendown,257,1,1,1,K",
    "opendown,1,1,65537,1,K",
    "opendown,1,1,1,256,K",
    "openup,256,1,1,1,K",
    "openup,0,1,1,257,K",
    "openup,0,18446744073709551615,1,1,K",
    "clock,18446744073709551615,,K",
    "clock,1000000000001,,K",
    "up,281474976710656,K,K,07,0c000000",
    "sealupframe,65537,F",
    "sealupframe,18446744073709551615,",
    "sealdownframe,281474976710656,1,F",
    "sealdownframe,1,65537,00",
    "openupframe,256,1,1,1,K,F",
    "openupframe,0,281474976710656,1,1,K,",
    "openupframe,0,1,65537,1,K,F",
    "openupframe,0,1,1,257,K,F",
    "opendownframe,257,1,1,1,K,F",
    "opendownframe,1,18446744073709551615,1,1,K,F",
    "opendownframe,1,1,65537,1,K,00",
    "opendownframe,1,1,1,256,K,F",
];

/// Calls with a message key of another length, some with a number out of its limits, which comes first.
const OTHER_KEYS: [&str; 22] = [
    "clock,5,,",
    "clock,1000000000001,,K00",
    "up,1,,K,07,0c000000",
    "up,1,K,,07,0c000000",
    "up,1,K00,K,07,0c000000",
    "up,1,K,KK,,0c000000",
    "up,281474976710656,,,07,0c000000",
    "up,1,K00,K,07,07",
    "down,,K,0600000410000101",
    "down,K,,0600000410000101",
    "down,KKKK,K,0600000410000101",
    "down,00,00,",
    "openup,0,1,1,1,",
    "openup,0,1,1,16,K00",
    "opendown,1,1,1,1,K00",
    "opendown,0,1,1,1,",
    "openupframe,0,1,1,1,,F",
    "openupframe,0,1,1,1,K00,",
    "openupframe,0,1,1,16,K00,F",
    "opendownframe,1,1,1,1,K00,F",
    "opendownframe,1,1,1,1,,00",
    "opendownframe,0,1,1,1,,F",
];

/// The line with its keys and its frame.
fn keyed(line: &str) -> String {
    line.replace('K', KEY).replace('F', FRAME)
}

/// A line of this length: an Authentication Information with padding, or a frame.
fn long(r: &mut Random, length: usize) -> String {
    // an even number of hexadecimal digits behind either
    let starts = match r.below(4) {
        0 => ["sealupframe,1,", "sealupframe,01,"],
        1 => ["openupframe,0,01,1,1,K,", "openupframe,0,1,1,1,K,"],
        _ => ["up,1,K,K,07,0c000000", "up,01,K,K,07,0c000000"],
    };
    let start = keyed(starts[length % 2]);
    let padding = "0".repeat(length - start.len());
    start + &padding
}

/// A listing of an address that is listed nowhere, wrong in its pairs or its flag.
fn listing(r: &mut Random) -> String {
    let fresh = "5a".repeat(64);
    match r.below(9) {
        0 => format!("list,99,1,{fresh}"),
        1 => format!("list,99,1,{fresh},"),
        2 => format!("list,99,1,{fresh},9001"),
        3 => format!("list,99,1,{},9001,256,9002", "5a".repeat(128)),
        4 => format!("list,99,1,{},9001,256,9002,256,9003,256,9004,256,9005,256", "5a".repeat(320)),
        5 => format!("list,99,1,{fresh},65536,256"),
        6 => format!("list,99,1,{fresh},9001,65792"),
        7 => format!("list,99,2,{fresh},9001,256"),
        _ => format!("list,281474976710656,1,{fresh},9001,256"),
    }
}

/// A line that is no call, or that only just is one.
pub fn odd_line(r: &mut Random) -> String {
    match r.below(20) {
        0 => long(r, LINE),
        1 => long(r, LINE + 1),
        2 => {
            let more = r.below(20_000) as usize;
            long(r, LINE + 1 + more)
        }
        3..=6 => listing(r),
        7..=9 => keyed(r.pick(&FAR_NUMBERS)),
        10..=12 => keyed(r.pick(&OTHER_KEYS)),
        _ => keyed(r.pick(&NO_CALLS)),
    }
}

/// A good line with one character left out, put in or exchanged.
pub fn spoilt(r: &mut Random, line: &str) -> String {
    let mut octets = line.as_bytes().to_vec();
    let (at, c) = (r.below(octets.len() as u64) as usize, r.pick(b",0a9Ag- \r\x00\x7f"));
    match r.below(3) {
        0 => octets[at] = c,
        1 => octets.insert(at, c),
        _ => {
            octets.remove(at);
        }
    }
    String::from_utf8(octets).expect("a line has ASCII characters alone")
}

/// Four lines of a set-up, made wrong in form or out of its limits in one of eleven ways; now and then it stays right.
pub fn wrong_start(r: &mut Random, way: u64, start: &str) -> String {
    let mut lines: Vec<String> = start.lines().map(str::to_string).collect();
    let mut v: Vec<String> = lines[1].split(',').map(str::to_string).collect();
    let far = ["0", "1801", "604802", "299", "86399", "6048001", "601", "18446744073709551615"];
    let no_number = ["", "x", "-1", " 10", "18446744073709551616", "000000000000000000300"];
    match way % 11 {
        0 => lines[0] = spoilt(r, &lines[0]),
        2 => lines[2] = spoilt(r, "address,said"),
        3 => lines[3] = r.pick(&["281474976710656,1", "5,16384", "5,65536", "5,65537", "18446744073709551615,1"]).to_string(),
        4 => lines.swap(0, 2),
        5 => lines.truncate(r.below(4) as usize),
        6 => v.truncate(8),
        7 => v.push("10".to_string()),
        8 => lines[3] = r.pick(&["5", "5,1,1", ",1", "5,", "5;1", "18446744073709551616,1"]).to_string(),
        9 => v[r.below(9) as usize] = r.pick(&no_number).to_string(),
        _ => v[r.below(9) as usize] = r.pick(&far).to_string(),
    }
    if lines.len() == 4 && lines[1].starts_with(|c: char| c.is_ascii_digit()) {
        lines[1] = v.join(",");
    }
    lines.join("\n") + "\n"
}
