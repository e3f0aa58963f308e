//! Answers to a modem's request that no head-end of these lists gives: Key Rejects, other SAIDs and suites, any keys and lives.
// each program uses a part of it
#![allow(dead_code)]

use crate::random::Random;
use curlewreel_outside::message::{read, write, Descriptor, End, Fields, Params};

fn params(r: &mut Random, number: u8, life: u32, width: usize) -> Params {
    Params { number, life, tek: r.octets(width), vector: r.octets(width) }
}

/// To a Key Request: mostly of its SAID.
fn to_key_request(r: &mut Random, asked: &Fields) -> Fields {
    let Fields { identifier, ak_number, said, .. } = *asked;
    let named = Fields { identifier, ak_number, said, error: r.below(7) as u8, ..Fields::default() };
    match r.below(6) {
        0 => Fields { code: 9, ..named },
        1 => Fields { code: 11, identifier: 0, ..named },
        2 => Fields { code: 10, ak_number: 0, said: 0, identifier: r.pick(&[0, identifier]), ..named },
        _ => {
            let (number, width) = (r.below(16) as u8, r.pick(&[8, 16]));
            let most = r.pick(&[5, 2_000, 302_400]);
            let older = 1 + r.below(most) as u32;
            let newer = older + 1 + r.below(most) as u32;
            let (older, newer) = (params(r, number, older, width), params(r, (number + 1) % 16, newer.min(604_800), width));
            Fields { code: 8, error: 0, older, newer, ..named }
        }
    }
}

/// To an Authorization Request: mostly a Reply, with some of these SAIDs and others.
fn to_authorization_request(r: &mut Random, asked: &Fields, saids: &[u64]) -> Fields {
    let plain = Fields { identifier: asked.identifier, ..Fields::default() };
    if r.one_in(6) {
        let error = if r.one_in(6) { 6 } else { 1 };
        return Fields { code: 6, error, ..plain };
    }
    let mut descriptors: Vec<Descriptor> = Vec::new();
    for _ in 0..1 + r.below(4) {
        let said = if saids.is_empty() || r.one_in(4) { r.below(200) } else { r.pick(&saids[..saids.len().min(4)]) } as u16;
        if descriptors.iter().all(|d| d.said != said) {
            descriptors.push(Descriptor { said, sa_type: r.below(3) as u8, suite: r.pick(&[256, 768]) });
        }
    }
    let most = r.pick(&[10, 1_000, 100_000, 12_096_000]);
    Fields { code: 5, ak_number: r.below(16) as u8, life: 1 + r.below(most) as u32, descriptors, ..plain }
}

/// An answer to a message of the modem's, with a digest of any key.
pub fn answer(r: &mut Random, request: &[u8], saids: &[u64]) -> Vec<u8> {
    let asked = read(End::HeadEnd, request).map(|m| m.fields).unwrap_or_default();
    let fields = match asked.code {
        7 => to_key_request(r, &asked),
        4 => to_authorization_request(r, &asked, saids),
        _ => Fields { code: 10, error: r.below(7) as u8, ..Fields::default() },
    };
    let n = 1 + r.below(20) as usize;
    let (auth_key, write_key) = (r.octets(n), r.octets(20));
    write(&fields, &auth_key, &write_key, 400).expect("a message within the limits")
}
