//! Messages that the library's writer wrote, with the values that each of them carries, for `dissect`: `written COUNT SEED`.
//! A line has the message's octets and then, by the names of Wireshark's fields (without `docsis_bpkm.`), the values in the order in which
//! the message has them.

mod engine;
mod library;
mod random;
mod tally;

use curlewreel_outside::digest::{hmac, KEY};
use curlewreel_outside::message::{Descriptor, Fields, Params};
use random::Random;

fn hex(octets: &[u8]) -> String {
    octets.iter().map(|o| format!("{o:02x}")).collect()
}

fn params(r: &mut Random, number: u8, life: u32) -> Params {
    let width = r.pick(&[8, 16]);
    Params { number, life, tek: r.octets(width), vector: r.octets(width) }
}

/// Fields within their limits, all that the code carries.
fn fields(r: &mut Random, code: u8) -> Fields {
    let mut f = Fields { code, ..Fields::default() };
    let carries = |codes: &[u8]| codes.contains(&code);
    if !carries(&[11, 12]) {
        f.identifier = r.next() as u8;
    }
    if carries(&[5, 7, 8, 9, 11]) {
        f.ak_number = r.below(16) as u8;
    }
    if carries(&[4, 7, 8, 9, 11]) {
        f.said = r.below(16_384) as u16;
    }
    if carries(&[6, 9, 10, 11]) {
        f.error = r.below(7) as u8;
    }
    if code == 5 {
        f.life = 1 + r.below(12_096_000) as u32;
        let first = r.below(16_000) as u16;
        for i in 0..1 + r.below(4) as u16 {
            f.descriptors.push(Descriptor { said: first + i, sa_type: r.below(3) as u8, suite: r.pick(&[256, 768]) });
        }
    }
    if code == 8 {
        let (number, life) = (r.below(16) as u8, 1 + r.below(300_000) as u32);
        f.older = params(r, number, life);
        let longer = life + 1 + r.below(300_000) as u32;
        f.newer = params(r, (number + 1) % 16, longer);
    }
    f
}

fn line(name: &str, values: &[String]) -> String {
    format!(" {name}={}", values.join(","))
}

/// Type and length of each attribute in the standard order, a compound before what it holds.
fn attributes(f: &Fields, key: &[u8]) -> Vec<(u8, usize)> {
    let of_key = |p: &Params| [(13, 17 + p.tek.len() + p.vector.len()), (8, p.tek.len()), (9, 4), (10, 1), (15, p.vector.len())];
    match f.code {
        4 => vec![(12, 2)],
        5 => [vec![(7, key.len()), (9, 4), (10, 1)], [(23, 14), (12, 2), (24, 1), (20, 2)].repeat(f.descriptors.len())].concat(),
        6 | 10 => vec![(16, 1)],
        7 => vec![(10, 1), (12, 2), (11, 20)],
        8 => [&[(10, 1), (12, 2)][..], &of_key(&f.older), &of_key(&f.newer), &[(11, 20)]].concat(),
        9 | 11 => vec![(10, 1), (12, 2), (16, 1), (11, 20)],
        _ => vec![],
    }
}

/// The values of each field of Wireshark's, none for those that the code does not carry.
fn values(f: &Fields, key: &[u8], write_key: &[u8], octets: &[u8]) -> String {
    let (with_error, with_digest) = (matches!(f.code, 6 | 9 | 10 | 11), matches!(f.code, 7 | 8 | 9 | 11));
    let pair: &[&Params] = if f.code == 8 { &[&f.older, &f.newer] } else { &[] };
    let mut numbers: Vec<String> = if matches!(f.code, 5 | 7 | 8 | 9 | 11) { vec![f.ak_number.to_string()] } else { vec![] };
    numbers.extend(pair.iter().map(|p| p.number.to_string()));
    let mut saids: Vec<String> = if matches!(f.code, 4 | 7 | 8 | 9 | 11) { vec![f.said.to_string()] } else { vec![] };
    saids.extend(f.descriptors.iter().map(|d| d.said.to_string()));
    let mut lives: Vec<String> = if f.code == 5 { vec![f.life.to_string()] } else { vec![] };
    lives.extend(pair.iter().map(|p| p.life.to_string()));
    let some = |is: bool, value: String| if is { vec![value] } else { vec![] };
    let each = |of: &dyn Fn(&Params) -> String| pair.iter().map(|p| of(p)).collect::<Vec<_>>();
    let described = |of: &dyn Fn(&Descriptor) -> String| f.descriptors.iter().map(of).collect::<Vec<_>>();
    // over what stands before the digest's attribute, which is the last and has 23 octets
    let digest = hex(&hmac(write_key, &octets[..octets.len().saturating_sub(23)]));
    let (types, lengths): (Vec<_>, Vec<_>) = attributes(f, key).iter().map(|(t, n)| (t.to_string(), n.to_string())).unzip();
    [
        line("code", &[f.code.to_string()]),
        line("ident", &[f.identifier.to_string()]),
        line("length", &[(octets.len() - 4).to_string()]),
        line("attr.type", &types),
        line("attr.length", &lengths),
        line("attr.auth_key", &some(f.code == 5, hex(key))),
        line("attr.tek", &each(&|p| hex(&p.tek))),
        line("attr.keylife", &lives),
        line("attr.keyseq", &numbers),
        line("attr.hmacdigest", &some(with_digest, digest)),
        line("attr.said", &saids),
        line("attr.cbciv", &each(&|p| hex(&p.vector))),
        line("attr.errcode", &some(with_error, f.error.to_string())),
        line("attr.cryptosuite", &described(&|d| d.suite.to_string())),
        line("attr.satype", &described(&|d| d.sa_type.to_string())),
    ]
    .concat()
}

fn main() {
    let mut args = std::env::args().skip(1).map(|a| a.parse::<u64>().expect("a number"));
    let (count, seed) = (args.next().unwrap_or(90), args.next().unwrap_or(1));
    let mut r = Random(seed);
    for i in 0..count {
        let f = fields(&mut r, 4 + (i % 9) as u8);
        // Wireshark shows an AUTH-Key of one of three lengths alone
        let any = 1 + r.below(256) as usize;
        let n = r.pick(&[96, 128, 256, any]);
        let (key, write_key) = (r.octets(n), r.octets(KEY));
        let mut out = [0; 400];
        let w = library::write(&library::laid_out(&f), &key, &write_key, &mut out);
        tally::check(w.number == 0, || format!("fields within their limits were not written: {f:?}: {}", w.number));
        println!("{}{}", hex(&out[..w.count]), values(&f, &key, &write_key, &out[..w.count]));
    }
}
