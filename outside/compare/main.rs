//! The reader, the writer and the frame decision of the static library against the outside implementation, on random
//! and damaged octets. Every octet of every lent slice is compared. `compare COUNT SEED`.

mod engine;
mod keys;
mod library;
mod make;
mod random;
mod seen;
mod skipped;
mod tally;

use curlewreel_outside::digest::KEY;
use curlewreel_outside::frame::{self, Pair};
use curlewreel_outside::message::{self, End, Fields, Params};
use random::Random;
use seen::Seen;
use tally::{check, Tally};

/// What a lent slice holds after `written` at its front.
fn over(lent: &[u8], written: &[u8]) -> Vec<u8> {
    let mut out = lent.to_vec();
    out[..written.len()].copy_from_slice(written);
    out
}

/// A key of 20 octets mostly: the right one, now and then another, or one of another length.
fn lent_key(r: &mut Random, right: &[u8]) -> Vec<u8> {
    match r.below(30) {
        0 => r.octets(KEY),
        1 => keys::of_other_length(r, right),
        _ => right.to_vec(),
    }
}

/// A message, and a key under which its digest holds mostly, also where it is unusual; then an octet may be changed or put behind it.
fn some_message(r: &mut Random) -> (Vec<u8>, Vec<u8>) {
    let (mut octets, key) = (make::message(r), r.octets(KEY));
    if r.one_in(4) && octets.len() >= 4 {
        make::put_skipped(r, &mut octets);
    }
    if !r.one_in(4) {
        make::digest_anew(&mut octets, &key);
    }
    match r.below(20) {
        0 => make::spoil_digest(r, &mut octets),
        1 => make::damage(r, &mut octets),
        2 | 3 => {
            let n = r.below(100) as usize;
            octets.extend(r.octets(n));
        }
        _ => {}
    }
    (octets, key)
}

/// What was read: the fields and places, whether the digest holds, and the AUTH-Key's octets.
struct Read {
    reading: message::Reading,
    holds: bool,
    auth_key: Vec<u8>,
}

fn read_one(r: &mut Random, octets: &[u8], key: &[u8], seen: &mut Seen) -> Option<Read> {
    let its_own = u8::from(!matches!(octets.first(), Some(4 | 7 | 12)));
    let end = match r.below(100) {
        0 => 2 + r.below(254) as u8,
        1..=9 => 1 - its_own,
        _ => its_own,
    };
    let room = if r.one_in(100) { r.below(120) as usize } else { library::FIELDS + r.below(3) as usize };
    let lent = r.octets(room);
    let mut fields = lent.clone();
    let number = library::read(end, octets, key, &mut fields);
    let expected = if end > 1 {
        Err(1)
    } else if key.len() != KEY || room < library::FIELDS {
        Err(2)
    } else {
        message::read_alone(if end == 0 { End::HeadEnd } else { End::Modem }, octets)
    };
    let (wanted, written) = match &expected {
        Ok(reading) => (0, library::laid_out_reading(reading, reading.holds(octets, key))),
        Err(n) => (*n, Vec::new()),
    };
    check(number == wanted && fields == over(&lent, &written), || {
        format!(
            "read, end {end}, key {key:02x?}, {octets:02x?}: library {number}, outside {wanted}\nlibrary {fields:02x?}\noutside {written:02x?}"
        )
    });
    seen.add_reading(wanted, key.len(), octets, &written);
    expected.ok().map(|reading| {
        let (at, length) = reading.auth_key;
        Read { holds: reading.holds(octets, key), auth_key: octets[at..at + length].to_vec(), reading }
    })
}

fn some_params(r: &mut Random, number: u8, life: u32) -> Params {
    let width = r.pick(&[8, 16]);
    Params { number, life, tek: r.octets(width), vector: r.octets(width) }
}

/// Fields as a caller may make them: some with what a code does not carry.
fn some_fields(r: &mut Random) -> Fields {
    let mut f = Fields { code: r.pick(&[4, 5, 6, 7, 8, 8, 9, 10, 11, 12, 3, 13]), ..Fields::default() };
    let carries = |codes: &[u8], r: &mut Random| codes.contains(&f.code) != r.one_in(40);
    let (ak, said, error) = (carries(&[5, 7, 8, 9, 11], r), carries(&[4, 7, 8, 9, 11], r), carries(&[6, 9, 10, 11], r));
    let (reply, key_reply, numbered) = (carries(&[5], r), carries(&[8], r), carries(&[4, 5, 6, 7, 8, 9, 10], r));
    f.identifier = if numbered { r.next() as u8 } else { 0 };
    f.ak_number = if ak { r.below(17) as u8 } else { 0 };
    f.said = if said { make::said(r) } else { 0 };
    f.error = if error { r.next() as u8 } else { 0 };
    if reply {
        f.life = make::life(r);
        for _ in 0..r.below(5) {
            let d = message::Descriptor { said: make::said(r), sa_type: r.below(10).min(3) as u8 % 4, suite: make::suite(r) };
            f.descriptors.push(d);
        }
    }
    if key_reply {
        let (number, a, b) = (r.below(17) as u8, make::life(r), make::life(r));
        f.older = some_params(r, number, a.min(b));
        let follows = if r.one_in(20) { r.below(17) as u8 } else { (number + 1) % 16 };
        f.newer = some_params(r, follows, a.max(b));
    }
    f
}

/// Writes at both; gives what was written.
fn write_one(r: &mut Random, fields: &[u8], auth_key: &[u8], key: &[u8], seen: &mut Seen) -> Option<Vec<u8>> {
    let room = if r.one_in(10) { r.below(400) as usize } else { 400 };
    let lent = r.octets(room);
    let mut out = lent.clone();
    let answer = library::write(fields, auth_key, key, &mut out);
    let mut whole = fields.to_vec();
    whole.resize(whole.len().max(library::WRITTEN), 0);
    let expected = match library::taken(&whole) {
        None => Err(1),
        Some(f) => match message::write(&f, auth_key, key, room) {
            Err(1) => Err(1),
            _ if fields.len() < library::WRITTEN => Err(2),
            other => other,
        },
    };
    let (wanted, written) = match &expected {
        Ok(octets) => (0, octets.clone()),
        Err(n) => (*n, Vec::new()),
    };
    check(answer.number == wanted && answer.count == written.len() && out == over(&lent, &written), || {
        format!("write, room {room}, AUTH-Key of {}, key {key:02x?}, fields {fields:02x?}: library {} {}, outside {wanted}\nlibrary {out:02x?}\noutside {written:02x?}",
            auth_key.len(), answer.number, answer.count)
    });
    seen.add_writing(wanted, key.len());
    expected.ok()
}

/// What was written is read back as it was given, and the digest holds under its key where there is one.
fn read_back(fields: &[u8], key: &[u8], octets: &[u8]) {
    let (end, mut back) = (u8::from(!matches!(octets[0], 4 | 7 | 12)), [0; library::FIELDS]);
    let number = library::read(end, octets, key, &mut back);
    let holds = u8::from(seen::WITH_DIGEST.contains(&usize::from(octets[0])));
    let same = back[..library::WRITTEN] == fields[..library::WRITTEN] && back[library::HOLDS] == holds;
    check(number == 0 && same, || format!("written {octets:02x?} under {key:02x?}, read back with {number}: {back:02x?}"));
}

fn write_some(r: &mut Random, seen: &mut Seen) {
    let mut fields = library::laid_out(&some_fields(r));
    if r.one_in(20) {
        let at = r.below(fields.len() as u64) as usize;
        fields[at] = r.next() as u8;
    }
    if r.one_in(20) {
        let n = r.below(120) as usize;
        fields.resize(n, 7);
    }
    let n = if r.one_in(10) { r.pick(&[0, 256, 257]) } else { 1 + r.below(200) as usize };
    let (auth_key, right) = (r.octets(n), r.octets(KEY));
    let key = lent_key(r, &right);
    if let Some(octets) = write_one(r, &fields, &auth_key, &key, seen) {
        read_back(&fields, &key, &octets);
    }
}

/// The numbers of a frame decision: mostly a pair within the limits, each number now and then at or past its own.
fn some_pair(r: &mut Random) -> Pair {
    let clock = if r.one_in(20) { r.pick(&[0, 1_000_000_000_000, 1_000_000_000_001, u64::MAX]) } else { r.below(1_000_000_000_000) };
    let deadline = |r: &mut Random| {
        if r.one_in(20) {
            r.pick(&[0, clock, clock.saturating_add(604_800), clock.saturating_add(604_801), u64::MAX])
        } else {
            clock.saturating_sub(300_000).saturating_add(r.below(904_801))
        }
    };
    let (a, b) = (deadline(r), deadline(r));
    let (older_deadline, newer_deadline) = if r.one_in(20) { (a, b) } else { (a.min(b), a.max(b)) };
    let older_number = r.below(16) as u8 + u8::from(r.one_in(30));
    let newer_number = if r.one_in(20) { r.below(17) as u8 } else { (older_number + 1) % 16 };
    let width = if r.one_in(30) { r.pick(&[0, 7, 9, 17, usize::MAX]) } else { r.pick(&[8, 16]) };
    let number = if r.one_in(10) { r.below(17) as u8 } else { r.pick(&[older_number, newer_number]) };
    Pair { clock, older_number, older_deadline, newer_number, newer_deadline, width, number }
}

fn frame_one(r: &mut Random, tally: &mut Tally) {
    let p = some_pair(r);
    let mut keys = r.octets(64);
    if p.width == 8 && !r.one_in(20) {
        for part in keys.chunks_mut(16) {
            part[8..].fill(0);
        }
    }
    if r.one_in(20) {
        let n = r.below(70) as usize;
        keys.resize(n, 0);
    }
    let room = |r: &mut Random| if r.one_in(20) { r.below(17) as usize } else { 16 + r.below(3) as usize };
    let (lent_tek, lent_vector) = (room(r), room(r));
    let (lent_tek, lent_vector) = (r.octets(lent_tek), r.octets(lent_vector));
    let (mut tek, mut vector) = (lent_tek.clone(), lent_vector.clone());
    let answer = library::frame(&p, &keys, &mut tek, &mut vector);
    let expected = frame::decide(&p, &keys, lent_tek.len(), lent_vector.len());
    let (wanted, written) = match &expected {
        Ok(pair) => (0, pair.clone()),
        Err(n) => (*n, (Vec::new(), Vec::new())),
    };
    check(answer == wanted && tek == over(&lent_tek, &written.0) && vector == over(&lent_vector, &written.1), || {
        format!("frame {p:?}, keys {keys:02x?}, slices of {} and {}: library {answer}, outside {wanted}", lent_tek.len(), lent_vector.len())
    });
    tally.add(wanted);
}

fn main() {
    let mut args = std::env::args().skip(1).map(|a| a.parse::<u64>().expect("a number"));
    let (count, seed) = (args.next().unwrap_or(200_000), args.next().unwrap_or(1));
    let mut r = Random(seed);
    let (mut seen, mut frames) = (Seen::default(), Tally::default());
    for _ in 0..count {
        let (octets, right) = some_message(&mut r);
        let key = lent_key(&mut r, &right);
        if let Some(read) = read_one(&mut r, &octets, &key, &mut seen) {
            let fields = library::laid_out_reading(&read.reading, read.holds);
            let write_key = lent_key(&mut r, &key);
            let written = write_one(&mut r, &fields, &read.auth_key, &write_key, &mut seen);
            if read.holds && written.as_ref() == Some(&octets) {
                seen.add_again(read.reading.fields.code);
            }
        }
        write_some(&mut r, &mut seen);
        frame_one(&mut r, &mut frames);
    }
    seen.told();
    frames.told("frame decision", &[0, 1, 2, 13]);
    println!("outside: {count} of each compared, seed {seed}, no difference");
}
