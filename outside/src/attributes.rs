//! Attributes of a holder: what is needed, lengths and ranges, how often (questions 8 and 9).

/// What holds attributes: a message of a code, or a compound of a type.
#[derive(Clone, Copy)]
pub enum Holder {
    Message(u8),
    Compound(u8),
}

/// An attribute: its type, and where its value starts and ends in the message.
pub type Attribute = (u8, usize, usize);

/// "Needed": type, and how often at least and at most, in the standard order.
pub fn needed(holder: Holder) -> &'static [(u8, usize, usize)] {
    match holder {
        Holder::Message(4) => &[(12, 1, 1)],
        Holder::Message(5) => &[(7, 1, 1), (9, 1, 1), (10, 1, 1), (23, 1, 4)],
        Holder::Message(6 | 10) => &[(16, 1, 1)],
        Holder::Message(7) => &[(10, 1, 1), (12, 1, 1), (11, 1, 1)],
        Holder::Message(8) => &[(10, 1, 1), (12, 1, 1), (13, 2, 2), (11, 1, 1)],
        Holder::Message(9 | 11) => &[(10, 1, 1), (12, 1, 1), (16, 1, 1), (11, 1, 1)],
        Holder::Compound(13) => &[(8, 1, 1), (9, 1, 1), (10, 1, 1), (15, 1, 1)],
        Holder::Compound(23) => &[(12, 1, 1), (24, 1, 1), (20, 1, 1)],
        _ => &[],
    }
}

pub fn is_needed(holder: Holder, kind: u8) -> bool {
    needed(holder).iter().any(|n| n.0 == kind)
}

pub fn number(octets: &[u8]) -> u32 {
    octets.iter().fold(0, |n, o| n << 8 | u32::from(*o))
}

/// The range of a life in its holder.
pub fn life_fits(holder: Holder, life: u32) -> bool {
    let most = match holder {
        Holder::Compound(_) => 604_800,
        Holder::Message(_) => 12_096_000,
    };
    (1..=most).contains(&life)
}

pub fn suite_fits(suite: u32) -> bool {
    suite == 256 || suite == 768
}

/// "Types and lengths", of a needed attribute that is no compound.
fn value_fits(holder: Holder, kind: u8, value: &[u8]) -> bool {
    let n = value.len();
    match kind {
        7 => (1..=256).contains(&n),
        8 | 15 => n == 8 || n == 16,
        9 => n == 4 && life_fits(holder, number(value)),
        10 => n == 1 && value[0] <= 15,
        11 => n == 20,
        12 => n == 2 && number(value) <= 16_383,
        16 => n == 1,
        20 => n == 2 && suite_fits(number(value)),
        24 => n == 1 && value[0] <= 2,
        _ => true,
    }
}

/// Question 8 of the holder's octets `from..to`, insides too; the attributes that the holder has.
pub fn scan(holder: Holder, octets: &[u8], from: usize, to: usize) -> Result<Vec<Attribute>, u8> {
    let mut found = Vec::new();
    let mut at = from;
    while at < to {
        if to - at < 3 {
            return Err(8);
        }
        let (kind, start) = (octets[at], at + 3);
        let length = number(&octets[at + 1..start]) as usize;
        if to - start < length {
            return Err(8);
        }
        at = start + length;
        if is_needed(holder, kind) {
            if !value_fits(holder, kind, &octets[start..at]) {
                return Err(8);
            }
            if kind == 13 || kind == 23 {
                scan(Holder::Compound(kind), octets, start, at)?;
            }
        }
        found.push((kind, start, at));
    }
    Ok(found)
}

/// Question 9 of a holder alone: as often as told, digest last.
pub fn counted(holder: Holder, found: &[Attribute]) -> Result<(), u8> {
    for &(kind, least, most) in needed(holder) {
        let times = found.iter().filter(|a| a.0 == kind).count();
        if times < least || times > most {
            return Err(9);
        }
        if kind == 11 && found.last().map(|a| a.0) != Some(11) {
            return Err(9);
        }
    }
    Ok(())
}

/// The first attribute of a type that the holder needs.
pub fn first(holder: Holder, found: &[Attribute], kind: u8) -> Option<(usize, usize)> {
    if !is_needed(holder, kind) {
        return None;
    }
    found.iter().find(|a| a.0 == kind).map(|a| (a.1, a.2))
}

pub fn first_number(holder: Holder, octets: &[u8], found: &[Attribute], kind: u8) -> u32 {
    first(holder, found, kind).map_or(0, |(a, b)| number(&octets[a..b]))
}
