//! Tests of reading and writing messages.
use super::*;

const KEY_LENT: [u8; KEY] = [3; KEY];

fn params(number: u8, life: u32) -> Params {
    Params { number, life, tek: vec![number; 8], vector: vec![9; 8] }
}

/// Document 01, "Edges": the Key Reply of I.6.
fn reply() -> Fields {
    Fields { code: 8, identifier: 115, ak_number: 7, said: 8_800, older: params(2, 43_200), newer: params(3, 86_400), ..Fields::default() }
}

#[test]
fn key_reply_edges() {
    let octets = write(&reply(), &[], &KEY_LENT, 342).unwrap();
    assert_eq!(octets.len(), 108);
    let reading = read(End::Modem, &octets).unwrap();
    assert_eq!(reading.fields, reply());
    assert_eq!(reading.digest, (88, 20));
    let mut short = octets.clone();
    short[3] = 103;
    assert_eq!(read(End::Modem, &short), Err(8));
    assert_eq!(read(End::Modem, &octets[..107]), Err(6));
    assert_eq!(read(End::HeadEnd, &octets), Err(7));
    let mut padded = octets.clone();
    padded.push(1);
    assert_eq!(read(End::Modem, &padded).unwrap(), reading);
}

#[test]
fn reply_round() {
    let fields = Fields {
        code: 5,
        identifier: 255,
        ak_number: 15,
        life: 12_096_000,
        descriptors: (0..4).map(|i| Descriptor { said: 16_380 + i, sa_type: 1, suite: 768 }).collect(),
        ..Fields::default()
    };
    let octets = write(&fields, &[7; 256], &KEY_LENT, 342).unwrap();
    assert_eq!(octets.len(), 342);
    let reading = read(End::Modem, &octets).unwrap();
    assert_eq!(reading.fields, fields);
    assert_eq!(reading.auth_key, (7, 256));
    assert_eq!(write(&fields, &[7; 256], &KEY_LENT, 341), Err(2));
    assert_eq!(write(&fields, &[], &KEY_LENT, 342), Err(2));
    let mut same = fields.clone();
    same.descriptors[3].said = 16_380;
    assert_eq!(write(&same, &[7], &KEY_LENT, 342), Err(1));
}

#[test]
fn skipped_and_last() {
    let request = [7, 1, 0, 32, 10, 0, 1, 3, 12, 0, 2, 1, 2, 11, 0, 20];
    let mut m = request.to_vec();
    m.extend([0; 20]);
    assert_eq!(read(End::HeadEnd, &m).unwrap().fields.said, 258);
    m[3] = 35;
    m.extend([99, 0, 0]);
    assert_eq!(read(End::HeadEnd, &m), Err(9));
    // A type that code 4 does not need, of a length of no kind, is skipped.
    let skip = [4, 0, 0, 9, 12, 0, 2, 0, 5, 10, 0, 1, 99];
    assert!(read(End::HeadEnd, &skip).is_ok());
    assert_eq!(read(End::HeadEnd, &[4, 0, 0, 5, 12, 0, 2, 64, 0]), Err(8));
    assert_eq!(read(End::HeadEnd, &[4, 0, 0, 0]), Err(9));
    assert_eq!(read(End::HeadEnd, &[12, 0, 5, 211]), Err(6));
}

#[test]
fn reader_by_itself() {
    let f = Fields { code: 11, ak_number: 7, said: 8_800, error: 4, ..Fields::default() };
    let mut invalid = write(&f, &[], &KEY_LENT, 40).unwrap();
    assert_eq!(read_alone(End::Modem, &invalid).unwrap().fields, f);
    invalid[1] = 1;
    assert_eq!(read_alone(End::Modem, &invalid), Err(11));
    assert_eq!(read(End::Modem, &invalid).unwrap().fields.identifier, 1);
    // 6 to 9 come before.
    assert_eq!(read_alone(End::Modem, &invalid[..39]), Err(6));
    assert_eq!(read_alone(End::HeadEnd, &invalid), Err(7));
    assert_eq!(read_alone(End::Modem, &[11, 1, 0, 1, 10]), Err(8));
    assert_eq!(read_alone(End::Modem, &[11, 1, 0, 0]), Err(9));
    assert!(read_alone(End::HeadEnd, &[12, 0, 0, 0]).is_ok());
    assert_eq!(read_alone(End::HeadEnd, &[12, 255, 0, 0]), Err(11));
    assert_eq!(read_alone(End::HeadEnd, &[12, 1, 0, 2, 99, 0]), Err(8));
    // Other codes carry any.
    for octets in [write(&reply(), &[], &KEY_LENT, 342).unwrap(), vec![10, 1, 0, 4, 16, 0, 1, 4], vec![6, 0, 0, 4, 16, 0, 1, 4]] {
        assert_eq!(read_alone(End::Modem, &octets), read(End::Modem, &octets));
    }
}

#[test]
fn writer_refuses() {
    let mut f = reply();
    f.error = 1;
    assert_eq!(write(&f, &[], &KEY_LENT, 342), Err(1));
    let mut f = reply();
    f.newer.number = 4;
    assert_eq!(write(&f, &[], &KEY_LENT, 342), Err(1));
    let mut f = reply();
    f.newer.life = 43_200;
    assert_eq!(write(&f, &[], &KEY_LENT, 342), Err(1));
    for code in [11, 12] {
        let f = Fields { code, identifier: 1, ..Fields::default() };
        assert_eq!(write(&f, &[], &KEY_LENT, 342), Err(1));
        assert!(write(&Fields { identifier: 0, ..f }, &[], &KEY_LENT, 342).is_ok());
    }
    assert_eq!(write(&Fields::default(), &[], &KEY_LENT, 342), Err(1));
}
