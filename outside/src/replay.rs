//! Replay: calls in text, answers in text.

use crate::frame::{Opened, OpenedFrame, Sealed, SealedFrame};
use crate::headend::HeadEnd;
use crate::modem::Modem;
use crate::settings::Settings;

const SETTINGS: &[u8] = b"life,grace,aklife,akgrace,authorize,reauthorize,operational,rekey,reject";
const MODEM: &[u8] = b"address,said";

/// Characters of a line, its end not counted.
const LINE: usize = 16_384;

/// 1 to 20 digits that fit 64 bits.
fn number(field: &[u8]) -> Option<u64> {
    if !(1..=20).contains(&field.len()) || !field.iter().all(u8::is_ascii_digit) {
        return None;
    }
    std::str::from_utf8(field).ok()?.parse().ok()
}

fn numbers(fields: &[&[u8]]) -> Option<Vec<u64>> {
    fields.iter().map(|f| number(f)).collect()
}

/// 0 or 1.
fn flag(field: &[u8]) -> Option<bool> {
    number(field).filter(|n| *n <= 1).map(|n| n == 1)
}

fn digit(c: u8) -> Option<u8> {
    match c {
        b'0'..=b'9' => Some(c - b'0'),
        b'a'..=b'f' => Some(c - b'a' + 10),
        _ => None,
    }
}

/// Lower-case hexadecimal digits, two an octet.
fn octets(field: &[u8]) -> Option<Vec<u8>> {
    if !field.len().is_multiple_of(2) {
        return None;
    }
    let pair = |p: &[u8]| Some(digit(p[0])? << 4 | digit(p[1])?);
    field.chunks(2).map(pair).collect()
}

fn hex(octets: &[u8]) -> String {
    octets.iter().map(|o| format!("{o:02x}")).collect()
}

/// The answer of a call that sends.
fn sent(answer: Result<Vec<u8>, u8>) -> String {
    match answer {
        Ok(out) => format!("0,{}", hex(&out)),
        Err(n) => n.to_string(),
    }
}

fn sealed(answer: Sealed) -> String {
    match answer {
        Ok((n, tek, vector)) => format!("0,{n},{},{}", hex(&tek), hex(&vector)),
        Err(n) => n.to_string(),
    }
}

fn opened(answer: Opened) -> String {
    match answer {
        Ok((tek, vector)) => format!("0,{},{}", hex(&tek), hex(&vector)),
        Err((13, out)) => format!("13,{}", hex(&out)),
        Err((n, _)) => n.to_string(),
    }
}

fn sealed_frame(answer: SealedFrame) -> String {
    answer.map_or_else(|n| n.to_string(), |(key, frame)| format!("0,{key},{}", hex(&frame)))
}

fn opened_frame(answer: OpenedFrame) -> String {
    match answer {
        Err((n, _)) if n != 13 => n.to_string(),
        Ok(frame) => format!("0,{}", hex(&frame)),
        Err((_, out)) => format!("13,{}", hex(&out)),
    }
}

/// Both ends.
#[derive(Clone)]
pub struct Ends {
    pub head: HeadEnd,
    pub modem: Modem,
}

impl Ends {
    /// Both ends by the set-up's lines; where there are none, what is printed instead.
    pub fn start(lines: &[&[u8]]) -> Result<Ends, &'static str> {
        let (settings, address, said) = start(lines).ok_or("?\n")?;
        let head = HeadEnd::new(settings).map_err(|_| "1\n")?;
        let modem = Modem::new(settings, address, said).map_err(|_| "1\n")?;
        Ok(Ends { head, modem })
    }

    /// A call's line; none where it is no call in this form.
    pub fn call(&mut self, line: &[u8]) -> Option<String> {
        if line.len() > LINE {
            return None;
        }
        let fields: Vec<&[u8]> = line.split(|c| *c == b',').collect();
        let rest = &fields[1..];
        match (fields[0], rest.len()) {
            (b"list", n) if n >= 5 && n % 2 == 1 => self.list(rest),
            (b"clock", 3) => Some(self.clock(number(rest[0])?, &octets(rest[1])?, &octets(rest[2])?)),
            (b"established", 0) => Some(sent(self.modem.established())),
            (b"reauth", 0) => Some(sent(self.modem.reauth())),
            (b"up", 5) => {
                let (address, read_key, write_key) = (number(rest[0])?, octets(rest[1])?, octets(rest[2])?);
                let (auth_key, message) = (octets(rest[3])?, octets(rest[4])?);
                let answer = self.head.receive(address, &read_key, &write_key, &auth_key, &message);
                Some(sent(answer))
            }
            (b"down", 3) => {
                let (read_key, write_key, message) = (octets(rest[0])?, octets(rest[1])?, octets(rest[2])?);
                Some(sent(self.modem.receive(&read_key, &write_key, &message)))
            }
            (b"sealdown", 2) => {
                let n = numbers(rest)?;
                Some(sealed(self.head.seal(n[0], n[1])))
            }
            (b"sealup", 1) => Some(sealed(self.modem.seal(number(rest[0])?))),
            (b"openup", 5) => {
                let (n, write_key) = (numbers(&rest[..4])?, octets(rest[4])?);
                Some(opened(self.head.open(n[0], n[1], n[2], n[3], &write_key)))
            }
            (b"opendown", 5) => {
                let (n, write_key) = (numbers(&rest[..4])?, octets(rest[4])?);
                Some(opened(self.modem.open(n[0], n[1], n[2], n[3], &write_key)))
            }
            (b"sealdownframe", 3) => {
                let (n, frame) = (numbers(&rest[..2])?, octets(rest[2])?);
                Some(sealed_frame(self.head.seal_frame(n[0], n[1], &frame)))
            }
            (b"sealupframe", 2) => Some(sealed_frame(self.modem.seal_frame(number(rest[0])?, &octets(rest[1])?))),
            (b"openupframe", 6) => {
                let (n, write_key, frame) = (numbers(&rest[..4])?, octets(rest[4])?, octets(rest[5])?);
                Some(opened_frame(self.head.open_frame(n[0], n[1], n[2], n[3], &write_key, &frame)))
            }
            (b"opendownframe", 6) => {
                let (n, write_key, frame) = (numbers(&rest[..4])?, octets(rest[4])?, octets(rest[5])?);
                Some(opened_frame(self.modem.open_frame(n[0], n[1], n[2], n[3], &write_key, &frame)))
            }
            _ => None,
        }
    }

    fn list(&mut self, rest: &[&[u8]]) -> Option<String> {
        let (address, allowed) = (number(rest[0])?, flag(rest[1])?);
        let material = octets(rest[2])?;
        let named = numbers(&rest[3..])?;
        let saids: Vec<(u64, u64)> = named.chunks(2).map(|p| (p[0], p[1])).collect();
        let answer = self.head.list(address, allowed, &material, &saids);
        Some(answer.map_or_else(|n| n.to_string(), |()| "0".to_string()))
    }

    /// Refused for both where either refuses; the earlier question gives the number.
    fn clock(&mut self, t: u64, material: &[u8], write_key: &[u8]) -> String {
        let refusals = [self.head.clock_refusal(t, material), self.modem.clock_refusal(t, write_key)];
        if let Some(n) = refusals.into_iter().flatten().min() {
            return n.to_string();
        }
        sent(self.head.clock(t, material).and_then(|()| self.modem.clock(t, write_key)))
    }

    pub fn frames(&self) -> String {
        let (h, m) = (&self.head, &self.modem);
        format!("frames,{},{},{},{}\n", h.taken, h.refused, m.taken, m.refused)
    }
}

/// The values of a set-up line.
fn values(line: &[u8], count: usize) -> Option<Vec<u64>> {
    let fields: Vec<&[u8]> = line.split(|c| *c == b',').collect();
    numbers(&fields).filter(|v| v.len() == count)
}

/// The four lines of the set-up: settings, address, SAID.
fn start(lines: &[&[u8]]) -> Option<(Settings, u64, u64)> {
    if lines.len() < 4 || lines[0] != SETTINGS || lines[2] != MODEM {
        return None;
    }
    let (v, m) = (values(lines[1], 9)?, values(lines[3], 2)?);
    let settings = Settings {
        life: v[0],
        grace: v[1],
        aklife: v[2],
        akgrace: v[3],
        authorize: v[4],
        reauthorize: v[5],
        operational: v[6],
        rekey: v[7],
        reject: v[8],
    };
    Some((settings, m[0], m[1]))
}

/// The program: all of its input to all of its output.
pub fn replay(input: &[u8]) -> String {
    let mut lines: Vec<&[u8]> = input.split(|c| *c == b'\n').collect();
    if lines.last().is_some_and(|l| l.is_empty()) {
        lines.pop();
    }
    let mut ends = match Ends::start(&lines) {
        Ok(ends) => ends,
        Err(said) => return said.to_string(),
    };
    let mut out = String::new();
    for line in &lines[4..] {
        out += &ends.call(line).unwrap_or("?".to_string());
        out.push('\n');
    }
    out + &ends.frames()
}

#[cfg(test)]
mod tests {
    use super::*;

    const START: &str = "life,grace,aklife,akgrace,authorize,reauthorize,operational,rekey,reject\n\
        1800,300,86400,300,10,10,10,10,60\naddress,said\n5,8800\n";

    fn run(calls: &str) -> String {
        replay(format!("{START}{calls}").as_bytes())
    }

    #[test]
    fn starts() {
        assert_eq!(replay(b""), "?\n");
        assert_eq!(replay(&START.as_bytes()[1..]), "?\n");
        assert_eq!(replay(START.replace("1800", "1801").as_bytes()), "1\n");
        assert_eq!(replay(START.replace("5,", "281474976710656,").as_bytes()), "1\n");
        assert_eq!(replay(START.replace("8800", "16384").as_bytes()), "1\n");
        assert_eq!(replay(START.replace("8800", "18446744073709551616").as_bytes()), "?\n");
        assert_eq!(replay(START.trim_end().as_bytes()), "frames,0,0,0,0\n");
    }

    #[test]
    fn calls() {
        let (fresh, key) = ("0a".repeat(64), "01".repeat(20));
        let calls = format!(
            "list,5,1,{fresh},8800,256\nlist,5,1,{fresh}\nestablished\nreauth\nup,5,{key},{key},07,040100050c00022260\n\
             down,{key},{key},050100250700010709000400015180\n\nclock,10,{fresh},{key}\nclock,9,{fresh},{key}\nclock,10,,{key}\n\
             sealdown,5,8800\nopenup,0,5,8800,0,{key}\nopenup,2,5,8800,0,{key}\nopenup,0,5,8800,2,{key}\nopendown,1,5,8800,0,{key}\n\
             sealup,8800\nup,5,{key},{key},07\nup,5,{key},{key},0A,\nup,5,{key},{key},,\n"
        );
        let invalid = "0b0000240a0001000c00022260100001040b0014";
        let digest = hex(&crate::digest::hmac(&[1; 20], &octets(&invalid.as_bytes()[..34]).unwrap()));
        let tek = "0a".repeat(8);
        let reply = "0501002007000107090004000151800a00010017000e0c00022260180001001400020100";
        let wanted = format!(
            "0\n?\n0,0c000000040100050c00022260\n0,\n0,{reply}\n6\n?\n\
             0,0c000000040100050c00022260\n3\n2\n0,0,{tek},{tek}\n0,{tek},{tek}\n1\n\
             13,{invalid}{digest}\n10\n10\n?\n?\n2\nframes,1,1,0,1\n"
        );
        assert_eq!(run(&calls), wanted);
        let long = format!("up,5,{key},{key},07,0c000000{}", "00".repeat(8_143));
        assert_eq!(long.len(), 16_384);
        assert_eq!(run(&long), "0,\nframes,0,0,0,0\n");
        assert_eq!(run(&format!("{long}0\n")), "?\nframes,0,0,0,0\n");
    }

    /// A key of another length is refused with 2 in each call that takes one; one that is missing, or has half an octet, makes no call.
    #[test]
    fn keys() {
        let right = "01".repeat(20);
        for key in ["", "01", &"01".repeat(19), &"01".repeat(21)] {
            let calls = format!(
                "clock,1,,{key}\nup,5,{key},{right},07,0c000000\nup,5,{right},{key},07,0c000000\ndown,{key},{right},0c000000\n\
                 down,{right},{key},0c000000\nopenup,0,5,1,1,{key}\nopendown,1,5,1,1,{key}\n"
            );
            assert_eq!(run(&calls), format!("{}frames,0,0,0,0\n", "2\n".repeat(7)));
        }
        let calls = format!(
            "clock,1,\nclock,1,,0\nup,5,{right},07,0c000000\ndown,{right},0c000000\nopenup,0,5,1,1\nopendown,1,5,1,1\n\
             openup,0,5,1,1,{right},\nopendown,1,5,1,1,{right}0\nclock,1,,{right}\n"
        );
        assert_eq!(run(&calls), format!("{}0,\nframes,0,0,0,0\n", "?\n".repeat(8)));
    }

    /// Both ends refuse a clock call: 2 at either comes before 3 at the other.
    #[test]
    fn clocks_that_both_refuse() {
        let (fresh, key) = ("0a".repeat(64), "01".repeat(20));
        let both = format!(
            "list,5,1,{fresh},8800,256\nclock,10,{fresh},{key}\nclock,9,,{key}\nclock,1000000000001,00,{key}\nclock,9,{fresh},{key}\n\
             clock,9,{fresh},{key}00\nclock,11,{fresh},\nclock,11,,\nclock,10,{fresh},{key}\n"
        );
        assert_eq!(run(&both), "0\n0,\n2\n2\n3\n2\n2\n2\n0,\nframes,0,0,0,0\n");
    }
}
