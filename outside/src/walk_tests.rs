//! A random walk over both ends: no panic, and the state stays within the limits of question 1.

use crate::both::{DOWN, UP};
use crate::headend::HeadEnd;
use crate::limits::{headend_fits, modem_fits};
use crate::modem::Modem;
use crate::settings::Settings;

struct Dice(u64);

impl Dice {
    fn roll(&mut self, n: u64) -> u64 {
        let x = self.0.wrapping_mul(6_364_136_223_846_793_005);
        self.0 = x.wrapping_add(1_442_695_040_888_963_407);
        (self.0 >> 33) % n
    }
}

/// Cuts what a modem sent into its messages.
fn keep(all: &mut Vec<Vec<u8>>, mut sent: &[u8]) {
    while !sent.is_empty() {
        let n = 4 + usize::from(sent[2]) * 256 + usize::from(sent[3]);
        all.push(sent[..n].to_vec());
        sent = &sent[n..];
    }
}

/// An old message, the last one more often, now and then with an octet changed.
fn pick(all: &[Vec<u8>], dice: &mut Dice) -> Vec<u8> {
    let back = if dice.roll(4) == 0 { 40 } else { 4 };
    let n = all.len() as u64;
    if n == 0 {
        return vec![];
    }
    let mut m = all[(n - 1 - dice.roll(back.min(n))) as usize].clone();
    if dice.roll(6) == 0 {
        let at = dice.roll(m.len() as u64) as usize;
        m[at] = dice.roll(256) as u8;
    }
    m
}

/// Both ends and what each sent.
struct Walk {
    h: HeadEnd,
    m: Modem,
    ups: Vec<Vec<u8>>,
    downs: Vec<Vec<u8>>,
}

impl Walk {
    fn new(settings: Settings) -> Walk {
        let mut h = HeadEnd::new(settings).unwrap();
        h.list(5, true, &[1; 128], &[(1, 256), (2, 768)]).unwrap();
        let m = Modem::new(settings, 5, 8_800).unwrap();
        let (ups, downs) = (vec![], vec![]);
        Walk { h, m, ups, downs }
    }

    /// One call; what the modem sends is kept. Gives the number.
    fn step(&mut self, dice: &mut Dice) -> u8 {
        // a wrong key now and then
        let wrong = dice.roll(8) == 0;
        let (up, down) = if wrong { (DOWN, UP) } else { (UP, DOWN) };
        let (said, number) = (1 + dice.roll(3), dice.roll(16));
        let frame = vec![number as u8; dice.roll(60) as usize];
        let (number, sent) = match dice.roll(15) {
            0 => flat(self.m.established()),
            1 if dice.roll(9) == 0 => flat(self.m.reauth()),
            2 | 3 => {
                let far = [2, 40, 900, 2_000, 90_000][dice.roll(5) as usize];
                let t = self.h.clock + dice.roll(far);
                let fresh = vec![dice.roll(256) as u8; 64 * self.h.records.len()];
                flat(self.h.clock(t, &fresh).and_then(|()| self.m.clock(t, &up)))
            }
            4..=6 => {
                let answer = flat(self.h.receive(5, &up, &down, &[1], &pick(&self.ups, dice)));
                keep(&mut self.downs, &answer.1);
                (answer.0, vec![])
            }
            7..=9 => flat(self.m.receive(&down, &up, &pick(&self.downs, dice))),
            10 => match self.h.open(0, 5, said, number, &down) {
                Err((n, out)) => {
                    keep(&mut self.downs, &out);
                    (n, vec![])
                }
                Ok(_) => flat(self.m.seal(said).map(|_| vec![])),
            },
            11 => self.m.open(1, 5, said, number, &up).err().unwrap_or_default(),
            12 => match self.h.open_frame(0, 5, said, number, &down, &frame) {
                Err((n, out)) => {
                    keep(&mut self.downs, &out);
                    (n, vec![])
                }
                Ok(_) => flat(self.m.seal_frame(said, &frame).map(|_| vec![])),
            },
            13 => match self.h.seal_frame(5, said, &frame) {
                Err(n) => (n, vec![]),
                Ok((key, there)) => self.m.open_frame(1, 5, said, key.into(), &up, &there).err().unwrap_or_default(),
            },
            _ => self.m.open_frame(1, 5, said, number, &up, &frame).err().unwrap_or_default(),
        };
        keep(&mut self.ups, &sent);
        number
    }
}

fn flat(answer: Result<Vec<u8>, u8>) -> (u8, Vec<u8>) {
    answer.map_or_else(|n| (n, vec![]), |out| (0, out))
}

#[test]
fn walk() {
    let settings = Settings {
        life: 1_800,
        grace: 300,
        aklife: 86_400,
        akgrace: 300,
        authorize: 10,
        reauthorize: 20,
        operational: 30,
        rekey: 40,
        reject: 60,
    };
    let mut dice = Dice(1);
    let mut seen = [0; 16];
    for _ in 0..20 {
        let mut walk = Walk::new(settings);
        for _ in 0..3_000 {
            seen[usize::from(walk.step(&mut dice))] += 1;
            assert!(modem_fits(&walk.m) && headend_fits(&walk.h));
            // the calls make no deadline further ahead
            assert!(walk.h.records.iter().all(|r| r.older.deadline <= walk.h.clock + settings.half()));
        }
    }
    for n in [0, 6, 7, 8, 9, 10, 11, 12, 13, 14, 15] {
        assert!(seen[n] > 0, "{n} not seen: {seen:?}");
    }
}
