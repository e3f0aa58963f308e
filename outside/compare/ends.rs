//! Both ends of the library, their states by value through C's structs, against the outside ones on random lists of calls.
//! Every answer, state, record and lent octet is compared; short slices, keys of another length and damaged states have to be refused. `ends LISTS CALLS SEED`.

mod ahead;
mod as_c;
mod calls;
mod damage;
mod digests;
mod ends_library;
mod ends_refused;
mod engine;
mod forge;
mod frames;
mod identifiers;
mod keys;
mod make;
mod plant;
mod random;
mod renumbered;
mod set_ups;
mod skipped;
mod state;
mod tally;
mod text;
mod transitions;

use ahead::Ahead;
use calls::Call;
use curlewreel_outside::cipher::{opened, sealed};
use curlewreel_outside::replay::Ends;
use digests::Digests;
use ends_library::{Lengths, Run};
use frames::Frames;
use identifiers::Identifiers;
use plant::{hex, unhex, Plant};
use random::Random;
use state::{State, RECORDS};
use tally::{fail, number_of, Tally};
use transitions::Transitions;

/// The numbers that each end can answer: document 01 asks 4 and 5 of the head-end alone, 12 and 14 of the modem alone.
const OF_HEADEND: [usize; 14] = [0, 1, 2, 3, 4, 5, 6, 7, 8, 9, 10, 11, 13, 15];
const OF_MODEM: [usize; 14] = [0, 1, 2, 3, 6, 7, 8, 9, 10, 11, 12, 13, 14, 15];

/// One list: both implementations, and the counts of what was answered.
struct List<'a> {
    plant: Plant,
    state: State,
    r: Random,
    headend: &'a mut Tally,
    modem: &'a mut Tally,
    /// How often the head-end put out a message of each code.
    codes: &'a mut [u64; 13],
    transitions: &'a mut Transitions,
    ahead: &'a mut Ahead,
    digests: &'a mut Digests,
    identifiers: &'a mut Identifiers,
    frames: &'a mut Frames,
}

impl List<'_> {
    fn count(&mut self, call: &Call, number: u8) {
        let (headend, modem) = call.ends();
        if headend {
            self.headend.add(number);
        }
        if modem {
            self.modem.add(number);
        }
    }

    /// Slices that are long enough, some longer; as many records as are needed or more, up to 64.
    fn lengths(&mut self, call: &Call) -> Lengths {
        let least = (self.state.headend.used + call.adds()).min(RECORDS);
        let records = if self.r.one_in(2) { RECORDS } else { least + self.r.below((RECORDS - least) as u64 + 1) as usize };
        let mut more = |n: usize| n + self.r.below(3) as usize;
        let (out, tek, vector, frame) = (more(call.room()), more(16), more(16), more(call.frame().map_or(0, <[u8]>::len)));
        // now and then a whole block behind what is written, and more
        let frame = frame + if self.r.one_in(4) { self.r.below(40) as usize } else { 0 };
        Lengths { records, out, tek, vector, frame }
    }

    /// The call of `line` with the deadlines of the records in use moved ahead at both implementations; `plain` is what it answers without. A
    /// Key Request's key has a zero more now and then: the digest holds all the same, and question 1 of the record comes before 2.
    fn moved_ahead(&mut self, line: &str, mut ends: Ends, plain: &str) -> Result<(), String> {
        let longer = plain.starts_with("0,08") && self.r.one_in(4);
        let line = if longer { ahead::longer_key(line) } else { line.to_string() };
        let call = &Call::parse(&line);
        let (mut state, mut lengths) = (self.state.clone(), self.lengths(call));
        ahead::move_records(&mut self.r, &mut state, &mut ends.head);
        let before = ends.head.clone();
        let wanted = ends.call(line.as_bytes()).unwrap_or_default();
        // question 1 comes before 2
        if wanted == "1" && self.r.one_in(4) {
            lengths.out = self.r.below(call.room() as u64 + 1) as usize;
        }
        let (_, given) = Run::new(&state, lengths, self.r.next() as u8)
            .compared(call, &state, &wanted, &ends)
            .map_err(|e| format!("records moved ahead, a slice of {}: {e}\n{:?}", lengths.out, before.records))?;
        Identifiers::none_numbered_0(&line, &given);
        number_of(&wanted).into_iter().for_each(|n| self.count(call, n));
        self.ahead.add(call, plain, &wanted, &before, &ends.head);
        Ok(())
    }

    /// The call that gives the key in the place of one on octets, made of the same state: with its TEK and vector the outside cipher gives the same octets,
    /// and 13 and 14 are answered as they are there.
    fn crosswise(&mut self, call: &Call, given: &str) -> Result<(), String> {
        let (Some(other), Some(octets), Some(answer)) = (call.that_gives_keys(), call.frame(), number_of(given)) else { return Ok(()) };
        let lengths = self.lengths(&other);
        let (_, line) = Run::new(&self.state, lengths, self.r.next() as u8).call(&other)?;
        let keys: Vec<&str> = line.split(',').collect();
        let due = match (answer, &keys[..]) {
            (0, ["0", key, tek, vector]) => format!("0,{key},{}", with_key(sealed, tek, vector, octets)),
            (0, ["0", tek, vector]) => format!("0,{}", with_key(opened, tek, vector, octets)),
            (0 | 13 | 14, _) => line.clone(),
            _ => return Ok(()),
        };
        if due != given {
            return Err(format!("library {given}, and {line} where it gives the key"));
        }
        Ok(())
    }

    /// The next call at both implementations.
    fn next(&mut self) -> Result<(), String> {
        let before = self.r.one_in(3).then(|| self.plant.ends.clone());
        let (line, wanted) = self.plant.next();
        let shown = |e: String| format!("{line}\n {e}");
        let Some(answer) = number_of(&wanted) else { return Ok(()) };
        let call = Call::parse(&line);
        if self.r.one_in(3) {
            self.short(&line, &call, answer).map_err(shown)?;
        }
        if self.r.one_in(3) {
            self.other_length(&call, answer).map_err(shown)?;
        }
        if self.r.one_in(3) {
            self.damaged(&call).map_err(shown)?;
        }
        if self.r.one_in(3) {
            self.unmatched(&call, &wanted).map_err(shown)?;
        }
        if let Some(ends) = before.filter(|ends| call.ends().0 && !ends.head.records.is_empty()) {
            self.moved_ahead(&line, ends, &wanted).map_err(shown)?;
        }
        let lengths = self.lengths(&call);
        let run = Run::new(&self.state, lengths, self.r.next() as u8);
        let (after, given) = run.compared(&call, &self.state, &wanted, &self.plant.ends).map_err(shown)?;
        self.crosswise(&call, &given).map_err(shown)?;
        self.transitions.add(&self.state.modem, &after.modem);
        Identifiers::none_numbered_0(&line, &given);
        self.identifiers.add(&line, &given, &self.state.machines(), &after.machines());
        self.state = after;
        self.count(&call, answer);
        self.digests.add(&line, &wanted);
        self.frames.add(&line, &given, &self.plant);
        if matches!((&call, answer), (Call::Up { .. }, 0) | (Call::OpenUp(_) | Call::OpenUpFrame(..), 13)) {
            let code = first_octet(&wanted).map_or(0, usize::from);
            self.codes[code] += 1;
        }
        Ok(())
    }
}

/// Sealing or opening with TEK and vector.
type Cipher = fn(&[u8; 16], &[u8; 16], &[u8]) -> Vec<u8>;

/// Octets sealed or opened by the outside cipher, with a key of 16 octets in text.
fn with_key(cipher: Cipher, tek: &str, vector: &str, octets: &[u8]) -> String {
    let key = |text: &str| unhex(text).try_into().ok();
    key(tek).zip(key(vector)).map_or_else(|| "no key of 16 octets".to_string(), |(tek, vector)| hex(&cipher(&tek, &vector, octets)))
}

/// The code of the message in an answer's last field.
fn first_octet(answer: &str) -> Option<u8> {
    let (_, octets) = answer.rsplit_once(',')?;
    u8::from_str_radix(octets.get(..2)?, 16).ok()
}

fn main() {
    let mut args = std::env::args().skip(1).map(|a| a.parse::<u64>().expect("a number"));
    let (lists, calls, seed) = (args.next().unwrap_or(500), args.next().unwrap_or(400), args.next().unwrap_or(1));
    let (mut headend, mut modem, mut codes, mut transitions) = (Tally::default(), Tally::default(), [0; 13], Transitions::default());
    let (mut ahead, mut digests, mut identifiers) = (Ahead::default(), Digests::default(), Identifiers::default());
    let mut frames = Frames::default();
    set_ups::wrong_set_ups(&mut Random(seed));
    for i in 0..lists {
        let (mut plant, _) = Plant::new(seed + i);
        let mut r = Random(!(seed + i));
        let state = set_ups::start(&mut plant, &mut r);
        let (headend, modem, codes, transitions) = (&mut headend, &mut modem, &mut codes, &mut transitions);
        let (ahead, digests, identifiers, frames) = (&mut ahead, &mut digests, &mut identifiers, &mut frames);
        digests.renumbered.begin();
        identifiers.begin();
        frames.begin(&plant);
        let mut list = List { plant, state, r, headend, modem, codes, transitions, ahead, digests, identifiers, frames };
        for at in 0..plant::lists::calls_of(seed + i, calls) {
            if let Err(e) = list.next() {
                fail(&format!("differs, list {}, call {at}: {e}", seed + i));
            }
        }
    }
    println!(
        "outside: both ends, {lists} lists of {calls} calls from seed {seed}, no difference; the head-end's messages by code 5 to 11: {:?}",
        &codes[5..12]
    );
    if let Some(code) = [5, 6, 8, 9, 10, 11].into_iter().find(|code| codes[*code] == 0) {
        fail(&format!("the head-end put out no message of code {code}"));
    }
    headend.told("the head-end", &OF_HEADEND);
    modem.told("the modem", &OF_MODEM);
    transitions.told();
    ahead.told();
    digests.told("both ends");
    identifiers.told("both ends");
    frames.told("both ends", true);
}
