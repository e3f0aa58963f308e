//! A program that replays calls against the outside implementation, line by line: `replays LISTS CALLS SEED PROGRAM`.

mod digests;
mod forge;
mod frames;
mod identifiers;
mod keys;
mod make;
mod plant;
mod random;
mod renumbered;
mod skipped;
mod tally;
mod text;

use digests::Digests;
use frames::Frames;
use identifiers::{Identifiers, Machines};
use std::io::Write;
use std::process::{Command, Stdio};
use tally::{fail, number_of, Tally, NUMBERS};

/// What the program prints for an input.
fn printed(program: &str, input: String) -> Vec<u8> {
    let started = Command::new(program).stdin(Stdio::piped()).stdout(Stdio::piped()).spawn();
    let mut child = started.unwrap_or_else(|e| fail(&format!("{program} does not start: {e}")));
    let mut stdin = child.stdin.take().expect("a pipe");
    // in a thread of its own: the program may print before it has read all; one that stops reading shows in what it printed
    let feeder = std::thread::spawn(move || drop(stdin.write_all(input.as_bytes())));
    let output = child.wait_with_output().unwrap_or_else(|e| fail(&format!("{program}: {e}")));
    feeder.join().expect("the input was written");
    if !output.status.success() {
        fail(&format!("{program} ended with {}", output.status));
    }
    output.stdout
}

/// A line to show, with a long one cut.
fn shown(line: Option<&[u8]>) -> String {
    let Some(line) = line else { return "no line".to_string() };
    let text = String::from_utf8_lossy(&line[..line.len().min(2_000)]).into_owned();
    if line.len() > 2_000 {
        format!("{text}.. ({} characters)", line.len())
    } else {
        text
    }
}

/// The first line that differs, and the call that it answers: after a right start, answer 0 is that of the fifth line.
fn differs(list: u64, input: &str, wanted: &[u8], given: &[u8]) -> ! {
    let (wanted, given): (Vec<&[u8]>, Vec<&[u8]>) = (wanted.split(|c| *c == b'\n').collect(), given.split(|c| *c == b'\n').collect());
    let at = (0..).find(|i| wanted.get(*i) != given.get(*i)).expect("they differ");
    let lines: Vec<&[u8]> = input.as_bytes().split(|c| *c == b'\n').collect();
    let set_up = lines[..lines.len().min(4)].join(&b'/');
    let (set_up, call) = (shown(Some(set_up.as_slice())), shown(lines.get(at + 4).copied()));
    let (wanted, given) = (shown(wanted.get(at).copied()), shown(given.get(at).copied()));
    fail(&format!(
        "differs, list {list}, line {} of the answers\n set-up {set_up}\n call {call}\n program {given}\n outside {wanted}",
        at + 1
    ))
}

/// How many clock calls of a list both ends refuse with different numbers: 2 at the head-end and 3 at the modem, and the other way.
fn refused_by_both(input: &str, answers: &str) -> [u64; 2] {
    let (mut clock, mut saids, mut counts) = (0, 0, [0, 0]);
    for (call, answer) in input.lines().skip(4).zip(answers.lines()) {
        let fields: Vec<&str> = call.split(',').collect();
        match (fields[0], number_of(answer)) {
            ("list", Some(0)) => saids += (fields.len() - 4) / 2,
            ("clock", Some(0)) => clock = second(&fields),
            ("clock", Some(2)) if second(&fields) < clock || second(&fields) > 1_000_000_000_000 => {
                // hexadecimal digits: two an octet, 64 octets of material for each SAID, 20 of a key
                let (material, key) = (fields[2].len() == 128 * saids, fields[3].len() == 40);
                counts[0] += u64::from(!material && key);
                counts[1] += u64::from(material && !key);
            }
            _ => {}
        }
    }
    counts
}

fn second(clock: &[&str]) -> u64 {
    clock[1].parse().expect("a clock call that was answered has a second")
}

fn main() {
    let args: Vec<String> = std::env::args().skip(1).collect();
    let n = |at: usize| args[at].parse::<u64>().expect("a number");
    let (lists, calls, seed, program) = (n(0), n(1), n(2), &args[3]);
    let (mut tally, mut no_calls, mut wrong_forms, mut wrong_values, mut by_both) = (Tally::default(), 0, 0, 0, [0, 0]);
    let (mut digests, mut identifiers, mut frames) = (Digests::default(), Identifiers::default(), Frames::default());
    for list in seed..seed + lists {
        let mut modems = Vec::new();
        // a difference below ends the program, so the outside answers count as the program's
        let (input, wanted) = plant::lists::list(list, plant::lists::calls_of(list, calls), |plant, call| {
            modems.push(Machines::of(&plant.ends.modem));
            match call {
                None => frames.begin(plant),
                Some((call, answer)) => frames.add(call, answer, plant),
            }
        });
        let given = printed(program, input.clone());
        if given != wanted.as_bytes() {
            differs(list, &input, wanted.as_bytes(), &given);
        }
        match wanted.as_str() {
            "?\n" => wrong_forms += 1,
            "1\n" => wrong_values += 1,
            _ => {
                let both = refused_by_both(&input, &wanted);
                by_both = [by_both[0] + both[0], by_both[1] + both[1]];
                digests.add_list(&input, &wanted);
                identifiers.add_list(&input, &String::from_utf8_lossy(&given), &modems);
                wanted.lines().filter(|l| !l.starts_with("frames")).for_each(|l| match number_of(l) {
                    Some(n) => tally.add(n),
                    None => no_calls += 1,
                });
            }
        }
    }
    println!("outside: {program}, {lists} lists of {calls} calls from seed {seed}, no difference");
    println!("outside: lines that are no calls {no_calls}, set-ups wrong in form {wrong_forms}, out of their limits {wrong_values}");
    println!("outside: clock calls that the head-end refuses with 2 and the modem with 3: {}; with 3 and 2: {}", by_both[0], by_both[1]);
    tally.told("replay", &(0..NUMBERS).collect::<Vec<_>>());
    digests.told("replay");
    identifiers.told("replay");
    frames.told("replay", false);
    if [no_calls, wrong_forms, wrong_values, by_both[0], by_both[1]].contains(&0) {
        fail("a line that is no call, a set-up wrong in form or out of its limits, or a clock call that both ends refuse was not reached");
    }
}
