//! How often each of the numbers of documents 01 and 02 was answered, and the end of a program that finds a difference.
// each program uses a part of it
#![allow(dead_code)]

/// How many numbers there are: 0 for done, and the refusals 1 to 15.
pub const NUMBERS: usize = 16;

#[derive(Default)]
pub struct Tally([u64; NUMBERS]);

/// Ends the program with 1, and says why.
pub fn fail(why: &str) -> ! {
    eprintln!("outside: {why}");
    std::process::exit(1)
}

/// Ends the program where two things differ.
pub fn check(same: bool, what: impl FnOnce() -> String) {
    if !same {
        fail(&format!("differs: {}", what()));
    }
}

/// The number that an answer in text starts with; none for `?`.
pub fn number_of(answer: &str) -> Option<u8> {
    answer.split(',').next().and_then(|n| n.parse().ok())
}

impl Tally {
    pub fn add(&mut self, number: u8) {
        self.0[usize::from(number)] += 1;
    }

    /// Prints the counts; a number of `due` that was never answered is a failure.
    pub fn told(&self, what: &str, due: &[usize]) {
        let counts: Vec<String> = (0..NUMBERS).filter(|n| self.0[*n] > 0).map(|n| format!("{n}: {}", self.0[n])).collect();
        println!("outside: {what}, answers {}", counts.join(", "));
        if let Some(n) = due.iter().find(|n| self.0[**n] == 0) {
            fail(&format!("{what} never answered {n}"));
        }
    }
}
