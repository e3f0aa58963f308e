//! A benchmark's table: two implementations on the same input, in turn, and the median of the rounds.
// each program uses a part of it
#![allow(dead_code)]

use std::time::Instant;

/// What the library may take of the outside implementation's time.
pub const OF_MESSAGES: f64 = 1.2;
pub const OF_CALLS: f64 = 2.0;

/// How many rounds are measured, and the rows that were printed so far.
pub struct Table {
    rounds: usize,
    above: Vec<String>,
}

/// Nanoseconds a call over a batch of items that were made before.
pub fn timed<T>(batch: usize, make: &dyn Fn() -> T, call: &mut dyn FnMut(&mut T)) -> f64 {
    let mut items: Vec<T> = (0..batch).map(|_| make()).collect();
    let start = Instant::now();
    for item in &mut items {
        call(std::hint::black_box(item));
    }
    let took = start.elapsed().as_nanos() as f64;
    std::hint::black_box(&items);
    took / batch as f64
}

pub fn median(mut all: Vec<f64>) -> f64 {
    all.sort_by(f64::total_cmp);
    all[all.len() / 2]
}

/// One implementation's part of a row: how its items are made, and the call.
pub struct Side<'a, T> {
    pub make: &'a dyn Fn() -> T,
    pub call: &'a mut dyn FnMut(&mut T),
}

impl Table {
    /// Prints the line above the rows.
    pub fn new(rounds: usize) -> Table {
        println!("{:<52} {:>9} {:>9} {:>7} {:>7}", "nanoseconds a call, median of rounds", "library", "outside", "ratio", "target");
        Table { rounds, above: Vec::new() }
    }

    /// Prints which ratios are above their target.
    pub fn told(&self) {
        match self.above.len() {
            0 => println!("every ratio is within its target"),
            _ => println!("above their target: {}", self.above.join("; ")),
        }
    }

    /// Prints a row; gives the times of both.
    pub fn row<E, O>(&mut self, name: &str, target: f64, batch: usize, engine: Side<E>, outside: Side<O>) -> (f64, f64) {
        let (mut engines, mut outsides) = (Vec::new(), Vec::new());
        // the first round warms up and is not kept
        for round in 0..=self.rounds {
            let (e, o) = (timed(batch, engine.make, engine.call), timed(batch, outside.make, outside.call));
            if round > 0 {
                engines.push(e);
                outsides.push(o);
            }
        }
        let (e, o) = (median(engines), median(outsides));
        println!("{name:<52} {e:>9.0} {o:>9.0} {:>7.2} {target:>7.1}", e / o);
        if e / o > target {
            self.above.push(name.to_string());
        }
        (e, o)
    }
}
