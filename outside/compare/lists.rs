//! A random list of calls in the form that `replay` reads, with what the outside implementation answers: `lists SEED CALLS INPUT OUTPUT`.

mod forge;
mod keys;
mod make;
mod plant;
mod random;
mod text;

fn main() {
    let args: Vec<String> = std::env::args().skip(1).collect();
    let (seed, calls) = (args[0].parse().expect("a seed"), args[1].parse().expect("a count"));
    let (input, output) = plant::lists::list(seed, calls, |_, _| {});
    std::fs::write(&args[2], input).expect("the input is written");
    std::fs::write(&args[3], output).expect("the output is written");
}
