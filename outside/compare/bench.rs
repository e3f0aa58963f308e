//! The benchmark: the library and the outside implementation side by side, in nanoseconds a call, with their ratio. `bench ROUNDS`.
//!
//! Both are called on the same input, in turn, and the median of the rounds is shown. The library is called through C, its states by value
//! in and out. The outside implementation takes plain Rust structs by reference and asks question 1 of the whole state too; its answers are
//! copied to lent slices of the same lengths, but for the reader's, which is its own struct.

mod as_c;
mod bench_ends;
mod bench_frames;
mod bench_messages;
mod engine;
mod library;
mod stack;
mod table;

use table::Table;

/// Octets of the states and of what the calls hand back.
fn sizes() {
    let all = [
        ("modem's state", size_of::<engine::Modem>()),
        ("head-end's state", size_of::<engine::Headend>()),
        ("record", size_of::<engine::Record>()),
        ("64 records", 64 * size_of::<engine::Record>()),
        ("what a modem's call hands back", size_of::<engine::ModemCall>()),
        ("what a head-end's call hands back", size_of::<engine::HeadendCall>()),
    ];
    println!("{:<52} {:>9}", "sizes in octets", "library");
    all.iter().for_each(|(name, octets)| println!("{name:<52} {octets:>9}"));
}

fn main() {
    let rounds = std::env::args().nth(1).map_or(31, |n| n.parse().expect("a number of rounds"));
    let mut table = Table::new(rounds);
    bench_messages::rows(&mut table);
    bench_ends::rows(&mut table);
    let octets_a_second = bench_frames::rows(&mut table);
    table.told();
    println!("{octets_a_second}");
    println!();
    sizes();
    println!();
    bench_ends::stacks();
}
