//! The replay program: standard input to standard output.

use std::io::{Read, Write};

fn main() -> std::io::Result<()> {
    let mut input = Vec::new();
    std::io::stdin().read_to_end(&mut input)?;
    let answers = curlewreel_outside::replay::replay(&input);
    std::io::stdout().write_all(answers.as_bytes())
}
