//! Runs a script from standard input.

use std::io::{self, Read, Write};

fn main() -> io::Result<()> {
    let mut input = Vec::new();
    io::stdin().read_to_end(&mut input)?;
    io::stdout().write_all(ordinary::script::run(&input).as_bytes())
}
