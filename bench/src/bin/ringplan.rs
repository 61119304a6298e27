//! The Rust program that does what `ringplan` does, without the checks of oracle's own profile.

use std::io::{self, BufWriter};

fn main() -> io::Result<()> {
    oracle::ringplan::run(io::stdin().lock(), BufWriter::new(io::stdout().lock()))
}
