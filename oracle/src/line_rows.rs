//! Rows of docs/PAPER.md on a program that answers lines: a whole input, and its answers after the header.

use crate::tally::Tally;
use std::io;

pub type Rows = &'static [(&'static str, &'static str)];

/// Compares the Rust program of the same rules with the rows.
pub fn compare(
    name: &str,
    header: &str,
    rows: Rows,
    program: fn(&[u8], &mut Vec<u8>) -> io::Result<()>,
) -> bool {
    let mut tally = Tally::new(["the Rust", "expected"]);
    for (input, want) in rows {
        let mut answers = Vec::new();
        program(input.as_bytes(), &mut answers).expect("memory");
        let answers = String::from_utf8(answers).expect("text");
        tally.compare([answers, format!("{header}\n{want}")], || {
            input.as_bytes().escape_ascii().to_string()
        });
    }
    tally.report(&format!(
        "{name}-paper: the Rust against the rows of docs/PAPER.md"
    ))
}

/// The inputs that other lines can follow.
pub fn whole_lines(rows: Rows) -> impl Iterator<Item = &'static str> {
    let inputs = rows.iter().map(|(input, _)| *input);
    inputs.filter(|input| input.ends_with('\n'))
}
