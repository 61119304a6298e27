//! Compares a program's answers to lines with those of the Rust.

use std::fs;

/// How much of a line is shown.
const SHOWN: usize = 200;

/// Takes the program's name, the files of the input lines, of the Rust's answers and of the program's, and
/// what the input is. Prints the counts and the first difference; true where there is none.
pub fn run(name: &str, lines: &str, rust: &str, program: &str, what: &str) -> bool {
    let [lines, rust, program] = [lines, rust, program].map(read);
    let [lines, rust, program] = [&lines, &rust, &program].map(|bytes| cut(bytes));
    let count = |word: &[u8]| {
        rust.iter()
            .filter(|answer| answer.starts_with(word))
            .count()
    };
    let differing: Vec<usize> = (0..rust.len().max(program.len()))
        .filter(|&no| rust.get(no) != program.get(no))
        .collect();
    println!(
        "{name}, {what}: {} lines, {} ok, {} refused, {} bad; {} differences",
        lines.len(),
        count(b"ok"),
        count(b"refused"),
        count(b"bad"),
        differing.len()
    );
    if let Some(&no) = differing.first() {
        // The header comes first, so the answer of this number is that of the line before it.
        let line = no.checked_sub(1).and_then(|before| lines.get(before));
        println!("first difference: line {no}: {}", shown(line));
        println!("the Rust: {}", shown(rust.get(no)));
        println!("{name}: {}", shown(program.get(no)));
    }
    differing.is_empty()
}

fn read(file: &str) -> Vec<u8> {
    fs::read(file).unwrap_or_else(|e| panic!("{file}: {e}"))
}

/// With their line feeds, so that a lost one is a difference too.
fn cut(bytes: &[u8]) -> Vec<&[u8]> {
    bytes.split_inclusive(|&byte| byte == b'\n').collect()
}

fn shown(line: Option<&&[u8]>) -> String {
    match line {
        Some(line) if line.len() > SHOWN => {
            format!("{}.. of {} bytes", line[..SHOWN].escape_ascii(), line.len())
        }
        Some(line) => line.escape_ascii().to_string(),
        None => "none".to_string(),
    }
}
