//! What docs/PAPER.md says of a program that answers lines ("Lines"), whatever its lines ask: where a line
//! ends, and how a number is written.

use std::io::{self, BufRead, Read, Write};

/// The most bytes of a line that is not bad, without its line feed.
const MOST_BYTES: usize = 120;
const MOST_DIGITS: usize = 20;

/// Prints the header, and answers every line of the input. A line without a request is bad.
pub fn run<R, W: Write>(
    header: &str,
    mut input: impl BufRead,
    mut output: W,
    parse: impl Fn(&[u8]) -> Option<R>,
    answer: impl Fn(&R, &mut W) -> io::Result<()>,
) -> io::Result<()> {
    let mut line = Vec::with_capacity(MOST_BYTES + 1);
    writeln!(output, "{header}")?;
    while next_line(&mut input, &mut line)? {
        match parse_short(&line, &parse) {
            Some(request) => answer(&request, &mut output)?,
            None => writeln!(output, "bad")?,
        }
    }
    output.flush()
}

/// Sets the next line, without its line feed; false where there is none. A line of too many bytes
/// comes as the first ones, one more than allowed, so that its length takes no memory.
fn next_line(input: &mut impl BufRead, line: &mut Vec<u8>) -> io::Result<bool> {
    line.clear();
    let most = MOST_BYTES + 1;
    let read = input.take(most as u64).read_until(b'\n', line)?;
    if line.ends_with(b"\n") {
        line.pop();
    } else if read == most {
        input.skip_until(b'\n')?;
    }
    Ok(read > 0)
}

fn parse_short<R>(line: &[u8], parse: impl Fn(&[u8]) -> Option<R>) -> Option<R> {
    match line.len() > MOST_BYTES {
        true => None,
        false => parse(line),
    }
}

/// What stands between single spaces.
pub fn fields(line: &[u8]) -> impl Iterator<Item = &[u8]> {
    line.split(|&byte| byte == b' ')
}

/// By hand, as the standard library's parser takes a sign and leading zeros.
pub fn number(field: &[u8]) -> Option<u64> {
    let leading_zero = field.len() > 1 && field[0] == b'0';
    if field.is_empty() || field.len() > MOST_DIGITS || leading_zero {
        return None;
    }
    field.iter().try_fold(0, |number: u64, &byte| {
        number.checked_mul(10)?.checked_add(digit(byte)?)
    })
}

fn digit(byte: u8) -> Option<u64> {
    byte.is_ascii_digit().then(|| u64::from(byte - b'0'))
}
