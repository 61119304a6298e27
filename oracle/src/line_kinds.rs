//! Random lines of the kinds that a program answering lines is tried on: well formed ones, which the program's own
//! list has, and damaged ones, which are made of those.

use crate::numbers::Random;
use std::io::{self, BufWriter, Write};

pub const SEED: u64 = 1;
const RANDOM_LINES: u64 = 1_000_000;
/// What a file of a user's lines has at least.
const USER_BYTES: u64 = 100_000_000;
/// Lengths at which a reader may cut its input.
const CUTS: [u64; 6] = [85, 120, 4096, 8192, 16384, 65536];

pub type Line = Vec<u8>;
pub type Fields = Vec<Line>;

/// The lines of a program.
pub trait Lines {
    /// The places of the fields that are numbers.
    const NUMBERS: &'static [usize];

    /// A well formed line, to be damaged.
    fn good_fields(random: &mut Random) -> Fields;
}

pub struct Kind {
    name: &'static str,
    /// How many there are of it beside the others.
    share: u64,
    line: fn(&mut Random) -> Line,
}

pub const fn kind(name: &'static str, share: u64, line: fn(&mut Random) -> Line) -> Kind {
    Kind { name, share, line }
}

/// Prints the first lines, random ones of these kinds, and the last line, without a line feed; and to standard error
/// how many there are of each kind.
pub fn print(first: impl Iterator<Item = &'static str>, kinds: &[Kind], last: &str) -> bool {
    let mut output = BufWriter::new(io::stdout().lock());
    let mut counts = vec![0; kinds.len()];
    let mut random = Random(SEED);
    for lines in first {
        output.write_all(lines.as_bytes()).expect("output");
    }
    for _ in 0..RANDOM_LINES {
        let kind = chosen(&mut random, kinds);
        counts[kind] += 1;
        print_line(&mut output, &(kinds[kind].line)(&mut random));
    }
    output.write_all(last.as_bytes()).expect("output");
    output.flush().expect("output");
    for (kind, count) in kinds.iter().zip(counts) {
        eprintln!("{count} {}", kind.name);
    }
    true
}

/// Prints 100 MB of lines.
pub fn print_user(line: impl Fn(&mut Random) -> Line) -> bool {
    let mut output = BufWriter::new(io::stdout().lock());
    let mut random = Random(SEED);
    let mut bytes = 0;
    while bytes < USER_BYTES {
        let line = line(&mut random);
        print_line(&mut output, &line);
        bytes += line.len() as u64 + 1;
    }
    output.flush().expect("output");
    true
}

fn print_line(output: &mut impl Write, line: &[u8]) {
    output.write_all(line).expect("output");
    output.write_all(b"\n").expect("output");
}

fn chosen(random: &mut Random, kinds: &[Kind]) -> usize {
    let all: u64 = kinds.iter().map(|kind| kind.share).sum();
    let mut at = random.next() % all;
    let mut no = 0;
    while at >= kinds[no].share {
        at -= kinds[no].share;
        no += 1;
    }
    no
}

pub fn below(random: &mut Random, end: usize) -> usize {
    (random.next() % end as u64) as usize
}

pub fn one_of<T: Copy>(random: &mut Random, all: &[T]) -> T {
    all[below(random, all.len())]
}

pub fn decimal(number: impl ToString) -> Line {
    number.to_string().into_bytes()
}

pub fn written(fields: &[Line]) -> Line {
    fields.join(&b' ')
}

/// The place of a field that is a number.
pub fn number<P: Lines>(random: &mut Random) -> usize {
    one_of(random, P::NUMBERS)
}

// ---- Damaged lines

/// A changed, added or lost byte may leave a line well formed.
#[rustfmt::skip]
pub fn damaged<P: Lines>() -> Vec<Kind> {
    vec![
        kind("empty", 10, |_| Line::new()),
        kind("CR before LF", 10, |r| [&good::<P>(r)[..], b"\r"].concat()),
        kind("CR for LF", 10, |r| [&good::<P>(r)[..], b"\r", &good::<P>(r)].concat()),
        kind("tab", 10, |r| with_separator::<P>(r, b"\t")),
        kind("two spaces", 10, |r| with_separator::<P>(r, b"  ")),
        kind("another separator", 10, another_separator::<P>),
        kind("leading space", 10, |r| [b" ", &good::<P>(r)[..]].concat()),
        kind("trailing space", 10, |r| [&good::<P>(r)[..], b" "].concat()),
        kind("sign", 10, |r| before_number::<P>(r, &[b"+", b"-"])),
        kind("leading zeros", 10, |r| before_number::<P>(r, &[b"0", b"00", b"0000000000000000"])),
        kind("00", 10, |r| with_number::<P>(r, b"00".to_vec())),
        kind("21 digits or more", 10, many_digits::<P>),
        kind("2^64 or a little above", 10, just_too_great::<P>),
        kind("20 digits above 2^64", 10, too_great::<P>),
        kind("empty field", 10, empty_field::<P>),
        kind("missing field", 10, missing_field::<P>),
        kind("a field more", 10, a_field_more::<P>),
        kind("another way to write a number", 10, another_way::<P>),
        kind("NUL", 10, nul::<P>),
        kind("changed byte", 20, changed_byte::<P>),
        kind("added byte", 10, added_byte::<P>),
        kind("lost byte", 10, lost_byte::<P>),
        kind("any bytes", 10, any_bytes),
        kind("119 bytes", 5, |r| lengthened::<P>(r, 119)),
        kind("120 bytes", 5, |r| lengthened::<P>(r, 120)),
        kind("121 bytes", 5, |r| lengthened::<P>(r, 121)),
        kind("long", 8, long::<P>),
        kind("long before a good line", 2, long_before_good::<P>),
    ]
}

fn good<P: Lines>(random: &mut Random) -> Line {
    written(&P::good_fields(random))
}

fn with_number<P: Lines>(random: &mut Random, number_there: Line) -> Line {
    let mut fields = P::good_fields(random);
    fields[number::<P>(random)] = number_there;
    written(&fields)
}

/// Two fields that are not parted by a space.
fn with_separator<P: Lines>(random: &mut Random, separator: &[u8]) -> Line {
    let fields = P::good_fields(random);
    let (before, after) = fields.split_at(1 + below(random, fields.len() - 1));
    [&written(before), separator, &written(after)].concat()
}

fn another_separator<P: Lines>(random: &mut Random) -> Line {
    let all: [&[u8]; 8] = [
        b"",
        b",",
        b", ",
        b"\r",
        b"\x0b",
        b"\x0c",
        b" \t",
        b"\xc2\xa0",
    ];
    let separator = one_of(random, &all);
    with_separator::<P>(random, separator)
}

fn before_number<P: Lines>(random: &mut Random, all: &[&[u8]]) -> Line {
    let mut fields = P::good_fields(random);
    let field = &mut fields[number::<P>(random)];
    field.splice(0..0, one_of(random, all).iter().copied());
    written(&fields)
}

/// Among them those that are below 2^64 where sums wrap.
fn many_digits<P: Lines>(random: &mut Random) -> Line {
    let number = match random.next() % 4 {
        0 => decimal((1_u128 << 64) * 10 + u128::from(random.mixed(0))),
        1 => decimal(10_u128.pow(20)),
        2 => decimal((1_u128 << 127) + u128::from(random.next())),
        _ => vec![b'9'; 21 + below(random, 10)],
    };
    with_number::<P>(random, number)
}

fn just_too_great<P: Lines>(random: &mut Random) -> Line {
    let number = (1_u128 << 64) + u128::from(random.next() % 30);
    with_number::<P>(random, decimal(number))
}

fn too_great<P: Lines>(random: &mut Random) -> Line {
    let number = (1_u128 << 64) + 4 * u128::from(random.next());
    with_number::<P>(random, decimal(number))
}

fn empty_field<P: Lines>(random: &mut Random) -> Line {
    let mut fields = P::good_fields(random);
    let at = below(random, fields.len());
    fields[at].clear();
    written(&fields)
}

fn missing_field<P: Lines>(random: &mut Random) -> Line {
    let mut fields = P::good_fields(random);
    let count = fields.len();
    match random.next() % 4 {
        0 => fields.truncate(1 + below(random, count - 1)),
        _ => drop(fields.remove(below(random, count))),
    }
    written(&fields)
}

/// Anywhere.
fn a_field_more<P: Lines>(random: &mut Random) -> Line {
    let mut fields = P::good_fields(random);
    let count = fields.len();
    let more = P::good_fields(random).swap_remove(below(random, count));
    fields.insert(below(random, count + 1), more);
    written(&fields)
}

fn another_way<P: Lines>(random: &mut Random) -> Line {
    let all: [&[u8]; 12] = [
        b"0x10",
        b"1e3",
        b"1_000",
        b"1,000",
        b"1.0",
        b"1/",
        b":1",
        b"1:0",
        b"/",
        b"\xd9\xa3",
        b"\xef\xbc\x91",
        b"R",
    ];
    let number = one_of(random, &all).to_vec();
    with_number::<P>(random, number)
}

fn nul<P: Lines>(random: &mut Random) -> Line {
    let mut line = good::<P>(random);
    let at = below(random, line.len());
    match random.next() % 4 {
        0 => line[at] = 0,
        1 => line.insert(at, 0),
        2 => line[at..].fill(0),
        _ => line.push(0),
    }
    line
}

pub fn changed_byte<P: Lines>(random: &mut Random) -> Line {
    let mut line = good::<P>(random);
    let at = below(random, line.len());
    line[at] = byte(random);
    line
}

fn added_byte<P: Lines>(random: &mut Random) -> Line {
    let mut line = good::<P>(random);
    let at = below(random, line.len() + 1);
    line.insert(at, byte(random));
    line
}

fn lost_byte<P: Lines>(random: &mut Random) -> Line {
    let mut line = good::<P>(random);
    line.remove(below(random, line.len()));
    line
}

/// Any but a line feed, and every other one a byte that lines are made of or a neighbour of one.
fn byte(random: &mut Random) -> u8 {
    let any = random.next() as u8;
    match random.next() % 2 {
        0 if any != b'\n' => any,
        _ => one_of(random, b"0123456789 RW/:!QSVX\r"),
    }
}

fn any_bytes(random: &mut Random) -> Line {
    (0..below(random, 130)).map(|_| byte(random)).collect()
}

/// A good line made this long by more of something before or after one of its fields.
fn lengthened<P: Lines>(random: &mut Random, bytes: usize) -> Line {
    let mut fields = P::good_fields(random);
    let more = bytes - written(&fields).len();
    let more = more_bytes(random, more);
    let place = below(random, fields.len());
    let field = &mut fields[place];
    let at = one_of(random, &[0, field.len()]);
    field.splice(at..at, more);
    written(&fields)
}

fn more_bytes(random: &mut Random, count: usize) -> Line {
    match random.next() % 4 {
        0 => (0..count).map(|_| byte(random)).collect(),
        1 => b" 1".iter().copied().cycle().take(count).collect(),
        _ => vec![one_of(random, b"0 19\0xR"); count],
    }
}

/// Mostly of some hundred bytes, and up to 64 KiB.
fn long<P: Lines>(random: &mut Random) -> Line {
    let bytes = match random.next() % 8 {
        0 => 122 + below(random, 20_000),
        1 => near_cut(random, &CUTS[2..]),
        _ => 122 + below(random, 400),
    };
    lengthened::<P>(random, bytes)
}

fn near_cut(random: &mut Random, cuts: &[u64]) -> usize {
    let cut = one_of(random, cuts);
    random.near(cut) as usize
}

/// What is left of the line after a likely cut is a good one.
fn long_before_good<P: Lines>(random: &mut Random) -> Line {
    let before = near_cut(random, &CUTS);
    [more_bytes(random, before), good::<P>(random)].concat()
}
