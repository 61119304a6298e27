//! The model of overflows against the rows of docs/PAPER.md ("Violations"), and against receiver.rs on small rings.

use crate::receiver_inputs::{header_into, receiver};
use crate::tally::Tally;
use oracle::overflow::{Violation, overflowed};
use oracle::receiver_answers::{Lent, RECEIVER, RUN_CALLS};

/// Every ring up to this length is tried, with every chunk up to twice as long.
const SMALL: u64 = 64;

const FAILED: u64 = 2;

pub fn run() -> bool {
    rows() & all_small()
}

fn rows() -> bool {
    let mut tally = Tally::new(["the model", "expected"]);
    for &(ring, length, wanted) in ROWS {
        tally.compare([overflowed(ring, length), wanted], || {
            format!("ring {ring} length {length}")
        });
    }
    tally.report("receiver-paper: the model of overflows against the rows of docs/PAPER.md")
}

/// The Rust's one overflow is exactly where a part of the model's overflows.
fn all_small() -> bool {
    let mut tally = Tally::new(["the model", "the Rust"]);
    for ring in 1..=SMALL {
        for length in 1..=2 * SMALL {
            tally.compare([overflowed(ring, length), announced(ring, length)], || {
                format!("ring {ring} length {length}")
            });
        }
    }
    tally.report(&format!(
        "receiver-paper: the model of overflows against receiver.rs, rings up to {SMALL}"
    ))
}

/// What comes of such a chunk. Which part it is, receiver.rs has from the model.
fn announced(l: u64, length: u64) -> Option<Violation> {
    let mut ring = vec![0; l as usize];
    header_into(&mut ring, 0, length);
    let answer = (RUN_CALLS[0].answer)(Lent {
        receiver: receiver([l, 0, 0], [0; 5], 0, 1),
        ring: &mut ring,
        destination: &mut [0],
        max_new_fds: 0,
        answers: &[[0, 0, 0], [2, 11, 0]],
    });
    let numbers = answer.unwrap_or_else(|_| panic!("a read that is answered"));
    match numbers.all[RECEIVER..] {
        [FAILED, _, _, 1, number, needed, room, ..] => Some([number, needed, room]),
        _ => None,
    }
}

const LONGEST_CHUNK: u64 = (1 << 48) - 1;
const LONGEST_RING: u64 = 1 << 63;

/// A ring, the length that the header says, and the part that overflows.
#[rustfmt::skip]
const ROWS: &[(u64, u64, Option<Violation>)] = &[
    (64, 56, None),
    (64, 57, Some([5, 57, 56])),
    (64, 64, Some([5, 64, 56])),
    (64, 65, Some([5, 65, 56])),
    (64, LONGEST_CHUNK, Some([5, LONGEST_CHUNK, 56])),
    (9, 1, None),
    (9, 2, Some([5, 2, 1])),
    (8, 1, Some([5, 1, 0])),
    (7, 1, Some([2, 8, 7])),
    (7, LONGEST_CHUNK, Some([2, 8, 7])),
    (4, 57, Some([2, 8, 4])),
    (1, 1, Some([2, 8, 1])),
    (LONGEST_CHUNK + 7, LONGEST_CHUNK, Some([5, LONGEST_CHUNK, LONGEST_CHUNK - 1])),
    (LONGEST_CHUNK + 8, LONGEST_CHUNK, None),
    (LONGEST_RING, LONGEST_CHUNK, None),
];
