//! The case of docs/PAPER.md ("The case of strips"), and rows that tell two readings of `stripplan` apart, on the
//! Rust program of the same rules.

use crate::line_rows::{Rows, compare};
use oracle::stripplan;

pub fn run() -> bool {
    compare("stripplan", stripplan::HEADER, ROWS, |i, o| {
        stripplan::run(i, o)
    })
}

pub const ROWS: Rows = &[
    // The case of the paper.
    ("10 4 20\n10 4 11\n10 4\n", "ok 4 3 1\nrefused 15\nbad\n"),
    // Where the input ends.
    ("", ""),
    ("\n", "bad\n"),
    ("10 4 20", "ok 4 3 1\n"),
    ("10 4 20\n\n", "ok 4 3 1\nbad\n"),
    // Between the fields.
    ("10 4 20\r\n", "bad\n"),
    ("10\t4 20\n", "bad\n"),
    ("10  4 20\n", "bad\n"),
    (" 10 4 20\n", "bad\n"),
    ("10 4 20 \n", "bad\n"),
    ("10 4 20 1\n", "bad\n"),
    ("10 4 20\0\n", "bad\n"),
    // The fields.
    ("+10 4 20\n", "bad\n"),
    ("10 04 20\n", "bad\n"),
    ("10 4 18446744073709551616\n", "bad\n"),
    ("10 4 100000000000000000000\n", "bad\n"),
    ("10 4 W\n", "bad\n"),
    // 120 bytes and 121; what follows a line of too many bytes is a line of its own.
    (LINE_OF_120_BYTES, "bad\nok 4 3 1\n"),
    (LINE_OF_121_BYTES, "bad\nok 4 3 1\n"),
    // Refusals, in their order, and what is bad before any of them.
    ("0 4 0\n", "refused 1\n"),
    ("0 4 00\n", "bad\n"),
    ("0 4 9223372036854775809\n", "refused 2\n"),
    ("0 4 5\n", "refused 14\n"),
    ("65536 1 20\n", "refused 14\n"),
    ("1 0 20\n", "refused 14\n"),
    ("1 1048577 1048585\n", "refused 14\n"),
    ("1 1048576 1048583\n", "refused 15\n"),
    ("1 1 8\n", "refused 15\n"),
    // Accepted ones.
    ("1 1 9\n", "ok 1 1 1\n"),
    ("1 1048576 1048584\n", "ok 1 1 1\n"),
    ("10 4 12\n", "ok 10 1 1\n"),
    ("8 8 64\n", "ok 2 7 1\n"),
    ("7 8 64\n", "ok 1 7 7\n"),
    ("9 3 17\n", "ok 3 3 3\n"),
    ("65535 1 9\n", "ok 65535 1 1\n"),
    ("65535 1048576 9223372036854775808\n", "ok 1 65535 65535\n"),
];

const LINE_OF_120_BYTES: &str = concat!(
    "10 4 20                                                     ",
    "                                                            ",
    "\n10 4 20\n",
);
const LINE_OF_121_BYTES: &str = concat!(
    "10 4 20                                                     ",
    "                                                             ",
    "\n10 4 20\n",
);
