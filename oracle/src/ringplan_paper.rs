//! The rows of docs/PAPER.md ("The case", "Readings") that tell two readings of `ringplan` apart, on
//! the Rust program of the same rules.

use crate::line_rows::{Rows, compare};
use oracle::ringplan;

pub fn run() -> bool {
    compare("ringplan", ringplan::HEADER, ROWS, |i, o| {
        ringplan::run(i, o)
    })
}

pub const ROWS: Rows = &[
    // The case of the paper.
    (
        "10 7 3 W 9\n0 0 0 R 1\n10 7 3 R\n",
        "ok 2 7 3 0 3\nrefused 1\nbad\n",
    ),
    // Where the input ends.
    ("", ""),
    ("\n", "bad\n"),
    ("\n\n", "bad\nbad\n"),
    ("10 7 3 W 9", "ok 2 7 3 0 3\n"),
    ("10 7 3 W 9\n\n", "ok 2 7 3 0 3\nbad\n"),
    // Between the fields.
    ("10 7 3 W 9\r\n", "bad\n"),
    ("10\t7 3 W 9\n", "bad\n"),
    ("10  7 3 W 9\n", "bad\n"),
    (" 10 7 3 W 9\n", "bad\n"),
    ("10 7 3 W 9 \n", "bad\n"),
    ("10 7 3 W\n", "bad\n"),
    ("10 7 3 W 9 1\n", "bad\n"),
    ("10 7 3 W 9\0\n", "bad\n"),
    // The fields.
    ("10 7 3 w 9\n", "bad\n"),
    ("10 7 3 r 9\n", "bad\n"),
    ("+1 0 0 R 1\n", "bad\n"),
    ("01 0 0 R 1\n", "bad\n"),
    ("1 00 0 R 1\n", "bad\n"),
    ("1 0 0 R 100000000000000000000\n", "bad\n"),
    ("1 0 0 R 18446744073709551616\n", "bad\n"),
    ("1 0 0 R 18446744073709551615\n", "ok 0\n"),
    // 84 bytes, 120 and 121; what follows a line of too many bytes is a line of its own.
    (
        "9223372036854775808 18446744073709551615 10000000000000000000 W 18446744073709551615\n",
        "ok 2 9223372036854775807 1 0 776627963145224192\n",
    ),
    (LINE_OF_120_BYTES, "bad\nok 2 7 3 0 3\n"),
    (LINE_OF_121_BYTES, "bad\nok 2 7 3 0 3\n"),
    // Refusals, in their order, and what is bad before any of them.
    ("0 0 0 R 0\n", "refused 1\n"),
    ("0 0 0 r 0\n", "bad\n"),
    ("9223372036854775809 0 0 R 1\n", "refused 2\n"),
    ("10 20 20 W 0\n", "refused 3\n"),
    ("10 11 30 R 1\n", "refused 4\n"),
    ("10 11 0 R 1\n", "refused 5\n"),
    // Accepted ones.
    ("10 7 3 W 0\n", "ok 0\n"),
    ("10 3 3 R 4\n", "ok 0\n"),
    ("10 7 3 R 9\n", "ok 1 3 4\n"),
    ("10 10 0 R 18446744073709551615\n", "ok 1 0 10\n"),
    (
        "9223372036854775808 5 18446744073709551613 R 8\n",
        "ok 2 9223372036854775805 3 0 5\n",
    ),
];

const LINE_OF_120_BYTES: &str = concat!(
    "10 7 3 W 9                                                  ",
    "                                                            ",
    "\n10 7 3 W 9\n",
);
const LINE_OF_121_BYTES: &str = concat!(
    "10 7 3 W 9                                                  ",
    "                                                             ",
    "\n10 7 3 W 9\n",
);
