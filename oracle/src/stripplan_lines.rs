//! The lines that `stripplan` is tried on: those of docs/PAPER.md ("The case of strips") and more like them, and
//! random ones of the kinds below.

use crate::line_kinds::{Fields, Kind, Lines, damaged, decimal, kind, print, written};
use crate::line_rows::whole_lines;
use crate::numbers::Random;
use crate::planner_inputs::{H, MAX_ROW_BYTES, MAX_ROWS, any_image, fitting_image, too_wide_image};
use crate::stripplan_paper::ROWS;
use oracle::planner_model::Image;

/// Rows, bytes a row, L.
struct Stripplan;

impl Lines for Stripplan {
    const NUMBERS: &'static [usize] = &[0, 1, 2];

    fn good_fields(random: &mut Random) -> Fields {
        match random.next() % 4 {
            0 => fields(any_image(random)),
            1 => fields(small_image(random)),
            _ => fields(fitting_image(random, MAX_ROWS)),
        }
    }
}

/// Well formed ones first.
#[rustfmt::skip]
fn kinds() -> Vec<Kind> {
    let mut kinds = vec![
        kind("small image", 150, |r| line(small_image(r))),
        kind("image that fits", 250, |r| line(fitting_image(r, MAX_ROWS))),
        kind("ring of 2^63", 40, |r| line(Image { buf_len: H, ..fitting_image(r, MAX_ROWS) })),
        kind("any image", 100, |r| line(any_image(r))),
        kind("refused 1", 20, |r| line(Image { buf_len: 0, ..any_image(r) })),
        kind("refused 2", 20, refused_2),
        kind("refused 14", 30, refused_14),
        kind("refused 15", 60, |r| line(too_wide_image(r))),
    ];
    kinds.extend(damaged::<Stripplan>());
    kinds
}

pub fn run() -> bool {
    print(whole_lines(ROWS), &kinds(), "10 4 20")
}

fn fields(image: Image) -> Fields {
    [image.rows, image.row_bytes, image.buf_len]
        .map(decimal)
        .to_vec()
}

fn line(image: Image) -> Vec<u8> {
    written(&fields(image))
}

fn small_image(random: &mut Random) -> Image {
    Image {
        rows: 1 + random.next() % 12,
        row_bytes: 1 + random.next() % 4,
        buf_len: random.next() % 64,
    }
}

fn refused_2(random: &mut Random) -> Vec<u8> {
    let buf_len = H + 1 + random.mixed(0) % (H - 1);
    let image = any_image(random);
    line(Image { buf_len, ..image })
}

/// The rows are out of bounds, the bytes of one, or both.
fn refused_14(random: &mut Random) -> Vec<u8> {
    let mut image = fitting_image(random, MAX_ROWS);
    image.buf_len = 1 + random.mixed(0) % H;
    let which = random.next() % 3;
    if which != 0 {
        image.rows = out_of_bounds(random, MAX_ROWS);
    }
    if which != 1 {
        image.row_bytes = out_of_bounds(random, MAX_ROW_BYTES);
    }
    line(image)
}

fn out_of_bounds(random: &mut Random, most: u64) -> u64 {
    match random.next() % 3 {
        0 => 0,
        1 => most + 1,
        _ => random.mixed(0).max(most + 1),
    }
}
