//! The images that the planner is tried on, small and random ones, and all plans of an image.

use crate::numbers::Random;
use oracle::planner_model::{Image, Refused, Run};

pub const MAX_ROWS: u64 = 65535;
pub const MAX_ROW_BYTES: u64 = 1 << 20;
const HEADER_BYTES: u64 = 8;
const SMALL_ROW_BYTES: u64 = 4;
/// The greatest ring.
pub const H: u64 = 1 << 63;

// ---- Every way to cut an image into runs that follow one another

/// One for each set of rows behind which a run ends, the last row aside.
pub fn all_plans(rows: u64) -> Vec<Vec<Run>> {
    (0..1 << (rows - 1)).map(|ends| cut(rows, ends)).collect()
}

fn cut(rows: u64, ends: u64) -> Vec<Run> {
    let mut runs = Vec::new();
    let mut first = 0;
    for row in 0..rows {
        if row == rows - 1 || ends >> row & 1 == 1 {
            let count = row + 1 - first;
            runs.push(Run { first, count });
            first = row + 1;
        }
    }
    runs
}

/// What has to be proposed, found among all plans: the fewest runs, each but the last as tall as fits. 15 where none
/// of them is a plan.
pub fn best_of(plans: &[Vec<Run>], image: Image) -> Result<Vec<Run>, Refused> {
    let good = || plans.iter().filter(|plan| image.is_plan(plan));
    let Some(fewest) = good().map(Vec::len).min() else {
        return Err(no_plan(image));
    };
    let best: Vec<_> = good()
        .filter(|plan| plan.len() == fewest && is_tall(plan, image))
        .collect();
    assert_eq!(best.len(), 1, "plans as the paper wants them: {best:?}");
    Ok(best[0].clone())
}

fn is_tall(plan: &[Run], image: Image) -> bool {
    let (_, before) = plan.split_last().expect("a run");
    before.iter().all(|run| !image.fits(run.count + 1))
}

fn no_plan(image: Image) -> Refused {
    match image.buf_len {
        0 => [1, 0, 0],
        buf_len => [15, image.row_bytes, buf_len],
    }
}

// ---- Images

/// Of narrow rows, with every ring that cuts them, some that they fit into whole, and the greatest ones.
pub fn small_images(rows: u64) -> impl Iterator<Item = Image> {
    (1..=SMALL_ROW_BYTES).flat_map(move |row_bytes| {
        let rings = (0..=rows * row_bytes + HEADER_BYTES + 2).chain([1 << 32, H - 1, H]);
        rings.map(move |buf_len| Image {
            rows,
            row_bytes,
            buf_len,
        })
    })
}

/// In bounds, with a ring that takes a row: of any number of rows, and often just that.
pub fn fitting_image(random: &mut Random, most_rows: u64) -> Image {
    let rows = 1 + random.mixed(0) % most_rows;
    let row_bytes = 1 + random.mixed(0) % MAX_ROW_BYTES;
    let strip = 1 + random.mixed(rows) % rows;
    let least = row_bytes + HEADER_BYTES;
    let buf_len = match random.next() % 8 {
        0 => random.mixed(0).clamp(least, H),
        _ => random.near(strip * row_bytes + HEADER_BYTES).max(least),
    };
    Image {
        rows,
        row_bytes,
        buf_len,
    }
}

/// Mostly refused.
pub fn any_image(random: &mut Random) -> Image {
    Image {
        rows: any_size(random, MAX_ROWS),
        row_bytes: any_size(random, MAX_ROW_BYTES),
        buf_len: random.mixed(H),
    }
}

fn any_size(random: &mut Random, most: u64) -> u64 {
    match random.next() % 4 {
        0 => random.near(0),
        1 => random.near(most),
        2 => 1 + random.next() % most,
        _ => random.mixed(most),
    }
}

/// A row and its header do not fit.
pub fn too_wide_image(random: &mut Random) -> Image {
    let image = fitting_image(random, MAX_ROWS);
    let least = image.row_bytes + HEADER_BYTES;
    let buf_len = match random.next() % 2 {
        0 => least - 1,
        _ => 1 + random.next() % (least - 1),
    };
    Image { buf_len, ..image }
}
