//! The model of the planner against the rows of docs/PAPER.md ("Strips"), and against all plans of small images.

use crate::planner_inputs::{all_plans, best_of, small_images};
use crate::tally::Tally;
use oracle::planner_model::{Image, Refused, Run, Strips, propose, runs};

/// All plans of images up to so many rows are tried.
const SMALL_ROWS: u64 = 12;

pub fn run() -> bool {
    rows() & all_small()
}

fn tally() -> Tally {
    Tally::new(["the model", "expected"])
}

fn rows() -> bool {
    let mut tally = tally();
    for &(image, plan, wanted) in CHECKED {
        tally.compare([of(image).check(&runs(plan)), wanted], || {
            format!("check {image:?} {plan:?}")
        });
    }
    for &(image, room, wanted) in PROPOSED {
        let mut lent = vec![u64::MAX; room];
        let answer = propose(&of(image).plan(), &mut lent);
        let untouched = vec![u64::MAX; room - wanted.unwrap_or(&[]).len()];
        let left = [wanted.unwrap_or(&[]), &untouched].concat();
        let wanted = wanted.map(|numbers| numbers.len() as u64 / 2);
        tally.compare([(answer, lent), (wanted, left)], || {
            format!("propose {image:?} {room}")
        });
    }
    tally.report("planner-paper: the model against the rows of docs/PAPER.md")
}

/// The model accepts what the paper's sentence accepts, plans as the best of all plans, and outlines that.
fn all_small() -> bool {
    let mut tally = tally();
    for rows in 1..=SMALL_ROWS {
        let plans = all_plans(rows);
        for image in small_images(rows) {
            let best = best_of(&plans, image);
            let outlined = best.as_deref().map(strips).map_err(|refused| *refused);
            tally.compare([image.outline(), outlined], || format!("outline {image:?}"));
            tally.compare([image.plan(), best], || format!("plan {image:?}"));
            for plan in &plans {
                let accepted = image.check(plan).is_ok();
                tally.compare([accepted, image.is_plan(plan)], || {
                    format!("check {image:?} {plan:?}")
                });
            }
        }
    }
    tally.report(&format!(
        "planner-paper: the model against all plans of images up to {SMALL_ROWS} rows"
    ))
}

fn strips(plan: &[Run]) -> Strips {
    Strips {
        count: plan.len() as u64,
        height: plan[0].count,
        last: plan[plan.len() - 1].count,
    }
}

fn of([rows, row_bytes, buf_len]: [u64; 3]) -> Image {
    Image {
        rows,
        row_bytes,
        buf_len,
    }
}

const M: u64 = u64::MAX;

type Sizes = [u64; 3];

/// An image, a plan, and the verdict.
#[rustfmt::skip]
const CHECKED: &[(Sizes, &[u64], Result<(), Refused>)] = &[
    ([10, 4, 20], &[0, 3, 3, 3, 6, 3, 9, 1], Ok(())),
    ([10, 4, 20], &[0, 1, 1, 2, 3, 3, 6, 1, 7, 3], Ok(())),
    ([10, 4, 20], &[0, 3, 4, 0], Err([16, 1, 0])),
    ([10, 4, 20], &[0, 3, 4, 3], Err([17, 1, 0])),
    ([10, 4, 20], &[0, 3, 2, 3], Err([17, 1, 0])),
    ([10, 4, 20], &[0, 3, 3, 8], Err([17, 1, 0])),
    ([10, 4, 20], &[0, 3, 3, M], Err([17, 1, 0])),
    ([10, 4, 20], &[1, 3], Err([17, 0, 0])),
    ([10, 4, 20], &[0, 4], Err([18, 0, 0])),
    ([10, 4, 20], &[0, 4, 9, 0], Err([18, 0, 0])),
    ([10, 4, 20], &[0, 3], Err([19, 3, 0])),
    ([10, 4, 20], &[0, 3, 3], Err([19, 3, 0])),
    ([10, 4, 20], &[0, 3, 3, 3, 6, 3], Err([19, 9, 0])),
    ([10, 4, 20], &[], Err([19, 0, 0])),
    ([3, 4, 20], &[0, 3, 3, 1], Err([17, 1, 0])),
    ([3, 4, 20], &[0, 3, 3, 0], Err([16, 1, 0])),
    ([8, 8, 64], &[0, 8], Err([18, 0, 0])),
    ([7, 8, 64], &[0, 7], Ok(())),
    ([10, 4, 11], &[], Err([15, 4, 11])),
    ([0, 4, 0], &[], Err([1, 0, 0])),
    ([0, 0, (1 << 63) + 1], &[], Err([2, (1 << 63) + 1, 0])),
    ([0, 4, 5], &[], Err([14, 0, 4])),
    ([65536, 4, 20], &[], Err([14, 65536, 4])),
    ([10, 0, 20], &[], Err([14, 10, 0])),
    ([10, (1 << 20) + 1, 20], &[], Err([14, 10, (1 << 20) + 1])),
];

/// An image, how many numbers are lent, and those that are written.
#[rustfmt::skip]
const PROPOSED: &[(Sizes, usize, Result<&[u64], Refused>)] = &[
    ([10, 4, 20], 8, Ok(&[0, 3, 3, 3, 6, 3, 9, 1])),
    ([10, 4, 20], 11, Ok(&[0, 3, 3, 3, 6, 3, 9, 1])),
    ([10, 4, 20], 7, Err([39, 4, 3])),
    ([10, 4, 20], 6, Err([39, 4, 3])),
    ([10, 4, 12], 20, Ok(&[0, 1, 1, 1, 2, 1, 3, 1, 4, 1, 5, 1, 6, 1, 7, 1, 8, 1, 9, 1])),
    ([10, 4, 11], 0, Err([15, 4, 11])),
    ([0, 4, 0], 0, Err([1, 0, 0])),
    ([0, 4, 5], 0, Err([14, 0, 4])),
    ([1, 1, 9], 2, Ok(&[0, 1])),
    ([3, 4, 100], 2, Ok(&[0, 3])),
    ([9, 3, 17], 6, Ok(&[0, 3, 3, 3, 6, 3])),
    ([65535, 1 << 20, 1 << 63], 2, Ok(&[0, 65535])),
];
