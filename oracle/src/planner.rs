//! The planner: the static library against all plans of small images, and against the model.

use crate::numbers::{Random, around};
use crate::planner_damage::{damaged, randomly_damaged};
use crate::planner_inputs::{
    H, MAX_ROW_BYTES, MAX_ROWS, all_plans, any_image, best_of, fitting_image, small_images,
    too_wide_image,
};
use crate::sched_inputs::tuples;
use crate::stripring;
use crate::tally::Tally;
use oracle::planner_model::{Image, Refused, Run, numbers, propose, runs};
use oracle::sched_answers::{Row, refusal, row};
use std::collections::BTreeMap;

/// Images up to so many rows are tried on all plans; up to so many on all damaged ones; and up to so many on all
/// proposals of a few small numbers.
const SMALL_ROWS: u64 = 12;
const DAMAGED_ROWS: u64 = 6;
const TINY_ROWS: u64 = 3;
const TINY_NUMBERS: usize = 5;

const SHORT_IMAGES: usize = 100_000;
const SHORT_ROWS: u64 = 300;
const LONG_IMAGES: usize = 4_000;
/// Damaged plans of a random image.
const DAMAGES: usize = 10;
const SEED: u64 = 1;

/// Numbers before and behind a lent plan.
const APART: usize = 4;
/// How much of a plan is shown.
const SHOWN: usize = 40;

type Plan = Result<Vec<Run>, Refused>;

pub fn run() -> bool {
    small() & small_damaged() & tiny() & edges() & random()
}

/// What is proposed is the best of all plans, and of all plans those are accepted that the paper's sentence accepts.
fn small() -> bool {
    let mut tried = Tried::new();
    for rows in 1..=SMALL_ROWS {
        let plans = all_plans(rows);
        for image in small_images(rows) {
            let best = best_of(&plans, image);
            tried.outline(image, &best);
            for lent in 0..=2 * rows as usize + 3 {
                tried.propose(image, &best, lent);
            }
            for plan in &plans {
                tried.check(image, &numbers(plan));
            }
        }
    }
    tried.report(&format!("all plans of images up to {SMALL_ROWS} rows"))
}

fn small_damaged() -> bool {
    let mut tried = Tried::new();
    for rows in 1..=DAMAGED_ROWS {
        let plans = all_plans(rows);
        let damaged: Vec<_> = plans
            .iter()
            .flat_map(|p| damaged(&numbers(p), rows))
            .collect();
        for image in small_images(rows) {
            for plan in &damaged {
                tried.check(image, plan);
            }
        }
    }
    tried.report(&format!(
        "all plans of images up to {DAMAGED_ROWS} rows, damaged"
    ))
}

fn tiny() -> bool {
    let mut tried = Tried::new();
    for rows in 1..=TINY_ROWS {
        let values: Vec<u64> = (0..=rows + 1).chain([u64::MAX]).collect();
        let plans: Vec<_> = (0..=TINY_NUMBERS)
            .flat_map(|len| tuples(&vec![&values[..]; len]))
            .collect();
        for image in small_images(rows) {
            for plan in &plans {
                tried.check(image, plan);
            }
        }
    }
    tried.report(&format!(
        "all of at most {TINY_NUMBERS} small numbers for images up to {TINY_ROWS} rows"
    ))
}

fn edges() -> bool {
    let mut tried = Tried::new();
    for &rows in &around(&[1, MAX_ROWS, u64::MAX], 1) {
        for &row_bytes in &around(&[1, 1 << 12, MAX_ROW_BYTES, u64::MAX], 1) {
            let body = |rows: u64| rows.wrapping_mul(row_bytes).wrapping_add(8);
            let centres = [0, 8, body(1), body(2), body(rows), H, u64::MAX];
            for buf_len in around(&centres, 2) {
                tried.all(Image {
                    rows,
                    row_bytes,
                    buf_len,
                });
            }
        }
    }
    tried.report("edges")
}

fn random() -> bool {
    random_images(SHORT_IMAGES, SHORT_ROWS) & random_images(LONG_IMAGES, MAX_ROWS)
}

fn random_images(count: usize, most_rows: u64) -> bool {
    let mut tried = Tried::new();
    for _ in 0..count {
        let random = &mut tried.random;
        let image = match random.next() % 8 {
            0 => any_image(random),
            1 => too_wide_image(random),
            _ => fitting_image(random, most_rows),
        };
        tried.all(image);
    }
    tried.report(&format!("{count} random images up to {most_rows} rows"))
}

/// What was compared, and how often a number refused.
struct Tried {
    tally: Tally,
    refused: BTreeMap<u64, u64>,
    random: Random,
}

impl Tried {
    fn new() -> Self {
        Self {
            tally: Tally::new(["the model", "stripring"]),
            refused: BTreeMap::new(),
            random: Random(SEED),
        }
    }

    /// The three calls on an image, and the check on its plan, on none and on damaged ones.
    fn all(&mut self, image: Image) {
        let plan = image.plan();
        self.outline(image, &plan);
        let needed = 2 * plan.as_ref().map_or(1, Vec::len);
        for lent in [0, needed - 2, needed - 1, needed, needed + 1, needed + 7] {
            self.propose(image, &plan, lent);
        }
        let plan = match &plan {
            Ok(runs) => numbers(runs),
            Err(_) => vec![0, image.rows],
        };
        self.check(image, &plan);
        self.check(image, &[]);
        for _ in 0..DAMAGES {
            let damaged = randomly_damaged(&mut self.random, &plan, image.rows);
            self.check(image, &damaged);
        }
    }

    /// The plan in three numbers.
    fn outline(&mut self, image: Image, plan: &Plan) {
        let outlined = plan.as_ref().map_err(|refused| *refused).map(|runs| {
            let last = runs.len() - 1;
            [runs.len() as u64, runs[0].count, runs[last].count]
        });
        let answers = [wanted(outlined), stripring::outline(image)];
        self.compare(answers, None, || format!("planner_outline {image:?}"));
    }

    /// Every number is compared, also those around the plan that is lent.
    fn propose(&mut self, image: Image, plan: &Plan, lent: usize) {
        let memory: Vec<u64> = (0..lent + 2 * APART).map(|_| self.random.next()).collect();
        let inside = APART..APART + lent;
        let mut theirs = memory.clone();
        let proposed = propose(plan, &mut theirs[inside.clone()]).map(|count| [count]);
        let mut ours = memory;
        let answers = [
            wanted(proposed),
            stripring::propose(image, &mut ours[inside]),
        ];
        let place = theirs
            .iter()
            .zip(&ours)
            .position(|(their, our)| their != our);
        self.compare(answers, place, || {
            format!("planner_propose {image:?}, a plan of {lent} numbers from place {APART} on")
        });
    }

    /// The verdict is the model's, and what is accepted is what the paper's sentence accepts.
    fn check(&mut self, image: Image, plan: &[u64]) {
        let runs = runs(plan);
        let verdict = image.check(&runs).map(|()| []);
        let accepted = image.outline().is_ok() && image.is_plan(&runs);
        assert_eq!(verdict.is_ok(), accepted, "the model: {image:?} {plan:?}");
        let answers = [wanted(verdict), stripring::check(image, plan)];
        self.compare(answers, None, || {
            let shown = &plan[..plan.len().min(SHOWN)];
            format!(
                "planner_check {image:?}, a plan of {} numbers {shown:?}",
                plan.len()
            )
        });
    }

    /// The answers are the same, and no place of the lent memory differs.
    fn compare(&mut self, answers: [Row; 2], place: Option<usize>, call: impl FnOnce() -> String) {
        let [model, ours] = answers;
        *self.refused.entry(model[0]).or_default() += 1;
        self.tally.compare([(model, None), (ours, place)], call);
    }

    fn report(self, inputs: &str) -> bool {
        let refused = self.refused.iter().map(|(number, times)| match number {
            0 => format!("{times} accepted"),
            _ => format!("{number}: {times}"),
        });
        let refused: Vec<_> = refused.collect();
        self.tally.report(&format!(
            "planner: stripring against a model of the paper, {inputs} ({})",
            refused.join(", ")
        ))
    }
}

fn wanted<const N: usize>(answer: Result<[u64; N], Refused>) -> Row {
    row(&match answer {
        Ok(numbers) => Ok(numbers.as_slice().into()),
        Err(refused) => Err(refusal(&refused)),
    })
}
