//! The planner: a plan proposed, and that plan checked.

use crate::best::best_turns;
use crate::stripring;
use oracle::planner_model::{self, Image, Run};
use std::hint::black_box;

/// The most runs that a plan can have, and about so many are a turn.
const MOST_RUNS: u64 = 65535;

pub fn print_table() {
    println!("\nThe planner: µs a call, and this library's time as a part of the model's\n");
    println!("| call | image | ring | runs | this library | model | of model |");
    println!("|---|---|---|---|---|---|---|");
    print_rows(Image {
        rows: 65535,
        row_bytes: 1,
        buf_len: 9,
    });
    print_rows(Image {
        rows: 4096,
        row_bytes: 4096,
        buf_len: 64 << 10,
    });
}

fn print_rows(image: Image) {
    let runs = image.plan().expect("a plan");
    let plan = planner_model::numbers(&runs);
    assert_same_answers(image, &plan);
    let count = plan.len() as u64 / 2;
    print_row(
        "propose",
        image,
        count,
        propose(image, plan.len(), MOST_RUNS / count),
    );
    print_row(
        "check",
        image,
        count,
        check(image, &plan, &runs, MOST_RUNS / count),
    );
}

fn print_row(call: &str, image: Image, runs: u64, ns: [f64; 2]) {
    let Image {
        rows,
        row_bytes,
        buf_len,
    } = image;
    let [ours, model] = ns.map(|ns| ns / 1000.0);
    println!(
        "| {call} | {rows} rows of {row_bytes} B | {buf_len} B | {runs} | {ours:.2} | {model:.2} | {:.2} |",
        ours / model
    );
}

/// ns a call.
fn propose(image: Image, numbers: usize, calls: u64) -> [f64; 2] {
    let (mut ours, mut theirs) = (vec![0; numbers], vec![0; numbers]);
    let turns = best_turns([
        &mut || {
            for _ in 0..calls {
                black_box(stripring::propose(image, black_box(&mut ours)).of);
            }
        },
        &mut || {
            for _ in 0..calls {
                let plan = black_box(image).plan();
                black_box(planner_model::propose(&plan, black_box(&mut theirs))).expect("a plan");
            }
        },
    ]);
    turns.map(|turn| turn / calls as f64)
}

/// ns a call.
fn check(image: Image, plan: &[u64], runs: &[Run], calls: u64) -> [f64; 2] {
    let turns = best_turns([
        &mut || {
            for _ in 0..calls {
                black_box(stripring::check(image, black_box(plan)).number);
            }
        },
        &mut || {
            for _ in 0..calls {
                black_box(image.check(black_box(runs))).expect("a plan");
            }
        },
    ]);
    turns.map(|turn| turn / calls as f64)
}

/// Or a wrong one would be measured.
fn assert_same_answers(image: Image, plan: &[u64]) {
    let mut ours = vec![0; plan.len()];
    let proposed = stripring::propose(image, &mut ours);
    assert_eq!(
        (proposed.refusal.number, proposed.of),
        (0, plan.len() as u64 / 2)
    );
    assert_eq!(ours, plan);
    assert_eq!(stripring::check(image, plan).number, 0);
}
