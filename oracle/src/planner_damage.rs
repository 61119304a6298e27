//! Damaged plans, as numbers. Some stay plans.

use crate::numbers::Random;
use crate::planner_inputs::H;

/// What becomes of one number of a plan of so many rows.
#[rustfmt::skip]
const CHANGED_NUMBERS: [fn(u64, u64) -> u64; 14] = [
    |_, _| 0,
    |_, _| 1,
    |_, rows| rows,
    |_, rows| rows.wrapping_add(1),
    |n, _| n.wrapping_add(1),
    |n, _| n.wrapping_sub(1),
    |n, rows| n.wrapping_add(rows),
    |n, rows| n.wrapping_sub(rows),
    |n, _| n.wrapping_neg(),
    // The same in its low bits, for sums and products that are cut short.
    |n, _| n.wrapping_add(1 << 32),
    |n, _| n ^ H,
    |n, _| n | H >> 1,
    |_, _| H,
    |_, _| u64::MAX,
];

/// What becomes of a plan at the run whose numbers begin at this place.
#[rustfmt::skip]
const CHANGED_RUNS: [fn(&mut Vec<u64>, usize); 13] = [
    // left out
    |plan, at| drop(plan.drain(at..at + 2)),
    // twice
    |plan, at| insert(plan, at, [plan[at], plan[at + 1]]),
    // an empty one before it, and behind it
    |plan, at| insert(plan, at, [plan[at], 0]),
    |plan, at| insert(plan, at + 2, [end(plan, at), 0]),
    // an empty one that is out of place
    |plan, at| insert(plan, at, [end(plan, at), 0]),
    // one row more behind it
    |plan, at| insert(plan, at + 2, [end(plan, at), 1]),
    // the first one
    |plan, at| plan.rotate_left(at),
    // the last one, whole or half
    |plan, at| plan.truncate(at + 2),
    |plan, at| plan.truncate(at + 1),
    // with a number left over
    |plan, at| plan.push(plan[at]),
    // cut behind its first row, with a row of the next one, and with all of the next one
    |plan, at| resize(plan, at, 1),
    |plan, at| resize(plan, at, plan[at + 1].wrapping_add(1)),
    |plan, at| join(plan, at),
];

/// The row behind a run.
fn end(plan: &[u64], at: usize) -> u64 {
    plan[at].wrapping_add(plan[at + 1])
}

fn insert(plan: &mut Vec<u64>, at: usize, run: [u64; 2]) {
    plan.splice(at..at, run);
}

/// The run has so many rows, and what is behind it up to the next one's end is one run.
fn resize(plan: &mut Vec<u64>, at: usize, count: u64) {
    join(plan, at);
    let end = end(plan, at);
    plan[at + 1] = count;
    let first = plan[at].wrapping_add(count);
    insert(plan, at + 2, [first, end.wrapping_sub(first)]);
}

/// The run has the rows of the next one too, where there is one.
fn join(plan: &mut Vec<u64>, at: usize) {
    if let Some(&count) = plan.get(at + 3) {
        plan[at + 1] += count;
        plan.drain(at + 2..at + 4);
    }
}

/// The plan with every damage at every place.
pub fn damaged(plan: &[u64], rows: u64) -> Vec<Vec<u64>> {
    let numbers = (0..plan.len()).flat_map(|at| {
        let changed = move |change: &fn(u64, u64) -> u64| changed_number(plan, at, rows, *change);
        CHANGED_NUMBERS.iter().map(changed)
    });
    let runs = (0..plan.len()).step_by(2).flat_map(|at| {
        let changed = move |change: &fn(&mut Vec<u64>, usize)| changed_run(plan, at, *change);
        CHANGED_RUNS.iter().map(changed)
    });
    numbers.chain(runs).collect()
}

/// The plan, which is not empty, with one damage.
pub fn randomly_damaged(random: &mut Random, plan: &[u64], rows: u64) -> Vec<u64> {
    let at = place(random, plan.len());
    let no = random.next() as usize;
    match random.next() % 2 {
        0 => changed_number(plan, at, rows, CHANGED_NUMBERS[no % CHANGED_NUMBERS.len()]),
        _ => changed_run(plan, at - at % 2, CHANGED_RUNS[no % CHANGED_RUNS.len()]),
    }
}

/// The first and the last ones, and any.
fn place(random: &mut Random, end: usize) -> usize {
    let any = random.next() as usize;
    match random.next() % 3 {
        0 => any % end.min(4),
        1 => end - 1 - any % end.min(4),
        _ => any % end,
    }
}

fn changed_number(plan: &[u64], at: usize, rows: u64, change: fn(u64, u64) -> u64) -> Vec<u64> {
    let mut changed = plan.to_vec();
    changed[at] = change(plan[at], rows);
    changed
}

fn changed_run(plan: &[u64], at: usize, change: fn(&mut Vec<u64>, usize)) -> Vec<u64> {
    let mut changed = plan.to_vec();
    change(&mut changed, at);
    changed
}
