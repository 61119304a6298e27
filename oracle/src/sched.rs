//! The static library against sched.rs.

use crate::numbers::{Random, around};
use crate::sched_inputs::{Case, inputs, values};
use crate::stripring::{NumberCall, handed, sched_calls};
use crate::tally::Tally;
use oracle::sched_answers::{CALLS, Call, Numbers, Part, row};

/// Rings up to this length are tried on everything.
const SMALL: u64 = 6;
const RANDOM_INPUTS: usize = 3_000_000;
const SEED: u64 = 1;
/// A random input goes to one call in so many, in turn: all would take minutes under an emulator.
const SHARE: usize = 6;

/// A call with what is wanted of it, and the static library's.
type Pair = (&'static Call, NumberCall);

pub fn run() -> bool {
    compare_calls("sched: stripring against sched.rs", &CALLS, sched_calls())
}

/// What a library of calls answers beside what is wanted of each, by its name.
pub fn compare_calls(what: &str, calls: &'static [Call], ours: Vec<(&str, NumberCall)>) -> bool {
    assert_eq!(ours.len(), calls.len());
    let find = |name| ours.iter().find(|our| our.0 == name).expect(name).1;
    let pairs: Vec<Pair> = calls.iter().map(|call| (call, find(call.name))).collect();
    small(what, &pairs) & edges(what, &pairs) & random(what, &pairs)
}

fn small(what: &str, pairs: &[Pair]) -> bool {
    let mut tally = tally();
    for l in 0..=SMALL {
        let counters: Vec<u64> = (0..=2 * l + 2).collect();
        let lengths: Vec<u64> = (0..=2 * l + 1).collect();
        compare_all(&mut tally, pairs, |part| {
            values(part, l, &counters, &lengths)
        });
    }
    let inputs = format!("all small inputs of rings up to {SMALL}");
    report(tally, what, pairs, &inputs)
}

fn edges(what: &str, pairs: &[Pair]) -> bool {
    let mut tally = tally();
    let ls = around(&[0, 1, 2, 10, 1 << 31, 1 << 32, 1 << 62, 1 << 63], 2);
    for &l in &ls {
        let ends = [0, l, l.wrapping_mul(2)];
        let (counters, lengths) = (around(&ends, 2), around(&ends, 1));
        compare_all(&mut tally, pairs, |part| {
            values(part, l, &counters, &lengths)
        });
    }
    let inputs = format!("edges of {} buffer lengths", ls.len());
    report(tally, what, pairs, &inputs)
}

fn random(what: &str, pairs: &[Pair]) -> bool {
    let mut tally = tally();
    let mut random = Random(SEED);
    for turn in 0..RANDOM_INPUTS {
        let case = Case::random(&mut random);
        for pair in pairs.iter().skip(turn % SHARE).step_by(SHARE) {
            compare(&mut tally, pair, &case.input(pair.0.takes));
        }
    }
    let inputs = format!("{RANDOM_INPUTS} random inputs, each to one call in {SHARE}");
    report(tally, what, pairs, &inputs)
}

fn tally() -> Tally {
    Tally::new(["wanted", "stripring"])
}

fn report(tally: Tally, what: &str, pairs: &[Pair], inputs: &str) -> bool {
    tally.report(&format!("{what}, {} calls, {inputs}", pairs.len()))
}

fn compare_all(tally: &mut Tally, pairs: &[Pair], values: impl Fn(Part) -> Vec<Vec<u64>>) {
    for pair in pairs {
        for input in inputs(pair.0.takes, &values) {
            compare(tally, pair, &input);
        }
    }
}

fn compare(tally: &mut Tally, (call, ours): &Pair, input: &Numbers) {
    let wanted = row(&(call.answer)(&input.all));
    let answer = match call.takes {
        [Part::Scheduler, ..] => ours(&handed(&input.all)),
        _ => ours(&input.all),
    };
    tally.compare([wanted, answer], || {
        format!("{} {:?}", call.name, input.used())
    });
}
