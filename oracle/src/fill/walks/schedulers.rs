//! A scheduler that is registered with and given other counters.

use super::{Known, SEED, STEPS, WALKS, between, row_of};
use crate::numbers::Random;
use crate::sched_inputs::length;
use crate::stripring::{NumberCall, record_of, sched_calls};
use crate::tally::Tally;
use oracle::sched_answers::Numbers;
use std::collections::BTreeMap;

const WRITE: u64 = 1;
const M: u128 = u64::MAX as u128;

pub fn run() -> bool {
    let calls = sched_calls().into_iter().collect();
    let mut tally = Tally::new(["what is known", "stripring"]);
    let mut random = Random(SEED);
    for _ in 0..WALKS {
        walk(&mut tally, &mut random, &calls);
    }
    tally.report(&format!(
        "fill: {WALKS} walks of {STEPS} registers and counters over answered schedulers"
    ))
}

fn walk(tally: &mut Tally, random: &mut Random, calls: &BTreeMap<&str, NumberCall>) {
    let l = random.mixed(0).clamp(1, 1 << 63);
    let mut known = Known::random(random, l);
    let [_, written, read, _] = known.record();
    let mut record = record_of([l, written, read]);
    for _ in 0..STEPS {
        let Step {
            name,
            behind,
            wanted,
        } = step(random, known);
        let mut input = Numbers::from(record.as_slice());
        input.push(&behind);
        let answer = calls[name](&input.all);
        let expected = match &wanted {
            Ok(next) => row_of(&[], &next.record()),
            Err(refusal) => row_of(refusal, &[]),
        };
        tally.compare([expected, answer], || format!("{name} {:?}", input.used()));
        if answer[0] == 0 {
            record = [answer[4], answer[5], answer[6], answer[7]];
        }
        known = wanted.unwrap_or(known);
    }
}

/// A call, what it is asked behind the record, and what is known after it or why it is refused.
struct Step {
    name: &'static str,
    behind: Vec<u64>,
    wanted: Result<Known, Vec<u64>>,
}

fn step(random: &mut Random, known: Known) -> Step {
    let typ = random.next() % 2;
    let (n, m) = (amount(random, known), amount(random, known));
    let off = random.next();
    let (name, behind, wanted) = match random.next() % 8 {
        0 => ("scheduler_demand_soundness", vec![], Ok(known)),
        1 => match typ {
            WRITE => (
                "scheduler_try_register_write",
                vec![n],
                registered(known, WRITE, n),
            ),
            _ => (
                "scheduler_try_register_read",
                vec![n],
                registered(known, typ, n),
            ),
        },
        2 => (
            "scheduler_try_register_operation_manually",
            vec![typ, n],
            registered(known, typ, n),
        ),
        3 => (
            "scheduler_try_register_operation",
            vec![typ, off, n],
            registered(known, typ, n),
        ),
        4..6 => (
            "scheduler_try_register_operations",
            vec![2, typ, off, n, typ, off, m],
            both_registered(known, typ, n, m),
        ),
        _ => {
            let next = elsewhere(random, known, typ);
            let [_, written, read, _] = next.record();
            let counter = if typ == WRITE { written } else { read };
            ("scheduler_try_with_counter", vec![typ, counter], Ok(next))
        }
    };
    Step {
        name,
        behind,
        wanted,
    }
}

/// Around what is there, or less than that.
fn amount(random: &mut Random, known: Known) -> u64 {
    let [l, written, read, _] = known.record();
    match random.next() % 2 {
        0 => length(random, [l, written, read]),
        _ => random.next() % (known.data().max(known.space()) + 1),
    }
}

fn registered(known: Known, typ: u64, n: u64) -> Result<Known, Vec<u64>> {
    let mut next = known;
    let greatest = match typ {
        WRITE => {
            next.written += u128::from(n);
            known.space()
        }
        _ => {
            next.read += u128::from(n);
            known.data()
        }
    };
    match n > greatest {
        true => Err(vec![6, typ, n, greatest]),
        false => Ok(next),
    }
}

fn both_registered(known: Known, typ: u64, n: u64, m: u64) -> Result<Known, Vec<u64>> {
    let sum = u128::from(n) + u128::from(m);
    if sum > M {
        return Err(vec![7, (sum - M) as u64]);
    }
    registered(registered(known, typ, n)?, typ, m)
}

/// The counter of this type is anywhere where the ring is sound.
fn elsewhere(random: &mut Random, known: Known, typ: u64) -> Known {
    let Known { l, written, read } = known;
    let l = u128::from(l);
    match typ {
        WRITE => Known {
            written: between(random, read, read + l),
            ..known
        },
        _ => Known {
            read: between(random, written - l, written),
            ..known
        },
    }
}
