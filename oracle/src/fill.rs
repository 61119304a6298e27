//! The fill in the record: every call of the static library that takes one, on records whose fill is right and on others,
//! against the model; and runs of calls over the records that the library answers.

mod cases;
mod exports;
mod walks;

use crate::stripring::record_of;
use crate::tally::Tally;
use cases::{Case, edge_cases, random_cases, small_cases};
use exports::{CameTo, Export, exports};
use oracle::fill_model::{Record, demand};
use std::collections::BTreeMap;

const RANDOM_CASES: usize = 40_000;
/// Records of rings up to this length are tried with every fill.
const SMALL: u64 = 6;

pub fn run() -> bool {
    let exports = exports();
    let small = small_cases(SMALL);
    faults(&exports, &small)
        & compare(
            &exports,
            small,
            &format!("all small records of rings up to {SMALL}"),
        )
        & compare(&exports, edge_cases(), "edges")
        & compare(
            &exports,
            random_cases(RANDOM_CASES),
            &format!("{RANDOM_CASES} random records"),
        )
        & walks::run()
}

/// The answer, the record and every byte lent and around it. How often the model refused with which number is told.
fn compare(exports: &[Export], cases: Vec<Case>, what: &str) -> bool {
    let mut tally = Tally::new(["the model", "stripring"]);
    let mut numbers = BTreeMap::new();
    for case in &cases {
        for export in exports {
            let [wanted, ours] = (export.both)(case, case.record);
            *numbers.entry(wanted.refusal[0]).or_default() += 1;
            tally.compare([wanted, ours], || format!("{} {case:?}", export.name));
        }
    }
    tally.report(&format!(
        "fill: stripring against a model of the paper, {} calls, {what} ({})",
        exports.len(),
        told(&numbers)
    ))
}

/// How often each number refused; 0 is none.
fn told(numbers: &BTreeMap<u64, u64>) -> String {
    let told = numbers.iter().map(|(number, times)| match number {
        0 => format!("{times} accepted"),
        _ => format!("{number}: {times}"),
    });
    told.collect::<Vec<_>>().join(", ")
}

// ---- Libraries with a fault, which the cases have to tell

struct Fault {
    name: &'static str,
    /// In every call; else only where there is a test behind 20.
    shows_everywhere: bool,
    /// What such a library would come to: the one at hand comes to it on another record.
    came_to: fn(&Export, &Case) -> CameTo,
}

const FAULTS: [Fault; 3] = [
    Fault {
        name: "a fill that is not tested",
        shows_everywhere: true,
        came_to: |export, case| answer(export, case, right(case)),
    },
    Fault {
        name: "a fill that is tested before 1 to 5",
        shows_everywhere: true,
        came_to: |export, case| match demand(right(case)) {
            Ok(()) => answer(export, case, case.record),
            Err(_) => answer(export, case, [10, 7, 3, 5]),
        },
    },
    Fault {
        name: "a fill that is tested last",
        shows_everywhere: false,
        came_to: |export, case| {
            let behind = answer(export, case, right(case));
            match behind.refusal[0] {
                0 => answer(export, case, case.record),
                _ => behind,
            }
        },
    },
];

fn answer(export: &Export, case: &Case, record: Record) -> CameTo {
    let [_, answer] = (export.both)(case, record);
    answer
}

/// The record with the fill that it should have, where there is one.
fn right(case: &Case) -> Record {
    record_of(case.counters())
}

fn faults(exports: &[Export], cases: &[Case]) -> bool {
    let mut tally = Tally::new(["wanted", "found"]);
    for fault in &FAULTS {
        for export in exports {
            let shows = |case: &Case| {
                let [wanted, _] = (export.both)(case, case.record);
                wanted != (fault.came_to)(export, case)
            };
            let refused = |case| refused_behind(export, case);
            let wanted = fault.shows_everywhere || cases.iter().any(refused);
            tally.compare([wanted, cases.iter().any(shows)], || {
                format!("{}: {}", export.name, fault.name)
            });
        }
    }
    tally.report(&format!(
        "fill: {} libraries with a fault, found in every call that can show it",
        FAULTS.len()
    ))
}

/// With the right fill it is refused all the same, behind the tests of the record.
fn refused_behind(export: &Export, case: &Case) -> bool {
    demand(right(case)).is_ok() && answer(export, case, right(case)).refusal[0] != 0
}
