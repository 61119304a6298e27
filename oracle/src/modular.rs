//! The static library against modular.rs at 64 bits.

use crate::numbers::{Random, edges};
use crate::stripring::{OptionNumber, modular_answer};
use crate::tally::Tally;
use oracle::modular_answers::{CALLS, answer};

const RANDOM_INPUTS: u64 = 10_000_000;
const SEED: u64 = 1;

pub fn run() -> bool {
    let mut tally = Tally::new(["the Rust", "stripring"]);
    for modulus in edges() {
        for a in edges() {
            for b in edges() {
                compare(&mut tally, modulus, a, b);
            }
        }
    }
    let mut random = Random(SEED);
    for _ in 0..RANDOM_INPUTS {
        let modulus = random.mixed(0);
        let a = random.mixed(modulus);
        let b = random.mixed(modulus);
        compare(&mut tally, modulus, a, b);
    }
    tally.report(&format!(
        "modular: stripring against modular.rs at u64, every call on all triples of {} edges \
         and on {RANDOM_INPUTS} random inputs",
        edges().len()
    ))
}

fn compare(tally: &mut Tally, modulus: u64, a: u64, b: u64) {
    for (no, call) in CALLS.iter().enumerate() {
        let rust = OptionNumber::from(answer(no, modulus, a, b));
        tally.compare([rust, modular_answer(no, modulus, a, b)], || {
            format!("{}, modulus {modulus}, a {a}, b {b}", call.name)
        });
    }
}
