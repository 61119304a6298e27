//! The copies, and those of the ends: the static library against the scheduler of sched.rs and a
//! loop over single bytes.

use crate::copy_answers::copied;
use crate::memory::Memory;
use crate::numbers::Random;
use crate::sched_inputs::{any_scheduler, length, sound_scheduler};
use crate::stripring::{copy_calls, record_of};
use crate::tally::Tally;
use oracle::sched_answers::row;

/// Rings up to this length are tried on everything.
const SMALL: u64 = 6;
const RANDOM_INPUTS: usize = 300_000;
const SEED: u64 = 1;
/// The longest ring of a random input that has its memory. A power of two, so that a buffer length
/// near a greater one is met by memory that fits only its low bits.
const LONG: u64 = 4096;

pub fn run() -> bool {
    small() & random()
}

fn small() -> bool {
    let mut tally = tally();
    let mut random = Random(SEED);
    for l in 0..=SMALL {
        for (written, read) in pairs(0..=2 * l + 2) {
            for ring in l.saturating_sub(1)..=l + 1 {
                for other in 0..=2 * l + 1 {
                    let memory = Memory::new(&mut random, ring, other);
                    compare(&mut tally, [l, written, read], &memory);
                }
            }
        }
    }
    report(tally, &format!("all small inputs of rings up to {SMALL}"))
}

fn pairs(numbers: impl Iterator<Item = u64> + Clone) -> impl Iterator<Item = (u64, u64)> {
    let seconds = numbers.clone();
    numbers.flat_map(move |a| seconds.clone().map(move |b| (a, b)))
}

fn random() -> bool {
    let mut tally = tally();
    let mut random = Random(SEED);
    for _ in 0..RANDOM_INPUTS {
        let l = match random.next() % 16 {
            0 => random.mixed(0).clamp(1, 1 << 63),
            1..4 => random.next() % LONG + 1,
            _ => random.next() % 80 + 1,
        };
        let scheduler = match random.next() % 8 {
            0 => any_scheduler(&mut random, l),
            _ => sound_scheduler(&mut random, l),
        };
        let ring = match (l > LONG, random.next() % 16) {
            (true, _) => l % LONG,
            (false, 0) => l - 1,
            (false, 1) => l + 1,
            (false, _) => l,
        };
        let other = length(&mut random, scheduler) % (2 * ring + 2);
        let memory = Memory::new(&mut random, ring, other);
        compare(&mut tally, scheduler, &memory);
    }
    report(tally, &format!("{RANDOM_INPUTS} random inputs"))
}

fn tally() -> Tally {
    Tally::new(["the Rust", "stripring"])
}

fn report(tally: Tally, inputs: &str) -> bool {
    let calls = copy_calls().len();
    tally.report(&format!(
        "copies: stripring against sched.rs and a loop over bytes, {calls} calls, {inputs}"
    ))
}

/// Every byte is compared, also those around what is lent.
fn compare(tally: &mut Tally, scheduler: [u64; 3], memory: &Memory) {
    for (name, writes, call) in copy_calls() {
        let mut theirs = memory.clone();
        let rust = row(&copied(writes, scheduler, &mut theirs));
        let mut ours = memory.clone();
        let (ring, other) = ours.parts();
        let answer = call(record_of(scheduler), ring, other);
        tally.compare([(rust, theirs), (answer, ours)], || {
            format!("{name} {scheduler:?} {memory:?}")
        });
    }
}
