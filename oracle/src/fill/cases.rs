//! The records that are tried, each with a seed for whatever else a call is asked.

use crate::numbers::{Random, around};
use crate::receiver_inputs::pick;
use crate::sched_inputs::{any_scheduler, data, sound_scheduler};
use oracle::fill_model::Record;

const SEED: u64 = 1;
/// The greatest buffer.
const H: u64 = 1 << 63;
const M: u64 = u64::MAX;

#[derive(Clone, Copy, Debug)]
pub struct Case {
    pub record: Record,
    pub seed: u64,
}

impl Case {
    pub fn counters(&self) -> [u64; 3] {
        let [l, written, read, _] = self.record;
        [l, written, read]
    }

    /// What else is asked. Every call draws it anew.
    pub fn random(&self) -> Random {
        Random(self.seed)
    }
}

/// Every record of small rings, sound or not.
pub fn small_cases(longest: u64) -> Vec<Case> {
    let mut random = Random(SEED);
    let mut cases = vec![];
    for l in 0..=longest {
        for written in 0..2 * l + 2 {
            for read in 0..2 * l + 2 {
                for fill in (0..2 * l + 2).chain([M]) {
                    let record = [l, written, read, fill];
                    let seed = random.next();
                    cases.push(Case { record, seed });
                }
            }
        }
    }
    cases
}

/// Around the ends of what is sound, with the fills that may be taken for the right one.
pub fn edge_cases() -> Vec<Case> {
    let mut random = Random(SEED);
    let mut cases = vec![];
    for l in around(&[0, 1, 2, 10, 1 << 31, 1 << 32, 1 << 62, H], 1) {
        let counters = around(&[0, l, l.wrapping_mul(2)], 1);
        for &written in &counters {
            for &read in &counters {
                for fill in fills([l, written, read]) {
                    let record = [l, written, read, fill];
                    let seed = random.next();
                    cases.push(Case { record, seed });
                }
            }
        }
    }
    cases
}

/// Half of them with the right fill.
pub fn random_cases(count: usize) -> Vec<Case> {
    let mut random = Random(SEED);
    let case = |_| {
        let l = length(&mut random);
        let counters = match random.next() % 8 {
            0 => any_scheduler(&mut random, l),
            _ => sound_scheduler(&mut random, l.clamp(1, H)),
        };
        let fill = match random.next() % 8 {
            0 => random.mixed(l),
            1..4 => pick(&mut random, &fills(counters)),
            _ => data(counters),
        };
        let [l, written, read] = counters;
        let seed = random.next();
        Case {
            record: [l, written, read, fill],
            seed,
        }
    };
    (0..count).map(case).collect()
}

/// Mostly of a ring that has its memory.
fn length(random: &mut Random) -> u64 {
    match random.next() % 8 {
        0 => random.mixed(0),
        _ => random.next() % 80,
    }
}

/// The right one, and those that a mistake may take for it: one off, none, all, the difference the other way round, the
/// space, and the greatest number.
fn fills(counters: [u64; 3]) -> [u64; 8] {
    let (l, data) = (counters[0], data(counters));
    [
        data,
        data.wrapping_add(1),
        data.wrapping_sub(1),
        0,
        l,
        l.wrapping_mul(2).wrapping_sub(data),
        l.wrapping_sub(data),
        M,
    ]
}
