//! The inputs that the calls of sched.rs are tried on: all of a kind, and random ones.

use crate::numbers::Random;
use oracle::sched_answers::{Numbers, Part};

/// The greatest buffer.
const MAX_BUF_LEN: u64 = 1 << 63;

/// Every input of a call that takes these parts, of which each has these values.
pub fn inputs<P: Copy>(takes: &[P], values: impl Fn(P) -> Vec<Vec<u64>>) -> Vec<Numbers> {
    let mut inputs = vec![Numbers::default()];
    for &part in takes {
        let values = values(part);
        inputs = inputs
            .iter()
            .flat_map(|input| values.iter().map(|value| extended(*input, value)))
            .collect();
    }
    inputs
}

fn extended(mut input: Numbers, value: &[u64]) -> Numbers {
    input.push(value);
    input
}

/// Every value of a part whose counters and lengths are among these. Offsets are beyond l.
pub fn values(part: Part, l: u64, counters: &[u64], lengths: &[u64]) -> Vec<Vec<u64>> {
    let bits = &[0, 1];
    let offsets = &[l.wrapping_add(1)];
    match part {
        Part::Length => tuples(&[&[l]]),
        Part::Counters | Part::Scheduler => tuples(&[&[l], counters, counters]),
        Part::Type => tuples(&[bits]),
        Part::Amount => tuples(&[lengths]),
        Part::Counter => tuples(&[counters]),
        Part::Operation => tuples(&[bits, offsets, lengths]),
        Part::List => tuples(&[&[0, 1, 2], bits, offsets, lengths, bits, offsets, lengths]),
        Part::Block => tuples(&[bits, bits, offsets, lengths]),
        Part::Values => tuples(&[lengths, lengths]),
        Part::Diff => tuples(&[bits, lengths, lengths]),
    }
}

/// Every way to take a number of each column.
pub fn tuples(columns: &[&[u64]]) -> Vec<Vec<u64>> {
    columns.iter().fold(vec![vec![]], |tuples, column| {
        tuples
            .iter()
            .flat_map(|tuple| {
                column
                    .iter()
                    .map(|&number| [&tuple[..], &[number]].concat())
            })
            .collect()
    })
}

/// A random input for every call.
pub struct Case {
    scheduler: [u64; 3],
    counter: [u64; 1],
    operation: [u64; 3],
    list: [u64; 7],
    block: [u64; 4],
    diff: [u64; 3],
}

impl Case {
    pub fn random(random: &mut Random) -> Self {
        let l = random.mixed(0);
        let scheduler = match random.next() % 4 {
            0 => any_scheduler(random, l),
            _ => sound_scheduler(random, l.wrapping_sub(1) % MAX_BUF_LEN + 1),
        };
        Self::over(random, scheduler)
    }

    /// With this scheduler.
    pub fn over(random: &mut Random, scheduler: [u64; 3]) -> Self {
        Self {
            scheduler,
            counter: [counter(random, scheduler)],
            operation: operation(random, scheduler),
            list: list(random, scheduler),
            block: [bit(random), bit(random), random.next(), random.mixed(0)],
            diff: diff(random),
        }
    }

    pub fn input(&self, takes: &[Part]) -> Numbers {
        let mut input = Numbers::default();
        for &part in takes {
            input.push(self.part(part));
        }
        input
    }

    fn part(&self, part: Part) -> &[u64] {
        match part {
            Part::Length => &self.scheduler[..1],
            Part::Counters | Part::Scheduler => &self.scheduler,
            Part::Type => &self.operation[..1],
            Part::Amount => &self.operation[2..],
            Part::Counter => &self.counter,
            Part::Operation => &self.operation,
            Part::List => &self.list,
            Part::Block => &self.block,
            Part::Values => &self.diff[1..],
            Part::Diff => &self.diff,
        }
    }
}

/// 0 or 1, and now and then another number, which stands for 1.
fn bit(random: &mut Random) -> u64 {
    match random.next() % 16 {
        0 => random.next(),
        n => n % 2,
    }
}

/// Mostly unsound.
pub fn any_scheduler(random: &mut Random, l: u64) -> [u64; 3] {
    let end = l.wrapping_mul(2);
    [l, random.mixed(end), random.mixed(end)]
}

pub fn sound_scheduler(random: &mut Random, l: u64) -> [u64; 3] {
    let end = u128::from(l) * 2;
    let read = u128::from(random.mixed(l)) % end;
    let fill = random.mixed(l) % (l + 1);
    let written = (read + u128::from(fill)) % end;
    [l, written as u64, read as u64]
}

pub fn data([l, written, read]: [u64; 3]) -> u64 {
    let end = i128::from(l.max(1)) * 2;
    (i128::from(written) - i128::from(read)).rem_euclid(end) as u64
}

/// Any counter, or one near those of the scheduler or near L after what was read.
fn counter(random: &mut Random, [l, written, read]: [u64; 3]) -> u64 {
    let end = u128::from(l.max(1)) * 2;
    match random.next() % 4 {
        0 => random.mixed(end as u64),
        1 => random.near(written),
        2 => random.near(read),
        _ => random.near(((u128::from(read) + u128::from(l)) % end) as u64),
    }
}

fn operation(random: &mut Random, scheduler: [u64; 3]) -> [u64; 3] {
    let len = length(random, scheduler);
    [bit(random), random.next(), len]
}

/// Any length, or one near the data, the space, or the end of the buffer.
pub fn length(random: &mut Random, scheduler: [u64; 3]) -> u64 {
    let [l, written, read] = scheduler;
    let to_end = |counter: u64| l - counter.checked_rem(l).unwrap_or(0);
    match random.next() % 5 {
        0 => random.mixed(l),
        1 => random.near(data(scheduler)),
        2 => random.near(l.wrapping_sub(data(scheduler))),
        3 => random.near(to_end(written)),
        _ => random.near(to_end(read)),
    }
}

/// Mostly of one type; the second length is any one, or near what the first leaves of the data, of
/// the space or of 2^64.
fn list(random: &mut Random, scheduler: [u64; 3]) -> [u64; 7] {
    let [typ, off, len] = operation(random, scheduler);
    let mut second = operation(random, scheduler);
    second[0] = match random.next() % 4 {
        0 => second[0],
        _ => typ,
    };
    let data = data(scheduler);
    let whole = [data, scheduler[0].wrapping_sub(data), 0];
    if let Some(whole) = whole.get(random.next() as usize % 4) {
        second[2] = random.near(whole.wrapping_sub(len));
    }
    let count = random.next() % 4;
    [count, typ, off, len, second[0], second[1], second[2]]
}

/// Often of equal values.
fn diff(random: &mut Random) -> [u64; 3] {
    let old = random.mixed(0);
    let new = match random.next() % 2 {
        0 => old,
        _ => random.near(old),
    };
    [bit(random), old, new]
}
