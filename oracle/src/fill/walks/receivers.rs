//! A receiver that reads, services and shuts down, beside the Rust.

use super::{SEED, STEPS};
use crate::numbers::Random;
use crate::receiver::{Pair, pairs};
use crate::receiver_inputs::{Input, lent_memory};
use crate::sched_inputs::data;
use crate::stripring::{lent_over, record_of, state_calls, with_record};
use crate::tally::Tally;
use oracle::receiver_answers::{RECEIVER, SCHEDULER};
use oracle::sched_answers::row;

/// More than of the others: most are short.
const WALKS: usize = 20_000;

const TERMINATED: u64 = 2;

pub fn run() -> bool {
    let pairs = pairs();
    let mut tally = Tally::new(["the Rust", "stripring"]);
    let mut random = Random(SEED);
    let mut calls = 0;
    for _ in 0..WALKS {
        calls += walk(&mut tally, &mut random, &pairs);
    }
    tally.report(&format!(
        "fill: {WALKS} walks of a receiver to its end, {calls} calls over answered receivers"
    ))
}

/// To the end of the stream, or so many steps. How many calls it made.
fn walk(tally: &mut Tally, random: &mut Random, pairs: &[Pair; 4]) -> usize {
    let mut receiver = new(random);
    for steps in 0..STEPS {
        if receiver[SCHEDULER] == TERMINATED {
            return steps;
        }
        let pair = pair(random.next(), pairs);
        receiver = called(tally, random, pair, receiver);
    }
    STEPS
}

/// Mostly a read, and seldom a shutdown.
fn pair(number: u64, pairs: &[Pair; 4]) -> &Pair {
    match number % 32 {
        0..14 => &pairs[0],
        14..28 => &pairs[1],
        28..31 => &pairs[2],
        _ => &pairs[3],
    }
}

/// Empty, with any counters.
fn new(random: &mut Random) -> [u64; RECEIVER] {
    let l = random.next() % 32 + 9;
    let counter = random.next() % (2 * l);
    let scheduler = record_of([l, counter, counter]);
    let (name, new) = state_calls()[0];
    assert_eq!(name, "receiver_new");
    let [_, _, _, _, answer @ ..] = new(&with_record(scheduler, &[0; 3]));
    answer[..RECEIVER].try_into().expect("a receiver")
}

/// The receiver after the call; where it is refused, the one before.
fn called(
    tally: &mut Tally,
    random: &mut Random,
    (call, ours): &Pair,
    receiver: [u64; RECEIVER],
) -> [u64; RECEIVER] {
    let [l, written, read, ..] = receiver;
    let memory = lent_memory(random, [l, written, read]);
    let input = Input::of(random, call.kind, without_fill(receiver), memory);
    let (mut theirs, mut memory) = (input.memory.clone(), input.memory.clone());
    let rust = row(&(call.answer)(input.lent(&mut theirs)));
    let answer = ours(lent_over(receiver, input.lent(&mut memory)));
    tally.compare([(rust, theirs), (answer, memory)], || {
        format!("{} {receiver:?} {input:?}", call.name)
    });
    let [number, _, _, _, numbers @ ..] = answer;
    if number != 0 {
        return receiver;
    }
    let [l, written, read, fill, ..] = numbers;
    tally.compare([data([l, written, read]), fill], || {
        format!("the fill behind {} {receiver:?}", call.name)
    });
    numbers[..RECEIVER].try_into().expect("a receiver")
}

fn without_fill([l, written, read, _, behind @ ..]: [u64; RECEIVER]) -> [u64; RECEIVER - 1] {
    let numbers = [&[l, written, read], &behind[..]].concat();
    numbers.try_into().expect("a number less")
}
