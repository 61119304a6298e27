//! The fixed list of the answers of sched.rs that the replay program runs.

use crate::numbers::{Random, edges};
use crate::sched_inputs::{Case, inputs, values};
use oracle::sched_answers::{CALLS, Call, Numbers, Part, line};

const SEED: u64 = 1;
/// Of each call that takes anything.
const RANDOM_LINES: u64 = 40;
const M: u64 = u64::MAX;
/// The greatest buffer.
const H: u64 = 1 << 63;
const LENGTHS: [u64; 5] = [0, 1, 3, 4, M];
const COUNTERS: [u64; 6] = [0, 7, 10, 13, 19, 20];

/// The sound ones empty, partly filled and full, in one piece and come round; then each refusal.
pub const SCHEDULERS: [[u64; 3]; 22] = [
    [1, 0, 0],
    [1, 1, 0],
    [1, 0, 1],
    [10, 4, 4],
    [10, 19, 19],
    [10, 10, 0],
    [10, 3, 13],
    [10, 7, 3],
    [10, 13, 7],
    [10, 19, 12],
    [10, 0, 11],
    [10, 0, 19],
    [H, 0, 0],
    [H, H, 0],
    [H, M, M],
    [H, 5, M - 2],
    [0, 0, 0],
    [H + 1, 0, 0],
    [10, 20, 20],
    [10, 11, 30],
    [10, 11, 0],
    [H, H + 1, 0],
];

/// Accepted ones, on (10, 7, 3) some of them too long; then 7, and 8.
const LISTS: [[u64; 7]; 13] = [
    [0, 0, 0, 0, 0, 0, 0],
    [1, 0, 3, 4, 0, 0, 0],
    [1, 1, 7, 5, 0, 0, 0],
    [1, 1, 999, M, 0, 0, 0],
    [2, 0, 3, 1, 0, 4, 3],
    [2, 0, 3, 4, 0, 7, 1],
    [2, 1, 7, 3, 1, 0, 3],
    [2, 1, 7, 3, 1, 0, 4],
    [2, 1, 999, 0, 1, 999, 3],
    [2, 0, 0, M - 1, 0, M, 1],
    [2, 0, 0, M, 1, 0, 1],
    [2, 1, 0, M, 1, 0, M],
    [2, 0, 0, 1, 1, 0, 1],
];

pub fn run() -> bool {
    print_head();
    let mut random = Random(SEED);
    for (no, call) in CALLS.iter().enumerate() {
        for input in inputs(call.takes, chosen) {
            print_line(no, call, &input);
        }
        if !call.takes.is_empty() {
            for _ in 0..RANDOM_LINES {
                print_line(no, call, &Case::random(&mut random).input(call.takes));
            }
        }
    }
    true
}

fn chosen(part: Part) -> Vec<Vec<u64>> {
    match part {
        Part::Length => edges().into_iter().map(|l| vec![l]).collect(),
        Part::Counters | Part::Scheduler => SCHEDULERS.iter().map(|s| s.to_vec()).collect(),
        Part::List => LISTS.iter().map(|list| list.to_vec()).collect(),
        _ => values(part, 10, &COUNTERS, &LENGTHS),
    }
}

fn print_head() {
    println!(
        "# Answers of rosenpass/src/internal/util/ringbuf/sched.rs, rosenpass commit ed07bfab94,"
    );
    println!("# unchanged. Made in oracle/ by: cargo run --release --quiet record-sched");
    println!("# Edges, and random inputs by splitmix64 from seed {SEED}.");
    println!("# A line: op, what it takes, its answer");
    println!("# op, and what it takes:");
    for (no, call) in CALLS.iter().enumerate() {
        println!("#   {no} {}: {}", call.name, takes(call));
    }
    println!("# answer: 0 and its numbers, or a refusal's number, 1 to 8, and its extra values");
    println!("# type of operation: 0 Read, 1 Write; of block: 0 Free, 1 Data; no: 0 Zero, 1 One");
    println!("# layout: 0 DataFreeData, 1 FreeDataFree; fill state: 0 Empty, 1 Partial, 2 Full");
    println!("# where a type, a no or different is taken, all but 0 stands for 1");
    println!(
        "# scheduler: L written read; in an answer its fill behind them, the Rust's data_avail"
    );
    println!("# block: type no offset length; operation: type offset length");
    println!("# list: the count and each operation, with its start or its start and end before it");
    println!("# what is scheduled: the count, one place (next operation) or two (list), each an");
    println!("# operation or 0 0 0, and what is left over of n. The Rust does not answer that:");
    println!("# it is n less the lengths of its operations");
    println!("# where a list is taken, a count above 1 stands for two; only so many are looked at");
    println!("# diff: 0 for Same, 1 for Different, then old and new");
    println!(
        "# op 59 is not in sched.rs: its counters before and after are what op 2 is asked for"
    );
}

fn takes(call: &Call) -> String {
    let parts: Vec<&str> = call.takes.iter().map(|part| part.numbers()).collect();
    match parts.is_empty() {
        true => "nothing".to_string(),
        false => parts.join(" "),
    }
}

fn print_line(no: usize, call: &Call, input: &Numbers) {
    let answer = line(&(call.answer)(&input.all));
    let numbers = [&[no as u64], input.used(), &answer].concat();
    let words: Vec<String> = numbers.iter().map(u64::to_string).collect();
    println!("{}", words.join(" "));
}
