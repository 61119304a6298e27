//! The fixed list of the answers of receiver.rs that the replay program runs.

use crate::numbers::Random;
use crate::receiver_inputs::{Input, values};
use crate::record_sched::SCHEDULERS;
use crate::sched_inputs::inputs;
use oracle::receiver_answers::{Kind, Part, RUN_CALLS, RunCall, STATE_CALLS};
use oracle::sched_answers::line;

const SEED: u64 = 1;
/// So many numbers of a line the replay program holds.
const HELD: usize = 128;
/// The longest ring, so that no line has more: a read has its bytes and, in the destination, as many and 3.
const LONGEST: u64 = 30;
/// Every byte of a destination before the call.
const BEFORE: u8 = 170;

pub fn run() -> bool {
    print_head();
    for (op, call) in STATE_CALLS.iter().enumerate() {
        for input in inputs(call.takes, chosen) {
            let answer = line(&(call.answer)(&input.all));
            print_line(&[&[op as u64], input.used(), &answer]);
        }
    }
    let mut random = Random(SEED);
    for (op, call) in RUN_CALLS.iter().enumerate() {
        for _ in 0..lines(call.kind) {
            let l = length(&mut random);
            let input = Input::random(&mut random, call.kind, l);
            print_run((STATE_CALLS.len() + op) as u64, call, input);
        }
    }
    true
}

/// Random ones of a call.
fn lines(kind: Kind) -> u64 {
    match kind {
        Kind::Read => 1200,
        Kind::Service => 600,
        Kind::Shutdown => 250,
    }
}

/// Mostly of a ring that has room for a header and a body.
fn length(random: &mut Random) -> u64 {
    match random.next() % 8 {
        0 => random.next() % 8 + 1,
        _ => random.next() % (LONGEST - 8) + 9,
    }
}

fn chosen(part: Part) -> Vec<Vec<u64>> {
    match part {
        Part::Scheduler => SCHEDULERS.iter().map(|s| s.to_vec()).collect(),
        _ => values(part),
    }
}

fn print_head() {
    println!(
        "# Answers of rosenpass/src/internal/util/ipc/shm/stream/mio/receiver.rs, rosenpass commit"
    );
    println!(
        "# ed07bfab94, unchanged, over scripted answers of the socket and with stand-ins for the files"
    );
    println!("# that it leans on. Made in oracle/ by: cargo run --release --quiet record-receiver");
    println!("# Sets of states and failures, and random inputs by splitmix64 from seed {SEED}.");
    println!("# A line: op, what it takes, its answer");
    println!("# op, and what it takes:");
    for (op, call) in STATE_CALLS.iter().enumerate() {
        let parts: Vec<&str> = call.takes.iter().map(|part| part.numbers()).collect();
        println!("#   {op} {}: {}", call.name, parts.join(" "));
    }
    for (op, call) in RUN_CALLS.iter().enumerate() {
        let takes = match call.kind {
            Kind::Read => "receiver, ring, destination's length, max_new_fds, answers",
            _ => "receiver, answers",
        };
        println!("#   {} {}: {takes}", STATE_CALLS.len() + op, call.name);
    }
    println!("# answer: 0 and its numbers, or a refusal's number and its extra values");
    println!(
        "#   of op 0 a receiver; of 1 a potential failure; of 2 to 5 a state; of 6 and 7 a failure"
    );
    println!(
        "#   of the others receiver, outcome, how many answers were used; of a read then also every byte"
    );
    println!("#   of the destination. Before the call each is {BEFORE}, and after a refusal still");
    println!(
        "# scheduler: L written read; in an answer its fill behind them, the Rust's data_avail"
    );
    println!(
        "# failure: 0, an errno and two numbers that are not looked at, in an answer 0; or 1, a"
    );
    println!("#   violation, the bytes needed and the room; any other kind is taken for 1");
    println!("# violation: 1 InvalidChunkAnnouncement, 2 HeaderOverflow, 3 UnknownHeader,");
    println!(
        "#   4 InvalidChunkLength, 5 BodyOverflow; a number that none has is taken for 4. Of all but"
    );
    println!(
        "#   2 and 5 the bytes and the room are not looked at, in an answer 0. The Rust has one"
    );
    println!("#   ControlOverflow for 2 and 5; which it is, and its numbers, are by a model");
    println!(
        "# some failure, and a potential failure: 1 and a failure, or 0 and four numbers that are not"
    );
    println!("#   looked at, in an answer 0");
    println!(
        "# state: 0 Normal and four numbers that are not looked at, in an answer 0; 1 Draining or"
    );
    println!("#   2 Terminated and a failure; any other kind is taken for 2");
    println!(
        "# receiver: scheduler, state, pending acknowledgements, 1 if a shutdown has succeeded else 0"
    );
    println!("# ring: the count of its bytes and each byte");
    println!(
        "# answers: their count and each one's kind, value and descriptors; kind: 0 received the byte"
    );
    println!("#   value, 1 closed, 2 failed with the errno value, 3 sent value bytes, 4 done");
    println!(
        "# outcome: kind, bytes, descriptors, failure; kind: 0 read, 1 done, 2 failed; what a kind does"
    );
    println!("#   not have is 0");
}

fn print_run(op: u64, call: &RunCall, mut input: Input) {
    input.memory.parts().1.fill(BEFORE);
    let mut memory = input.memory.clone();
    let answer = (call.answer)(input.lent(&mut memory));
    let answers = [&[input.answers.len() as u64], input.answers.as_flattened()].concat();
    let (ring, destination) = memory.parts();
    let ring = [&[ring.len() as u64], &numbers(ring)[..]].concat();
    let read = [destination.len() as u64, input.max_new_fds];
    let written = match answer {
        Ok(_) => numbers(destination),
        Err(_) => vec![],
    };
    let answer = line(&answer);
    match call.kind {
        Kind::Read => print_line(&[
            &[op],
            &input.receiver,
            &ring,
            &read,
            &answers,
            &answer,
            &written,
        ]),
        _ => print_line(&[&[op], &input.receiver, &answers, &answer]),
    }
}

fn numbers(bytes: &[u8]) -> Vec<u64> {
    bytes.iter().map(|&byte| byte.into()).collect()
}

fn print_line(parts: &[&[u64]]) {
    let words: Vec<String> = parts.concat().iter().map(u64::to_string).collect();
    assert!(words.len() <= HELD, "a line that is too long: {words:?}");
    println!("{}", words.join(" "));
}
