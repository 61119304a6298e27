//! The static library against receiver.rs over scripted answers of the socket.

use crate::memory::Memory;
use crate::numbers::{Random, around};
use crate::receiver_inputs::{Input, Receiver, State, put_header, receiver, values};
use crate::sched_inputs::{inputs, tuples};
use crate::stripring::{RunCall, handed, handed_lent, run_calls, state_calls};
use crate::tally::Tally;
use oracle::receiver_answers::{Kind, Part, RECEIVER, RUN_CALLS, SCHEDULER, STATE_CALLS};
use oracle::sched_answers::{Row, row};
use oracle::scripted_socket::Answer;
use std::collections::BTreeMap;

const RANDOM_CALLS: usize = 1_000_000;
const SEED: u64 = 1;

const NORMAL: u64 = 0;
const FAILED: u64 = 2;

/// A ring that takes a chunk of one byte. What was read ends so that a header goes round its end.
const SMALL: u64 = 9;
/// A ring that takes no header.
const SMALLER: u64 = 7;
const SMALL_READ: u64 = 5;
/// The ring, the data at hand and the header: no header needed; an accepted chunk, an empty one, one
/// too long, an unknown format, and one that finds no room.
const SMALL_HEADERS: [(u64, u64, u64); 6] = [
    (SMALL, 1, 1),
    (SMALL, 0, 1),
    (SMALL, 0, 0),
    (SMALL, 0, 2),
    (SMALL, 0, 1 << 62),
    (SMALLER, 0, 1),
];
const SMALL_STATES: [State; 13] = [
    [0, 0, 0, 0, 0],
    [1, 0, 0, 0, 0],
    [1, 0, 5, 0, 0],
    [1, 0, 11, 0, 0],
    [1, 0, 32, 0, 0],
    [1, 1, 2, 8, 4],
    [1, 1, 5, 57, 56],
    [2, 0, 0, 0, 0],
    [2, 0, 5, 0, 0],
    [2, 0, 11, 0, 0],
    [2, 0, 32, 0, 0],
    [2, 1, 2, 0, 0],
    [2, 1, 5, 1, u64::MAX],
];
const SMALL_ANSWERS: [Answer; 12] = [
    [0, 0, 1],
    [0, 0, 2],
    [0, 7, 0],
    [1, 0, 0],
    [2, 0, 0],
    [2, 4, 0],
    [2, 11, 0],
    [2, 32, 0],
    [3, 0, 0],
    [3, 1, 0],
    [3, 128, 0],
    [4, 0, 0],
];

/// A call of the Rust, and the static library's.
pub type Pair = (&'static oracle::receiver_answers::RunCall, RunCall);

pub fn run() -> bool {
    let pairs = pairs();
    states() & small(&pairs) & random(&pairs)
}

/// The calls over a run of answers, in the order of `RUN_CALLS`.
pub fn pairs() -> [Pair; 4] {
    let ours = run_calls();
    assert_eq!(ours.len(), RUN_CALLS.len());
    let find = |name| ours.iter().find(|our| our.0 == name).expect(name).1;
    RUN_CALLS.each_ref().map(|call| (call, find(call.name)))
}

/// Every pair of states and failures, and the schedulers around small rings and the greatest.
fn states() -> bool {
    let ours = state_calls();
    assert_eq!(ours.len(), STATE_CALLS.len());
    let mut tally = tally();
    for call in &STATE_CALLS {
        let our = ours
            .iter()
            .find(|our| our.0 == call.name)
            .expect(call.name)
            .1;
        for input in inputs(call.takes, state_values) {
            let rust = row(&(call.answer)(&input.all));
            let answer = match call.takes {
                [Part::Scheduler, ..] => our(&handed(&input.all)),
                _ => our(&input.all),
            };
            tally.compare([rust, answer], || {
                format!("{} {:?}", call.name, input.used())
            });
        }
    }
    let calls = STATE_CALLS.len();
    tally.report(&format!(
        "receiver: stripring against receiver.rs, {calls} calls, all states and failures of a set"
    ))
}

fn state_values(part: Part) -> Vec<Vec<u64>> {
    match part {
        Part::Scheduler => {
            let lengths = around(&[0, 10, 1 << 63], 2);
            let counters = around(&[0, 10, 20, 1 << 63], 2);
            tuples(&[&lengths, &counters, &counters])
        }
        _ => values(part),
    }
}

fn small(pairs: &[Pair]) -> bool {
    let mut tried = Tried::new();
    each_small(pairs, |pair, input| tried.compare(pair, input));
    tried.report(&small_calls())
}

pub fn small_calls() -> String {
    format!("all small calls of rings of {SMALL} and {SMALLER}")
}

/// Everything that is built of the small parts. Only a read looks at memory, so to the other calls it
/// is lent once.
pub fn each_small(pairs: &[Pair], mut visit: impl FnMut(&Pair, &Input)) {
    let runs = small_runs();
    for (ring, data, header) in SMALL_HEADERS {
        for destination in 0..=2 {
            let once = (data, destination) == (1, 0);
            for receiver in small_receivers(ring, data) {
                for answers in &runs {
                    let input = Input {
                        receiver,
                        memory: small_memory(ring, header, destination),
                        max_new_fds: 1,
                        answers: answers.clone(),
                    };
                    for pair in pairs
                        .iter()
                        .filter(|pair| once || pair.0.kind == Kind::Read)
                    {
                        visit(pair, &input);
                    }
                }
            }
        }
    }
}

fn small_memory(ring: u64, header: u64, destination: u64) -> Memory {
    let mut memory = Memory::new(&mut Random(SEED), ring, destination);
    put_header(&mut memory, SMALL_READ, header);
    memory
}

/// Of each state, without and with a batch or more to send, and shut or not.
fn small_receivers(ring: u64, data: u64) -> Vec<Receiver> {
    let scheduler = [ring, SMALL_READ + data, SMALL_READ];
    let mut receivers = vec![];
    for state in SMALL_STATES {
        for pending in [0, 1, 129] {
            for issued in [0, 1] {
                receivers.push(receiver(scheduler, state, pending, issued));
            }
        }
    }
    receivers
}

/// No answer, one, and two.
fn small_runs() -> Vec<Vec<Answer>> {
    let one = || SMALL_ANSWERS.iter().map(|&answer| vec![answer]);
    let two = one().flat_map(|first| one().map(move |second| [&first[..], &second].concat()));
    [vec![]].into_iter().chain(one()).chain(two).collect()
}

fn random(pairs: &[Pair; 4]) -> bool {
    let mut tried = Tried::new();
    each_random(pairs, |pair, input| tried.compare(pair, input));
    tried.report(&random_calls())
}

pub fn random_calls() -> String {
    format!("{RANDOM_CALLS} random scripted calls")
}

/// Half of them reads as they are called from outside, and half of the rest the reads within.
pub fn each_random(pairs: &[Pair; 4], mut visit: impl FnMut(&Pair, &Input)) {
    let mut random = Random(SEED);
    for _ in 0..RANDOM_CALLS {
        let pair = match random.next() % 8 {
            0..4 => &pairs[0],
            4..6 => &pairs[1],
            6 => &pairs[2],
            _ => &pairs[3],
        };
        let l = length(&mut random);
        visit(pair, &Input::random(&mut random, pair.0.kind, l));
    }
}

/// Of a ring: mostly such that small chunks fill it, now and then any number.
fn length(random: &mut Random) -> u64 {
    match random.next() % 32 {
        0 => 0,
        1 => random.mixed(0),
        2..5 => random.next() % 8 + 1,
        5..8 => random.next() % 300 + 1,
        _ => random.next() % 32 + 9,
    }
}

fn tally() -> Tally {
    Tally::new(["the Rust", "stripring"])
}

/// What was compared, and how often the Rust came to what.
struct Tried {
    tally: Tally,
    kinds: BTreeMap<String, u64>,
}

impl Tried {
    fn new() -> Self {
        Self {
            tally: tally(),
            kinds: BTreeMap::new(),
        }
    }

    /// The answer, the record, and every byte lent and around it.
    fn compare(&mut self, (call, ours): &Pair, input: &Input) {
        let mut theirs = input.memory.clone();
        let rust = row(&(call.answer)(input.lent(&mut theirs)));
        let mut our_memory = input.memory.clone();
        let our = ours(handed_lent(input.lent(&mut our_memory)));
        self.count(kind(call.kind, &rust));
        let before = input.receiver[3];
        self.count_state(before, &rust);
        self.count_announced(before, &rust);
        self.tally.compare([(rust, theirs), (our, our_memory)], || {
            format!("{} {input:?}", call.name)
        });
    }

    fn count(&mut self, kind: String) {
        *self.kinds.entry(kind).or_default() += 1;
    }

    /// A state that became another one.
    fn count_state(&mut self, before: u64, row: &Row) {
        let (refused, after) = (row[0] != 0, row[4 + SCHEDULER]);
        if !refused && before != after {
            let after = ["normal", "draining", "terminated"][after as usize];
            self.count(format!("became {after}"));
        }
    }

    /// In Normal no failure is stored, so a violation is of what was announced.
    fn count_announced(&mut self, before: u64, row: &Row) {
        if let (NORMAL, [FAILED, _, _, 1, violation, ..]) = (before, outcome(row)) {
            self.count(format!("announced violation {violation}"));
        }
    }

    fn report(self, calls: &str) -> bool {
        let kinds: Vec<String> = self
            .kinds
            .iter()
            .map(|(kind, n)| format!("{kind} {n}"))
            .collect();
        let kinds = kinds.join(", ");
        self.tally.report(&format!(
            "receiver: stripring against receiver.rs, {calls} ({kinds})"
        ))
    }
}

/// Behind the refusal and the receiver. Of a refusal it is zeros.
fn outcome(row: &Row) -> &[u64] {
    &row[4 + RECEIVER..]
}

/// What an answer is counted as.
fn kind(call: Kind, row: &Row) -> String {
    let [number, place, ..] = *row;
    let outcome = outcome(row);
    match (number, outcome[0]) {
        (12, _) if place == 0 => "refused 12 at 0".to_string(),
        (1.., _) => format!("refused {number}"),
        (0, 0) if outcome[1] == 0 => "read nothing".to_string(),
        (0, 0) if outcome[2] == 0 => "read".to_string(),
        (0, 0) => "read with descriptors".to_string(),
        (0, 1) => format!("done {}", name(call)),
        _ => failed(call, outcome[3], outcome[4]),
    }
}

fn failed(call: Kind, failure: u64, value: u64) -> String {
    match (failure, value) {
        (0, 4 | 5 | 11 | 32) => format!("failed {} with {value}", name(call)),
        (0, _) => format!("failed {} with another errno", name(call)),
        _ => format!("failed {} with violation {value}", name(call)),
    }
}

fn name(call: Kind) -> &'static str {
    match call {
        Kind::Read => "read",
        Kind::Service => "service",
        Kind::Shutdown => "shutdown",
    }
}
