//! The static library's machine, one answer at a time with misfits in between, against its calls over
//! the same answers without them, and against receiver.rs.

use crate::memory::Memory;
use crate::numbers::Random;
use crate::receiver::{Pair, each_random, each_small, pairs, random_calls, small_calls};
use crate::receiver_inputs::{Input, pick};
use crate::stripring::{
    CallNumbers, CopyCall, STEP, StepNumbers, answered, begin, copy_calls, handed_lent,
};
use crate::tally::Tally;
use oracle::fill_model::Record;
use oracle::receiver_answers::{Kind, OUTCOME, RECEIVER, SCHEDULER};
use oracle::sched_answers::{Numbers, Row, row};
use oracle::scripted_socket::Answer;
use std::fmt::Debug;

const SEED: u64 = 1;
const M: u64 = u64::MAX;

pub const RECEIVE: u64 = 0;
const SEND: u64 = 1;
const SHUTDOWN: u64 = 2;
const READ: u64 = 0;

// Where the numbers of a call in progress begin, behind the receiver's.
const SOURCE: usize = RECEIVER;
pub const PHASE: usize = SOURCE + SCHEDULER;
const ENDS_WITH: usize = PHASE + 5;
const CAME_TO: usize = ENDS_WITH + OUTCOME;

/// A read of the machine comes to what the Rust calls `read_with_fds_impl`; the inputs of the read as
/// it is called from outside are tried by it too.
pub fn run() -> bool {
    let [_, read, service, shutdown] = pairs();
    let mut small = Tried::new();
    each_small(&[read, service, shutdown], |pair, input| {
        small.compare(pair, input)
    });
    let mut random = Tried::new();
    each_random(&[read, read, service, shutdown], |pair, input| {
        random.compare(pair, input)
    });
    small.report(&small_calls()) & random.report(&random_calls())
}

/// What was compared, and what was handed in beside the answers of the runs.
struct Tried {
    tally: Tally,
    random: Random,
    misfits: u64,
    rings: u64,
    resumed: u64,
}

impl Tried {
    fn new() -> Self {
        Self {
            tally: Tally::new(["without misfits", "the machine"]),
            random: Random(SEED),
            misfits: 0,
            rings: 0,
            resumed: 0,
        }
    }

    /// First the library's run of the input, refused or not. Where it needs more answers, or one does
    /// not fit, the call still waits: it is brought to its end, and the answers that it took are then
    /// a run that the Rust has an answer to.
    fn compare(&mut self, pair: &Pair, input: &Input) {
        let (call, ours) = pair;
        let ran = ours(handed_lent(input.lent(&mut input.memory.clone())));
        let mut driven = match Driven::begin(call.kind, input) {
            Ok(driven) => driven,
            Err(refused) => return self.same(pair, input, [ran, refused_row(refused)]),
        };
        let came_to = self.drive(&mut driven);
        self.same(pair, input, [ran, came_to]);
        self.resumed += u64::from(driven.waits());
        self.bring_to_its_end(&mut driven);
        self.compare_whole(pair, driven);
    }

    /// Hands in the run, and says what a call over it comes to.
    fn drive(&mut self, driven: &mut Driven) -> Row {
        let input = driven.input;
        for &answer in &input.answers {
            if !driven.waits() {
                break;
            }
            self.hand_in_misfits(driven);
            if let Err(refused) = driven.hand_in(answer) {
                return refused_row(refused);
            }
        }
        match driven.waits() {
            true => refused_row([11, 0, 0, 0, 0]),
            false => driven.row(),
        }
    }

    fn bring_to_its_end(&mut self, driven: &mut Driven) {
        while driven.waits() {
            self.hand_in_misfits(driven);
            let answer = fitting(&mut self.random, &driven.call);
            if let Err(refused) = driven.hand_in(answer) {
                let input = || format!("{:?} {answer:?}", driven.call);
                return self.tally.compare([[0; 5], refused], input);
            }
        }
    }

    /// The answer, the record, and every byte lent and around it. A finished call stays as it is.
    fn compare_whole(&mut self, pair: &Pair, driven: Driven) {
        let input = Input {
            answers: driven.taken.clone(),
            ..driven.input.clone()
        };
        let ((call, ours), came_to) = (pair, driven.row());
        let (mut theirs, mut our_memory) = (input.memory.clone(), input.memory.clone());
        let rust = row(&(call.answer)(input.lent(&mut theirs)));
        let our = ours(handed_lent(input.lent(&mut our_memory)));
        let memory = &driven.memory;
        self.same(pair, &input, [(rust, &theirs), (came_to, memory)]);
        self.same(pair, &input, [(our, &our_memory), (came_to, memory)]);
        let answer = misfit(&mut self.random, &driven.call);
        let step = answered(driven.call.0, &[], answer, 1);
        self.same(pair, &input, [accepted(driven.call.0), step]);
    }

    fn same<A: PartialEq + Debug>(&mut self, pair: &Pair, input: &Input, rows: [A; 2]) {
        let name = pair.0.name;
        self.tally.compare(rows, || format!("{name} {input:?}"));
    }

    /// None, one or more. Each is refused, with nothing beside the refusal.
    fn hand_in_misfits(&mut self, driven: &mut Driven) {
        while let 0 = self.random.next() % 2 {
            let (expected, answer, wrong_ring) = match self.random.next() % 8 {
                0 if driven.call.phase() == RECEIVE => {
                    self.rings += 1;
                    (refusal(9, 0), [0, 0, 0], true)
                }
                _ => {
                    self.misfits += 1;
                    let answer = misfit(&mut self.random, &driven.call);
                    (refusal(12, driven.place()), answer, false)
                }
            };
            let step = driven.answered(answer, wrong_ring);
            let input = || format!("{:?} {answer:?}", driven.call);
            self.tally.compare([expected, step], input);
        }
    }

    fn report(self, calls: &str) -> bool {
        let Self {
            misfits,
            rings,
            resumed,
            ..
        } = self;
        self.tally.report(&format!(
            "machine: stripring answer by answer against its runs and receiver.rs, {calls} \
            (misfits in between {misfits}, rings of a wrong length {rings}, \
            brought to their end where the run is refused {resumed})"
        ))
    }
}

/// The numbers of a call in progress.
#[derive(Debug)]
pub struct Call(pub CallNumbers);

impl Call {
    pub fn receiver(&self) -> &[u64] {
        &self.0[..SOURCE]
    }

    fn source(&self) -> Record {
        let numbers = &self.0[SOURCE..PHASE];
        numbers.try_into().expect("the numbers of a scheduler")
    }

    pub fn phase(&self) -> u64 {
        self.0[PHASE]
    }

    pub fn waits(&self) -> bool {
        self.phase() <= SHUTDOWN
    }

    pub fn max_new_fds(&self) -> u64 {
        self.0[PHASE + 1]
    }

    fn batch(&self) -> u64 {
        self.0[PHASE + 3]
    }

    /// What it still ends with where it waits, what it came to where it is finished.
    pub fn outcome(&self) -> &[u64] {
        match self.phase() {
            RECEIVE..=SHUTDOWN => &self.0[ENDS_WITH..CAME_TO],
            _ => &self.0[CAME_TO..],
        }
    }
}

/// A call as a host drives it.
struct Driven<'a> {
    input: &'a Input,
    memory: Memory,
    call: Call,
    copied: bool,
    /// The answers that it accepted.
    taken: Vec<Answer>,
}

impl<'a> Driven<'a> {
    fn begin(kind: Kind, input: &'a Input) -> Result<Self, Refused> {
        let mut memory = input.memory.clone();
        let call = gone_on(begin(kind, handed_lent(input.lent(&mut memory))))?;
        let mut driven = Self {
            input,
            memory,
            call,
            copied: false,
            taken: vec![],
        };
        driven.copy_in_time();
        Ok(driven)
    }

    fn waits(&self) -> bool {
        self.call.waits()
    }

    /// Of the next answer, from 1.
    fn place(&self) -> u64 {
        self.taken.len() as u64 + 1
    }

    /// A ring is lent where a byte was received, and only there; a wrong one is a byte short.
    fn answered(&mut self, answer: Answer, wrong_ring: bool) -> StepNumbers {
        let place = self.place();
        let ring = self.memory.parts().0;
        let ring = match self.call.phase() == RECEIVE && answer[0] == 0 {
            true => &ring[usize::from(wrong_ring)..],
            false => &[],
        };
        answered(self.call.0, ring, answer, place)
    }

    fn hand_in(&mut self, answer: Answer) -> Result<(), Refused> {
        self.call = gone_on(self.answered(answer, false))?;
        self.taken.push(answer);
        self.copy_in_time();
        Ok(())
    }

    /// Before the first send, or at the end.
    fn copy_in_time(&mut self) {
        let due = self.call.phase() != RECEIVE && self.call.outcome()[0] == READ;
        if due && !self.copied {
            let n = self.call.outcome()[1] as usize;
            let (ring, destination) = self.memory.parts();
            copies_read()(self.call.source(), ring, &mut destination[..n]);
            self.copied = true;
        }
    }

    /// As a call over the answers that were taken answers.
    fn row(&self) -> Row {
        let mut numbers = Numbers::default();
        numbers.push(self.call.receiver());
        numbers.push(self.call.outcome());
        numbers.push(&[self.taken.len() as u64]);
        row(&Ok(numbers))
    }
}

fn copies_read() -> CopyCall {
    let calls = copy_calls();
    calls.iter().find(|call| call.0 == "copies_read").unwrap().2
}

/// The refusal, and how many of the numbers beside it are not 0: where there are any, it is a difference.
pub type Refused = [u64; 5];

pub fn gone_on(step: StepNumbers) -> Result<Call, Refused> {
    let [number, a, b, c, call @ ..] = step;
    let beside = call.iter().filter(|&&number| number != 0).count() as u64;
    match number {
        0 => Ok(Call(call)),
        _ => Err([number, a, b, c, beside]),
    }
}

fn accepted(call: CallNumbers) -> StepNumbers {
    let mut step = [0; STEP];
    step[4..].copy_from_slice(&call);
    step
}

/// With nothing beside it.
fn refusal(number: u64, a: u64) -> StepNumbers {
    let mut step = [0; STEP];
    step[..2].copy_from_slice(&[number, a]);
    step
}

/// As a call over a run is refused.
fn refused_row(refused: Refused) -> Row {
    let mut row = Row::default();
    row[..5].copy_from_slice(&refused);
    row
}

/// An answer that the phase cannot have; to a finished call any is handed in.
fn misfit(random: &mut Random, call: &Call) -> Answer {
    let errno = [2, pick(random, &[0, 4096, M]), 0];
    let (byte, closed, sent, done) = ([0; 3], [1, 0, 0], [3, 1, 0], [4, 0, 0]);
    let unknown = [pick(random, &[5, 6, M]), 0, 0];
    match call.phase() {
        RECEIVE => {
            let large = [0, pick(random, &[256, M]), 0];
            let many = call.max_new_fds().checked_add(1);
            let many = many.map_or(large, |fds| [0, 0, fds]);
            pick(random, &[errno, sent, done, unknown, large, many])
        }
        SEND => {
            let more = [3, pick(random, &[call.batch() + 1, M]), 0];
            pick(random, &[errno, byte, closed, done, unknown, more])
        }
        _ => pick(random, &[errno, byte, closed, sent, unknown]),
    }
}

/// An answer that the phase can have, and that does not go on for ever.
fn fitting(random: &mut Random, call: &Call) -> Answer {
    match (call.phase(), random.next() % 2) {
        (SEND, 0) => [3, call.batch(), 0],
        (RECEIVE | SEND, _) => [2, 11, 0],
        _ => [4, 0, 0],
    }
}
