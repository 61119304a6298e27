//! The table of the calls that take a record, each with what is wanted of it. The tests of the record are the model's;
//! behind them the Rust is asked, or the paper's rule where the Rust has no such call.

use super::cases::Case;
use crate::copy_answers::copied;
use crate::ends;
use crate::machine::{Call as CallInProgress, PHASE, RECEIVE, gone_on};
use crate::memory::Memory;
use crate::numbers::Random;
use crate::receiver::{Pair, pairs};
use crate::receiver_inputs::{Input, lent_memory, pick};
use crate::sched_inputs::{Case as Parts, data};
use crate::stripring::{
    CALL, CopyCall, LentCopyCall, LentTakeCall, NumberCall, READ_IN_PLACE, TAKE_READ_IN_PLACE,
    TAKE_WRITTEN_IN_PLACE, WRITE_IN_PLACE, answered, begin, copy_calls, end_calls, handed_lent,
    lent_over, sched_calls, state_calls, with_record,
};
use oracle::fill_model::{Record, behind_tests, take_read, take_written};
use oracle::receiver_answers::{Kind, OUTCOME, RECEIVER, STATE_CALLS};
use oracle::sched_answers::{Answer, CALLS, Call, Numbers, Part, Refusal, Row, refusal, row};

pub struct Export {
    pub name: &'static str,
    /// What is wanted of it on a case, and what it comes to where it is handed this record.
    pub both: Box<dyn Fn(&Case, Record) -> [CameTo; 2]>,
}

/// What a call comes to: the refusal, the numbers behind it, the record that it was lent, and every byte lent and around
/// it. What it was not lent is as it was.
#[derive(Debug, PartialEq)]
pub struct CameTo {
    pub refusal: [u64; 4],
    numbers: Vec<u64>,
    record: Record,
    memory: Option<Memory>,
}

pub fn exports() -> Vec<Export> {
    let [_, read, service, shutdown] = pairs();
    let mut exports = vec![
        receiver_new(),
        lent_copy("writing_end_write_in_place", true, WRITE_IN_PLACE),
        lent_copy("reading_end_read_in_place", false, READ_IN_PLACE),
        lent_take("writing_end_take_in_place", take_read, TAKE_READ_IN_PLACE),
        lent_take(
            "reading_end_take_in_place",
            take_written,
            TAKE_WRITTEN_IN_PLACE,
        ),
        begun("call_begin_read", read),
        begun("call_begin_service", service),
        begun("call_begin_shutdown", shutdown),
        call_answered(),
    ];
    exports.extend(of_numbers(&CALLS, sched_calls()));
    exports.extend(of_numbers(&ends::CALLS, end_calls()));
    exports.extend(copy_calls().into_iter().map(copy));
    exports.extend(pairs().map(run));
    exports
}

fn export(name: &'static str, both: impl Fn(&Case, Record) -> [CameTo; 2] + 'static) -> Export {
    let both = Box::new(both);
    Export { name, both }
}

fn came_to(answer: Row, record: Record, memory: Option<Memory>) -> CameTo {
    let [number, a, b, c, numbers @ ..] = answer;
    CameTo {
        refusal: [number, a, b, c],
        numbers: numbers.to_vec(),
        record,
        memory,
    }
}

// ---- Calls that take numbers alone

fn of_numbers(
    calls: &'static [Call],
    ours: Vec<(&'static str, NumberCall)>,
) -> impl Iterator<Item = Export> {
    let takes_record = |call: &&Call| matches!(call.takes, [Part::Scheduler, ..]);
    calls.iter().filter(takes_record).map(move |call| {
        let ours = ours.iter().find(|our| our.0 == call.name);
        let ours = ours.expect(call.name).1;
        export(call.name, move |case, handed| {
            let input = Parts::over(&mut case.random(), case.counters()).input(call.takes);
            let wanted = behind_tests(case.record, || (call.answer)(&input.all));
            let answer = ours(&with_record(handed, &input.all));
            [row(&wanted), answer].map(|answer| came_to(answer, case.record, None))
        })
    })
}

/// Of a scheduler; the other calls of the states take none.
fn receiver_new() -> Export {
    let [call, ..] = &STATE_CALLS;
    let ours = state_calls()
        .iter()
        .find(|our| our.0 == call.name)
        .expect(call.name)
        .1;
    export(call.name, move |case, handed| {
        let input: Numbers = case.counters().as_slice().into();
        let wanted = behind_tests(case.record, || (call.answer)(&input.all));
        let answer = ours(&with_record(handed, &input.all));
        [row(&wanted), answer].map(|answer| came_to(answer, case.record, None))
    })
}

// ---- Copies, and calls that are lent an end

/// A ring, now and then of a wrong length, and a source or a destination.
fn memory_of(case: &Case) -> Memory {
    lent_memory(&mut case.random(), case.counters())
}

fn copy((name, writes, ours): (&'static str, bool, CopyCall)) -> Export {
    export(name, move |case, handed| {
        let mut theirs = memory_of(case);
        let mut memory = theirs.clone();
        let wanted = behind_tests(case.record, || copied(writes, case.counters(), &mut theirs));
        let (ring, other) = memory.parts();
        let answer = ours(handed, ring, other);
        [
            came_to(row(&wanted), case.record, Some(theirs)),
            came_to(answer, case.record, Some(memory)),
        ]
    })
}

fn lent_copy(name: &'static str, writes: bool, ours: LentCopyCall) -> Export {
    export(name, move |case, handed| {
        let mut theirs = memory_of(case);
        let mut memory = theirs.clone();
        let wanted = behind_tests(case.record, || copied(writes, case.counters(), &mut theirs));
        let (wanted, stored) = stored(wanted, case.record);
        let mut record = handed;
        let (ring, other) = memory.parts();
        let answer = ours(&mut record, ring, other);
        [
            came_to(row(&wanted), stored, Some(theirs)),
            came_to(answer, record, Some(memory)),
        ]
    })
}

fn lent_take(
    name: &'static str,
    take: fn(Record, u64) -> Result<Record, Refusal>,
    ours: LentTakeCall,
) -> Export {
    export(name, move |case, handed| {
        let parts = Parts::over(&mut case.random(), case.counters());
        let [counter, ..] = parts.input(&[Part::Counter]).all;
        let taken = take(case.record, counter).map(|next| next.as_slice().into());
        let (wanted, stored) = stored(taken, case.record);
        let mut record = handed;
        let answer = ours(&mut record, counter);
        [
            came_to(row(&wanted), stored, None),
            came_to(answer, record, None),
        ]
    })
}

/// What is answered by value, with the record that begins it stored in place of the one that was lent.
fn stored(answer: Answer, before: Record) -> (Answer, Record) {
    match answer {
        Ok(numbers) => {
            let (record, behind) = numbers.used().split_first_chunk().expect("a record");
            (Ok(behind.into()), *record)
        }
        Err(refused) => (Err(refused), before),
    }
}

// ---- The receiver

fn run((call, ours): Pair) -> Export {
    export(call.name, move |case, handed| {
        let input = Input::over(&mut case.random(), call.kind, case.counters());
        let (mut theirs, mut memory) = (input.memory.clone(), input.memory.clone());
        let wanted = behind_tests(case.record, || (call.answer)(input.lent(&mut theirs)));
        let receiver = with_record(handed, &input.receiver);
        let answer = ours(lent_over(receiver, input.lent(&mut memory)));
        [
            came_to(row(&wanted), case.record, Some(theirs)),
            came_to(answer, case.record, Some(memory)),
        ]
    })
}

/// What a run without answers comes to is what a call that is begun comes to; where it needs one, the call waits.
fn begun(name: &'static str, (call, _): Pair) -> Export {
    export(name, move |case, handed| {
        let mut input = Input::over(&mut case.random(), call.kind, case.counters());
        input.answers.clear();
        let (mut theirs, mut memory) = (input.memory.clone(), input.memory.clone());
        let wanted = behind_tests(case.record, || (call.answer)(input.lent(&mut theirs)));
        let wanted = match wanted {
            Ok(ended) => step(case, [0; 4], &ended.used()[..RECEIVER + OUTCOME]),
            Err(Refusal(numbers)) if numbers.all[0] == 11 => step(case, [0; 4], &[]),
            Err(refused) => refused_step(case, refused),
        };
        let receiver = with_record(handed, &input.receiver);
        let lent = lent_over(receiver, input.lent(&mut memory));
        let ours = match gone_on(begin(call.kind, lent)) {
            Ok(call) if call.waits() => step(case, [0; 4], wrong_fill(&call)),
            Ok(call) => step(case, [0; 4], &[call.receiver(), call.outcome()].concat()),
            Err([number, a, b, c, 0]) => step(case, [number, a, b, c], &[]),
            Err([number, a, b, c, beside]) => step(case, [number, a, b, c], &[beside]),
        };
        [wanted, ours]
    })
}

/// A call in progress whose receiver has this record. Of what it comes to only what is about its receiver is wanted: the
/// tests of it, and its fill where the call goes on.
fn call_answered() -> Export {
    export("call_answered", |case, handed| {
        let mut random = case.random();
        let kind = pick(&mut random, &[Kind::Read, Kind::Service, Kind::Shutdown]);
        let input = Input::over(&mut random, kind, case.counters());
        let mut call = in_progress(&mut random, kind, &input);
        let receiver: [u64; RECEIVER] = with_record(handed, &input.receiver);
        call.0[..RECEIVER].copy_from_slice(&receiver);
        let answer = pick(&mut random, &SOCKET_ANSWERS);
        let mut memory = input.memory.clone();
        let ring = memory.parts().0;
        let wanted = match behind_tests(case.record, || behind_20(&call, ring.len(), answer)) {
            Ok(_) => step(case, [0; 4], &[]),
            Err(refused) => refused_step(case, refused),
        };
        let ours = match gone_on(answered(call.0, ring, answer, 1)) {
            Ok(call) => step(case, [0; 4], wrong_fill(&call)),
            // The answer is a misfit, or as many as can be are pending: that is not of the record.
            Err([12, 1, ..] | [13, ..]) => step(case, [0; 4], &[]),
            Err([number, a, b, c, 0]) => step(case, [number, a, b, c], &[]),
            Err([number, a, b, c, beside]) => step(case, [number, a, b, c], &[beside]),
        };
        [wanted, ours]
    })
}

const SOCKET_ANSWERS: [[u64; 3]; 7] = [
    [0, 0, 0],
    [1, 0, 0],
    [2, 4, 0],
    [2, 11, 0],
    [3, 1, 0],
    [4, 0, 0],
    [9, 0, 0],
];

fn step(case: &Case, refusal: [u64; 4], numbers: &[u64]) -> CameTo {
    CameTo {
        refusal,
        numbers: numbers.to_vec(),
        record: case.record,
        memory: None,
    }
}

fn refused_step(case: &Case, Refusal(numbers): Refusal) -> CameTo {
    let [number, a, b, c, ..] = numbers.all;
    step(case, [number, a, b, c], &[])
}

/// The receiver, where its fill is not the difference of its counters; else nothing.
fn wrong_fill(call: &CallInProgress) -> &[u64] {
    let [l, written, read, fill, ..] = call.0;
    match fill == data([l, written, read]) {
        true => &[],
        false => call.receiver(),
    }
}

/// As the library begins it over the right record, or where it refuses that, one that is made up.
fn in_progress(random: &mut Random, kind: Kind, input: &Input) -> CallInProgress {
    let mut memory = input.memory.clone();
    let step = begin(kind, handed_lent(input.lent(&mut memory)));
    gone_on(step).unwrap_or_else(|_| {
        let mut call = [0; CALL];
        call[PHASE] = random.next() % 4;
        call[PHASE + 1] = input.max_new_fds;
        CallInProgress(call)
    })
}

/// 9 where a byte was received, and then 12 for a stored errno that does not fit.
fn behind_20(call: &CallInProgress, ring: usize, [kind, byte, fds]: [u64; 3]) -> Answer {
    let [l, _, _, _, state, failure, errno, ..] = call.0;
    let fits = byte <= 255 && fds <= call.max_new_fds();
    if call.phase() == RECEIVE && kind == 0 && fits && ring as u64 != l {
        return Err(refusal(&[9]));
    }
    if state != 0 && failure == 0 && !(1..=4095).contains(&errno) {
        return Err(refusal(&[12, 0]));
    }
    Ok(Numbers::default())
}
