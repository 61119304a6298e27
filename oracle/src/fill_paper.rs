//! The model of the fill against the rows of docs/PAPER.md ("The table") and the inputs of its "Readings" that tell where
//! the fill is tested, in every kind of call.

use crate::copy_answers::copied;
use crate::memory::Memory;
use crate::numbers::Random;
use crate::receiver_inputs::{State, receiver};
use crate::tally::Tally;
use oracle::fill_model::{Record, behind_tests, take_read, take_written, with_counter};
use oracle::receiver_answers::{Lent, RUN_CALLS};
use oracle::sched_answers::{Answer, CALLS, Numbers, Refusal, line};

const M: u64 = u64::MAX;
/// 2^63, the greatest buffer.
const H: u64 = 1 << 63;
const READ: u64 = 0;
const WRITE: u64 = 1;
const SEED: u64 = 1;

pub fn run() -> bool {
    let mut tally = Tally::new(["the model", "expected"]);
    for &(name, record, behind, want) in CALLED {
        tally.compare([called(name, record, behind), want.to_vec()], || {
            format!("{name} {record:?} {behind:?}")
        });
    }
    for &(record, typ, counter, want) in COUNTED {
        let got = told(with_counter(record, typ, counter));
        tally.compare([got, want.to_vec()], || {
            format!("with_counter {record:?} {typ} {counter}")
        });
    }
    for &(name, take, end, counter, want) in TAKEN {
        let got = told(take(end, counter));
        tally.compare([got, want.to_vec()], || format!("{name} {end:?} {counter}"));
    }
    for &(writes, record, ring, want) in COPIED {
        tally.compare([moved(writes, record, ring), want.to_vec()], || {
            format!("copied, writes {writes}, {record:?} {ring}")
        });
    }
    for &(name, record, state, ring, want) in RECEIVED {
        tally.compare([received(name, record, state, ring), want.to_vec()], || {
            format!("{name} {record:?} {state:?} {ring}")
        });
    }
    tally.report("sched-paper: the model of the fill against the rows of docs/PAPER.md")
}

fn counters([l, written, read, _]: Record) -> [u64; 3] {
    [l, written, read]
}

fn called(name: &str, record: Record, behind: &[u64]) -> Vec<u64> {
    let call = CALLS.iter().find(|call| call.name == name).expect(name);
    let mut input = Numbers::default();
    input.push(&counters(record));
    input.push(behind);
    line(&behind_tests(record, || (call.answer)(&input.all)))
}

fn told(answer: Result<Record, Refusal>) -> Vec<u64> {
    let answer: Answer = answer.map(|record| record.as_slice().into());
    line(&answer)
}

/// Of a ring of so many bytes, and two more.
fn moved(writes: bool, record: Record, ring: u64) -> Vec<u64> {
    let mut memory = Memory::new(&mut Random(SEED), ring, 2);
    line(&behind_tests(record, || {
        copied(writes, counters(record), &mut memory)
    }))
}

/// With nothing pending, into two bytes, and no answer of the socket.
fn received(name: &str, record: Record, state: State, ring: usize) -> Vec<u64> {
    let call = RUN_CALLS.iter().find(|call| call.name == name);
    let receiver = receiver(counters(record), state, 0, 0);
    line(&behind_tests(record, || {
        (call.expect(name).answer)(Lent {
            receiver,
            ring: &mut vec![0; ring],
            destination: &mut [0; 2],
            max_new_fds: 0,
            answers: &[],
        })
    }))
}

/// A call, the record, what it is asked behind that, and its answer: 0 and the numbers, or the refusal.
#[rustfmt::skip]
const CALLED: &[(&str, Record, &[u64], &[u64])] = &[
    // The rows of the paper.
    ("scheduler_data_avail", [10, 7, 3, 5], &[], &[20]),
    ("scheduler_data_avail", [10, 7, 3, 4], &[], &[0, 4]),
    ("scheduler_data_avail", [10, 11, 0, 11], &[], &[5, 10, 11, 0]),
    ("scheduler_data_avail", [10, 11, 0, 4], &[], &[5, 10, 11, 0]),

    // The fill is by 2L: full and empty are two, and the space is another number.
    ("scheduler_demand_soundness", [10, 10, 0, 10], &[], &[0, 10, 10, 0, 10]),
    ("scheduler_demand_soundness", [10, 10, 0, 0], &[], &[20]),
    ("scheduler_demand_soundness", [10, 4, 4, 10], &[], &[20]),
    ("scheduler_demand_soundness", [10, 0, 11, 9], &[], &[0, 10, 0, 11, 9]),
    ("scheduler_demand_soundness", [10, 0, 11, 11], &[], &[20]),
    ("scheduler_demand_soundness", [H, 5, M - 2, 8], &[], &[0, H, 5, M - 2, 8]),
    ("scheduler_demand_soundness", [H, 5, M - 2, H + 8], &[], &[20]),

    // 1 to 5 come first, and every call tests it.
    ("scheduler_demand_soundness", [0, 0, 0, 1], &[], &[1]),
    ("scheduler_demand_soundness", [H + 1, 0, 0, 1], &[], &[2, H + 1]),
    ("scheduler_demand_soundness", [10, 20, 20, 1], &[], &[3, 10, 20]),
    ("scheduler_demand_soundness", [10, 0, 20, 1], &[], &[4, 10, 20]),
    ("scheduler_items_read", [10, 7, 3, M], &[], &[20]),
    ("scheduler_is_zero_sized", [10, 7, 3, 0], &[], &[20]),

    // It comes before 6, 7 and 8; what is registered keeps it.
    ("scheduler_try_register_write", [10, 19, 12, 6], &[4], &[20]),
    ("scheduler_try_register_write", [10, 19, 12, 7], &[4], &[6, WRITE, 4, 3]),
    ("scheduler_try_register_write", [10, 19, 12, 7], &[3], &[0, 10, 2, 12, 10]),
    ("scheduler_try_register_operations", [10, 0, 0, 1], &[2, READ, 0, M, WRITE, 0, 1], &[20]),
    ("scheduler_try_register_operations", [10, 0, 0, 0], &[2, READ, 0, M, WRITE, 0, 1], &[7, 1]),
    ("scheduler_try_register_operations", [10, 0, 0, 1], &[2, READ, 0, 1, WRITE, 0, 1], &[20]),
    ("scheduler_try_register_operations", [10, 0, 0, 0], &[2, READ, 0, 1, WRITE, 0, 1], &[8]),
];

/// A record, the type and the counter that it is to have, and the record with it.
#[rustfmt::skip]
const COUNTED: &[(Record, u64, u64, &[u64])] = &[
    ([10, 7, 3, 4], WRITE, 13, &[0, 10, 13, 3, 10]),
    ([10, 7, 3, 4], 2, 6, &[0, 10, 6, 3, 3]),
    ([10, 7, 3, 4], READ, 2, &[0, 10, 7, 2, 5]),
    ([10, 7, 3, 4], WRITE, 20, &[3, 10, 20]),
    ([10, 7, 3, 4], READ, 20, &[4, 10, 20]),
    ([10, 7, 3, 4], WRITE, 14, &[5, 10, 14, 3]),
    ([10, 7, 3, 5], WRITE, 20, &[20]),
    ([10, 7, 3, 5], WRITE, 8, &[20]),
    ([10, 11, 0, 0], WRITE, 0, &[5, 10, 11, 0]),
];

type Take = fn(Record, u64) -> Result<Record, Refusal>;

/// An end, the counter that it takes, and the end with it.
#[rustfmt::skip]
const TAKEN: &[(&str, Take, Record, u64, &[u64])] = &[
    ("take_written", take_written, [10, 7, 3, 4], 6, &[10]),
    ("take_written", take_written, [10, 7, 3, 4], 7, &[0, 10, 7, 3, 4]),
    ("take_written", take_written, [10, 7, 3, 4], 13, &[0, 10, 13, 3, 10]),
    ("take_written", take_written, [10, 7, 3, 4], 14, &[5, 10, 14, 3]),
    ("take_written", take_written, [10, 7, 3, 4], 20, &[3, 10, 20]),
    ("take_written", take_written, [10, 7, 3, 5], 6, &[20]),
    ("take_written", take_written, [10, 7, 3, 3], 20, &[20]),
    ("take_read", take_read, [10, 7, 3, 4], 2, &[10]),
    ("take_read", take_read, [10, 7, 3, 4], 5, &[0, 10, 7, 5, 2]),
    ("take_read", take_read, [10, 7, 3, 4], 8, &[5, 10, 7, 8]),
    ("take_read", take_read, [10, 7, 3, 4], 20, &[4, 10, 20]),
    ("take_read", take_read, [10, 7, 3, 5], 2, &[20]),
    ("take_read", take_read, [10, 11, 0, 11], 2, &[5, 10, 11, 0]),
];

/// Whether it is a write, the record, the bytes of the ring, and the answer. The third is the paper's.
#[rustfmt::skip]
const COPIED: &[(bool, Record, u64, &[u64])] = &[
    (true, [10, 7, 3, 4], 10, &[0, 10, 9, 3, 6, 2, 0]),
    (true, [10, 7, 3, 4], 9, &[9]),
    (true, [10, 7, 3, 5], 9, &[20]),
    (true, [10, 7, 3, 5], 10, &[20]),
    (true, [10, 11, 0, 11], 9, &[5, 10, 11, 0]),
    (false, [10, 7, 3, 4], 10, &[0, 10, 7, 5, 2, 2, 0]),
    (false, [10, 7, 3, 4], 9, &[9]),
    (false, [10, 7, 3, 5], 9, &[20]),
];

const READ_CALL: &str = "receiver_read_with_fds";
const SERVICE: &str = "receiver_service_chunk_acknowledgements";
const SHUTDOWN: &str = "receiver_shutdown";
/// Of an errno that none has.
const TERMINATED_0: State = [2, 0, 0, 0, 0];

/// A call, the scheduler and the state of its receiver, the bytes of the ring, and the answer.
#[rustfmt::skip]
const RECEIVED: &[(&str, Record, State, usize, &[u64])] = &[
    (READ_CALL, [64, 5, 0, 4], TERMINATED_0, 63, &[20]),
    (READ_CALL, [64, 5, 0, 5], TERMINATED_0, 63, &[9]),
    (READ_CALL, [64, 5, 0, 5], TERMINATED_0, 64, &[12, 0]),
    (READ_CALL, [64, 65, 0, 65], TERMINATED_0, 63, &[5, 64, 65, 0]),
    (SERVICE, [64, 5, 0, 4], TERMINATED_0, 0, &[20]),
    (SERVICE, [64, 5, 0, 5], TERMINATED_0, 0, &[12, 0]),
    (SHUTDOWN, [64, 5, 0, 4], TERMINATED_0, 0, &[20]),
    (SHUTDOWN, [64, 5, 0, 5], TERMINATED_0, 0, &[12, 0]),
];
