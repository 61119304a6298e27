//! The receiver's rows of docs/PAPER.md ("The table") and the inputs of its "Readings" that tell two
//! readings of the receiver apart, on the Rust.

use crate::receiver_inputs::{Receiver, State, header_into, receiver as at};
use crate::sched_inputs::data;
use crate::tally::Tally;
use oracle::overflow::Violation;
use oracle::receiver_answers::{Lent, OUTCOME, RECEIVER, RUN_CALLS, STATE_CALLS};
use oracle::sched_answers::{Numbers, line};
use oracle::scripted_socket::Answer;

const M: u64 = u64::MAX;
/// A header of the format 1.
const UNKNOWN: u64 = 1 << 62;

pub fn run() -> bool {
    let mut tally = Tally::new(["the Rust", "expected"]);
    for (name, numbers, want) in STATE_ROWS {
        tally.compare([answered(name, numbers), want.to_vec()], || {
            format!("{name} {numbers:?}")
        });
    }
    for (from, to, want) in ADVANCED {
        let got = answered(ADVANCE, &[*from, *to].concat());
        let want = [&[0], &want[..]].concat();
        tally.compare([got, want], || format!("{ADVANCE} {from:?} {to:?}"));
    }
    for (name, receiver, lent, answers, want) in RUN_ROWS {
        let got = ran(name, *receiver, *lent, answers);
        tally.compare([got, wanted(want)], || {
            format!("{name} {receiver:?} {lent:?} {answers:?}")
        });
    }
    tally.report("receiver-paper: receiver.rs against the rows of docs/PAPER.md")
}

fn answered(name: &str, numbers: &[u64]) -> Vec<u64> {
    let call = STATE_CALLS.iter().find(|call| call.name == name);
    let input: Numbers = numbers.into();
    line(&(call.expect(name).answer)(&input.all))
}

/// What is lent to a read: how many bytes of a ring, the header in it unless a chunk is in progress,
/// how many bytes of a destination, and the greatest count of descriptors.
type Memory = (usize, u64, usize, u64);

/// The numbers of an outcome.
type Outcome = [u64; OUTCOME];

enum Want {
    Refused(&'static [u64]),
    /// The receiver, the outcome, and how many answers were used.
    Ended(Receiver, Outcome, u64),
}
use Want::{Ended, Refused};

/// The answer, and the bytes that were read. Each byte of a ring but a header's is its place, so
/// these tell where they came from.
fn ran(name: &str, receiver: Receiver, lent: Memory, answers: &[Answer]) -> Vec<u64> {
    let (ring, header, destination, max_new_fds) = lent;
    let mut ring: Vec<u8> = (0..ring).map(|place| place as u8).collect();
    let [_, written, read, ..] = receiver;
    if written == read {
        header_into(&mut ring, read, header);
    }
    let mut destination = vec![0; destination];
    let call = RUN_CALLS.iter().find(|call| call.name == name);
    let answer = (call.expect(name).answer)(Lent {
        receiver,
        ring: &mut ring,
        destination: &mut destination,
        max_new_fds,
        answers,
    });
    let n = answer
        .as_ref()
        .map_or(0, |numbers| numbers.all[RECEIVER + 1]);
    let read = destination.iter().take(n as usize).map(|&byte| byte.into());
    line(&answer).into_iter().chain(read).collect()
}

/// The bytes that were read are the last before what was read after the call.
fn wanted(want: &Want) -> Vec<u64> {
    match want {
        Refused(numbers) => numbers.to_vec(),
        Ended(receiver, outcome, used) => {
            let [l, written, read, behind @ ..] = receiver;
            let places = (0..outcome[1]).map(|i| (read + 2 * l - outcome[1] + i) % l);
            let scheduler = [*l, *written, *read, data([*l, *written, *read])];
            let numbers = [&[0], &scheduler[..], behind, outcome, &[*used]].concat();
            numbers.into_iter().chain(places).collect()
        }
    }
}

// Violations.
const V1: Violation = [1, 0, 0];
const V3: Violation = [3, 0, 0];
const V4: Violation = [4, 0, 0];

const fn v2(needed: u64, room: u64) -> Violation {
    [2, needed, room]
}

const fn v5(needed: u64, room: u64) -> Violation {
    [5, needed, room]
}

// States.
const N: State = [0; 5];

const fn d(errno: u64) -> State {
    [1, 0, errno, 0, 0]
}

const fn t(errno: u64) -> State {
    [2, 0, errno, 0, 0]
}

/// Draining by a violation.
const fn dv([number, needed, room]: Violation) -> State {
    [1, 1, number, needed, room]
}

/// Terminated by a violation.
const fn tv([number, needed, room]: Violation) -> State {
    [2, 1, number, needed, room]
}

// Outcomes.
const DONE: Outcome = [1, 0, 0, 0, 0, 0, 0];

const fn read(n: u64, fds: u64) -> Outcome {
    [0, n, fds, 0, 0, 0, 0]
}

const fn failed(errno: u64) -> Outcome {
    [2, 0, 0, 0, errno, 0, 0]
}

const fn violated([number, needed, room]: Violation) -> Outcome {
    [2, 0, 0, 1, number, needed, room]
}

// Answers.
const CLOSED: Answer = [1, 0, 0];
const SHUT: Answer = [4, 0, 0];

const fn byte(byte: u64, fds: u64) -> Answer {
    [0, byte, fds]
}

const fn fails(errno: u64) -> Answer {
    [2, errno, 0]
}

const fn sent(n: u64) -> Answer {
    [3, n, 0]
}

const READ: &str = "receiver_read_with_fds";
const READ_IMPL: &str = "receiver_read_with_fds_impl";
const SERVICE: &str = "receiver_service_chunk_acknowledgements";
const SHUTDOWN: &str = "receiver_shutdown";
const ADVANCE: &str = "state_advance_state_towards_termination";

/// For calls that take no memory.
const NONE: Memory = (0, 0, 0, 0);
/// Empty, and with 5 bytes of a chunk.
const EMPTY: [u64; 3] = [64, 0, 0];
const FIVE: [u64; 3] = [64, 5, 0];

/// A state, the one that it is advanced by, and what becomes of it.
#[rustfmt::skip]
const ADVANCED: &[(State, State, State)] = &[
    // The rows of the paper.
    (d(32), t(11), d(32)),
    (d(5), t(32), t(5)),
    (t(11), d(5), d(5)),

    // The reason rule: 32 gives way, also to a violation, and nothing else does. It does not look at an overflow's numbers.
    (d(32), d(5), d(5)),
    (d(32), t(5), t(5)),
    (d(32), tv(v2(0, 0)), tv(v2(0, 0))),
    (d(32), tv(v5(57, 56)), tv(v5(57, 56))),
    (dv(v2(8, 4)), t(5), tv(v2(8, 4))),
    (dv(v5(57, 56)), t(5), tv(v5(57, 56))),
    (dv(v5(57, 56)), tv(v5(65, 56)), tv(v5(57, 56))),
    (dv(v2(8, 4)), tv(v5(57, 56)), tv(v2(8, 4))),
    (t(32), t(5), t(32)),
];

/// A call, what it is asked, and its answer: 0 and the numbers, or the refusal.
#[rustfmt::skip]
const STATE_ROWS: &[(&str, &[u64], &[u64])] = &[
    // An errno that does not fit, also where it would not be used.
    ("state_with_failure", &[0, 0, 0, 0, 0, 0, 5000, 0, 0], &[12, 0]),
    (ADVANCE, &[0, 0, 0, 0, 0, 2, 0, 0, 0, 0], &[12, 0]),
    ("state_failure", &[2, 0, 4095, 0, 0], &[0, 1, 0, 4095, 0, 0]),
    ("state_failure", &[2, 0, 4096, 0, 0], &[12, 0]),

    // An overflow with any numbers, which the other failures have not; and numbers that no violation has.
    ("state_failure", &[2, 1, 2, 0, 0], &[0, 1, 1, 2, 0, 0]),
    ("state_failure", &[1, 1, 5, M, 1], &[0, 1, 1, 5, M, 1]),
    ("failure_normalize", &[0, 32, 8, 4], &[0, 0, 32, 0, 0]),
    ("failure_normalize", &[1, 1, 8, 4], &[0, 1, 1, 0, 0]),
    ("failure_normalize", &[1, 3, 8, 4], &[0, 1, 3, 0, 0]),
    ("failure_normalize", &[1, 4, 8, 4], &[0, 1, 4, 0, 0]),
    ("failure_normalize", &[1, 0, 8, 4], &[0, 1, 4, 0, 0]),
    ("failure_normalize", &[1, 6, 8, 4], &[0, 1, 4, 0, 0]),
];

/// A call, the receiver, what is lent, the socket's answers, and what comes of it.
type RunRow = (&'static str, Receiver, Memory, &'static [Answer], Want);

#[rustfmt::skip]
const RUN_ROWS: &[RunRow] = &[
    // The row of the paper.
    (SERVICE, at(EMPTY, N, 300, 0), NONE, &[sent(128), sent(128), fails(11)], Ended(at(EMPTY, N, 44, 0), DONE, 3)),

    // A violation leaves the scheduler as it was before the announcement.
    (READ, at(EMPTY, N, 0, 0), (64, 65, 9, 1), &[byte(0, 1), SHUT],
        Ended(at(EMPTY, tv(v5(65, 56)), 0, 1), violated(v5(65, 56)), 2)),
    (READ, at(EMPTY, N, 0, 0), (64, 0, 9, 1), &[byte(0, 1), SHUT], Ended(at(EMPTY, tv(V4), 0, 1), violated(V4), 2)),
    (READ, at(EMPTY, N, 0, 0), (64, UNKNOWN, 9, 1), &[byte(0, 1), SHUT], Ended(at(EMPTY, tv(V3), 0, 1), violated(V3), 2)),
    (READ, at(EMPTY, N, 0, 0), (64, UNKNOWN + 5, 9, 1), &[byte(0, 1), SHUT], Ended(at(EMPTY, tv(V3), 0, 1), violated(V3), 2)),
    (READ, at(EMPTY, N, 0, 0), (64, UNKNOWN + 57, 9, 1), &[byte(0, 1), SHUT], Ended(at(EMPTY, tv(V3), 0, 1), violated(V3), 2)),

    // Eight bytes stay free behind a body. Where a part overflows it is told which, what it needed and the room.
    (READ, at(EMPTY, N, 0, 0), (64, 56, 9, 1), &[byte(0, 1)], Ended(at([64, 64, 17], N, 0, 0), read(9, 1), 1)),
    (READ, at(EMPTY, N, 0, 0), (64, 57, 9, 1), &[byte(0, 1), SHUT],
        Ended(at(EMPTY, tv(v5(57, 56)), 0, 1), violated(v5(57, 56)), 2)),
    (READ, at(EMPTY, N, 0, 0), (64, 64, 9, 1), &[byte(0, 1), SHUT],
        Ended(at(EMPTY, tv(v5(64, 56)), 0, 1), violated(v5(64, 56)), 2)),
    (READ, at([9, 0, 0], N, 0, 0), (9, 1, 9, 1), &[byte(0, 0), sent(1)], Ended(at([9, 9, 9], N, 0, 0), read(1, 0), 2)),
    (READ, at([8, 0, 0], N, 0, 0), (8, 1, 9, 1), &[byte(0, 0), SHUT],
        Ended(at([8, 0, 0], tv(v5(1, 0)), 0, 1), violated(v5(1, 0)), 2)),
    (READ, at([8, 0, 0], N, 0, 0), (8, 0, 9, 1), &[byte(0, 0), SHUT], Ended(at([8, 0, 0], tv(V4), 0, 1), violated(V4), 2)),
    (READ, at([7, 0, 0], N, 0, 0), (7, 1, 9, 1), &[byte(0, 0), SHUT],
        Ended(at([7, 0, 0], tv(v2(8, 7)), 0, 1), violated(v2(8, 7)), 2)),
    (READ, at([4, 0, 0], N, 0, 0), (4, 1, 9, 1), &[byte(0, 0), SHUT],
        Ended(at([4, 0, 0], tv(v2(8, 4)), 0, 1), violated(v2(8, 4)), 2)),

    // An overflow that is stored is answered as it stands, whatever its numbers are. One that is announced is answered, and gives
    // way to the older reason where it is stored.
    (READ, at(EMPTY, tv(v2(0, 0)), 0, 0), (64, 0, 9, 1), &[], Ended(at(EMPTY, tv(v2(0, 0)), 0, 0), violated(v2(0, 0)), 0)),
    (SERVICE, at(EMPTY, dv(v5(1, M)), 3, 0), NONE, &[], Ended(at(EMPTY, dv(v5(1, M)), 3, 0), violated(v5(1, M)), 0)),
    (READ, at(EMPTY, dv(v5(57, 56)), 0, 1), (64, 0, 9, 1), &[fails(11)],
        Ended(at(EMPTY, tv(v5(57, 56)), 0, 1), violated(v5(57, 56)), 1)),
    (READ, at(EMPTY, d(32), 0, 1), (64, 57, 9, 1), &[byte(0, 1)],
        Ended(at(EMPTY, tv(v5(57, 56)), 0, 1), violated(v5(57, 56)), 1)),
    (READ, at(EMPTY, dv(v2(8, 4)), 0, 1), (64, 57, 9, 1), &[byte(0, 1)],
        Ended(at(EMPTY, tv(v2(8, 4)), 0, 1), violated(v5(57, 56)), 1)),

    // A header that goes round the end of the ring: 5 bytes of it before, 3 behind; then the body. Its tag is not used.
    (READ, at([20, 15, 15], N, 0, 0), (20, 0x3fff << 48 | 4, 9, 1), &[byte(0, 1), sent(1)],
        Ended(at([20, 27, 27], N, 0, 0), read(4, 1), 2)),

    // What is left of a chunk has no descriptors, and one read takes no second chunk.
    (READ, at(FIVE, N, 0, 0), (64, 0, 9, 1), &[sent(1)], Ended(at([64, 5, 5], N, 0, 0), read(5, 0), 1)),
    (READ, at(FIVE, N, 0, 0), (64, 0, 2, 1), &[sent(1)], Ended(at([64, 5, 2], N, 0, 0), read(2, 0), 0)),

    // 13 stands behind Terminated and the empty destination, before any answer.
    (READ, at(FIVE, N, M, 0), (64, 0, 2, 1), &[fails(11)], Refused(&[13])),
    (READ, at(FIVE, N, M, 0), (64, 0, 9, 1), &[fails(11)], Refused(&[13])),
    (READ, at(EMPTY, N, M, 0), (64, 5, 9, 1), &[[9, 9, 9]], Refused(&[13])),
    (READ, at(FIVE, N, M, 0), (64, 0, 0, 1), &[], Ended(at(FIVE, N, M, 0), read(0, 0), 0)),
    (READ, at(FIVE, t(7), M, 0), (64, 0, 2, 1), &[], Ended(at(FIVE, t(7), M, 0), failed(7), 0)),
    (READ, at(FIVE, N, M - 1, 0), (64, 0, 5, 1), &[fails(11)], Ended(at([64, 5, 5], N, M, 0), read(5, 0), 1)),

    // Closed answers 32, which is a read of 0 bytes, and the older reason stays stored.
    (READ, at(EMPTY, d(5), 0, 0), (64, 0, 2, 1), &[CLOSED, SHUT], Ended(at(EMPTY, t(5), 0, 1), read(0, 0), 2)),
    (READ, at(EMPTY, t(5), 0, 1), (64, 0, 2, 1), &[], Ended(at(EMPTY, t(5), 0, 1), failed(5), 0)),
    (READ_IMPL, at(EMPTY, N, 0, 0), (64, 0, 2, 1), &[CLOSED, SHUT], Ended(at(EMPTY, t(32), 0, 1), failed(32), 2)),
    (READ, at(EMPTY, t(32), 0, 1), (64, 0, 2, 1), &[], Ended(at(EMPTY, t(32), 0, 1), read(0, 0), 0)),
    (READ_IMPL, at(EMPTY, t(32), 0, 1), (64, 0, 2, 1), &[], Ended(at(EMPTY, t(32), 0, 1), failed(32), 0)),
    (SERVICE, at(EMPTY, t(32), 0, 1), NONE, &[], Ended(at(EMPTY, t(32), 0, 1), failed(32), 0)),

    // Blocked. In Draining it terminates with the cached reason, and the shutdown is asked for if none has succeeded.
    (READ, at(EMPTY, N, 300, 0), (64, 0, 2, 1), &[fails(11)], Ended(at(EMPTY, N, 300, 0), failed(11), 1)),
    (READ, at(EMPTY, N, 300, 0), (64, 0, 2, 1), &[], Refused(&[11])),
    (READ, at(EMPTY, d(5), 0, 0), (64, 0, 2, 1), &[fails(11)], Refused(&[11])),
    (READ, at(EMPTY, d(5), 0, 1), (64, 0, 2, 1), &[fails(11)], Ended(at(EMPTY, t(5), 0, 1), failed(5), 1)),
    (READ, at(EMPTY, d(5), 0, 0), (64, 0, 2, 1), &[fails(11), fails(9)], Ended(at(EMPTY, t(5), 0, 0), failed(5), 2)),

    // A stored 11 is answered as it stands, and is Normal where the state is advanced.
    (READ, at(EMPTY, t(11), 0, 0), (64, 0, 2, 1), &[], Ended(at(EMPTY, t(11), 0, 0), failed(11), 0)),
    (SERVICE, at(EMPTY, d(11), 3, 0), NONE, &[], Ended(at(EMPTY, d(11), 3, 0), failed(11), 0)),
    (READ, at(EMPTY, d(11), 0, 0), (64, 0, 2, 1), &[fails(11)], Ended(at(EMPTY, N, 0, 0), failed(11), 1)),
    (READ, at(EMPTY, d(11), 0, 0), (64, 0, 2, 1), &[fails(5), SHUT], Ended(at(EMPTY, t(5), 0, 1), failed(5), 2)),

    // The byte: what its place cannot have is tested before what it says.
    (READ, at(EMPTY, N, 0, 0), (64, 5, 9, 1), &[byte(7, 2)], Refused(&[12, 1])),
    (READ, at(EMPTY, N, 0, 0), (64, 5, 9, 1), &[byte(256, 0)], Refused(&[12, 1])),
    (READ, at(EMPTY, N, 0, 0), (64, 5, 9, 1), &[byte(7, 1), SHUT], Ended(at(EMPTY, tv(V1), 0, 1), violated(V1), 2)),
    (READ, at(EMPTY, N, 0, 0), (64, 5, 9, 1), &[fails(4), fails(4), byte(7, 2)], Refused(&[12, 3])),

    // Draining sends nothing and reads on.
    (READ, at(FIVE, d(5), 3, 1), (64, 0, 9, 1), &[], Ended(at([64, 5, 5], d(5), 4, 1), read(5, 0), 0)),

    // A refusal that is found late: the read is refused as a whole.
    (READ, at(FIVE, N, 300, 0), (64, 0, 9, 1), &[sent(128)], Refused(&[11])),
    (READ, at(FIVE, N, 300, 0), (64, 0, 9, 1), &[sent(128), sent(129)], Refused(&[12, 2])),

    // What servicing came to is dropped by a read, but not the state.
    (READ, at(FIVE, N, 0, 0), (64, 0, 9, 1), &[sent(0), SHUT], Ended(at([64, 5, 5], d(5), 1, 1), read(5, 0), 2)),

    // Servicing: only what is asked for is used; batches are taken anew; sent 0 is 5; 4 is tried again, but not by a shutdown.
    (SERVICE, at(EMPTY, N, 0, 0), NONE, &[byte(9, 9)], Ended(at(EMPTY, N, 0, 0), DONE, 0)),
    (SERVICE, at(EMPTY, N, 1, 0), NONE, &[], Refused(&[11])),
    (SERVICE, at(EMPTY, N, 128, 0), NONE, &[sent(128)], Ended(at(EMPTY, N, 0, 0), DONE, 1)),
    (SERVICE, at(EMPTY, N, 5, 0), NONE, &[sent(6)], Refused(&[12, 1])),
    (SERVICE, at(EMPTY, N, 5, 0), NONE, &[fails(4), sent(5)], Ended(at(EMPTY, N, 0, 0), DONE, 2)),
    (SERVICE, at(EMPTY, N, 130, 0), NONE, &[sent(100), sent(31)], Refused(&[12, 2])),
    (SERVICE, at(EMPTY, N, 130, 0), NONE, &[sent(100), sent(30)], Ended(at(EMPTY, N, 0, 0), DONE, 2)),
    (SERVICE, at(EMPTY, N, 1, 0), NONE, &[sent(0), SHUT], Ended(at(EMPTY, d(5), 1, 1), failed(5), 2)),
    (SERVICE, at(EMPTY, N, 1, 0), NONE, &[sent(0), fails(4)], Ended(at(EMPTY, d(5), 1, 0), failed(4), 2)),
    (SERVICE, at(EMPTY, N, 300, 0), NONE, &[sent(128), fails(104), SHUT], Ended(at(EMPTY, d(104), 172, 1), failed(104), 3)),
    (SERVICE, at(EMPTY, N, 1, 1), NONE, &[fails(32)], Ended(at(EMPTY, d(32), 1, 1), failed(32), 1)),

    // Shutting down.
    (SHUTDOWN, at(EMPTY, N, 0, 0), NONE, &[SHUT], Ended(at(EMPTY, d(32), 0, 1), DONE, 1)),
    (SHUTDOWN, at(EMPTY, N, 0, 0), NONE, &[fails(4)], Ended(at(EMPTY, d(32), 0, 0), failed(4), 1)),
    (SHUTDOWN, at(EMPTY, d(5), 0, 1), NONE, &[], Ended(at(EMPTY, d(5), 0, 1), DONE, 0)),
    (SHUTDOWN, at(EMPTY, t(11), 0, 0), NONE, &[SHUT], Ended(at(EMPTY, d(32), 0, 1), DONE, 1)),

    // The tests before a call: 1 to 5, 9, 12 with place 0.
    (SERVICE, at([0, 0, 0], t(0), 0, 0), NONE, &[], Refused(&[1])),
    (SERVICE, at(EMPTY, t(0), 0, 0), NONE, &[], Refused(&[12, 0])),
    (SHUTDOWN, at([64, 65, 0], t(0), 0, 0), NONE, &[], Refused(&[5, 64, 65, 0])),
    (READ, at([64, 65, 0], t(0), 0, 0), (63, 0, 0, 1), &[], Refused(&[5, 64, 65, 0])),
    (READ, at(EMPTY, t(0), 0, 0), (63, 0, 0, 1), &[], Refused(&[9])),
    (READ, at(EMPTY, t(0), 0, 0), (64, 0, 0, 1), &[], Refused(&[12, 0])),
    (READ, at(EMPTY, t(4095), 0, 0), (64, 0, 0, 1), &[], Ended(at(EMPTY, t(4095), 0, 0), failed(4095), 0)),
];
