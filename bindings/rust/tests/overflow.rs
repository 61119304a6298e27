//! Which part overflowed: a ring that is too short for any chunk's header, or a body that is too long for the ring, each with the
//! bytes needed and the room; and that a failure keeps these numbers wherever it goes.

use stripring::{Answer, Ended, Failure, Outcome, Receiver, Scheduler, State, Violation, abi};

const HEADER_LEN: u64 = 8;
const DRAINING: u64 = 1;
const TERMINATED: u64 = 2;

fn header(needed: u64, room: u64) -> Failure {
    Failure::Violation(Violation::HeaderOverflow { needed, room })
}

fn body(needed: u64, room: u64) -> Failure {
    Failure::Violation(Violation::BodyOverflow { needed, room })
}

// ---- what a read answers

/// A ring that has the header of a chunk of `len` bytes at `at`, as far as there is room.
fn ring(ring_len: u64, at: u64, len: u64) -> Vec<u8> {
    let mut ring = vec![0; ring_len as usize];
    for (at, byte) in (at..).zip(len.to_be_bytes()) {
        ring[(at % ring_len) as usize] = byte;
    }
    ring
}

/// A receiver of an empty ring whose counters are at `at`, after the announcement of a chunk of `len` bytes.
fn announced(ring_len: u64, at: u64, len: u64, last: Answer) -> (Receiver, Ended) {
    let scheduler = Scheduler::from_counters(ring_len, at, at).unwrap();
    let mut receiver = Receiver::new(scheduler);
    let (ring, answers) = (ring(ring_len, at, len), [Answer::received(0, 0), last]);
    let read = receiver.read_with_fds(&ring, &mut [0; 100], 0, &answers);
    (receiver, read.unwrap())
}

fn told(ring_len: u64, at: u64, len: u64) -> Failure {
    let (receiver, read) = announced(ring_len, at, len, Answer::done());
    let Outcome::Failed(failure) = read.outcome else {
        panic!("{len} bytes into a ring of {ring_len} came to {read:?}");
    };
    assert_eq!(receiver.state(), State::Terminated(failure));
    failure
}

fn is_read(ring_len: u64, at: u64, len: u64) {
    let (receiver, read) = announced(ring_len, at, len, Answer::sent(1));
    let n = len as usize;
    assert_eq!(read.outcome, Outcome::Read { n, fds: 0 });
    assert_eq!(receiver.state(), State::Normal);
}

#[test]
fn a_body_that_is_too_long() {
    let longest = (1 << 48) - 1;
    for at in 0..128 {
        is_read(64, at, 56);
        assert_eq!(told(64, at, 57), body(57, 56));
        assert_eq!(told(64, at, 64), body(64, 56));
        assert_eq!(told(64, at, longest), body(longest, 56));
    }
}

#[test]
fn a_ring_that_is_too_short() {
    for ring_len in 1..HEADER_LEN {
        assert_eq!(told(ring_len, 0, 1), header(8, ring_len));
    }
    assert_eq!(told(8, 3, 1), body(1, 0));
    is_read(9, 3, 1);
}

#[test]
fn the_scheduler_is_as_it_was() {
    let record = receiver(abi::State::default());
    let ring = ring(64, 60, 57);
    let answers = [Answer::received(0, 0), Answer::done()];
    let read = abi::receiver_read_with_fds(record, &ring, &mut [0; 100], 0, &answers);
    assert_eq!(read.receiver.scheduler, record.scheduler);
    assert_eq!(read.receiver.state, state(TERMINATED, violation(5, 57, 56)));
    assert_eq!(read.outcome.failure, violation(5, 57, 56));
}

// ---- what is stored, by plain records

fn violation(value: u64, needed: u64, room: u64) -> abi::Failure {
    abi::Failure {
        kind: 1,
        value,
        needed,
        room,
    }
}

fn errno(value: u64) -> abi::Failure {
    abi::Failure {
        value,
        ..Default::default()
    }
}

fn state(kind: u64, failure: abi::Failure) -> abi::State {
    abi::State { kind, failure }
}

/// Of an empty ring whose header goes round its end.
fn receiver(state: abi::State) -> abi::Receiver {
    let scheduler = abi::stripring_scheduler_try_from_counters(64, 60, 60).scheduler;
    abi::Receiver {
        scheduler,
        state,
        ..Default::default()
    }
}

#[test]
fn any_stored_numbers_are_answered_as_they_are() {
    for failure in [violation(2, 0, 0), violation(5, u64::MAX, 3)] {
        let terminated = receiver(state(TERMINATED, failure));
        let read = abi::receiver_read_with_fds(terminated, &[0; 64], &mut [0], 0, &[]);
        assert_eq!((read.refusal.number, read.used), (0, 0));
        assert_eq!((read.receiver, read.outcome.failure), (terminated, failure));
        let service = abi::receiver_service_chunk_acknowledgements(terminated, &[]);
        assert_eq!(service.outcome.failure, failure);
    }
}

#[test]
fn an_earlier_reason_stays_in_the_state() {
    let (before, ring) = (state(DRAINING, violation(2, 1, 9)), ring(64, 60, 57));
    let answers = [Answer::received(0, 0), Answer::done()];
    let read = abi::receiver_read_with_fds(receiver(before), &ring, &mut [0], 0, &answers);
    assert_eq!(read.outcome.failure, violation(5, 57, 56));
    assert_eq!(read.receiver.state, state(TERMINATED, violation(2, 1, 9)));
}

#[test]
fn the_numbers_of_other_failures_are_not_looked_at() {
    let taken_for = |given| abi::stripring_failure_normalize(given).failure;
    assert_eq!(taken_for(violation(5, 57, 56)), violation(5, 57, 56));
    assert_eq!(taken_for(violation(2, 0, 0)), violation(2, 0, 0));
    let with_numbers = abi::Failure {
        kind: 0,
        ..violation(5, 57, 56)
    };
    assert_eq!(taken_for(with_numbers), errno(5));
    for number in [1, 3, 4] {
        assert_eq!(
            taken_for(violation(number, 57, 56)),
            violation(number, 0, 0)
        );
    }
    for number in [0, 6, u64::MAX] {
        assert_eq!(taken_for(violation(number, 57, 56)), violation(4, 0, 0));
    }
}

#[test]
fn the_reason_keeps_its_numbers() {
    let reason = |from, to| {
        let (from, to) = (state(DRAINING, from), state(TERMINATED, to));
        let advanced = abi::stripring_state_advance_state_towards_termination(from, to).state;
        assert_eq!(advanced.kind, TERMINATED);
        advanced.failure
    };
    let (body, header) = (violation(5, 57, 56), violation(2, 8, 4));
    assert_eq!(reason(errno(32), body), body);
    assert_eq!(reason(body, errno(5)), body);
    assert_eq!(reason(header, body), header);
    assert_eq!(reason(body, violation(5, 1, 0)), body);
}

// ---- in words

#[test]
fn a_failure_is_a_sentence_with_its_numbers() {
    let said = |failure: abi::Failure| Failure::from(failure).to_string();
    assert_eq!(
        said(violation(2, 8, 4)),
        "violation 2: a chunk's header needs 8 bytes, and the ring has 4"
    );
    assert_eq!(
        said(violation(5, 57, 56)),
        "violation 5: a chunk of 57 bytes was announced, and the ring has room for 56 behind the chunk's header"
    );
    assert_eq!(said(errno(32)), "errno 32: the stream has come to its end");
    assert_eq!(said(errno(11)), "errno 11: nothing has come, try again");
    assert_eq!(said(errno(104)), "errno 104: the socket failed");
}

#[test]
fn a_number_that_no_violation_has_is_4() {
    let number = |value| match violation(value, 57, 56).into() {
        Failure::Violation(told) => told.number(),
        Failure::Errno(errno) => panic!("violation {value} is errno {errno}"),
    };
    assert_eq!([1, 2, 3, 4, 5].map(number), [1, 2, 3, 4, 5]);
    assert_eq!([0, 6, u64::MAX].map(number), [4, 4, 4]);
}
