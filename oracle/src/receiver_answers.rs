//! The answers of receiver.rs as plain numbers, call by call.
//!
//! A failure is 0, an errno and two zeros, or 1, a violation's number, the bytes needed and the room:
//! 1 InvalidChunkAnnouncement, 2 HeaderOverflow, 3 UnknownHeader, 4 InvalidChunkLength,
//! 5 BodyOverflow. Only 2 and 5 have bytes and room; the Rust has one ControlOverflow for both, and
//! which of them it is, with what numbers, says the model in overflow.rs. A state is zeros for Normal,
//! or 1 for Draining, 2 for Terminated, and its failure. A receiver is its scheduler, its state, the count
//! of pending acknowledgements, and 1 if a shutdown has succeeded.
//!
//! The tests of what is handed in (1 to 5, 9, 12 with place 0, 13) stand before a call here, in the
//! order of docs/PAPER.md: receiver.rs cannot be handed such a thing, or would panic.

use crate::overflow::{Violation, counts_as};
use crate::receiver_standins::announce_to;
use crate::receiver_standins::io::fd_stream::ReadWithFdsResult;
use crate::receiver_standins::rustix::io::Errno;
use crate::rosenpass::receiver::{ReceiverFrame, ReceiverState, State};
use crate::rosenpass::shared::SharedState;
use crate::rosenpass::{ShmProtocolViolation as V, ShmStreamError};
use crate::sched_answers::{Answer, Call, Input, Numbers, Refusal, call, refusal, s};
use crate::sched_flat::{Flat, flat};
use crate::scripted_socket;
use std::fs::File;
use std::os::fd::OwnedFd;
use std::panic::{AssertUnwindSafe, catch_unwind, resume_unwind};

// How many numbers each has.
pub const FAILURE: usize = 4;
pub const STATE: usize = 1 + FAILURE;
/// With its fill, as it is answered.
pub const SCHEDULER: usize = 4;
/// As it is answered.
pub const RECEIVER: usize = SCHEDULER + STATE + 2;
/// Of a receiver as it is taken, whose scheduler is L and the two counters.
pub const BY_COUNTERS: usize = RECEIVER - 1;
/// See `RUN_CALLS`.
pub const OUTCOME: usize = 3 + FAILURE;

/// What a call of the states can take.
#[derive(Clone, Copy)]
pub enum Part {
    Scheduler,
    State,
    Failure,
    PotentialFailure,
}

impl Part {
    pub fn numbers(self) -> &'static str {
        match self {
            Part::Scheduler => "scheduler",
            Part::State => "state",
            Part::Failure => "failure",
            Part::PotentialFailure => "some failure",
        }
    }
}

/// The calls that take numbers alone.
#[rustfmt::skip]
pub const STATE_CALLS: [Call<Part>; 8] = [
    call("receiver_new", &[Part::Scheduler], |i| flat(&ReceiverState::new(socket(), s(i)?))),
    call("state_failure", &[Part::State], |i| flat(state(i)?.failure())),
    call("state_with_failure", &[Part::State, Part::Failure], with_failure),
    call("state_with_potential_failure", &[Part::State, Part::PotentialFailure], with_potential_failure),
    call("state_normalize", &[Part::State], |i| flat(state(i)?.normalize())),
    call("state_advance_state_towards_termination", &[Part::State, Part::State], advance_state),
    call("failure_normalize", &[Part::Failure], |i| flat(failure(i)?.normalize())),
    call("failure_advance_failure_towards_error", &[Part::Failure, Part::Failure], advance_failure),
];

fn with_failure(i: &Input) -> Answer {
    let (state, reason) = (state(i)?, failure(&i[STATE..])?);
    flat(state.with_failure(reason))
}

fn with_potential_failure(i: &Input) -> Answer {
    let state = state(i)?;
    let reason = match i[STATE] {
        0 => None,
        _ => Some(failure(&i[STATE + 1..])?),
    };
    flat(state.with_potential_failure(reason))
}

fn advance_state(i: &Input) -> Answer {
    let (from, to) = (state(i)?, state(&i[STATE..])?);
    flat(from.advance_state_towards_termination(to))
}

fn advance_failure(i: &Input) -> Answer {
    let (cached, error) = (failure(i)?, failure(&i[FAILURE..])?);
    flat(cached.advance_failure_towards_error(error))
}

/// A call over a run of the socket's answers.
pub struct RunCall {
    /// The static library's name for it, without `stripring_`.
    pub name: &'static str,
    pub kind: Kind,
    pub answer: fn(Lent) -> Answer,
}

/// A read takes a ring, a destination and a greatest count of descriptors; the others do not.
#[derive(Clone, Copy, PartialEq)]
pub enum Kind {
    Read,
    Service,
    Shutdown,
}

/// What is lent to it.
pub struct Lent<'a, const N: usize = BY_COUNTERS> {
    pub receiver: [u64; N],
    /// No call changes it. It is lent to be changed so that one which does is seen.
    pub ring: &'a mut [u8],
    pub destination: &'a mut [u8],
    pub max_new_fds: u64,
    pub answers: &'a [scripted_socket::Answer],
}

/// Each answers the receiver, the outcome, and how many of the socket's answers it used. An outcome
/// is a kind, the bytes and descriptors that were read, and a failure: kind 0 read, 1 done, 2 failed.
#[rustfmt::skip]
pub const RUN_CALLS: [RunCall; 4] = [
    run_call("receiver_read_with_fds", Kind::Read, |lent| read(lent, Frame::read_with_fds)),
    run_call("receiver_read_with_fds_impl", Kind::Read, |lent| read(lent, Frame::read_with_fds_impl)),
    run_call("receiver_service_chunk_acknowledgements", Kind::Service, service),
    run_call("receiver_shutdown", Kind::Shutdown, shutdown),
];

const fn run_call(name: &'static str, kind: Kind, answer: fn(Lent) -> Answer) -> RunCall {
    RunCall { name, kind, answer }
}

type Frame = ReceiverFrame<SharedState, ReceiverState>;
type ReadCall = fn(&mut Frame, &mut [u8], usize) -> Result<ReadWithFdsResult, ShmStreamError>;

/// A destination is written where the read is not refused, be it late.
fn read(lent: Lent, call: ReadCall) -> Answer {
    let receiver = ready(&lent)?;
    let mut destination = lent.destination.to_vec();
    let max_new_fds = lent.max_new_fds as usize;
    let answer = ended(receiver, &lent, |frame| {
        call(frame, &mut destination, max_new_fds)
    })?;
    lent.destination.copy_from_slice(&destination);
    Ok(answer)
}

fn service(lent: Lent) -> Answer {
    ended(
        receiver(&lent)?,
        &lent,
        Frame::service_chunk_acknowledgements,
    )
}

fn shutdown(lent: Lent) -> Answer {
    ended(receiver(&lent)?, &lent, |frame| {
        frame.shutdown().map_err(|error| {
            let errno = error.raw_os_error().expect("the errno of the socket");
            Errno(errno as u64).into()
        })
    })
}

/// Runs a call over the answers. Where the socket leaves it, that is a refusal.
fn ended<T: Flat>(
    receiver: ReceiverState,
    lent: &Lent,
    call: impl FnOnce(&mut Frame) -> Result<T, ShmStreamError>,
) -> Answer {
    let ring = lent.ring.to_vec();
    let shared = SharedState { ring };
    announce_to(receiver.parts().0.buf_len());
    let mut frame = ReceiverFrame { shared, receiver };
    scripted_socket::lend(lent.answers);
    match catch_unwind(AssertUnwindSafe(|| call(&mut frame))) {
        Ok(outcome) => flat(Ended(frame.receiver, outcome)),
        Err(unwound) => Err(*unwound
            .downcast()
            .unwrap_or_else(|panic| resume_unwind(panic))),
    }
}

/// 1 to 5, then 12 with place 0.
fn receiver(lent: &Lent) -> Result<ReceiverState, Refusal> {
    let [.., pending, issued] = lent.receiver;
    let (scheduler, state) = (s(&lent.receiver)?, state(&lent.receiver[3..])?);
    Ok(ReceiverState::new(socket(), scheduler).amid(state, pending as usize, issued != 0))
}

/// 9 between those, and 13 behind them where the read gets to it.
fn ready(lent: &Lent) -> Result<ReceiverState, Refusal> {
    if lent.ring.len() as u64 != s(&lent.receiver)?.buf_len() {
        return Err(refusal(&[9]));
    }
    let receiver = receiver(lent)?;
    let (_, state, pending, _) = receiver.parts();
    let goes_on = !state.is_terminated() && !lent.destination.is_empty();
    if goes_on && pending == usize::MAX {
        return Err(refusal(&[13]));
    }
    Ok(receiver)
}

/// Any descriptor: nothing is asked of it.
fn socket() -> OwnedFd {
    File::open("/dev/null").expect("/dev/null").into()
}

/// Refused with 12 and place 0 where an errno is not from 1 to 4095.
fn failure(i: &[u64]) -> Result<ShmStreamError, Refusal> {
    match (i[0], i[1]) {
        (0, errno @ 1..=4095) => Ok(ShmStreamError::Io(Errno(errno))),
        (0, _) => Err(refusal(&[12, 0])),
        (_, number) => Ok(violation([number, i[2], i[3]])),
    }
}

/// An overflow has any numbers, and of the others they are not looked at.
fn violation(numbers: Violation) -> ShmStreamError {
    match counts_as(numbers[0]) {
        overflow @ V::ControlOverflow => ShmStreamError::Protocol(overflow, numbers),
        other => ShmStreamError::plain(other),
    }
}

fn state(i: &[u64]) -> Result<State, Refusal> {
    match i[0] {
        0 => Ok(State::normal()),
        1 => Ok(State::draining(failure(&i[1..])?)),
        _ => Ok(State::terminated(failure(&i[1..])?)),
    }
}

/// A violation has the number of docs/PAPER.md, and it counts as the one of the Rust.
impl Flat for ShmStreamError {
    fn push_to(self, numbers: &mut Numbers) {
        match self {
            ShmStreamError::Io(errno) => numbers.push(&[0, errno.0, 0, 0]),
            ShmStreamError::Protocol(violation, [number, needed, room]) => {
                assert_eq!(counts_as(number), violation, "not what the Rust says");
                numbers.push(&[1, number, needed, room]);
            }
        }
    }
}

/// 1 and the failure, or zeros.
impl Flat for Option<ShmStreamError> {
    fn push_to(self, numbers: &mut Numbers) {
        numbers.push(&[self.is_some().into()]);
        push_failure(self, numbers);
    }
}

fn push_failure(failure: Option<ShmStreamError>, numbers: &mut Numbers) {
    match failure {
        Some(failure) => failure.push_to(numbers),
        None => numbers.push(&[0; FAILURE]),
    }
}

impl Flat for State {
    fn push_to(self, numbers: &mut Numbers) {
        let kind = u64::from(self.is_draining()) + 2 * u64::from(self.is_terminated());
        numbers.push(&[kind]);
        push_failure(self.failure(), numbers);
    }
}

impl Flat for &ReceiverState {
    fn push_to(self, numbers: &mut Numbers) {
        let (scheduler, state, pending, issued) = self.parts();
        scheduler.push_to(numbers);
        state.push_to(numbers);
        numbers.push(&[pending as u64, issued.into()]);
    }
}

/// What was read, as an outcome without its failure.
impl Flat for ReadWithFdsResult {
    fn push_to(self, numbers: &mut Numbers) {
        numbers.push(&[0, self.data_read as u64, self.fds]);
    }
}

/// Done, as an outcome without its failure.
impl Flat for () {
    fn push_to(self, numbers: &mut Numbers) {
        numbers.push(&[1, 0, 0]);
    }
}

/// The receiver behind a call, and what the call came to.
struct Ended<T>(ReceiverState, Result<T, ShmStreamError>);

impl<T: Flat> Flat for Ended<T> {
    fn push_to(self, numbers: &mut Numbers) {
        let Self(receiver, outcome) = self;
        receiver.push_to(numbers);
        match outcome {
            Ok(answered) => {
                answered.push_to(numbers);
                push_failure(None, numbers);
            }
            Err(failure) => {
                numbers.push(&[2, 0, 0]);
                failure.push_to(numbers);
            }
        }
        numbers.push(&[scripted_socket::used()]);
    }
}
