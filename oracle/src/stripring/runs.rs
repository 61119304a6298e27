//! The receiver's calls over a run of the socket's answers, and its machine, which takes one answer at a time.

use super::{Answer, Flat, IntoRow, Receiver};
use oracle::receiver_answers::{Kind, Lent, OUTCOME, RECEIVER, SCHEDULER};
use oracle::sched_answers::Row;

/// The library's answer to what is lent to a call over a run of the socket's answers.
pub type RunCall = fn(Lent<RECEIVER>) -> Row;

/// Declares such calls, of which the first take a ring and a destination, and makes a table of their
/// names without `stripring_` and of their answers.
macro_rules! run_calls {
    (reading: $($read:ident)*; others: $($other:ident)*;) => {
        pub fn run_calls() -> Vec<(&'static str, RunCall)> {
            unsafe extern "C" {
                $(
                    #[link_name = concat!("stripring_", stringify!($read))]
                    fn $read(
                        _: Receiver, _: *const u8, _: usize, _: *mut u8, _: usize,
                        max_new_fds: u64, _: *const [u64; 3], _: usize,
                    ) -> Answer<23>;
                )*
                $(
                    #[link_name = concat!("stripring_", stringify!($other))]
                    fn $other(_: Receiver, _: *const [u64; 3], _: usize) -> Answer<23>;
                )*
            }
            vec![
                $((stringify!($read), |lent| {
                    let Lent { receiver, ring, destination, max_new_fds, answers } = lent;
                    let (r, d, a) = (ring.as_mut_ptr(), destination.as_mut_ptr(), answers.as_ptr());
                    // SAFETY: three slices that do not overlap, each with its length.
                    unsafe {
                        $read(
                            Flat(receiver), r, ring.len(), d, destination.len(),
                            max_new_fds, a, answers.len(),
                        )
                    }.row()
                }),)*
                $((stringify!($other), |lent| {
                    let Lent { receiver, answers, .. } = lent;
                    // SAFETY: a slice with its length.
                    unsafe { $other(Flat(receiver), answers.as_ptr(), answers.len()) }.row()
                }),)*
            ]
        }
    };
}

/// Of a phase: its kind and three numbers of what it waits for, the outcome that it ends with and whether
/// a failure is told in its place, and the outcome that it came to.
const PHASE: usize = 4 + 1 + OUTCOME + OUTCOME;
/// Of a call in progress: the receiver, the scheduler that a read copies its bytes by, and the phase.
pub const CALL: usize = RECEIVER + SCHEDULER + PHASE;
/// Of what a call of the machine answers: the refusal, and the call.
pub const STEP: usize = 4 + CALL;

pub type CallNumbers = [u64; CALL];
pub type StepNumbers = [u64; STEP];

type CallInProgress = Flat<CALL>;
type SocketAnswer = Flat<3>;
type Step = Answer<STEP>;

unsafe extern "C" {
    safe fn stripring_call_begin_read(
        _: Receiver,
        ring_len: usize,
        max_new_fds: u64,
        dst_len: u64,
    ) -> Step;
    safe fn stripring_call_begin_service(_: Receiver) -> Step;
    safe fn stripring_call_begin_shutdown(_: Receiver) -> Step;
    fn stripring_call_answered(
        _: CallInProgress,
        _: *const u8,
        _: usize,
        _: SocketAnswer,
        place: u64,
    ) -> Step;
}

/// Begins what a call over a run does at once; of the answers nothing is looked at.
pub fn begin(kind: Kind, lent: Lent<RECEIVER>) -> StepNumbers {
    let receiver = Flat(lent.receiver);
    match kind {
        Kind::Read => {
            let (ring_len, dst_len) = (lent.ring.len(), lent.destination.len() as u64);
            stripring_call_begin_read(receiver, ring_len, lent.max_new_fds, dst_len).0
        }
        Kind::Service => stripring_call_begin_service(receiver).0,
        Kind::Shutdown => stripring_call_begin_shutdown(receiver).0,
    }
}

pub fn answered(call: CallNumbers, ring: &[u8], answer: [u64; 3], place: u64) -> StepNumbers {
    // SAFETY: a slice with its length.
    unsafe { stripring_call_answered(Flat(call), ring.as_ptr(), ring.len(), Flat(answer), place).0 }
}

run_calls! {
    reading: receiver_read_with_fds receiver_read_with_fds_impl;
    others: receiver_service_chunk_acknowledgements receiver_shutdown;
}
