//! A socket that hands out a given run of answers, in order, and counts them. receiver.rs holds a
//! plain descriptor, so the run stands beside it, one for each thread.
//!
//! Where an answer is missing, or is one that the place cannot have, the call that asked for it is
//! left by an unwind that carries the refusal: receiver.rs has no word for either.

use crate::receiver_standins::rustix::io::Errno;
use crate::sched_answers::refusal;
use std::cell::RefCell;
use std::panic::resume_unwind;

/// Kind, value, descriptors. Kind 0: received the byte `value` with so many descriptors; 1: closed;
/// 2: failed with the errno `value`; 3: sent `value` bytes; 4: done.
pub type Answer = [u64; 3];

/// What the answer to a receive says.
pub enum Received {
    Byte { byte: u8, fds: u64 },
    Closed,
}

#[derive(Default)]
struct Run {
    answers: Vec<Answer>,
    used: usize,
}

thread_local! {
    static RUN: RefCell<Run> = RefCell::default();
}

/// The run from which the answers come now.
pub fn lend(answers: &[Answer]) {
    let answers = answers.to_vec();
    RUN.set(Run { answers, used: 0 });
}

/// How many of the run were handed out.
pub fn used() -> u64 {
    RUN.with_borrow(|run| run.used as u64)
}

pub fn receive(max_new_fds: u64) -> Result<Received, Errno> {
    next(|answer| match answer {
        [0, byte, fds] if fds <= max_new_fds => {
            let byte = u8::try_from(byte).ok()?;
            Some(Ok(Received::Byte { byte, fds }))
        }
        [1, ..] => Some(Ok(Received::Closed)),
        _ => failed(answer),
    })
}

/// At most the batch can have been sent.
pub fn send(batch: u64) -> Result<u64, Errno> {
    next(|answer| match answer {
        [3, sent, _] if sent <= batch => Some(Ok(sent)),
        _ => failed(answer),
    })
}

pub fn shutdown() -> Result<(), Errno> {
    next(|answer| match answer {
        [4, ..] => Some(Ok(())),
        _ => failed(answer),
    })
}

/// Every place can fail, with an errno from 1 to 4095.
fn failed<T>(answer: Answer) -> Option<Result<T, Errno>> {
    match answer {
        [2, errno @ 1..=4095, _] => Some(Err(Errno(errno))),
        _ => None,
    }
}

/// The next answer as its place reads it; 11 if there is none, 12 with its place if it does not fit.
fn next<T>(read: impl FnOnce(Answer) -> Option<T>) -> T {
    let (answer, place) = RUN.with_borrow_mut(|run| {
        let answer = run.answers.get(run.used).copied();
        run.used += 1;
        (answer, run.used as u64)
    });
    match answer.map(read) {
        Some(Some(fitting)) => fitting,
        Some(None) => resume_unwind(Box::new(refusal(&[12, place]))),
        None => resume_unwind(Box::new(refusal(&[11]))),
    }
}
