//! The record that a call of the library is handed, behind whose counters its fill stands.

use super::Answer;
use crate::numbers::Random;
use crate::sched_inputs::data;
use oracle::fill_model::Record;
use oracle::receiver_answers::{Lent, RECEIVER, SCHEDULER};

unsafe extern "C" {
    safe fn stripring_scheduler_try_from_counters(l: u64, written: u64, read: u64) -> Answer<8>;
}

/// The record that the library is handed for these counters, which is the one that it makes of them. Of
/// counters that it refuses none is made, and the fill is any number: 1 to 5 have to be told whatever it is.
pub fn record_of(counters: [u64; 3]) -> Record {
    let [l, written, read] = counters;
    let Answer([number, _, _, _, made @ ..]) =
        stripring_scheduler_try_from_counters(l, written, read);
    match number {
        0 => made,
        _ => [l, written, read, any_fill(counters)],
    }
}

/// Of one input it is always the same. Often it is the difference that the counters have.
fn any_fill(counters: [u64; 3]) -> u64 {
    let [l, written, read] = counters;
    let mut random = Random(l ^ written.rotate_left(21) ^ read.rotate_left(42));
    match random.next() % 4 {
        0 => data(counters),
        _ => random.mixed(l),
    }
}

/// An input with this record in place of the counters that it begins with, as the library takes it. The
/// last numbers of a long one are 0, and have no place then.
pub fn with_record<const N: usize, const TO: usize>(record: Record, input: &[u64; N]) -> [u64; TO] {
    let mut numbers = [0; TO];
    numbers[..SCHEDULER].copy_from_slice(&record);
    for (number, behind) in numbers[SCHEDULER..].iter_mut().zip(&input[3..]) {
        *number = *behind;
    }
    numbers
}

/// An input that begins with a scheduler, as the library takes it.
pub fn handed<const N: usize, const TO: usize>(input: &[u64; N]) -> [u64; TO] {
    with_record(record_of([input[0], input[1], input[2]]), input)
}

/// What is lent, as the library takes it.
pub fn handed_lent(lent: Lent) -> Lent<RECEIVER> {
    let receiver = handed(&lent.receiver);
    lent_over(receiver, lent)
}

/// With this receiver.
pub fn lent_over<'a>(receiver: [u64; RECEIVER], lent: Lent<'a>) -> Lent<'a, RECEIVER> {
    Lent {
        receiver,
        ring: lent.ring,
        destination: lent.destination,
        max_new_fds: lent.max_new_fds,
        answers: lent.answers,
    }
}
