//! The calls of the two ends that take numbers alone: the static library against sched.rs, and where
//! a counter is taken against the rule of docs/PAPER.md ("Sending and taking") in the model of the fill.

use crate::sched::compare_calls;
use crate::stripring::end_calls;
use oracle::fill_model::{Record, by_counters, take_read, take_written};
use oracle::rosenpass::sched::RingBufferScheduler;
use oracle::sched_answers::{Answer, COUNTERS, Call, Input, LENGTH, Part, Refusal, S, call, s};
use oracle::sched_flat::flat;

pub fn run() -> bool {
    let what = "ends: stripring against sched.rs, and taking against docs/PAPER.md";
    compare_calls(what, &CALLS, end_calls())
}

const S_COUNTER: &[Part] = &[Part::Scheduler, Part::Counter];

#[rustfmt::skip]
pub const CALLS: [Call; 10] = [
    call("writing_end_new", LENGTH, |i| flat(RingBufferScheduler::try_new(i[0])?)),
    call("writing_end_from_counters", COUNTERS, |i| flat(s(i)?)),
    call("writing_end_from_scheduler", S, |i| flat(s(i)?)),
    call("writing_end_send", S, |i| flat(s(i)?.items_written())),
    call("writing_end_take", S_COUNTER, |i| taken(i, take_read)),
    call("reading_end_new", LENGTH, |i| flat(RingBufferScheduler::try_new(i[0])?)),
    call("reading_end_from_counters", COUNTERS, |i| flat(s(i)?)),
    call("reading_end_from_scheduler", S, |i| flat(s(i)?)),
    call("reading_end_send", S, |i| flat(s(i)?.items_read())),
    call("reading_end_take", S_COUNTER, |i| taken(i, take_written)),
];

/// Of an end that is made of these counters.
fn taken(i: &Input, take: fn(Record, u64) -> Result<Record, Refusal>) -> Answer {
    let [l, written, read, new, ..] = *i;
    let next = take(by_counters([l, written, read])?, new)?;
    Ok(next.as_slice().into())
}
