//! The fill in a scheduler's record, as docs/PAPER.md tells it ("The held fill"), over wide integers. The Rust holds
//! none: this model, written from the words and not from the code, is what the static library is compared with.

use crate::sched_answers::{Answer, Refusal, refusal};

/// L, written, read, and the fill that the record says.
pub type Record = [u64; 4];

/// The greatest ring.
const MAX_BUF_LEN: u64 = 1 << 63;

/// (written - read) mod 2L, of a ring that has a length.
pub fn data([l, written, read]: [u64; 3]) -> i128 {
    (i128::from(written) - i128::from(read)).rem_euclid(2 * i128::from(l))
}

/// 1 to 5, in this order.
fn demand_counters([l, written, read]: [u64; 3]) -> Result<(), Refusal> {
    let end = 2 * i128::from(l);
    if l == 0 {
        return Err(refusal(&[1]));
    }
    if l > MAX_BUF_LEN {
        return Err(refusal(&[2, l]));
    }
    if i128::from(written) >= end {
        return Err(refusal(&[3, l, written]));
    }
    if i128::from(read) >= end {
        return Err(refusal(&[4, l, read]));
    }
    if data([l, written, read]) > i128::from(l) {
        return Err(refusal(&[5, l, written, read]));
    }
    Ok(())
}

/// The record of these counters. Its fill is worked out, so it is never the wrong one.
pub fn by_counters(counters: [u64; 3]) -> Result<Record, Refusal> {
    demand_counters(counters)?;
    let [l, written, read] = counters;
    Ok([l, written, read, data(counters) as u64])
}

/// The tests of a record: its counters, and then 20, its fill.
pub fn demand([l, written, read, fill]: Record) -> Result<(), Refusal> {
    let counters = [l, written, read];
    demand_counters(counters)?;
    match i128::from(fill) == data(counters) {
        true => Ok(()),
        false => Err(refusal(&[20])),
    }
}

/// What any call answers that takes a record: nothing else is tested before the record is.
pub fn behind_tests(record: Record, rest: impl FnOnce() -> Answer) -> Answer {
    demand(record)?;
    rest()
}

/// The record with another read counter, of the type 0, or another written counter, of any other.
pub fn with_counter(record: Record, typ: u64, counter: u64) -> Result<Record, Refusal> {
    demand(record)?;
    let [l, written, read, _] = record;
    match typ {
        0 => by_counters([l, written, counter]),
        _ => by_counters([l, counter, read]),
    }
}

/// A writing end takes a read counter. Its space must not shrink.
pub fn take_read(end: Record, counter: u64) -> Result<Record, Refusal> {
    let space = |record: Record| i128::from(record[0]) - i128::from(record[3]);
    let next = with_counter(end, 0, counter)?;
    ran_back(space(next) < space(end), next)
}

/// A reading end takes a written counter. Its data must not shrink.
pub fn take_written(end: Record, counter: u64) -> Result<Record, Refusal> {
    let next = with_counter(end, 1, counter)?;
    ran_back(next[3] < end[3], next)
}

fn ran_back(ran_back: bool, next: Record) -> Result<Record, Refusal> {
    match ran_back {
        true => Err(refusal(&[10])),
        false => Ok(next),
    }
}
