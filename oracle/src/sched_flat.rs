//! What sched.rs answers, laid out as numbers.

use crate::rosenpass::sched::{
    Block, BufferFillState, BufferLayout, Diff, RingBufferScheduler, ScheduledOperation,
    ScheduledOperations,
};
use crate::sched_answers::{Answer, Numbers};

/// What can be laid out as numbers.
pub trait Flat {
    fn push_to(self, numbers: &mut Numbers);
}

pub fn flat(answer: impl Flat) -> Answer {
    let mut numbers = Numbers::default();
    answer.push_to(&mut numbers);
    Ok(numbers)
}

impl Flat for u64 {
    fn push_to(self, numbers: &mut Numbers) {
        numbers.push(&[self]);
    }
}

impl Flat for bool {
    fn push_to(self, numbers: &mut Numbers) {
        numbers.push(&[self.into()]);
    }
}

impl Flat for BufferFillState {
    fn push_to(self, numbers: &mut Numbers) {
        numbers.push(&[self as u64]);
    }
}

impl Flat for BufferLayout {
    fn push_to(self, numbers: &mut Numbers) {
        numbers.push(&[self as u64]);
    }
}

/// Its fill too, which the Rust holds nowhere: it is the data that the Rust works out.
impl Flat for RingBufferScheduler {
    fn push_to(self, numbers: &mut Numbers) {
        numbers.push(&[self.buf_len(), self.items_written(), self.items_read()]);
        numbers.push(&[self.data_avail()]);
    }
}

impl Flat for Block {
    fn push_to(self, numbers: &mut Numbers) {
        numbers.push(&[self.typ as u64, self.no as u64, self.off, self.len]);
    }
}

impl Flat for [Block; 3] {
    fn push_to(self, numbers: &mut Numbers) {
        for block in self {
            block.push_to(numbers);
        }
    }
}

impl Flat for &ScheduledOperation {
    fn push_to(self, numbers: &mut Numbers) {
        numbers.push(&[self.typ as u64, self.off, self.len.u64()]);
    }
}

/// The count and each operation.
impl Flat for &[ScheduledOperation] {
    fn push_to(self, numbers: &mut Numbers) {
        numbers.push(&[self.len() as u64]);
        for op in self {
            op.push_to(numbers);
        }
    }
}

impl Flat for ScheduledOperations {
    fn push_to(self, numbers: &mut Numbers) {
        self.container()[..].push_to(numbers);
    }
}

/// The next operation, and how many items were asked.
pub struct Next(pub Option<ScheduledOperation>, pub u64);

impl Flat for Next {
    fn push_to(self, numbers: &mut Numbers) {
        push_scheduled(numbers, self.0.as_slice(), 1, self.1);
    }
}

/// A list that was scheduled, and how many items were asked.
pub struct Scheduled(pub ScheduledOperations, pub u64);

impl Flat for Scheduled {
    fn push_to(self, numbers: &mut Numbers) {
        push_scheduled(numbers, &self.0.container()[..], 2, self.1);
    }
}

/// The count and each operation, 0 in the places without one, and the items left over. The Rust does
/// not answer those: they are what the lengths of its operations lack of what was asked.
fn push_scheduled(
    numbers: &mut Numbers,
    operations: &[ScheduledOperation],
    places: usize,
    asked: u64,
) {
    operations.push_to(numbers);
    for _ in operations.len()..places {
        numbers.push(&[0, 0, 0]);
    }
    let length: u64 = operations.iter().map(|op| op.len.u64()).sum();
    numbers.push(&[asked - length]);
}

/// The list with the start of each operation.
pub struct Starts(pub ScheduledOperations);

impl Flat for Starts {
    fn push_to(self, numbers: &mut Numbers) {
        numbers.push(&[self.0.container().len() as u64]);
        for (start, op) in self.0.with_cumulative_offset() {
            numbers.push(&[start.u64()]);
            op.push_to(numbers);
        }
    }
}

/// The list with the start and the end of each operation.
pub struct Ranges(pub ScheduledOperations);

impl Flat for Ranges {
    fn push_to(self, numbers: &mut Numbers) {
        numbers.push(&[self.0.container().len() as u64]);
        for (range, op) in self.0.with_outside_buffer_range() {
            numbers.push(&[range.start.u64(), range.end.u64()]);
            op.push_to(numbers);
        }
    }
}

/// Whether it is different, and its two values.
impl Flat for Diff<u64> {
    fn push_to(self, numbers: &mut Numbers) {
        match self {
            Diff::Same(value) => numbers.push(&[0, value, value]),
            Diff::Different(old, new) => numbers.push(&[1, old, new]),
        }
    }
}
