//! The Rust's calls. Twice: in the shape of the static library's, where a plain record goes in, is
//! tested, and a plain answer comes out; and in the Rust's own shape, where a record that was
//! tested once goes in. No call is inlined. The records tried are sound and nothing is refused.

use crate::stripring::{Answer, Operation, Operations, Refusal, Scheduled, Scheduler};
use oracle::rosenpass::sched::{
    OperationType, RingBufferScheduler, ScheduledOperation, ScheduledOperations,
};
use oracle::standins::u64uint::U64USize;

/// What the Rust has of a record: it holds no fill, and neither tests nor answers one.
#[repr(C)]
#[derive(Debug, PartialEq)]
pub struct Counters {
    pub buf_len: u64,
    pub items_written: u64,
    pub items_read: u64,
}

impl From<Scheduler> for Counters {
    fn from(s: Scheduler) -> Self {
        Self {
            buf_len: s.buf_len,
            items_written: s.items_written,
            items_read: s.items_read,
        }
    }
}

#[inline(never)]
pub extern "C" fn data_avail(s: Scheduler) -> Answer<u64> {
    accepted(tested(s).data_avail())
}

#[inline(never)]
pub extern "C" fn schedule(s: Scheduler, typ: u64, max_len: u64) -> Answer<Scheduled> {
    let list = tested(s).schedule_contiguous_operations(operation_type(typ), max_len);
    let (mut operations, mut remainder) = (Operations::default(), max_len);
    for (place, op) in operations.both.iter_mut().zip(list.container()) {
        operations.count += 1;
        remainder -= op.len.u64();
        *place = Operation {
            typ: op.typ as u64,
            off: op.off,
            len: op.len.u64(),
        };
    }
    accepted(Scheduled {
        operations,
        remainder,
    })
}

#[inline(never)]
pub extern "C" fn register(s: Scheduler, list: Operations) -> Answer<Counters> {
    let container = list.both[..list.count as usize]
        .iter()
        .map(|op| {
            let len = U64USize::new_or_panic(op.len);
            ScheduledOperation::new(operation_type(op.typ), op.off, len)
        })
        .collect();
    let list = ScheduledOperations::try_new(container).expect("a sound list");
    let after = tested(s).try_register_operation(&list).expect("room");
    accepted(Counters {
        buf_len: after.buf_len(),
        items_written: after.items_written(),
        items_read: after.items_read(),
    })
}

#[inline(never)]
pub fn own_data_avail(s: RingBufferScheduler) -> u64 {
    s.data_avail()
}

#[inline(never)]
pub fn own_schedule(
    s: RingBufferScheduler,
    op: OperationType,
    max_len: u64,
) -> ScheduledOperations {
    s.schedule_contiguous_operations(op, max_len)
}

#[inline(never)]
pub fn own_register(s: RingBufferScheduler, list: ScheduledOperations) -> RingBufferScheduler {
    s.try_register_operation(&list).expect("room")
}

pub fn tested(s: Scheduler) -> RingBufferScheduler {
    RingBufferScheduler::try_from_counters(s.buf_len, s.items_written, s.items_read)
        .expect("a sound record")
}

pub fn operation_type(typ: u64) -> OperationType {
    match typ {
        0 => OperationType::Read,
        _ => OperationType::Write,
    }
}

fn accepted<T>(of: T) -> Answer<T> {
    let refusal = Refusal::default();
    Answer { refusal, of }
}
