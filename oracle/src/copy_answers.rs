//! What a copy answers, and the bytes that it moves: by the scheduler of sched.rs and a loop over single bytes.

use crate::memory::Memory;
use oracle::rosenpass::sched::{OperationType, RingBufferScheduler};
use oracle::sched_answers::{Answer, refusal};
use oracle::sched_flat::flat;

/// Schedules by the Rust, moves the bytes one by one, and registers by the Rust. What was asked and not
/// moved is left over.
pub fn copied(writes: bool, [l, written, read]: [u64; 3], memory: &mut Memory) -> Answer {
    let scheduler = RingBufferScheduler::try_from_counters(l, written, read)?;
    let (ring, other) = memory.parts();
    if ring.len() as u64 != l {
        return Err(refusal(&[9]));
    }
    let asked = other.len() as u64;
    let operations = match writes {
        true => scheduler.schedule_writes(asked),
        false => scheduler.schedule_reads(asked),
    };
    let mut n = 0;
    for op in &operations.container()[..] {
        for place in op.off..op.off + op.len.u64() {
            let (inside, outside) = (&mut ring[place as usize], &mut other[n]);
            match op.typ {
                OperationType::Write => *inside = *outside,
                OperationType::Read => *outside = *inside,
            }
            n += 1;
        }
    }
    let mut numbers = flat(scheduler.try_register_operation(&operations)?)?;
    numbers.push(&[n as u64, asked - n as u64]);
    Ok(numbers)
}
