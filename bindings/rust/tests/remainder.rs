//! How much of what was asked is left over: of the next operation, of a list, and of a copy.

use stripring::{OperationType, Portion, ReadingEnd, Refusal, Scheduler, WritingEnd, abi};

type Result = std::result::Result<(), Refusal>;

/// Data 4 and space 6, of which 3 are before the end of the memory.
const PARTIAL: [u64; 3] = [10, 7, 3];
const EMPTY: [u64; 3] = [10, 3, 3];

fn scheduler([l, written, read]: [u64; 3]) -> Scheduler {
    Scheduler::from_counters(l, written, read).unwrap()
}

fn flat([l, written, read]: [u64; 3]) -> abi::Scheduler {
    abi::stripring_scheduler_try_from_counters(l, written, read).scheduler
}

fn write(off: u64, len: u64) -> abi::Operation {
    abi::Operation { typ: 1, off, len }
}

#[test]
fn the_next_operation_leaves_what_is_behind_its_block() {
    let next = abi::stripring_scheduler_schedule_next_write(flat(PARTIAL), 9);
    assert_eq!((next.some, next.operation), (1, write(7, 3)));
    assert_eq!(next.remainder, 6);
}

#[test]
fn none_leaves_all() {
    let next = abi::stripring_scheduler_schedule_next_read(flat(EMPTY), 4);
    let wanted = abi::NextAnswer {
        remainder: 4,
        ..Default::default()
    };
    assert_eq!(next, wanted);
}

#[test]
fn a_refused_call_leaves_nothing() {
    let unsound = abi::Scheduler {
        buf_len: 10,
        items_written: 11,
        items_read: 0,
        fill: 11,
    };
    let plan = abi::stripring_scheduler_schedule_writes(unsound, 9);
    assert_eq!(plan.refusal.number, 5);
    let refusal = plan.refusal;
    let wanted = abi::ScheduleAnswer {
        refusal,
        ..Default::default()
    };
    assert_eq!(plan, wanted);
}

#[test]
fn a_list_leaves_what_is_left_after_both() {
    let places = scheduler(PARTIAL).schedule(OperationType::Write, 9);
    assert_eq!(places.remainder(), 3);
    assert_eq!(places.collect::<Vec<_>>(), [7..10, 0..3]);

    let places = scheduler(EMPTY).schedule(OperationType::Read, 4);
    assert_eq!((places.remainder(), places.count()), (4, 0));
}

#[test]
fn the_most_that_can_be_asked_of_a_ring_of_one() {
    let next = abi::stripring_scheduler_schedule_next_write(flat([1, 0, 0]), u64::MAX);
    assert_eq!((next.some, next.operation), (1, write(0, 1)));
    assert_eq!(next.remainder, u64::MAX - 1);

    let mut places = scheduler([1, 0, 0]).schedule(OperationType::Write, u64::MAX);
    assert_eq!(places.remainder(), u64::MAX - 1);
    assert_eq!((places.next(), places.next()), (Some(0..1), None));
}

#[test]
fn a_copy_tells_what_it_moved_and_what_it_left() -> Result {
    let mut ring = *b"0123456789";
    let mut s = scheduler(PARTIAL);
    let wrote = s.write_portion(&mut ring, b"abcdefghi")?;
    assert_eq!((wrote.len, wrote.remainder), (6, 3));
    assert_eq!(&ring, b"def3456abc");

    let mut bytes = [0; 12];
    let read = s.read_portion(&ring, &mut bytes)?;
    assert_eq!((read.len, read.remainder), (10, 2));
    assert_eq!(&bytes, b"3456abcdef\0\0");
    Ok(())
}

#[test]
fn the_ends_too() -> Result {
    let mut ring = *b"0123456789";
    let mut writing = WritingEnd::from(scheduler(PARTIAL));
    let portion = |len, remainder| Portion { len, remainder };
    assert_eq!(
        writing.write_portion(&mut ring, b"abcdefghi")?,
        portion(6, 3)
    );
    assert_eq!(writing.write_portion(&mut ring, b"ghi")?, portion(0, 3));
    assert_eq!(
        writing.write_portion(&mut ring[1..], b"ghi"),
        Err(Refusal::RingMemory)
    );

    let mut reading = ReadingEnd::from(scheduler(PARTIAL));
    let mut bytes = [0; 9];
    assert_eq!(reading.read_portion(&ring, &mut bytes)?, portion(4, 5));
    Ok(())
}

#[test]
fn write_and_read_answer_how_many_bytes_moved() -> Result {
    let mut ring = [0; 10];
    let mut s = scheduler(PARTIAL);
    assert_eq!(s.write(&mut ring, b"abcdefghi")?, 6);
    assert_eq!(s.read(&ring, &mut [0; 12])?, 10);
    let mut end = WritingEnd::from(scheduler(PARTIAL));
    assert_eq!(end.write(&mut ring, b"abcdefghi")?, 6);
    let mut end = ReadingEnd::from(scheduler(PARTIAL));
    assert_eq!(end.read(&ring, &mut [0; 9])?, 4);
    Ok(())
}
