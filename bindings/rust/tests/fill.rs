//! The fill that a record holds: right in every record that a call answers, and refused with 20 where a plain record has it wrong.

use stripring::{OperationType, ReadingEnd, Refusal, Scheduler, WritingEnd, abi};

type Result = std::result::Result<(), Refusal>;

const RIGHT: abi::Scheduler = abi::Scheduler {
    buf_len: 10,
    items_written: 7,
    items_read: 3,
    fill: 4,
};
const WRONG: abi::Scheduler = abi::Scheduler { fill: 5, ..RIGHT };

/// The fill, held as asked for.
fn fill(s: &Scheduler) -> u64 {
    assert_eq!(s.fill(), s.data_avail());
    s.fill()
}

#[test]
fn every_step_keeps_it() -> Result {
    let mut ring = [0; 10];
    let mut s = Scheduler::from_counters(10, 7, 3)?;
    assert_eq!(fill(&s), 4);
    s.write(&mut ring, b"abc")?;
    assert_eq!(fill(&s), 7);
    s.read(&ring, &mut [0; 5])?;
    assert_eq!(fill(&s), 2);
    s.register(OperationType::Write, 8)?;
    assert_eq!(fill(&s), 10);
    assert_eq!(s.register(OperationType::Write, 1).unwrap_err().number(), 6);
    assert_eq!(fill(&s), 10);
    Ok(())
}

#[test]
fn a_counter_in_the_place_of_another_moves_it() -> Result {
    let mut s = Scheduler::from_counters(10, 7, 3)?;
    s.try_with_counter(OperationType::Write, 13)?;
    assert_eq!((s.items_written(), fill(&s)), (13, 10));
    s.try_with_counter(OperationType::Read, 12)?;
    assert_eq!((s.items_read(), fill(&s)), (12, 1));
    let refused = s.try_with_counter(OperationType::Read, 14).unwrap_err();
    assert_eq!((refused.number(), refused.values()), (5, [10, 13, 14]));
    let refused = s.try_with_counter(OperationType::Write, 20).unwrap_err();
    assert_eq!((refused.number(), refused.values()), (3, [10, 20, 0]));
    assert_eq!((s.items_written(), s.items_read(), fill(&s)), (13, 12, 1));
    Ok(())
}

#[test]
fn the_ends_keep_it() -> Result {
    let mut ring = [0; 4];
    let (mut writing, mut reading) = (WritingEnd::new(4)?, ReadingEnd::new(4)?);
    for _ in 0..100 {
        writing.write(&mut ring, b"abc")?;
        assert_eq!(fill(writing.scheduler()), 3);
        assert_eq!(fill(reading.scheduler()), 0);
        reading.take(writing.send())?;
        assert_eq!(fill(reading.scheduler()), 3);
        reading.read(&ring, &mut [0; 3])?;
        writing.take(reading.send())?;
        assert_eq!(
            (fill(writing.scheduler()), fill(reading.scheduler())),
            (0, 0)
        );
    }
    Ok(())
}

#[test]
fn at_the_longest_the_counters_roll_over() -> Result {
    let mut s = Scheduler::from_counters(1 << 63, u64::MAX, u64::MAX - 2)?;
    assert_eq!(fill(&s), 2);
    s.register(OperationType::Write, 5)?;
    assert_eq!((s.items_written(), fill(&s)), (4, 7));
    s.register(OperationType::Read, 6)?;
    assert_eq!((s.items_read(), fill(&s)), (3, 1));
    Ok(())
}

#[test]
fn a_wrong_one_is_refused_with_20() {
    let answer = abi::stripring_scheduler_data_avail(WRONG);
    assert_eq!(Refusal::from(answer.refusal), Refusal::HeldFillWrong);
    assert_eq!((answer.refusal.number, answer.value), (20, 0));
    assert_eq!(Refusal::HeldFillWrong.values(), [0, 0, 0]);
    assert_eq!(
        Refusal::HeldFillWrong.to_string(),
        "refused with 20: the fill that a record holds is wrong"
    );
    assert_eq!(abi::stripring_scheduler_data_avail(RIGHT).value, 4);
}

#[test]
fn a_refused_copy_changes_nothing() {
    let (mut ring, mut bytes) = (*b"0123456789", *b"abcdefghi");
    let copy = abi::copies_write(WRONG, &mut ring[1..], &bytes);
    assert_eq!(
        (copy.refusal.number, copy.scheduler),
        (20, abi::Scheduler::default())
    );
    let mut end = abi::ReadingEnd { scheduler: WRONG };
    let moved = abi::reading_end_read_in_place(&mut end, &ring[1..], &mut bytes);
    assert_eq!((moved.refusal.number, end.scheduler), (20, WRONG));
    let counter = abi::WrittenCounter { counter: 20 };
    let refusal = abi::reading_end_take_in_place(&mut end, counter);
    assert_eq!((refusal.number, end.scheduler), (20, WRONG));
    assert_eq!((&ring, &bytes), (b"0123456789", b"abcdefghi"));
}
