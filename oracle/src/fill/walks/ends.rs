//! Two ends that write and read and take each other's counters, by value and in place, some of them late or too old.

use super::{Known, SEED, STEPS, WALKS, between};
use crate::memory::Memory;
use crate::numbers::Random;
use crate::stripring::{
    CopyCall, LentCopyCall, LentTakeCall, NumberCall, READ_IN_PLACE, TAKE_READ_IN_PLACE,
    TAKE_WRITTEN_IN_PLACE, WRITE_IN_PLACE, copy_calls, end_calls, record_of,
};
use crate::tally::Tally;
use oracle::fill_model::Record;
use oracle::sched_answers::{Numbers, Row};

const LONGEST: u64 = 80;

pub fn run() -> bool {
    let mut tally = Tally::new(["what is known", "stripring"]);
    let mut random = Random(SEED);
    let calls = [
        Calls::of(
            "writing_end_write",
            WRITE_IN_PLACE,
            "writing_end_take",
            TAKE_READ_IN_PLACE,
        ),
        Calls::of(
            "reading_end_read",
            READ_IN_PLACE,
            "reading_end_take",
            TAKE_WRITTEN_IN_PLACE,
        ),
    ];
    for _ in 0..WALKS {
        walk(&mut tally, &mut random, &calls);
    }
    tally.report(&format!(
        "fill: {WALKS} walks of {STEPS} moves and taken counters over answered ends"
    ))
}

/// Of one of the ends, by value and in place.
struct Calls {
    copy: CopyCall,
    copy_in_place: LentCopyCall,
    take: NumberCall,
    take_in_place: LentTakeCall,
}

impl Calls {
    fn of(
        copy: &str,
        copy_in_place: LentCopyCall,
        take: &str,
        take_in_place: LentTakeCall,
    ) -> Self {
        Self {
            copy: copy_calls()
                .iter()
                .find(|call| call.0 == copy)
                .expect(copy)
                .2,
            copy_in_place,
            take: end_calls()
                .iter()
                .find(|call| call.0 == take)
                .expect(take)
                .1,
            take_in_place,
        }
    }
}

/// What a call comes to: the refusal's number, how many bytes were moved and were left over, and the end after it.
type CameTo = (u64, [u64; 2], Record);

/// The writing end, then the reading end: what each knows, and its record.
struct Ends {
    known: [Known; 2],
    records: [Record; 2],
}

/// The other is the reading end.
const WRITER: usize = 0;

fn walk(tally: &mut Tally, random: &mut Random, calls: &[Calls; 2]) {
    let l = random.next() % LONGEST + 1;
    let mut start = Known::random(random, l);
    start.written = start.read;
    let [_, written, read, _] = start.record();
    let mut ends = Ends {
        known: [start; 2],
        records: [record_of([l, written, read]); 2],
    };
    for _ in 0..STEPS {
        let role = random.next() as usize % 2;
        let (record, in_place) = (ends.records[role], random.next() % 2 == 0);
        let (wanted, came_to) = match random.next() % 4 {
            0 => {
                let (next, counter, number) = taken(random, &ends, role);
                ends.known[role] = next;
                let came_to = take(&calls[role], in_place, record, counter);
                ((number, [0, 0], next.record()), came_to)
            }
            _ => {
                let asked = random.next() % (l + 3);
                let (next, n) = moved(ends.known[role], role, asked);
                ends.known[role] = next;
                let mut memory = Memory::new(random, l, asked);
                let came_to = copy(&calls[role], in_place, record, &mut memory);
                ((0, [n, asked - n], next.record()), came_to)
            }
        };
        tally.compare([wanted, came_to], || {
            format!("end {role} {record:?}, in place {in_place}")
        });
        ends.records[role] = came_to.2;
    }
}

/// The smaller of what is asked and what the end knows of.
fn moved(known: Known, role: usize, asked: u64) -> (Known, u64) {
    let mut next = known;
    let n = match role {
        WRITER => asked.min(known.space()),
        _ => asked.min(known.data()),
    };
    match role {
        WRITER => next.written += u128::from(n),
        _ => next.read += u128::from(n),
    }
    (next, n)
}

/// A counter that the other end had at some time: not before the last one that was taken, or, which is 10, before it. What
/// the end knows then, the counter, and the number.
fn taken(random: &mut Random, ends: &Ends, role: usize) -> (Known, u64, u64) {
    let [writer, reader] = ends.known;
    let l = u128::from(writer.l);
    let (last, newest, oldest) = match role {
        WRITER => (writer.read, reader.read, writer.written - l),
        _ => (reader.written, writer.written, reader.read),
    };
    let known = ends.known[role];
    if random.next() % 4 == 0 && oldest < last {
        let position = between(random, oldest, last - 1);
        return (known, known.counter(position), 10);
    }
    let position = between(random, last, newest);
    let mut next = known;
    match role {
        WRITER => next.read = position,
        _ => next.written = position,
    }
    (next, known.counter(position), 0)
}

fn copy(calls: &Calls, in_place: bool, record: Record, memory: &mut Memory) -> CameTo {
    let (ring, other) = memory.parts();
    if !in_place {
        return by_value((calls.copy)(record, ring, other), record);
    }
    let mut after = record;
    let [number, _, _, _, n, left, ..] = (calls.copy_in_place)(&mut after, ring, other);
    (number, [n, left], after)
}

fn take(calls: &Calls, in_place: bool, record: Record, counter: u64) -> CameTo {
    if !in_place {
        let mut input = Numbers::from(record.as_slice());
        input.push(&[counter]);
        return by_value((calls.take)(&input.all), record);
    }
    let mut after = record;
    let [number, ..] = (calls.take_in_place)(&mut after, counter);
    (number, [0, 0], after)
}

/// A refused one leaves the record to the caller.
fn by_value(answer: Row, before: Record) -> CameTo {
    match answer {
        [0, _, _, _, l, written, read, fill, n, left, ..] => {
            (0, [n, left], [l, written, read, fill])
        }
        [number, ..] => (number, [0, 0], before),
    }
}
