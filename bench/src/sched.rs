//! The scheduler: data_avail, the fill that a record holds, and schedule_contiguous_operations
//! followed by registering the list.

use crate::best::best_turns;
use crate::stripring::{Answer, Scheduler};
use crate::{rust, stripring};
use oracle::rosenpass::sched::{OperationType, RingBufferScheduler};
use std::hint::black_box;

const RECORDS: usize = 4096;

/// A sound record, also as the Rust's own, and what is asked of it.
struct Case {
    scheduler: Scheduler,
    typ: u64,
    max_len: u64,
    own: RingBufferScheduler,
    own_type: OperationType,
}

pub fn print_table() {
    println!("The scheduler: ns, and this library's time as a part of the Rust's\n");
    println!(
        "| call | buffer length | this library | Rust, tested | Rust, own | of tested | of own |"
    );
    println!("|---|---|---|---|---|---|---|");
    print_rows("1 to 64", |random| 1 + random % 64);
    print_rows("2^32 to 2^62", |random| {
        (1 << 32) + random % ((1 << 62) - (1 << 32))
    });
    print_rows("2^63", |_| 1 << 63);
}

fn print_rows(name: &str, buf_len: fn(u64) -> u64) {
    let mut random = Random(1);
    let cases: Vec<Case> = (0..RECORDS)
        .map(|_| Case::random(&mut random, buf_len))
        .collect();
    cases.iter().for_each(assert_same_answers);
    let [call, held, tested, own] = data_avail(&cases);
    print_row("data_avail", name, [call, tested, own]);
    print_row("held fill", name, [held, tested, own]);
    print_row("schedule and register", name, schedule_and_register(&cases));
}

fn print_row(call: &str, buf_len: &str, turns: [f64; 3]) {
    let [ours, tested, own] = turns.map(|turn| turn / RECORDS as f64);
    println!(
        "| {call} | {buf_len} | {ours:.1} | {tested:.1} | {own:.1} | {:.2} | {:.2} |",
        ours / tested,
        ours / own
    );
}

/// By a call, and as a caller does that reads it in the record it holds; then the Rust's.
fn data_avail(cases: &[Case]) -> [f64; 4] {
    best_turns([
        &mut || {
            for case in cases {
                look_at(stripring::data_avail(case.scheduler));
            }
        },
        &mut || {
            for case in cases {
                black_box(case.scheduler.fill);
            }
        },
        &mut || {
            for case in cases {
                look_at(rust::data_avail(case.scheduler));
            }
        },
        &mut || {
            for case in cases {
                black_box(rust::own_data_avail(case.own));
            }
        },
    ])
}

/// As a host does. To hand on the whole answer would copy it, and the machine would wait for that.
fn look_at(answer: Answer<u64>) {
    black_box(answer.refusal.number);
    black_box(answer.of);
}

fn schedule_and_register(cases: &[Case]) -> [f64; 3] {
    best_turns([
        &mut || {
            for case in cases {
                let plan = stripring::schedule(case.scheduler, case.typ, case.max_len).of;
                black_box(stripring::register(case.scheduler, plan.operations));
            }
        },
        &mut || {
            for case in cases {
                let plan = rust::schedule(case.scheduler, case.typ, case.max_len).of;
                black_box(rust::register(case.scheduler, plan.operations));
            }
        },
        &mut || {
            for case in cases {
                let list = rust::own_schedule(case.own, case.own_type, case.max_len);
                black_box(rust::own_register(case.own, list));
            }
        },
    ])
}

fn assert_same_answers(case: &Case) {
    let Case {
        scheduler,
        typ,
        max_len,
        ..
    } = *case;
    let data = rust::data_avail(scheduler);
    assert_eq!(scheduler.fill, data.of);
    assert_eq!(stripring::data_avail(scheduler), data);
    let plan = stripring::schedule(scheduler, typ, max_len);
    assert_eq!(plan, rust::schedule(scheduler, typ, max_len));
    let list = plan.of.operations;
    let ours = stripring::register(scheduler, list);
    let theirs = rust::register(scheduler, list);
    assert_eq!(ours.refusal, theirs.refusal);
    assert_eq!(rust::Counters::from(ours.of), theirs.of);
}

impl Case {
    /// Any counters, any data, and any length asked, up to that of the buffer.
    fn random(random: &mut Random, buf_len: fn(u64) -> u64) -> Self {
        let buf_len = buf_len(random.next());
        let read = u128::from(random.next()) % (2 * u128::from(buf_len));
        let data = random.next() % (buf_len + 1);
        let written = (read + u128::from(data)) % (2 * u128::from(buf_len));
        let scheduler = stripring::try_from_counters(buf_len, written as u64, read as u64).of;
        let typ = random.next() % 2;
        Self {
            scheduler,
            typ,
            max_len: random.next() % (buf_len + 1),
            own: rust::tested(scheduler),
            own_type: rust::operation_type(typ),
        }
    }
}

/// xorshift64; the start is not 0.
struct Random(u64);

impl Random {
    fn next(&mut self) -> u64 {
        self.0 ^= self.0 << 13;
        self.0 ^= self.0 >> 7;
        self.0 ^= self.0 << 17;
        self.0
    }
}
