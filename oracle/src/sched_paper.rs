//! The scheduler's rows of docs/PAPER.md ("The table", and "The case" of `ringplan`) and the inputs
//! of its "Readings" that tell two readings of the scheduler apart, on the Rust.

use crate::tally::Tally;
use oracle::sched_answers::{CALLS, Numbers, line};

const M: u64 = u64::MAX;
/// 2^63, the greatest buffer.
const H: u64 = 1 << 63;
const READ: u64 = 0;
const WRITE: u64 = 1;

pub fn run() -> bool {
    let mut tally = Tally::new(["the Rust", "expected"]);
    for (name, numbers, want) in ROWS {
        let call = CALLS.iter().find(|call| call.name == *name).expect(name);
        let mut input = Numbers::default();
        input.push(numbers);
        let got = line(&(call.answer)(&input.all));
        tally.compare([got, want.to_vec()], || format!("{name} {numbers:?}"));
    }
    tally.report("sched-paper: sched.rs against the rows of docs/PAPER.md")
}

/// A call, what it is asked, and its answer: 0 and the numbers, or the refusal.
#[rustfmt::skip]
const ROWS: &[(&str, &[u64], &[u64])] = &[
    // The rows of the paper.
    ("scheduler_data_avail", &[H, 5, M - 2], &[0, 8]),
    ("scheduler_schedule_reads", &[H, 5, M - 2, 8], &[0, 2, READ, H - 3, 3, READ, 0, 5, 0]),
    ("scheduler_fill_state", &[10, 10, 0], &[0, 2]),
    ("scheduler_layout", &[10, 10, 0], &[0, 0]),
    ("scheduler_data_avail", &[10, 0, 11], &[0, 9]),
    ("scheduler_write_off", &[10, 10, 3], &[0, 0]),
    ("scheduler_read_off", &[H, H - 1, M], &[0, H - 1]),
    ("scheduler_try_register_write", &[H - 1, M - 2, M - 2, H - 1], &[0, H - 1, H - 2, M - 2, H - 1]),
    ("scheduler_try_register_write", &[10, 19, 12, 4], &[6, WRITE, 4, 3]),
    ("scheduler_try_register_write", &[10, 19, 12, 3], &[0, 10, 2, 12, 10]),
    ("scheduler_schedule_next_write", &[10, 7, 3, 9], &[0, 1, WRITE, 7, 3, 6]),
    ("scheduler_schedule_writes", &[10, 7, 3, 9], &[0, 2, WRITE, 7, 3, WRITE, 0, 3, 3]),
    ("scheduler_data_avail", &[10, 7, 3], &[0, 4]),

    // Numbers 1 to 5, each beside its nearest neighbour that is accepted.
    ("scheduler_try_from_counters", &[0, 0, 0], &[1]),
    ("scheduler_try_from_counters", &[1, 0, 0], &[0, 1, 0, 0, 0]),
    ("scheduler_try_from_counters", &[H + 1, 0, 0], &[2, H + 1]),
    ("scheduler_try_from_counters", &[10, 20, 20], &[3, 10, 20]),
    ("scheduler_is_empty", &[10, 19, 19], &[0, 1]),
    ("scheduler_try_from_counters", &[10, 0, 20], &[4, 10, 20]),
    ("scheduler_try_from_counters", &[10, 11, 30], &[4, 10, 30]),
    ("scheduler_data_avail", &[10, 0, 19], &[0, 1]),
    ("scheduler_try_from_counters", &[10, 11, 0], &[5, 10, 11, 0]),
    ("scheduler_try_from_counters", &[H, H + 1, 0], &[5, H, H + 1, 0]),
    ("scheduler_is_full", &[H, H, 0], &[0, 1]),
    ("scheduler_is_empty", &[H, M, M], &[0, 1]),
    ("scheduler_try_new", &[0], &[1]),
    ("scheduler_try_new", &[1], &[0, 1, 0, 0, 0]),
    ("scheduler_try_new", &[H], &[0, H, 0, 0, 0]),
    ("scheduler_try_new", &[H + 1], &[2, H + 1]),
    ("scheduler_max_buf_len", &[], &[0, H]),
    ("operation_default", &[], &[0, READ, 0, 0]),

    // Blocks of length 0 keep their types and numbers.
    ("scheduler_blocks", &[10, 10, 0], &[0, 1, 1, 0, 0, 0, 0, 0, 0, 1, 0, 0, 10]),
    ("scheduler_blocks", &[10, 4, 4], &[0, 0, 1, 0, 4, 1, 0, 4, 0, 0, 0, 4, 6]),

    // Nothing asked or nothing there gives no operation, and leaves all that was asked; 2^64 - 1 asks for all.
    ("scheduler_schedule_next_write", &[10, 7, 3, 0], &[0, 0, 0, 0, 0, 0]),
    ("scheduler_schedule_writes", &[10, 7, 3, 0], &[0, 0, 0, 0, 0, 0, 0, 0, 0]),
    ("scheduler_try_register_write", &[10, 7, 3, 0], &[0, 10, 7, 3, 4]),
    ("scheduler_schedule_next_write", &[10, 10, 0, 0], &[0, 0, 0, 0, 0, 0]),
    ("scheduler_schedule_writes", &[10, 10, 0, 0], &[0, 0, 0, 0, 0, 0, 0, 0, 0]),
    ("scheduler_try_register_write", &[10, 10, 0, 0], &[0, 10, 10, 0, 10]),
    ("scheduler_schedule_next_read", &[10, 3, 3, 4], &[0, 0, 0, 0, 0, 4]),
    ("scheduler_schedule_reads", &[10, 3, 3, 4], &[0, 0, 0, 0, 0, 0, 0, 0, 4]),
    ("scheduler_schedule_writes", &[10, 7, 3, M], &[0, 2, WRITE, 7, 3, WRITE, 0, 3, M - 6]),
    ("scheduler_schedule_next_write", &[1, 0, 0, M], &[0, 1, WRITE, 0, 1, M - 1]),
    ("scheduler_schedule_writes", &[1, 0, 0, M], &[0, 1, WRITE, 0, 1, 0, 0, 0, M - 1]),
    ("scheduler_schedule_next_read", &[1, 0, 0, M], &[0, 0, 0, 0, 0, M]),

    // Lists: 7 before 8, the counters before both, 6 last; offsets are not looked at.
    ("operations_try_new", &[2, READ, 999, M, WRITE, 999, 1], &[7, 1]),
    ("operations_try_new", &[2, READ, 999, M, READ, 999, M], &[7, M]),
    ("operations_try_new", &[2, READ, 999, 1, WRITE, 999, 1], &[8]),
    ("operations_cumulative_operation_length", &[2, READ, 0, M - 1, READ, 0, 1], &[0, M]),
    ("operations_with_cumulative_offset", &[2, READ, 8, M - 1, READ, 9, 1],
        &[0, 2, 0, READ, 8, M - 1, M - 1, READ, 9, 1]),
    ("operations_with_outside_buffer_range", &[2, READ, 8, M - 1, READ, 9, 1],
        &[0, 2, 0, M - 1, READ, 8, M - 1, M - 1, M, READ, 9, 1]),
    ("scheduler_try_register_operations", &[10, 0, 0, 2, READ, 999, 1, WRITE, 999, 1], &[8]),
    ("scheduler_try_register_operations", &[10, 0, 0, 2, WRITE, 999, 0, WRITE, 999, 3], &[0, 10, 3, 0, 3]),
    ("scheduler_try_register_operations", &[10, 0, 0, 2, WRITE, 999, 6, WRITE, 999, 5], &[6, WRITE, 5, 4]),
    ("scheduler_try_register_operations", &[10, 11, 0, 2, READ, 0, M, WRITE, 0, 1], &[5, 10, 11, 0]),

    // Another counter: the record before, then the one after. It may run back.
    ("scheduler_try_with_counter", &[10, 7, 3, WRITE, 13], &[0, 10, 13, 3, 10]),
    ("scheduler_try_with_counter", &[10, 7, 3, WRITE, 6], &[0, 10, 6, 3, 3]),
    ("scheduler_try_with_counter", &[10, 7, 3, WRITE, 14], &[5, 10, 14, 3]),
    ("scheduler_try_with_counter", &[10, 7, 3, WRITE, 20], &[3, 10, 20]),
    ("scheduler_try_with_counter", &[10, 7, 3, READ, 2], &[0, 10, 7, 2, 5]),
    ("scheduler_try_with_counter", &[10, 7, 3, READ, 8], &[5, 10, 7, 8]),
    ("scheduler_try_with_counter", &[10, 7, 3, READ, 20], &[4, 10, 20]),
    ("scheduler_try_with_counter", &[10, 11, 0, WRITE, 20], &[5, 10, 11, 0]),
    ("scheduler_try_with_counter", &[H, 0, 0, READ, M], &[0, H, 0, M, 1]),

    // The methods of Diff look at the case and not at the values.
    ("diff_new", &[5, 5], &[0, 0, 5, 5]),
    ("diff_new", &[5, 6], &[0, 1, 5, 6]),
    ("diff_is_same", &[0, 5, 0], &[0, 1]),
    ("diff_new_value", &[0, 5, 0], &[0, 5]),
    ("diff_is_same", &[1, 5, 5], &[0, 0]),
    ("diff_is_different", &[1, 5, 5], &[0, 1]),
    ("diff_old_value", &[1, 5, 6], &[0, 5]),
];
