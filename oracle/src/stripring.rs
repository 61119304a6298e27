//! The static library's calls. Each is total, so each is safe to call.

mod in_place;
mod record;
mod runs;

pub use in_place::{
    LentCopyCall, LentTakeCall, READ_IN_PLACE, TAKE_READ_IN_PLACE, TAKE_WRITTEN_IN_PLACE,
    WRITE_IN_PLACE,
};
pub use record::{handed, handed_lent, lent_over, record_of, with_record};
pub use runs::{CALL, CallNumbers, RunCall, STEP, StepNumbers, answered, begin, run_calls};

use oracle::fill_model::Record;
use oracle::planner_model::Image;
use oracle::receiver_answers::{FAILURE, RECEIVER, SCHEDULER, STATE};
use oracle::sched_answers::{Input, Row};

/// `some` is 1 with the value, or 0 with the value 0.
#[repr(C)]
#[derive(Debug, PartialEq)]
pub struct OptionNumber {
    pub some: u64,
    pub value: u64,
}

unsafe extern "C" {
    safe fn stripring_modulus_new_full_range() -> u64;
    safe fn stripring_modulus_try_new(modulus: u64) -> OptionNumber;
    safe fn stripring_modulus_is_full_range(modulus: u64) -> bool;
    safe fn stripring_modulus_modulus(modulus: u64) -> OptionNumber;
    safe fn stripring_modulus_contains(modulus: u64, v: u64) -> bool;
    safe fn stripring_modulus_double(modulus: u64) -> OptionNumber;
    safe fn stripring_modulus_new_number(modulus: u64, value: u64) -> u64;
    safe fn stripring_modulus_try_new_number(modulus: u64, value: u64) -> OptionNumber;
    safe fn stripring_modulus_neg(modulus: u64, value: u64) -> u64;
    safe fn stripring_modulus_sub(modulus: u64, a: u64, b: u64) -> u64;
    safe fn stripring_modulus_add(modulus: u64, a: u64, b: u64) -> u64;
}

/// The library's answer to call number `no` of `modular_answers`.
pub fn modular_answer(no: usize, modulus: u64, a: u64, b: u64) -> OptionNumber {
    match no {
        0 => plain(stripring_modulus_new_full_range()),
        1 => stripring_modulus_try_new(modulus),
        2 => plain(stripring_modulus_is_full_range(modulus).into()),
        3 => stripring_modulus_modulus(modulus),
        4 => plain(stripring_modulus_contains(modulus, a).into()),
        5 => stripring_modulus_double(modulus),
        6 => plain(stripring_modulus_new_number(modulus, a)),
        7 => stripring_modulus_try_new_number(modulus, a),
        8 => plain(stripring_modulus_neg(modulus, a)),
        9 => plain(stripring_modulus_sub(modulus, a, b)),
        10 => plain(stripring_modulus_add(modulus, a, b)),
        _ => panic!("there is no call {no}"),
    }
}

fn plain(value: u64) -> OptionNumber {
    OptionNumber { some: 1, value }
}

impl From<Option<u64>> for OptionNumber {
    fn from(option: Option<u64>) -> Self {
        Self {
            some: option.is_some().into(),
            value: option.unwrap_or(0),
        }
    }
}

/// A struct of N numbers, flat. C passes an array in a struct as it passes so many fields.
#[repr(C)]
struct Flat<const N: usize>([u64; N]);

type Scheduler = Flat<SCHEDULER>;
type Operation = Flat<3>;
type Operations = Flat<7>;
type Diff = Flat<3>;

/// An answer that begins with a refusal, which has 4 numbers.
#[repr(C)]
struct Answer<const N: usize>([u64; N]);

/// What a call takes, read off the front of its input.
trait Taken {
    fn taken(rest: &mut &[u64]) -> Self;
}

impl Taken for u64 {
    fn taken(rest: &mut &[u64]) -> Self {
        let Flat([number]) = Taken::taken(rest);
        number
    }
}

impl<const N: usize> Taken for Flat<N> {
    fn taken(rest: &mut &[u64]) -> Self {
        let (numbers, after) = rest.split_first_chunk().expect("a whole input");
        *rest = after;
        Flat(*numbers)
    }
}

/// What a call answers, laid out as `sched_answers::row` does.
trait IntoRow {
    fn row(self) -> Row;
}

impl<const N: usize> IntoRow for Answer<N> {
    fn row(self) -> Row {
        let mut row = Row::default();
        row[..N].copy_from_slice(&self.0);
        row
    }
}

impl<const N: usize> IntoRow for Flat<N> {
    fn row(self) -> Row {
        let mut row = Row::default();
        row[4..4 + N].copy_from_slice(&self.0);
        row
    }
}

impl IntoRow for u64 {
    fn row(self) -> Row {
        Flat([self]).row()
    }
}

impl IntoRow for bool {
    fn row(self) -> Row {
        u64::from(self).row()
    }
}

/// The library's answer to an input of numbers alone.
pub type NumberCall = fn(&Input) -> Row;

/// Declares calls, and makes a table of their names without `stripring_` and of their answers.
macro_rules! number_calls {
    ($table:ident: $($name:ident($($part:ty),*) -> $answer:ty;)*) => {
        pub fn $table() -> Vec<(&'static str, NumberCall)> {
            unsafe extern "C" {
                $(
                    #[link_name = concat!("stripring_", stringify!($name))]
                    safe fn $name($(_: $part),*) -> $answer;
                )*
            }
            vec![$((stringify!($name), |input| {
                #[allow(unused_mut, unused_variables)] // by the calls that take nothing
                let mut rest = &input[..];
                $name($(<$part>::taken(&mut rest)),*).row()
            })),*]
        }
    };
}

number_calls! { sched_calls:
    scheduler_max_buf_len() -> u64;
    scheduler_try_new(u64) -> Answer<8>;
    scheduler_try_from_counters(u64, u64, u64) -> Answer<8>;
    scheduler_demand_soundness(Scheduler) -> Answer<8>;
    scheduler_items_read(Scheduler) -> Answer<5>;
    scheduler_items_written(Scheduler) -> Answer<5>;
    scheduler_read_off(Scheduler) -> Answer<5>;
    scheduler_write_off(Scheduler) -> Answer<5>;
    scheduler_buf_len(Scheduler) -> Answer<5>;
    scheduler_is_zero_sized(Scheduler) -> Answer<5>;
    scheduler_data_avail(Scheduler) -> Answer<5>;
    scheduler_space_avail(Scheduler) -> Answer<5>;
    scheduler_fill_state(Scheduler) -> Answer<5>;
    scheduler_is_empty(Scheduler) -> Answer<5>;
    scheduler_is_full(Scheduler) -> Answer<5>;
    scheduler_is_nonempty(Scheduler) -> Answer<5>;
    scheduler_is_nonfull(Scheduler) -> Answer<5>;
    scheduler_layout(Scheduler) -> Answer<5>;
    scheduler_block_0_off(Scheduler) -> Answer<5>;
    scheduler_block_1_off(Scheduler) -> Answer<5>;
    scheduler_block_2_off(Scheduler) -> Answer<5>;
    scheduler_block_0_len(Scheduler) -> Answer<5>;
    scheduler_block_1_len(Scheduler) -> Answer<5>;
    scheduler_block_2_len(Scheduler) -> Answer<5>;
    scheduler_block_0(Scheduler) -> Answer<8>;
    scheduler_block_1(Scheduler) -> Answer<8>;
    scheduler_block_2(Scheduler) -> Answer<8>;
    scheduler_blocks(Scheduler) -> Answer<16>;
    scheduler_next_read_block(Scheduler) -> Answer<8>;
    scheduler_next_write_block(Scheduler) -> Answer<8>;
    scheduler_operation_counter(Scheduler, u64) -> Answer<5>;
    scheduler_operation_offset(Scheduler, u64) -> Answer<5>;
    scheduler_max_operation_len(Scheduler, u64) -> Answer<5>;
    scheduler_next_operation_block(Scheduler, u64) -> Answer<8>;
    scheduler_schedule_next_read(Scheduler, u64) -> Answer<9>;
    scheduler_schedule_next_write(Scheduler, u64) -> Answer<9>;
    scheduler_schedule_reads(Scheduler, u64) -> Answer<12>;
    scheduler_schedule_writes(Scheduler, u64) -> Answer<12>;
    scheduler_try_register_read(Scheduler, u64) -> Answer<8>;
    scheduler_try_register_write(Scheduler, u64) -> Answer<8>;
    scheduler_schedule_next_contiguous_operation(Scheduler, u64, u64) -> Answer<9>;
    scheduler_schedule_contiguous_operations(Scheduler, u64, u64) -> Answer<12>;
    scheduler_try_register_operation_manually(Scheduler, u64, u64) -> Answer<8>;
    scheduler_try_register_operation(Scheduler, Operation) -> Answer<8>;
    scheduler_try_register_operations(Scheduler, Operations) -> Answer<8>;
    operations_try_new(Operations) -> Answer<11>;
    operations_container(Operations) -> Answer<11>;
    operations_into_container(Operations) -> Answer<11>;
    operations_cumulative_operation_length(Operations) -> Answer<5>;
    operations_with_cumulative_offset(Operations) -> Answer<13>;
    operations_with_outside_buffer_range(Operations) -> Answer<15>;
    operation_default() -> Operation;
    operation_new(u64, u64, u64) -> Operation;
    block_new(u64, u64, u64, u64) -> Flat<4>;
    diff_new(u64, u64) -> Diff;
    diff_is_same(Diff) -> bool;
    diff_is_different(Diff) -> bool;
    diff_old_value(Diff) -> u64;
    diff_new_value(Diff) -> u64;
    scheduler_try_with_counter(Scheduler, u64, u64) -> Answer<8>;
}

type End = Scheduler;
type Counter = Flat<1>;

number_calls! { end_calls:
    writing_end_new(u64) -> Answer<8>;
    writing_end_from_counters(u64, u64, u64) -> Answer<8>;
    writing_end_from_scheduler(Scheduler) -> Answer<8>;
    writing_end_send(End) -> Answer<5>;
    writing_end_take(End, Counter) -> Answer<8>;
    reading_end_new(u64) -> Answer<8>;
    reading_end_from_counters(u64, u64, u64) -> Answer<8>;
    reading_end_from_scheduler(Scheduler) -> Answer<8>;
    reading_end_send(End) -> Answer<5>;
    reading_end_take(End, Counter) -> Answer<8>;
}

/// The library's answer to a scheduler or an end, a ring, and a source or a destination.
pub type CopyCall = fn(Record, &mut [u8], &mut [u8]) -> Row;

/// Declares calls that copy, and makes a table of their names without `stripring_`, of whether they write into the ring, and
/// of their answers.
macro_rules! copy_calls {
    ($table:ident: $($name:ident $writes:literal;)*) => {
        pub fn $table() -> Vec<(&'static str, bool, CopyCall)> {
            unsafe extern "C" {
                $(
                    #[link_name = concat!("stripring_", stringify!($name))]
                    fn $name(_: Scheduler, _: *mut u8, _: usize, _: *mut u8, _: usize) -> Answer<10>;
                )*
            }
            vec![$((stringify!($name), $writes, |record, ring, other| {
                let (r, o) = (ring.as_mut_ptr(), other.as_mut_ptr());
                // SAFETY: two slices that do not overlap, each with its length.
                unsafe { $name(Flat(record), r, ring.len(), o, other.len()) }.row()
            })),*]
        }
    };
}

copy_calls! { copy_calls:
    copies_write true;
    copies_read false;
    writing_end_write true;
    reading_end_read false;
}

type Failure = Flat<FAILURE>;
type State = Flat<STATE>;
type Receiver = Flat<RECEIVER>;

number_calls! { state_calls:
    receiver_new(Scheduler) -> Answer<15>;
    state_failure(State) -> Answer<9>;
    state_with_failure(State, Failure) -> Answer<9>;
    state_with_potential_failure(State, u64, Failure) -> Answer<9>;
    state_normalize(State) -> Answer<9>;
    state_advance_state_towards_termination(State, State) -> Answer<9>;
    failure_normalize(Failure) -> Answer<8>;
    failure_advance_failure_towards_error(Failure, Failure) -> Answer<8>;
}

unsafe extern "C" {
    safe fn stripring_planner_outline(rows: u64, row_bytes: u64, buf_len: u64) -> Answer<7>;
    fn stripring_planner_propose(
        rows: u64,
        row_bytes: u64,
        buf_len: u64,
        plan: *mut u64,
        plan_len: usize,
    ) -> Answer<5>;
    fn stripring_planner_check(
        rows: u64,
        row_bytes: u64,
        buf_len: u64,
        plan: *const u64,
        plan_len: usize,
    ) -> Answer<4>;
}

pub fn outline(image: Image) -> Row {
    stripring_planner_outline(image.rows, image.row_bytes, image.buf_len).row()
}

pub fn propose(image: Image, plan: &mut [u64]) -> Row {
    let (p, n) = (plan.as_mut_ptr(), plan.len());
    // SAFETY: a slice with its length. So below.
    unsafe { stripring_planner_propose(image.rows, image.row_bytes, image.buf_len, p, n) }.row()
}

pub fn check(image: Image, plan: &[u64]) -> Row {
    let (p, n) = (plan.as_ptr(), plan.len());
    unsafe { stripring_planner_check(image.rows, image.row_bytes, image.buf_len, p, n) }.row()
}
