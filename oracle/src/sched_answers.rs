//! The answers of sched.rs as plain numbers, call by call.
//!
//! Enums are numbers, in the order in which sched.rs declares them: a type of operation 0 Read,
//! 1 Write; of block 0 Free, 1 Data; a block's number 0 Zero, 1 One; a layout 0 DataFreeData,
//! 1 FreeDataFree; a fill state 0 Empty, 1 Partial, 2 Full. In an input all but 0 stands for 1.
//!
//! A scheduler is L, written and read; in an answer its fill stands behind them, which is what the Rust
//! works out anew.

use crate::rosenpass::sched::{
    Bit, Block, BlockType, Diff, OperationType, RingBufferFromCountersError, RingBufferNewError,
    RingBufferRegisterOpError, RingBufferScheduler, ScheduledOperation,
    ScheduledOperationCreationError, ScheduledOperations,
};
use crate::sched_flat::{Next, Ranges, Scheduled, Starts, flat};
use crate::standins::u64uint::U64USize;

/// A call that takes numbers alone.
pub struct Call<P: 'static = Part> {
    /// The static library's name for it, without `stripring_`.
    pub name: &'static str,
    pub takes: &'static [P],
    pub answer: fn(&Input) -> Answer,
}

/// What a call can take.
#[derive(Clone, Copy)]
pub enum Part {
    Length,
    /// Those that a scheduler is made of.
    Counters,
    Scheduler,
    Type,
    Amount,
    Counter,
    Operation,
    List,
    Block,
    Values,
    Diff,
}

impl Part {
    pub fn numbers(self) -> &'static str {
        match self {
            Part::Length => "L",
            Part::Counters | Part::Scheduler => "L written read",
            Part::Type => "type",
            Part::Amount => "n",
            Part::Counter => "counter",
            Part::Operation => "type offset length",
            Part::List => "count, twice: type offset length",
            Part::Block => "type no offset length",
            Part::Values => "old new",
            Part::Diff => "different old new",
        }
    }
}

/// The most numbers that a call takes or answers.
pub const MOST: usize = 19;

/// The numbers of what a call takes, one part after the other; the rest is 0.
pub type Input = [u64; MOST];

/// What is answered, or a refusal.
pub type Answer = Result<Numbers, Refusal>;

/// The refusal's number in docs/PAPER.md ("The numbers") and its values.
pub struct Refusal(pub Numbers);

/// Those that are not used are 0.
#[derive(Clone, Copy, Default)]
pub struct Numbers {
    pub all: [u64; MOST],
    used: usize,
}

impl From<&[u64]> for Numbers {
    fn from(numbers: &[u64]) -> Self {
        let mut all = Self::default();
        all.push(numbers);
        all
    }
}

impl Numbers {
    pub fn push(&mut self, numbers: &[u64]) {
        let used = self.used + numbers.len();
        self.all[self.used..used].copy_from_slice(numbers);
        self.used = used;
    }

    pub fn used(&self) -> &[u64] {
        &self.all[..self.used]
    }
}

/// An answer as it is written down: 0 and what is answered, or the refusal.
pub fn line(answer: &Answer) -> Vec<u64> {
    match answer {
        Ok(numbers) => [&[0], numbers.used()].concat(),
        Err(Refusal(numbers)) => numbers.used().to_vec(),
    }
}

/// An answer as the static library lays it out: the refusal's number and three values, then what
/// is answered; 0 where there is nothing.
pub type Row = [u64; 4 + MOST];

pub fn row(answer: &Answer) -> Row {
    let mut row = Row::default();
    match answer {
        Ok(numbers) => row[4..].copy_from_slice(&numbers.all),
        Err(Refusal(numbers)) => row[..4].copy_from_slice(&numbers.all[..4]),
    }
    row
}

pub const fn call<P>(
    name: &'static str,
    takes: &'static [P],
    answer: fn(&Input) -> Answer,
) -> Call<P> {
    Call {
        name,
        takes,
        answer,
    }
}

// What the calls take; S is the scheduler.
const NOTHING: &[Part] = &[];
pub const LENGTH: &[Part] = &[Part::Length];
pub const COUNTERS: &[Part] = &[Part::Counters];
pub const S: &[Part] = &[Part::Scheduler];
const S_TYPE: &[Part] = &[Part::Scheduler, Part::Type];
const S_TYPE_COUNTER: &[Part] = &[Part::Scheduler, Part::Type, Part::Counter];
const S_AMOUNT: &[Part] = &[Part::Scheduler, Part::Amount];
const S_TYPE_AMOUNT: &[Part] = &[Part::Scheduler, Part::Type, Part::Amount];
const S_OPERATION: &[Part] = &[Part::Scheduler, Part::Operation];
const S_LIST: &[Part] = &[Part::Scheduler, Part::List];
const LIST: &[Part] = &[Part::List];
const OPERATION: &[Part] = &[Part::Operation];
const BLOCK: &[Part] = &[Part::Block];
const VALUES: &[Part] = &[Part::Values];
const DIFF: &[Part] = &[Part::Diff];

/// A call's place here is its number in the recorded list.
#[rustfmt::skip]
pub const CALLS: [Call; 60] = [
    call("scheduler_max_buf_len", NOTHING, |_| flat(RingBufferScheduler::MAX_BUF_LEN)),
    call("scheduler_try_new", LENGTH, |i| flat(RingBufferScheduler::try_new(i[0])?)),
    call("scheduler_try_from_counters", COUNTERS, |i| flat(s(i)?)),
    // Private in sched.rs, where it is what try_from_counters tests.
    call("scheduler_demand_soundness", S, |i| flat(s(i)?)),

    call("scheduler_items_read", S, |i| flat(s(i)?.items_read())),
    call("scheduler_items_written", S, |i| flat(s(i)?.items_written())),
    call("scheduler_read_off", S, |i| flat(s(i)?.read_off())),
    call("scheduler_write_off", S, |i| flat(s(i)?.write_off())),
    call("scheduler_buf_len", S, |i| flat(s(i)?.buf_len())),
    call("scheduler_is_zero_sized", S, |i| flat(s(i)?.is_zero_sized())),
    call("scheduler_data_avail", S, |i| flat(s(i)?.data_avail())),
    call("scheduler_space_avail", S, |i| flat(s(i)?.space_avail())),
    call("scheduler_fill_state", S, |i| flat(s(i)?.fill_state())),
    call("scheduler_is_empty", S, |i| flat(s(i)?.is_empty())),
    call("scheduler_is_full", S, |i| flat(s(i)?.is_full())),
    call("scheduler_is_nonempty", S, |i| flat(s(i)?.is_nonempty())),
    call("scheduler_is_nonfull", S, |i| flat(s(i)?.is_nonfull())),
    call("scheduler_layout", S, |i| flat(s(i)?.layout())),
    call("scheduler_block_0_off", S, |i| flat(s(i)?.block_0_off())),
    call("scheduler_block_1_off", S, |i| flat(s(i)?.block_1_off())),
    call("scheduler_block_2_off", S, |i| flat(s(i)?.block_2_off())),
    call("scheduler_block_0_len", S, |i| flat(s(i)?.block_0_len())),
    call("scheduler_block_1_len", S, |i| flat(s(i)?.block_1_len())),
    call("scheduler_block_2_len", S, |i| flat(s(i)?.block_2_len())),
    call("scheduler_block_0", S, |i| flat(s(i)?.block_0())),
    call("scheduler_block_1", S, |i| flat(s(i)?.block_1())),
    call("scheduler_block_2", S, |i| flat(s(i)?.block_2())),
    call("scheduler_blocks", S, |i| flat(s(i)?.blocks())),
    call("scheduler_next_read_block", S, |i| flat(s(i)?.next_read_block())),
    call("scheduler_next_write_block", S, |i| flat(s(i)?.next_write_block())),

    call("scheduler_operation_counter", S_TYPE, |i| flat(s(i)?.operation_counter(typ(i)))),
    call("scheduler_operation_offset", S_TYPE, |i| flat(s(i)?.operation_offset(typ(i)))),
    call("scheduler_max_operation_len", S_TYPE, |i| flat(s(i)?.max_operation_len(typ(i)))),
    call("scheduler_next_operation_block", S_TYPE, |i| flat(s(i)?.next_operation_block(typ(i)))),

    call("scheduler_schedule_next_read", S_AMOUNT, |i| flat(Next(s(i)?.schedule_next_read(i[3]), i[3]))),
    call("scheduler_schedule_next_write", S_AMOUNT, |i| flat(Next(s(i)?.schedule_next_write(i[3]), i[3]))),
    call("scheduler_schedule_reads", S_AMOUNT, |i| flat(Scheduled(s(i)?.schedule_reads(i[3]), i[3]))),
    call("scheduler_schedule_writes", S_AMOUNT, |i| flat(Scheduled(s(i)?.schedule_writes(i[3]), i[3]))),
    call("scheduler_try_register_read", S_AMOUNT, |i| flat(s(i)?.try_register_read(i[3])?)),
    call("scheduler_try_register_write", S_AMOUNT, |i| flat(s(i)?.try_register_write(i[3])?)),

    call("scheduler_schedule_next_contiguous_operation", S_TYPE_AMOUNT, |i| flat(Next(s(i)?.schedule_next_contiguous_operation(typ(i), i[4]), i[4]))),
    call("scheduler_schedule_contiguous_operations", S_TYPE_AMOUNT, |i| flat(Scheduled(s(i)?.schedule_contiguous_operations(typ(i), i[4]), i[4]))),
    call("scheduler_try_register_operation_manually", S_TYPE_AMOUNT, |i| flat(s(i)?.try_register_operation_manually(typ(i), i[4])?)),

    call("scheduler_try_register_operation", S_OPERATION, |i| flat(s(i)?.try_register_operation(&operation(&i[3..]))?)),
    call("scheduler_try_register_operations", S_LIST, |i| flat(s(i)?.try_register_operation(&list(&i[3..])?)?)),

    call("operations_try_new", LIST, |i| flat(list(i)?)),
    call("operations_container", LIST, |i| flat(&list(i)?.container()[..])),
    call("operations_into_container", LIST, |i| flat(&list(i)?.into_container()[..])),
    call("operations_cumulative_operation_length", LIST, |i| flat(list(i)?.cumulative_operation_length().u64())),
    call("operations_with_cumulative_offset", LIST, |i| flat(Starts(list(i)?))),
    call("operations_with_outside_buffer_range", LIST, |i| flat(Ranges(list(i)?))),

    call("operation_default", NOTHING, |_| flat(&ScheduledOperation::default())),
    call("operation_new", OPERATION, |i| flat(&operation(i))),
    call("block_new", BLOCK, |i| flat(block(i))),
    call("diff_new", VALUES, |i| flat(Diff::new(i[0], i[1]))),
    call("diff_is_same", DIFF, |i| flat(diff(i).is_same())),
    call("diff_is_different", DIFF, |i| flat(diff(i).is_different())),
    call("diff_old_value", DIFF, |i| flat(diff(i).old_value())),
    call("diff_new_value", DIFF, |i| flat(diff(i).new_value())),

    call("scheduler_try_with_counter", S_TYPE_COUNTER, with_counter),
];

pub fn s(i: &[u64]) -> Result<RingBufferScheduler, Refusal> {
    Ok(RingBufferScheduler::try_from_counters(i[0], i[1], i[2])?)
}

/// Not in sched.rs: the counters before and those after are made a scheduler by it.
fn with_counter(i: &Input) -> Answer {
    let [l, written, read, _, new, ..] = *i;
    s(i)?;
    flat(match typ(i) {
        OperationType::Read => s(&[l, written, new])?,
        OperationType::Write => s(&[l, new, read])?,
    })
}

/// The type that follows the scheduler.
fn typ(i: &Input) -> OperationType {
    operation_type(i[3])
}

fn operation_type(number: u64) -> OperationType {
    match number {
        0 => OperationType::Read,
        _ => OperationType::Write,
    }
}

fn operation(i: &[u64]) -> ScheduledOperation {
    ScheduledOperation::new(operation_type(i[0]), i[1], U64USize::new_or_panic(i[2]))
}

/// Operations beyond the count are not looked at.
fn list(i: &[u64]) -> Result<ScheduledOperations, Refusal> {
    let count = i[0].min(2) as usize;
    let both = [operation(&i[1..]), operation(&i[4..])];
    Ok(ScheduledOperations::try_new(
        both.into_iter().take(count).collect(),
    )?)
}

fn block(i: &Input) -> Block {
    let typ = match i[0] {
        0 => BlockType::Free,
        _ => BlockType::Data,
    };
    let no = match i[1] {
        0 => Bit::Zero,
        _ => Bit::One,
    };
    Block::new(typ, no, i[2], i[3])
}

fn diff(i: &Input) -> Diff<u64> {
    match i[0] {
        0 => Diff::Same(i[1]),
        _ => Diff::Different(i[1], i[2]),
    }
}

pub fn refusal(numbers: &[u64]) -> Refusal {
    Refusal(numbers.into())
}

impl From<RingBufferNewError> for Refusal {
    fn from(e: RingBufferNewError) -> Self {
        match e {
            RingBufferNewError::ZeroBufferLength => refusal(&[1]),
            RingBufferNewError::BufferTooLarge(l) => refusal(&[2, l]),
        }
    }
}

impl From<RingBufferFromCountersError> for Refusal {
    fn from(e: RingBufferFromCountersError) -> Self {
        use RingBufferFromCountersError as E;
        match e {
            E::RingBufferNewError(e) => e.into(),
            E::ItemsWrittenOutOfBounds {
                buf_len,
                items_written,
            } => refusal(&[3, buf_len, items_written]),
            E::ItemsReadOutofBounds {
                buf_len,
                items_read,
            } => refusal(&[4, buf_len, items_read]),
            E::DataAvailOutOfBounds {
                buf_len,
                items_written,
                items_read,
            } => refusal(&[5, buf_len, items_written, items_read]),
        }
    }
}

impl From<RingBufferRegisterOpError> for Refusal {
    fn from(e: RingBufferRegisterOpError) -> Self {
        let RingBufferRegisterOpError::OperationTooLarge {
            op_type,
            op_len,
            max_len,
        } = e;
        refusal(&[6, op_type as u64, op_len, max_len])
    }
}

/// Of 7 what the lengths sum to above 2^64 - 1; of two lengths it fits into 64 bits.
impl From<ScheduledOperationCreationError> for Refusal {
    fn from(e: ScheduledOperationCreationError) -> Self {
        use ScheduledOperationCreationError as E;
        match e {
            E::OperationTooLong(sum) => refusal(&[7, (sum.0 - u128::from(u64::MAX)) as u64]),
            E::InconsistentOperationType => refusal(&[8]),
        }
    }
}
