//! The static library's calls as they are: numbers and flat records. `bindings/stripring.h` says of each what it answers.
//!
//! Every call answers for any bits, so each is safe; those that lend memory take slices, which go with their lengths and do
//! not overlap where one is written. `tools/bindings` holds the declarations to the library's source.
//!
//! A record is a copy of numbers, as in C: that each counter has one owner is up to the host here, and the types above see to it.

#[repr(C)]
#[derive(Clone, Copy, Debug, Default, PartialEq, Eq)]
pub struct Refusal {
    pub number: u64,
    pub a: u64,
    pub b: u64,
    pub c: u64,
}

#[repr(C)]
#[derive(Clone, Copy, Debug, Default, PartialEq, Eq)]
pub struct Scheduler {
    pub buf_len: u64,
    pub items_written: u64,
    pub items_read: u64,
    pub fill: u64,
}

#[repr(C)]
#[derive(Clone, Copy, Debug, Default, PartialEq, Eq)]
pub struct Block {
    pub typ: u64,
    pub no: u64,
    pub off: u64,
    pub len: u64,
}

#[repr(C)]
#[derive(Clone, Copy, Debug, Default, PartialEq, Eq)]
pub struct Operation {
    pub typ: u64,
    pub off: u64,
    pub len: u64,
}

#[repr(C)]
#[derive(Clone, Copy, Debug, Default, PartialEq, Eq)]
pub struct Operations {
    pub count: u64,
    pub first: Operation,
    pub second: Operation,
}

#[repr(C)]
#[derive(Clone, Copy, Debug, Default, PartialEq, Eq)]
pub struct Range {
    pub start: u64,
    pub end: u64,
    pub op: Operation,
}

#[repr(C)]
#[derive(Clone, Copy, Debug, Default, PartialEq, Eq)]
pub struct Ranges {
    pub count: u64,
    pub first: Range,
    pub second: Range,
}

#[repr(C)]
#[derive(Clone, Copy, Debug, Default, PartialEq, Eq)]
pub struct Diff {
    pub different: u64,
    pub old: u64,
    pub new: u64,
}

#[repr(C)]
#[derive(Clone, Copy, Debug, Default, PartialEq, Eq)]
pub struct OptionU64 {
    pub some: u64,
    pub value: u64,
}

#[repr(C)]
#[derive(Clone, Copy, Debug, Default, PartialEq, Eq)]
pub struct WritingEnd {
    pub scheduler: Scheduler,
}

#[repr(C)]
#[derive(Clone, Copy, Debug, Default, PartialEq, Eq)]
pub struct ReadingEnd {
    pub scheduler: Scheduler,
}

#[repr(C)]
#[derive(Clone, Copy, Debug, Default, PartialEq, Eq)]
pub struct WrittenCounter {
    pub counter: u64,
}

#[repr(C)]
#[derive(Clone, Copy, Debug, Default, PartialEq, Eq)]
pub struct ReadCounter {
    pub counter: u64,
}

#[repr(C)]
#[derive(Clone, Copy, Debug, Default, PartialEq, Eq)]
pub struct Failure {
    pub kind: u64,
    pub value: u64,
    pub needed: u64,
    pub room: u64,
}

#[repr(C)]
#[derive(Clone, Copy, Debug, Default, PartialEq, Eq)]
pub struct State {
    pub kind: u64,
    pub failure: Failure,
}

#[repr(C)]
#[derive(Clone, Copy, Debug, Default, PartialEq, Eq)]
pub struct Receiver {
    pub scheduler: Scheduler,
    pub state: State,
    pub pending_ack_count: u64,
    pub notification_socket_shutdown_issued: u64,
}

/// Rows that follow one another: the first one, from 0, and how many.
#[repr(C)]
#[derive(Clone, Copy, Debug, Default, PartialEq, Eq)]
pub struct Run {
    pub first: u64,
    pub count: u64,
}

#[repr(C)]
#[derive(Clone, Copy, Debug, Default, PartialEq, Eq)]
pub struct Answer {
    pub kind: u64,
    pub value: u64,
    pub descriptors: u64,
}

#[repr(C)]
#[derive(Clone, Copy, Debug, Default, PartialEq, Eq)]
pub struct Outcome {
    pub kind: u64,
    pub n: u64,
    pub fds: u64,
    pub failure: Failure,
}

#[repr(C)]
#[derive(Clone, Copy, Debug, Default, PartialEq, Eq)]
pub struct Ending {
    pub told: u64,
    pub outcome: Outcome,
}

#[repr(C)]
#[derive(Clone, Copy, Debug, Default, PartialEq, Eq)]
pub struct Phase {
    pub kind: u64,
    pub max_new_fds: u64,
    pub dst_len: u64,
    pub batch: u64,
    pub ending: Ending,
    pub outcome: Outcome,
}

#[repr(C)]
#[derive(Clone, Copy, Debug, Default, PartialEq, Eq)]
pub struct Call {
    pub receiver: Receiver,
    pub source: Scheduler,
    pub phase: Phase,
}

#[repr(C)]
#[derive(Clone, Copy, Debug, Default, PartialEq, Eq)]
pub struct U64Answer {
    pub refusal: Refusal,
    pub value: u64,
}

#[repr(C)]
#[derive(Clone, Copy, Debug, Default, PartialEq, Eq)]
pub struct SchedulerAnswer {
    pub refusal: Refusal,
    pub scheduler: Scheduler,
}

#[repr(C)]
#[derive(Clone, Copy, Debug, Default, PartialEq, Eq)]
pub struct BlockAnswer {
    pub refusal: Refusal,
    pub block: Block,
}

#[repr(C)]
#[derive(Clone, Copy, Debug, Default, PartialEq, Eq)]
pub struct BlocksAnswer {
    pub refusal: Refusal,
    pub block_0: Block,
    pub block_1: Block,
    pub block_2: Block,
}

#[repr(C)]
#[derive(Clone, Copy, Debug, Default, PartialEq, Eq)]
pub struct NextAnswer {
    pub refusal: Refusal,
    pub some: u64,
    pub operation: Operation,
    pub remainder: u64,
}

#[repr(C)]
#[derive(Clone, Copy, Debug, Default, PartialEq, Eq)]
pub struct ScheduleAnswer {
    pub refusal: Refusal,
    pub operations: Operations,
    pub remainder: u64,
}

#[repr(C)]
#[derive(Clone, Copy, Debug, Default, PartialEq, Eq)]
pub struct OperationsAnswer {
    pub refusal: Refusal,
    pub operations: Operations,
}

#[repr(C)]
#[derive(Clone, Copy, Debug, Default, PartialEq, Eq)]
pub struct RangesAnswer {
    pub refusal: Refusal,
    pub ranges: Ranges,
}

#[repr(C)]
#[derive(Clone, Copy, Debug, Default, PartialEq, Eq)]
pub struct StartsAnswer {
    pub refusal: Refusal,
    pub count: u64,
    pub first_start: u64,
    pub first: Operation,
    pub second_start: u64,
    pub second: Operation,
}

#[repr(C)]
#[derive(Clone, Copy, Debug, Default, PartialEq, Eq)]
pub struct CopyAnswer {
    pub refusal: Refusal,
    pub scheduler: Scheduler,
    pub n: u64,
    pub remainder: u64,
}

#[repr(C)]
#[derive(Clone, Copy, Debug, Default, PartialEq, Eq)]
pub struct WritingEndAnswer {
    pub refusal: Refusal,
    pub end: WritingEnd,
}

#[repr(C)]
#[derive(Clone, Copy, Debug, Default, PartialEq, Eq)]
pub struct ReadingEndAnswer {
    pub refusal: Refusal,
    pub end: ReadingEnd,
}

#[repr(C)]
#[derive(Clone, Copy, Debug, Default, PartialEq, Eq)]
pub struct WroteAnswer {
    pub refusal: Refusal,
    pub end: WritingEnd,
    pub n: u64,
    pub remainder: u64,
}

#[repr(C)]
#[derive(Clone, Copy, Debug, Default, PartialEq, Eq)]
pub struct GotAnswer {
    pub refusal: Refusal,
    pub end: ReadingEnd,
    pub n: u64,
    pub remainder: u64,
}

#[repr(C)]
#[derive(Clone, Copy, Debug, Default, PartialEq, Eq)]
pub struct MovedAnswer {
    pub refusal: Refusal,
    pub n: u64,
    pub remainder: u64,
}

#[repr(C)]
#[derive(Clone, Copy, Debug, Default, PartialEq, Eq)]
pub struct WrittenCounterAnswer {
    pub refusal: Refusal,
    pub counter: WrittenCounter,
}

#[repr(C)]
#[derive(Clone, Copy, Debug, Default, PartialEq, Eq)]
pub struct ReadCounterAnswer {
    pub refusal: Refusal,
    pub counter: ReadCounter,
}

#[repr(C)]
#[derive(Clone, Copy, Debug, Default, PartialEq, Eq)]
pub struct FailureAnswer {
    pub refusal: Refusal,
    pub failure: Failure,
}

#[repr(C)]
#[derive(Clone, Copy, Debug, Default, PartialEq, Eq)]
pub struct PotentialFailureAnswer {
    pub refusal: Refusal,
    pub some: u64,
    pub failure: Failure,
}

#[repr(C)]
#[derive(Clone, Copy, Debug, Default, PartialEq, Eq)]
pub struct StateAnswer {
    pub refusal: Refusal,
    pub state: State,
}

#[repr(C)]
#[derive(Clone, Copy, Debug, Default, PartialEq, Eq)]
pub struct ReceiverAnswer {
    pub refusal: Refusal,
    pub receiver: Receiver,
}

#[repr(C)]
#[derive(Clone, Copy, Debug, Default, PartialEq, Eq)]
pub struct EndedAnswer {
    pub refusal: Refusal,
    pub receiver: Receiver,
    pub outcome: Outcome,
    pub used: u64,
}

#[repr(C)]
#[derive(Clone, Copy, Debug, Default, PartialEq, Eq)]
pub struct StepAnswer {
    pub refusal: Refusal,
    pub call: Call,
}

#[repr(C)]
#[derive(Clone, Copy, Debug, Default, PartialEq, Eq)]
pub struct StripsAnswer {
    pub refusal: Refusal,
    pub count: u64,
    pub height: u64,
    pub last: u64,
}

#[repr(C)]
#[derive(Clone, Copy, Debug, Default, PartialEq, Eq)]
pub struct ProposeAnswer {
    pub refusal: Refusal,
    pub count: u64,
}

unsafe extern "C" {
    pub safe fn stripring_writing_end_new(buf_len: u64) -> WritingEndAnswer;
    pub safe fn stripring_writing_end_from_counters(
        buf_len: u64,
        items_written: u64,
        items_read: u64,
    ) -> WritingEndAnswer;
    pub safe fn stripring_writing_end_from_scheduler(scheduler: Scheduler) -> WritingEndAnswer;
    fn stripring_writing_end_write(
        end: WritingEnd,
        ring: *mut u8,
        ring_len: usize,
        src: *const u8,
        src_len: usize,
    ) -> WroteAnswer;
    fn stripring_writing_end_write_in_place(
        end: *mut WritingEnd,
        ring: *mut u8,
        ring_len: usize,
        src: *const u8,
        src_len: usize,
    ) -> MovedAnswer;
    pub safe fn stripring_writing_end_send(end: WritingEnd) -> WrittenCounterAnswer;
    pub safe fn stripring_writing_end_take(
        end: WritingEnd,
        counter: ReadCounter,
    ) -> WritingEndAnswer;
    fn stripring_writing_end_take_in_place(end: *mut WritingEnd, counter: ReadCounter) -> Refusal;
    pub safe fn stripring_reading_end_new(buf_len: u64) -> ReadingEndAnswer;
    pub safe fn stripring_reading_end_from_counters(
        buf_len: u64,
        items_written: u64,
        items_read: u64,
    ) -> ReadingEndAnswer;
    pub safe fn stripring_reading_end_from_scheduler(scheduler: Scheduler) -> ReadingEndAnswer;
    fn stripring_reading_end_read(
        end: ReadingEnd,
        ring: *const u8,
        ring_len: usize,
        dst: *mut u8,
        dst_len: usize,
    ) -> GotAnswer;
    fn stripring_reading_end_read_in_place(
        end: *mut ReadingEnd,
        ring: *const u8,
        ring_len: usize,
        dst: *mut u8,
        dst_len: usize,
    ) -> MovedAnswer;
    pub safe fn stripring_reading_end_send(end: ReadingEnd) -> ReadCounterAnswer;
    pub safe fn stripring_reading_end_take(
        end: ReadingEnd,
        counter: WrittenCounter,
    ) -> ReadingEndAnswer;
    fn stripring_reading_end_take_in_place(
        end: *mut ReadingEnd,
        counter: WrittenCounter,
    ) -> Refusal;
    fn stripring_copies_write(
        scheduler: Scheduler,
        ring: *mut u8,
        ring_len: usize,
        src: *const u8,
        src_len: usize,
    ) -> CopyAnswer;
    fn stripring_copies_read(
        scheduler: Scheduler,
        ring: *const u8,
        ring_len: usize,
        dst: *mut u8,
        dst_len: usize,
    ) -> CopyAnswer;
    pub safe fn stripring_receiver_new(scheduler: Scheduler) -> ReceiverAnswer;
    fn stripring_receiver_read_with_fds(
        receiver: Receiver,
        ring: *const u8,
        ring_len: usize,
        dst: *mut u8,
        dst_len: usize,
        max_new_fds: u64,
        answers: *const Answer,
        answers_len: usize,
    ) -> EndedAnswer;
    fn stripring_receiver_read_with_fds_impl(
        receiver: Receiver,
        ring: *const u8,
        ring_len: usize,
        dst: *mut u8,
        dst_len: usize,
        max_new_fds: u64,
        answers: *const Answer,
        answers_len: usize,
    ) -> EndedAnswer;
    fn stripring_receiver_service_chunk_acknowledgements(
        receiver: Receiver,
        answers: *const Answer,
        answers_len: usize,
    ) -> EndedAnswer;
    fn stripring_receiver_shutdown(
        receiver: Receiver,
        answers: *const Answer,
        answers_len: usize,
    ) -> EndedAnswer;
    pub safe fn stripring_call_begin_read(
        receiver: Receiver,
        ring_len: usize,
        max_new_fds: u64,
        dst_len: u64,
    ) -> StepAnswer;
    pub safe fn stripring_call_begin_service(receiver: Receiver) -> StepAnswer;
    pub safe fn stripring_call_begin_shutdown(receiver: Receiver) -> StepAnswer;
    fn stripring_call_answered(
        call: Call,
        ring: *const u8,
        ring_len: usize,
        answer: Answer,
        place: u64,
    ) -> StepAnswer;
    pub safe fn stripring_state_failure(state: State) -> PotentialFailureAnswer;
    pub safe fn stripring_state_with_failure(state: State, failure: Failure) -> StateAnswer;
    pub safe fn stripring_state_with_potential_failure(
        state: State,
        some: u64,
        failure: Failure,
    ) -> StateAnswer;
    pub safe fn stripring_state_normalize(state: State) -> StateAnswer;
    pub safe fn stripring_state_advance_state_towards_termination(
        state: State,
        to: State,
    ) -> StateAnswer;
    pub safe fn stripring_failure_normalize(failure: Failure) -> FailureAnswer;
    pub safe fn stripring_failure_advance_failure_towards_error(
        failure: Failure,
        error: Failure,
    ) -> FailureAnswer;
    pub safe fn stripring_planner_outline(rows: u64, row_bytes: u64, buf_len: u64) -> StripsAnswer;
    fn stripring_planner_propose(
        rows: u64,
        row_bytes: u64,
        buf_len: u64,
        plan: *mut u64,
        plan_len: usize,
    ) -> ProposeAnswer;
    fn stripring_planner_check(
        rows: u64,
        row_bytes: u64,
        buf_len: u64,
        plan: *const u64,
        plan_len: usize,
    ) -> Refusal;
    pub safe fn stripring_scheduler_max_buf_len() -> u64;
    pub safe fn stripring_scheduler_try_new(buf_len: u64) -> SchedulerAnswer;
    pub safe fn stripring_scheduler_try_from_counters(
        buf_len: u64,
        items_written: u64,
        items_read: u64,
    ) -> SchedulerAnswer;
    pub safe fn stripring_scheduler_try_with_counter(
        scheduler: Scheduler,
        op_type: u64,
        counter: u64,
    ) -> SchedulerAnswer;
    pub safe fn stripring_scheduler_demand_soundness(scheduler: Scheduler) -> SchedulerAnswer;
    pub safe fn stripring_scheduler_try_register_read(
        scheduler: Scheduler,
        len: u64,
    ) -> SchedulerAnswer;
    pub safe fn stripring_scheduler_try_register_write(
        scheduler: Scheduler,
        len: u64,
    ) -> SchedulerAnswer;
    pub safe fn stripring_scheduler_try_register_operation_manually(
        scheduler: Scheduler,
        op_type: u64,
        len: u64,
    ) -> SchedulerAnswer;
    pub safe fn stripring_scheduler_try_register_operation(
        scheduler: Scheduler,
        operation: Operation,
    ) -> SchedulerAnswer;
    pub safe fn stripring_scheduler_try_register_operations(
        scheduler: Scheduler,
        list: Operations,
    ) -> SchedulerAnswer;
    pub safe fn stripring_scheduler_items_read(scheduler: Scheduler) -> U64Answer;
    pub safe fn stripring_scheduler_items_written(scheduler: Scheduler) -> U64Answer;
    pub safe fn stripring_scheduler_operation_counter(
        scheduler: Scheduler,
        op_type: u64,
    ) -> U64Answer;
    pub safe fn stripring_scheduler_read_off(scheduler: Scheduler) -> U64Answer;
    pub safe fn stripring_scheduler_write_off(scheduler: Scheduler) -> U64Answer;
    pub safe fn stripring_scheduler_operation_offset(
        scheduler: Scheduler,
        op_type: u64,
    ) -> U64Answer;
    pub safe fn stripring_scheduler_buf_len(scheduler: Scheduler) -> U64Answer;
    pub safe fn stripring_scheduler_is_zero_sized(scheduler: Scheduler) -> U64Answer;
    pub safe fn stripring_scheduler_data_avail(scheduler: Scheduler) -> U64Answer;
    pub safe fn stripring_scheduler_space_avail(scheduler: Scheduler) -> U64Answer;
    pub safe fn stripring_scheduler_max_operation_len(
        scheduler: Scheduler,
        op_type: u64,
    ) -> U64Answer;
    pub safe fn stripring_scheduler_fill_state(scheduler: Scheduler) -> U64Answer;
    pub safe fn stripring_scheduler_is_empty(scheduler: Scheduler) -> U64Answer;
    pub safe fn stripring_scheduler_is_full(scheduler: Scheduler) -> U64Answer;
    pub safe fn stripring_scheduler_is_nonempty(scheduler: Scheduler) -> U64Answer;
    pub safe fn stripring_scheduler_is_nonfull(scheduler: Scheduler) -> U64Answer;
    pub safe fn stripring_scheduler_layout(scheduler: Scheduler) -> U64Answer;
    pub safe fn stripring_scheduler_blocks(scheduler: Scheduler) -> BlocksAnswer;
    pub safe fn stripring_scheduler_block_0(scheduler: Scheduler) -> BlockAnswer;
    pub safe fn stripring_scheduler_block_1(scheduler: Scheduler) -> BlockAnswer;
    pub safe fn stripring_scheduler_block_2(scheduler: Scheduler) -> BlockAnswer;
    pub safe fn stripring_scheduler_block_0_off(scheduler: Scheduler) -> U64Answer;
    pub safe fn stripring_scheduler_block_1_off(scheduler: Scheduler) -> U64Answer;
    pub safe fn stripring_scheduler_block_2_off(scheduler: Scheduler) -> U64Answer;
    pub safe fn stripring_scheduler_block_0_len(scheduler: Scheduler) -> U64Answer;
    pub safe fn stripring_scheduler_block_1_len(scheduler: Scheduler) -> U64Answer;
    pub safe fn stripring_scheduler_block_2_len(scheduler: Scheduler) -> U64Answer;
    pub safe fn stripring_scheduler_next_operation_block(
        scheduler: Scheduler,
        op_type: u64,
    ) -> BlockAnswer;
    pub safe fn stripring_scheduler_next_read_block(scheduler: Scheduler) -> BlockAnswer;
    pub safe fn stripring_scheduler_next_write_block(scheduler: Scheduler) -> BlockAnswer;
    pub safe fn stripring_scheduler_schedule_next_contiguous_operation(
        scheduler: Scheduler,
        op_type: u64,
        max_len: u64,
    ) -> NextAnswer;
    pub safe fn stripring_scheduler_schedule_next_read(
        scheduler: Scheduler,
        dst_len: u64,
    ) -> NextAnswer;
    pub safe fn stripring_scheduler_schedule_next_write(
        scheduler: Scheduler,
        src_len: u64,
    ) -> NextAnswer;
    pub safe fn stripring_scheduler_schedule_contiguous_operations(
        scheduler: Scheduler,
        op_type: u64,
        max_len: u64,
    ) -> ScheduleAnswer;
    pub safe fn stripring_scheduler_schedule_reads(
        scheduler: Scheduler,
        dst_len: u64,
    ) -> ScheduleAnswer;
    pub safe fn stripring_scheduler_schedule_writes(
        scheduler: Scheduler,
        src_len: u64,
    ) -> ScheduleAnswer;
    pub safe fn stripring_operations_try_new(list: Operations) -> OperationsAnswer;
    pub safe fn stripring_operations_container(list: Operations) -> OperationsAnswer;
    pub safe fn stripring_operations_into_container(list: Operations) -> OperationsAnswer;
    pub safe fn stripring_operations_cumulative_operation_length(list: Operations) -> U64Answer;
    pub safe fn stripring_operations_with_cumulative_offset(list: Operations) -> StartsAnswer;
    pub safe fn stripring_operations_with_outside_buffer_range(list: Operations) -> RangesAnswer;
    pub safe fn stripring_operation_new(typ: u64, off: u64, len: u64) -> Operation;
    pub safe fn stripring_operation_default() -> Operation;
    pub safe fn stripring_block_new(typ: u64, no: u64, off: u64, len: u64) -> Block;
    pub safe fn stripring_diff_new(old: u64, new: u64) -> Diff;
    pub safe fn stripring_diff_is_same(diff: Diff) -> bool;
    pub safe fn stripring_diff_is_different(diff: Diff) -> bool;
    pub safe fn stripring_diff_old_value(diff: Diff) -> u64;
    pub safe fn stripring_diff_new_value(diff: Diff) -> u64;
    pub safe fn stripring_modulus_new_full_range() -> u64;
    pub safe fn stripring_modulus_try_new(modulus: u64) -> OptionU64;
    pub safe fn stripring_modulus_is_full_range(modulus: u64) -> bool;
    pub safe fn stripring_modulus_modulus(modulus: u64) -> OptionU64;
    pub safe fn stripring_modulus_contains(modulus: u64, value: u64) -> bool;
    pub safe fn stripring_modulus_double(modulus: u64) -> OptionU64;
    pub safe fn stripring_modulus_new_number(modulus: u64, value: u64) -> u64;
    pub safe fn stripring_modulus_try_new_number(modulus: u64, value: u64) -> OptionU64;
    pub safe fn stripring_modulus_neg(modulus: u64, value: u64) -> u64;
    pub safe fn stripring_modulus_sub(modulus: u64, a: u64, b: u64) -> u64;
    pub safe fn stripring_modulus_add(modulus: u64, a: u64, b: u64) -> u64;
}

pub fn writing_end_write(e: WritingEnd, ring: &mut [u8], src: &[u8]) -> WroteAnswer {
    // SAFETY: each pointer goes with the length of its slice, and what is written overlaps nothing. So in all below.
    unsafe {
        stripring_writing_end_write(e, ring.as_mut_ptr(), ring.len(), src.as_ptr(), src.len())
    }
}

pub fn reading_end_read(e: ReadingEnd, ring: &[u8], dst: &mut [u8]) -> GotAnswer {
    unsafe { stripring_reading_end_read(e, ring.as_ptr(), ring.len(), dst.as_mut_ptr(), dst.len()) }
}

pub fn writing_end_write_in_place(
    end: &mut WritingEnd,
    ring: &mut [u8],
    src: &[u8],
) -> MovedAnswer {
    unsafe {
        stripring_writing_end_write_in_place(
            end,
            ring.as_mut_ptr(),
            ring.len(),
            src.as_ptr(),
            src.len(),
        )
    }
}

pub fn writing_end_take_in_place(end: &mut WritingEnd, counter: ReadCounter) -> Refusal {
    unsafe { stripring_writing_end_take_in_place(end, counter) }
}

pub fn reading_end_read_in_place(end: &mut ReadingEnd, ring: &[u8], dst: &mut [u8]) -> MovedAnswer {
    unsafe {
        stripring_reading_end_read_in_place(
            end,
            ring.as_ptr(),
            ring.len(),
            dst.as_mut_ptr(),
            dst.len(),
        )
    }
}

pub fn reading_end_take_in_place(end: &mut ReadingEnd, counter: WrittenCounter) -> Refusal {
    unsafe { stripring_reading_end_take_in_place(end, counter) }
}

pub fn copies_write(s: Scheduler, ring: &mut [u8], src: &[u8]) -> CopyAnswer {
    unsafe { stripring_copies_write(s, ring.as_mut_ptr(), ring.len(), src.as_ptr(), src.len()) }
}

pub fn copies_read(s: Scheduler, ring: &[u8], dst: &mut [u8]) -> CopyAnswer {
    unsafe { stripring_copies_read(s, ring.as_ptr(), ring.len(), dst.as_mut_ptr(), dst.len()) }
}

pub fn call_answered(c: Call, ring: &[u8], answer: Answer, place: u64) -> StepAnswer {
    unsafe { stripring_call_answered(c, ring.as_ptr(), ring.len(), answer, place) }
}

pub fn receiver_read_with_fds(
    r: Receiver,
    ring: &[u8],
    dst: &mut [u8],
    max_new_fds: u64,
    answers: &[Answer],
) -> EndedAnswer {
    unsafe {
        stripring_receiver_read_with_fds(
            r,
            ring.as_ptr(),
            ring.len(),
            dst.as_mut_ptr(),
            dst.len(),
            max_new_fds,
            answers.as_ptr(),
            answers.len(),
        )
    }
}

pub fn receiver_read_with_fds_impl(
    r: Receiver,
    ring: &[u8],
    dst: &mut [u8],
    max_new_fds: u64,
    answers: &[Answer],
) -> EndedAnswer {
    unsafe {
        stripring_receiver_read_with_fds_impl(
            r,
            ring.as_ptr(),
            ring.len(),
            dst.as_mut_ptr(),
            dst.len(),
            max_new_fds,
            answers.as_ptr(),
            answers.len(),
        )
    }
}

pub fn receiver_service_chunk_acknowledgements(r: Receiver, answers: &[Answer]) -> EndedAnswer {
    unsafe { stripring_receiver_service_chunk_acknowledgements(r, answers.as_ptr(), answers.len()) }
}

pub fn receiver_shutdown(r: Receiver, answers: &[Answer]) -> EndedAnswer {
    unsafe { stripring_receiver_shutdown(r, answers.as_ptr(), answers.len()) }
}

/// In a run.
const NUMBERS: usize = size_of::<Run>() / size_of::<u64>();

pub fn planner_propose(rows: u64, row_bytes: u64, buf_len: u64, plan: &mut [Run]) -> ProposeAnswer {
    let (numbers, len) = (plan.as_mut_ptr().cast(), NUMBERS * plan.len());
    // SAFETY: a run is its two numbers and nothing between them. So below.
    unsafe { stripring_planner_propose(rows, row_bytes, buf_len, numbers, len) }
}

pub fn planner_check(rows: u64, row_bytes: u64, buf_len: u64, plan: &[Run]) -> Refusal {
    let (numbers, len) = (plan.as_ptr().cast(), NUMBERS * plan.len());
    unsafe { stripring_planner_check(rows, row_bytes, buf_len, numbers, len) }
}
