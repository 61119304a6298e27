//! The static library's calls that are measured, and the records that they take and give.

use oracle::planner_model::Image;

#[repr(C)]
#[derive(Clone, Copy, Debug, PartialEq)]
pub struct Scheduler {
    pub buf_len: u64,
    pub items_written: u64,
    pub items_read: u64,
    pub fill: u64,
}

/// Number 0 is no refusal.
#[repr(C)]
#[derive(Clone, Copy, Debug, Default, PartialEq)]
pub struct Refusal {
    pub number: u64,
    pub values: [u64; 3],
}

#[repr(C)]
#[derive(Clone, Copy, Debug, Default, PartialEq)]
pub struct Operation {
    pub typ: u64,
    pub off: u64,
    pub len: u64,
}

#[repr(C)]
#[derive(Clone, Copy, Debug, Default, PartialEq)]
pub struct Operations {
    pub count: u64,
    pub both: [Operation; 2],
}

/// The list, and what it leaves over of what was asked.
#[repr(C)]
#[derive(Clone, Copy, Debug, PartialEq)]
pub struct Scheduled {
    pub operations: Operations,
    pub remainder: u64,
}

#[repr(C)]
#[derive(Debug, PartialEq)]
pub struct Answer<T> {
    pub refusal: Refusal,
    pub of: T,
}

#[repr(C)]
#[derive(Debug, PartialEq)]
pub struct Copied {
    pub scheduler: Scheduler,
    pub n: u64,
    pub remainder: u64,
}

#[repr(C)]
#[derive(Clone, Copy)]
pub struct End {
    pub scheduler: Scheduler,
}

#[repr(C)]
#[derive(Clone, Copy)]
pub struct Counter {
    pub value: u64,
}

#[repr(C)]
pub struct Moved {
    pub end: End,
    pub n: u64,
    pub remainder: u64,
}

#[repr(C)]
pub struct Portion {
    pub n: u64,
    pub remainder: u64,
}

#[link(name = "stripring", kind = "static")]
unsafe extern "C" {
    #[link_name = "stripring_writing_end_new"]
    pub safe fn writing_end(buf_len: u64) -> Answer<End>;
    #[link_name = "stripring_reading_end_new"]
    pub safe fn reading_end(buf_len: u64) -> Answer<End>;
    #[link_name = "stripring_writing_end_send"]
    pub safe fn send_written(e: End) -> Answer<Counter>;
    #[link_name = "stripring_reading_end_send"]
    pub safe fn send_read(e: End) -> Answer<Counter>;
    #[link_name = "stripring_writing_end_take"]
    pub safe fn take_read(e: End, counter: Counter) -> Answer<End>;
    #[link_name = "stripring_reading_end_take"]
    pub safe fn take_written(e: End, counter: Counter) -> Answer<End>;
    #[link_name = "stripring_writing_end_take_in_place"]
    pub safe fn take_read_in_place(e: &mut End, counter: Counter) -> Refusal;
    #[link_name = "stripring_reading_end_take_in_place"]
    pub safe fn take_written_in_place(e: &mut End, counter: Counter) -> Refusal;

    fn stripring_writing_end_write(
        e: End,
        ring: *mut u8,
        ring_len: usize,
        src: *const u8,
        src_len: usize,
    ) -> Answer<Moved>;
    fn stripring_reading_end_read(
        e: End,
        ring: *const u8,
        ring_len: usize,
        dst: *mut u8,
        dst_len: usize,
    ) -> Answer<Moved>;
    fn stripring_writing_end_write_in_place(
        e: &mut End,
        ring: *mut u8,
        ring_len: usize,
        src: *const u8,
        src_len: usize,
    ) -> Answer<Portion>;
    fn stripring_reading_end_read_in_place(
        e: &mut End,
        ring: *const u8,
        ring_len: usize,
        dst: *mut u8,
        dst_len: usize,
    ) -> Answer<Portion>;

    #[link_name = "stripring_scheduler_try_new"]
    pub safe fn try_new(buf_len: u64) -> Answer<Scheduler>;
    #[link_name = "stripring_scheduler_try_from_counters"]
    pub safe fn try_from_counters(
        buf_len: u64,
        items_written: u64,
        items_read: u64,
    ) -> Answer<Scheduler>;
    #[link_name = "stripring_scheduler_data_avail"]
    pub safe fn data_avail(s: Scheduler) -> Answer<u64>;
    #[link_name = "stripring_scheduler_schedule_contiguous_operations"]
    pub safe fn schedule(s: Scheduler, typ: u64, max_len: u64) -> Answer<Scheduled>;
    #[link_name = "stripring_scheduler_try_register_operations"]
    pub safe fn register(s: Scheduler, list: Operations) -> Answer<Scheduler>;

    fn stripring_copies_write(
        s: Scheduler,
        ring: *mut u8,
        ring_len: usize,
        src: *const u8,
        src_len: usize,
    ) -> Answer<Copied>;
    fn stripring_copies_read(
        s: Scheduler,
        ring: *const u8,
        ring_len: usize,
        dst: *mut u8,
        dst_len: usize,
    ) -> Answer<Copied>;

    fn stripring_planner_propose(
        rows: u64,
        row_bytes: u64,
        buf_len: u64,
        plan: *mut u64,
        plan_len: usize,
    ) -> Answer<u64>;
    fn stripring_planner_check(
        rows: u64,
        row_bytes: u64,
        buf_len: u64,
        plan: *const u64,
        plan_len: usize,
    ) -> Refusal;
}

pub fn write(s: Scheduler, ring: &mut [u8], src: &[u8]) -> Answer<Copied> {
    // Sound: each pointer goes with the length of its slice.
    unsafe { stripring_copies_write(s, ring.as_mut_ptr(), ring.len(), src.as_ptr(), src.len()) }
}

pub fn read(s: Scheduler, ring: &[u8], dst: &mut [u8]) -> Answer<Copied> {
    // Sound: as above.
    unsafe { stripring_copies_read(s, ring.as_ptr(), ring.len(), dst.as_mut_ptr(), dst.len()) }
}

// Sound, all four: as above.
pub fn end_write(e: End, ring: &mut [u8], src: &[u8]) -> Answer<Moved> {
    unsafe { stripring_writing_end_write(e, ring.as_mut_ptr(), ring.len(), src.as_ptr(), src.len()) }
}

pub fn end_read(e: End, ring: &[u8], dst: &mut [u8]) -> Answer<Moved> {
    unsafe { stripring_reading_end_read(e, ring.as_ptr(), ring.len(), dst.as_mut_ptr(), dst.len()) }
}

pub fn end_write_in_place(e: &mut End, ring: &mut [u8], src: &[u8]) -> Answer<Portion> {
    let (to, len) = (ring.as_mut_ptr(), ring.len());
    unsafe { stripring_writing_end_write_in_place(e, to, len, src.as_ptr(), src.len()) }
}

pub fn end_read_in_place(e: &mut End, ring: &[u8], dst: &mut [u8]) -> Answer<Portion> {
    let (from, len) = (ring.as_ptr(), ring.len());
    unsafe { stripring_reading_end_read_in_place(e, from, len, dst.as_mut_ptr(), dst.len()) }
}

// Sound, both: as above.
pub fn propose(image: Image, plan: &mut [u64]) -> Answer<u64> {
    let (p, n) = (plan.as_mut_ptr(), plan.len());
    unsafe { stripring_planner_propose(image.rows, image.row_bytes, image.buf_len, p, n) }
}

pub fn check(image: Image, plan: &[u64]) -> Refusal {
    let (p, n) = (plan.as_ptr(), plan.len());
    unsafe { stripring_planner_check(image.rows, image.row_bytes, image.buf_len, p, n) }
}
