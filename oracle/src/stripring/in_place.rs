//! The calls that change a host's end in place.

use super::{Answer, Counter, Flat, IntoRow};
use oracle::fill_model::Record;
use oracle::sched_answers::Row;

/// The library's answer to an end that is lent to be changed, a ring, and a source or a destination.
pub type LentCopyCall = fn(&mut Record, &mut [u8], &mut [u8]) -> Row;

/// The library's answer to an end that is lent to be changed, and a counter that it takes.
pub type LentTakeCall = fn(&mut Record, u64) -> Row;

unsafe extern "C" {
    fn stripring_writing_end_write_in_place(
        _: *mut Record,
        _: *mut u8,
        _: usize,
        _: *const u8,
        _: usize,
    ) -> Answer<6>;
    fn stripring_reading_end_read_in_place(
        _: *mut Record,
        _: *const u8,
        _: usize,
        _: *mut u8,
        _: usize,
    ) -> Answer<6>;
    fn stripring_writing_end_take_in_place(_: *mut Record, _: Counter) -> Answer<4>;
    fn stripring_reading_end_take_in_place(_: *mut Record, _: Counter) -> Answer<4>;
}

pub const WRITE_IN_PLACE: LentCopyCall = |end, ring, source| {
    let (r, s) = (ring.as_mut_ptr(), source.as_ptr());
    // SAFETY: a record, and two slices that do not overlap, each with its length. So below.
    unsafe { stripring_writing_end_write_in_place(end, r, ring.len(), s, source.len()) }.row()
};

pub const READ_IN_PLACE: LentCopyCall = |end, ring, destination| {
    let (r, d) = (ring.as_ptr(), destination.as_mut_ptr());
    unsafe { stripring_reading_end_read_in_place(end, r, ring.len(), d, destination.len()) }.row()
};

pub const TAKE_READ_IN_PLACE: LentTakeCall =
    |end, counter| unsafe { stripring_writing_end_take_in_place(end, Flat([counter])) }.row();

pub const TAKE_WRITTEN_IN_PLACE: LentTakeCall =
    |end, counter| unsafe { stripring_reading_end_take_in_place(end, Flat([counter])) }.row();
