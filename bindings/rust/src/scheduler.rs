//! The scheduler: how much of a ring is data, and where.

use crate::abi;
use crate::refusal::{Refusal, accepted, sound};
use std::array::IntoIter;
use std::fmt;
use std::iter::Take;
use std::ops::Range;

/// A read or a write.
#[derive(Clone, Copy, Debug, PartialEq, Eq)]
pub enum OperationType {
    Read,
    Write,
}

impl OperationType {
    pub(crate) fn of(number: u64) -> Self {
        match number {
            0 => Self::Read,
            _ => Self::Write,
        }
    }

    pub(crate) fn number(self) -> u64 {
        match self {
            Self::Read => 0,
            Self::Write => 1,
        }
    }
}

impl fmt::Display for OperationType {
    fn fmt(&self, f: &mut fmt::Formatter) -> fmt::Result {
        f.write_str(match self {
            Self::Read => "read",
            Self::Write => "write",
        })
    }
}

/// How many of the bytes asked were moved, and how many were left over: together they are what was asked.
#[derive(Clone, Copy, Debug, PartialEq, Eq)]
pub struct Portion {
    pub len: usize,
    pub remainder: usize,
}

impl Portion {
    /// Both are at most the length of a slice.
    pub(crate) fn of(len: u64, remainder: u64) -> Self {
        let (len, remainder) = (len as usize, remainder as usize);
        Self { len, remainder }
    }
}

/// The places of the ring that an operation moves: at most two, in order, none empty.
#[derive(Clone, Debug)]
pub struct Places {
    operations: Take<IntoIter<abi::Operation, 2>>,
    remainder: u64,
}

impl Places {
    /// How many of the bytes asked are left over after all the places.
    pub fn remainder(&self) -> u64 {
        self.remainder
    }
}

impl Iterator for Places {
    type Item = Range<u64>;

    fn next(&mut self) -> Option<Range<u64>> {
        let o = self.operations.next()?;
        Some(o.off..o.off + o.len)
    }

    fn size_hint(&self) -> (usize, Option<usize>) {
        self.operations.size_hint()
    }
}

/// The counters of a ring, which are sound: only calls that test them make one.
///
/// Whoever moves bytes by a scheduler is the one owner of its counters, so it is neither `Copy` nor `Clone`, and an end or a
/// receiver that goes on from one takes it. A plan for counters that another has is made of their numbers, by
/// [`from_counters`](Self::from_counters).
///
/// ```compile_fail,E0382
/// let s = stripring::Scheduler::new(5).unwrap();
/// let (one, other) = (stripring::WritingEnd::from(s), stripring::WritingEnd::from(s)); // `s` is moved
/// ```
///
/// ```compile_fail,E0599
/// let s = stripring::Scheduler::new(5).unwrap();
/// let other = s.clone();
/// ```
///
/// ```
/// use stripring::{OperationType, Scheduler};
///
/// # fn main() -> Result<(), stripring::Refusal> {
/// let mut ring = [0; 5];
/// let mut s = Scheduler::new(5)?;
/// assert_eq!(s.write(&mut ring, b"abcd")?, 4);
/// let mut bytes = [0; 3];
/// assert_eq!((s.read(&ring, &mut bytes)?, &bytes), (3, b"abc"));
/// assert_eq!((s.data_avail(), s.space_avail()), (1, 4));
/// assert_eq!(s.fill(), 1); // the same as the data, without a call
///
/// // A host that copies by itself asks where, and registers what it moved.
/// let places = s.schedule(OperationType::Write, 6);
/// assert_eq!(places.remainder(), 2);
/// assert_eq!(places.collect::<Vec<_>>(), [4..5, 0..3]);
/// s.register(OperationType::Write, 4)?;
/// assert_eq!(s.data_avail(), 5);
/// assert_eq!(s.register(OperationType::Write, 1).unwrap_err().number(), 6);
/// # Ok(())
/// # }
/// ```
#[derive(Debug, PartialEq, Eq)]
pub struct Scheduler(pub(crate) abi::Scheduler);

impl Scheduler {
    /// An empty ring of this length, 1 to 2^63.
    pub fn new(buf_len: u64) -> Result<Self, Refusal> {
        Self::from_counters(buf_len, 0, 0)
    }

    /// A ring that goes on from these counters. Each is below twice the length.
    pub fn from_counters(
        buf_len: u64,
        items_written: u64,
        items_read: u64,
    ) -> Result<Self, Refusal> {
        let a = abi::stripring_scheduler_try_from_counters(buf_len, items_written, items_read);
        accepted(a.refusal, Self(a.scheduler))
    }

    /// The ring's length.
    pub fn buf_len(&self) -> u64 {
        self.0.buf_len
    }

    /// The written counter.
    pub fn items_written(&self) -> u64 {
        self.0.items_written
    }

    /// The read counter.
    pub fn items_read(&self) -> u64 {
        self.0.items_read
    }

    /// How many bytes may be read: the fill that the record holds, and no call. It is right, since only calls make a record.
    pub fn fill(&self) -> u64 {
        self.0.fill
    }

    /// How many bytes may be read, with the record tested anew.
    pub fn data_avail(&self) -> u64 {
        let a = abi::stripring_scheduler_data_avail(self.0);
        sound(a.refusal, a.value)
    }

    /// How many bytes may be written.
    pub fn space_avail(&self) -> u64 {
        let a = abi::stripring_scheduler_space_avail(self.0);
        sound(a.refusal, a.value)
    }

    /// The places of the ring that an operation of at most so many bytes moves.
    pub fn schedule(&self, op: OperationType, max_len: u64) -> Places {
        let a =
            abi::stripring_scheduler_schedule_contiguous_operations(self.0, op.number(), max_len);
        let abi::Operations {
            count,
            first,
            second,
        } = sound(a.refusal, a.operations);
        Places {
            operations: [first, second].into_iter().take(count as usize),
            remainder: a.remainder,
        }
    }

    /// Puts this counter in the place of its own of this type, and works the fill out anew. Refused with
    /// [`Refusal::ItemsWrittenOutOfBounds`] or [`Refusal::ItemsReadOutOfBounds`], and [`Refusal::DataAvailOutOfBounds`].
    pub fn try_with_counter(&mut self, op: OperationType, counter: u64) -> Result<(), Refusal> {
        let a = abi::stripring_scheduler_try_with_counter(self.0, op.number(), counter);
        self.0 = accepted(a.refusal, a.scheduler)?;
        Ok(())
    }

    /// Registers that so many bytes were moved.
    pub fn register(&mut self, op: OperationType, len: u64) -> Result<(), Refusal> {
        let a = abi::stripring_scheduler_try_register_operation_manually(self.0, op.number(), len);
        self.0 = accepted(a.refusal, a.scheduler)?;
        Ok(())
    }

    /// Writes as much of `src` as there is space for, and registers it. Answers how many bytes that was.
    pub fn write(&mut self, ring: &mut [u8], src: &[u8]) -> Result<usize, Refusal> {
        Ok(self.write_portion(ring, src)?.len)
    }

    /// The same, and answers how many bytes found no space too.
    pub fn write_portion(&mut self, ring: &mut [u8], src: &[u8]) -> Result<Portion, Refusal> {
        let a = abi::copies_write(self.0, ring, src);
        self.0 = accepted(a.refusal, a.scheduler)?;
        Ok(Portion::of(a.n, a.remainder))
    }

    /// Reads as much data as there is into the first bytes of `dst`, and registers it. Answers how many bytes that was.
    pub fn read(&mut self, ring: &[u8], dst: &mut [u8]) -> Result<usize, Refusal> {
        Ok(self.read_portion(ring, dst)?.len)
    }

    /// The same, and answers how many bytes of `dst` there was no data for too.
    pub fn read_portion(&mut self, ring: &[u8], dst: &mut [u8]) -> Result<Portion, Refusal> {
        let a = abi::copies_read(self.0, ring, dst);
        self.0 = accepted(a.refusal, a.scheduler)?;
        Ok(Portion::of(a.n, a.remainder))
    }
}
