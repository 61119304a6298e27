//! The two ends of a ring.

use crate::abi;
use crate::refusal::{Refusal, accepted, sound};
use crate::scheduler::{Portion, Scheduler};

/// What a writing end sends to the reading end. Any number may be offered to one; it tests it.
#[derive(Clone, Copy, Debug, PartialEq, Eq)]
pub struct WrittenCounter(pub u64);

/// What a reading end sends to the writing end.
#[derive(Clone, Copy, Debug, PartialEq, Eq)]
pub struct ReadCounter(pub u64);

/// The end that writes. Counters of the other end may be lost, late or repeated, but none is older than the last one taken.
///
/// ```
/// use stripring::{Portion, ReadCounter, Refusal, WritingEnd};
///
/// # fn main() -> Result<(), Refusal> {
/// let mut ring = [0; 4];
/// let mut end = WritingEnd::new(4)?;
/// assert_eq!(end.write(&mut ring, b"abcdef")?, 4);
/// assert_eq!(end.space(), 0);
/// end.take(ReadCounter(3))?;
/// assert_eq!(end.space(), 3);
/// assert_eq!(end.take(ReadCounter(2)), Err(Refusal::RanBack));
/// assert_eq!(end.write(&mut ring[1..], b"ef"), Err(Refusal::RingMemory));
/// assert_eq!(end.write_portion(&mut ring, b"efghi")?, Portion { len: 3, remainder: 2 });
/// # Ok(())
/// # }
/// ```
///
/// It is the one owner of the written counter, and neither `Copy` nor `Clone`: two would write over each other's bytes.
///
/// ```compile_fail,E0599
/// let end = stripring::WritingEnd::new(4).unwrap();
/// let other = end.clone();
/// ```
///
/// ```compile_fail,E0382
/// let end = stripring::WritingEnd::new(4).unwrap();
/// let other = end;
/// end.send(); // `end` is moved
/// ```
#[derive(Debug, PartialEq, Eq)]
pub struct WritingEnd(Scheduler);

impl WritingEnd {
    /// An empty end of a ring of this length, 1 to 2^63.
    pub fn new(buf_len: u64) -> Result<Self, Refusal> {
        let a = abi::stripring_writing_end_new(buf_len);
        accepted(a.refusal, Self::of(a.end))
    }

    /// Writes as much of `src` as this end knows to be free. Answers how many bytes that was.
    pub fn write(&mut self, ring: &mut [u8], src: &[u8]) -> Result<usize, Refusal> {
        Ok(self.write_portion(ring, src)?.len)
    }

    /// The same, and answers how many bytes found no space too.
    pub fn write_portion(&mut self, ring: &mut [u8], src: &[u8]) -> Result<Portion, Refusal> {
        let mut end = self.flat();
        let a = abi::writing_end_write_in_place(&mut end, ring, src);
        *self = Self::of(end);
        accepted(a.refusal, Portion::of(a.n, a.remainder))
    }

    /// The counter to send to the reading end.
    pub fn send(&self) -> WrittenCounter {
        let a = abi::stripring_writing_end_send(self.flat());
        WrittenCounter(sound(a.refusal, a.counter.counter))
    }

    /// Takes a counter that the reading end sent.
    pub fn take(&mut self, ReadCounter(counter): ReadCounter) -> Result<(), Refusal> {
        let mut end = self.flat();
        let refusal = abi::writing_end_take_in_place(&mut end, abi::ReadCounter { counter });
        *self = Self::of(end);
        accepted(refusal, ())
    }

    /// How many bytes this end knows to be free.
    pub fn space(&self) -> u64 {
        self.0.space_avail()
    }

    /// What this end knows of the ring.
    pub fn scheduler(&self) -> &Scheduler {
        &self.0
    }

    fn of(end: abi::WritingEnd) -> Self {
        Self(Scheduler(end.scheduler))
    }

    fn flat(&self) -> abi::WritingEnd {
        let scheduler = self.0.0;
        abi::WritingEnd { scheduler }
    }
}

impl From<Scheduler> for WritingEnd {
    /// An end that goes on from this scheduler.
    fn from(s: Scheduler) -> Self {
        let a = abi::stripring_writing_end_from_scheduler(s.0);
        sound(a.refusal, Self::of(a.end))
    }
}

/// The end that reads. Counters of the other end may be lost, late or repeated, but none is older than the last one taken.
///
/// ```
/// use stripring::{ReadingEnd, WrittenCounter};
///
/// # fn main() -> Result<(), stripring::Refusal> {
/// let mut end = ReadingEnd::new(4)?;
/// let mut bytes = [0; 4];
/// assert_eq!(end.read(b"abc_", &mut bytes)?, 0); // this end has heard of nothing
/// end.take(WrittenCounter(3))?;
/// assert_eq!(end.read(b"abc_", &mut bytes)?, 3);
/// assert_eq!(&bytes, b"abc\0");
/// assert_eq!(end.send(), stripring::ReadCounter(3));
/// # Ok(())
/// # }
/// ```
///
/// It is the one owner of the read counter, and neither `Copy` nor `Clone`: of two, one would free bytes that the other reads.
///
/// ```compile_fail,E0599
/// let end = stripring::ReadingEnd::new(4).unwrap();
/// let other = end.clone();
/// ```
///
/// ```compile_fail,E0382
/// let end = stripring::ReadingEnd::new(4).unwrap();
/// let other = end;
/// end.send(); // `end` is moved
/// ```
#[derive(Debug, PartialEq, Eq)]
pub struct ReadingEnd(Scheduler);

impl ReadingEnd {
    /// An empty end of a ring of this length, 1 to 2^63.
    pub fn new(buf_len: u64) -> Result<Self, Refusal> {
        let a = abi::stripring_reading_end_new(buf_len);
        accepted(a.refusal, Self::of(a.end))
    }

    /// Fills the first bytes of `dst` with as much as this end knows to be there; the rest of `dst` stays. Answers how many
    /// bytes that was.
    pub fn read(&mut self, ring: &[u8], dst: &mut [u8]) -> Result<usize, Refusal> {
        Ok(self.read_portion(ring, dst)?.len)
    }

    /// The same, and answers how many bytes of `dst` there was no data for too.
    pub fn read_portion(&mut self, ring: &[u8], dst: &mut [u8]) -> Result<Portion, Refusal> {
        let mut end = self.flat();
        let a = abi::reading_end_read_in_place(&mut end, ring, dst);
        *self = Self::of(end);
        accepted(a.refusal, Portion::of(a.n, a.remainder))
    }

    /// The counter to send to the writing end.
    pub fn send(&self) -> ReadCounter {
        let a = abi::stripring_reading_end_send(self.flat());
        ReadCounter(sound(a.refusal, a.counter.counter))
    }

    /// Takes a counter that the writing end sent.
    pub fn take(&mut self, WrittenCounter(counter): WrittenCounter) -> Result<(), Refusal> {
        let mut end = self.flat();
        let refusal = abi::reading_end_take_in_place(&mut end, abi::WrittenCounter { counter });
        *self = Self::of(end);
        accepted(refusal, ())
    }

    /// How many bytes this end knows to be there.
    pub fn data(&self) -> u64 {
        self.0.data_avail()
    }

    /// What this end knows of the ring.
    pub fn scheduler(&self) -> &Scheduler {
        &self.0
    }

    fn of(end: abi::ReadingEnd) -> Self {
        Self(Scheduler(end.scheduler))
    }

    fn flat(&self) -> abi::ReadingEnd {
        let scheduler = self.0.0;
        abi::ReadingEnd { scheduler }
    }
}

impl From<Scheduler> for ReadingEnd {
    /// An end that goes on from this scheduler.
    fn from(s: Scheduler) -> Self {
        let a = abi::stripring_reading_end_from_scheduler(s.0);
        sound(a.refusal, Self::of(a.end))
    }
}
