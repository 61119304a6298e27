//! Why a stream fails, in words too, and the states that keep the reason.

use crate::abi;
use std::fmt;

/// A breach of the protocol by the other process.
#[derive(Clone, Copy, Debug, PartialEq, Eq)]
pub enum Violation {
    /// 1: an announcement is a byte other than 0.
    InvalidChunkAnnouncement,
    /// 2: the ring is too short for any chunk's header, which needs 8 bytes; the room is the ring's length.
    HeaderOverflow { needed: u64, room: u64 },
    /// 3: the header's format is not 0.
    UnknownHeader,
    /// 4: the body is empty.
    InvalidChunkLength,
    /// 5: the body is too long for the ring; it needs its length, and the room is the ring's length less the header's 8 bytes.
    BodyOverflow { needed: u64, room: u64 },
}

impl Violation {
    /// The number, 1 to 5.
    pub fn number(self) -> u64 {
        match self {
            Self::InvalidChunkAnnouncement => 1,
            Self::HeaderOverflow { .. } => 2,
            Self::UnknownHeader => 3,
            Self::InvalidChunkLength => 4,
            Self::BodyOverflow { .. } => 5,
        }
    }

    /// A number that no violation has is taken for 4, as by the library.
    fn of(number: u64, needed: u64, room: u64) -> Self {
        match number {
            1 => Self::InvalidChunkAnnouncement,
            2 => Self::HeaderOverflow { needed, room },
            3 => Self::UnknownHeader,
            5 => Self::BodyOverflow { needed, room },
            _ => Self::InvalidChunkLength,
        }
    }
}

impl fmt::Display for Violation {
    fn fmt(&self, f: &mut fmt::Formatter) -> fmt::Result {
        write!(f, "violation {}: ", self.number())?;
        match *self {
            Self::InvalidChunkAnnouncement => {
                write!(f, "a byte that is not 0 announced a chunk")
            }
            Self::HeaderOverflow { needed, room } => write!(
                f,
                "a chunk's header needs {needed} bytes, and the ring has {room}"
            ),
            Self::UnknownHeader => write!(f, "a chunk's header is of an unknown format"),
            Self::InvalidChunkLength => write!(f, "an empty chunk was announced"),
            Self::BodyOverflow { needed, room } => write!(
                f,
                "a chunk of {needed} bytes was announced, and the ring has room for {room} behind the chunk's header"
            ),
        }
    }
}

/// Why a stream fails.
///
/// A chunk of 57 bytes does not fit into a ring of 64, whose first 8 are the chunk's header:
///
/// ```
/// use stripring::{Answer, Failure, Outcome, Receiver, Scheduler, State, Violation};
///
/// # fn main() -> Result<(), stripring::Refusal> {
/// let mut ring = [0; 64];
/// ring[7] = 57; // the length in the header
/// let mut receiver = Receiver::new(Scheduler::new(64)?);
/// let answers = [Answer::received(0, 0), Answer::done()]; // the announcement, and the shutdown that follows
/// let read = receiver.read_with_fds(&ring, &mut [0; 100], 0, &answers)?;
///
/// let failure = Failure::Violation(Violation::BodyOverflow { needed: 57, room: 56 });
/// assert_eq!(read.outcome, Outcome::Failed(failure));
/// assert_eq!(receiver.state(), State::Terminated(failure));
/// assert_eq!(
///     failure.to_string(),
///     "violation 5: a chunk of 57 bytes was announced, and the ring has room for 56 behind the chunk's header"
/// );
/// # Ok(())
/// # }
/// ```
#[derive(Clone, Copy, Debug, PartialEq, Eq)]
pub enum Failure {
    /// An errno, by its Linux number.
    Errno(u64),
    Violation(Violation),
}

impl Failure {
    /// Nothing has come; try again when the socket is ready.
    pub const WOULDBLOCK: Self = Self::Errno(11);
    /// The stream has come to its end.
    pub const END_OF_STREAM: Self = Self::Errno(32);
}

impl From<abi::Failure> for Failure {
    fn from(f: abi::Failure) -> Self {
        match f.kind {
            0 => Self::Errno(f.value),
            _ => Self::Violation(Violation::of(f.value, f.needed, f.room)),
        }
    }
}

impl fmt::Display for Failure {
    fn fmt(&self, f: &mut fmt::Formatter) -> fmt::Result {
        match *self {
            Self::WOULDBLOCK => write!(f, "errno 11: nothing has come, try again"),
            Self::END_OF_STREAM => write!(f, "errno 32: the stream has come to its end"),
            Self::Errno(errno) => write!(f, "errno {errno}: the socket failed"),
            Self::Violation(violation) => write!(f, "{violation}"),
        }
    }
}

impl std::error::Error for Failure {}

#[derive(Clone, Copy, Debug, PartialEq, Eq)]
pub enum State {
    Normal,
    Draining(Failure),
    Terminated(Failure),
}

impl From<abi::State> for State {
    fn from(s: abi::State) -> Self {
        match s.kind {
            0 => Self::Normal,
            1 => Self::Draining(s.failure.into()),
            _ => Self::Terminated(s.failure.into()),
        }
    }
}
