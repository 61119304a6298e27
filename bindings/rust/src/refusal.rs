//! Why a call is refused.

use crate::OperationType;
use crate::abi;
use std::fmt;

/// Why a call is refused. It has then changed nothing.
///
/// ```
/// use stripring::{Refusal, Scheduler};
///
/// let refusal = Scheduler::from_counters(10, 11, 0).unwrap_err();
/// assert_eq!(
///     refusal,
///     Refusal::DataAvailOutOfBounds { buf_len: 10, items_written: 11, items_read: 0 }
/// );
/// assert_eq!((refusal.number(), refusal.values()), (5, [10, 11, 0]));
/// assert_eq!(
///     refusal.to_string(),
///     "refused with 5: 11 written and 0 read are more data than the ring's length, 10"
/// );
/// ```
#[derive(Clone, Copy, Debug, PartialEq, Eq)]
pub enum Refusal {
    /// 1: the ring's length is 0.
    ZeroBufferLength,
    /// 2: the ring's length is above 2^63.
    BufferTooLarge { buf_len: u64 },
    /// 3: the written counter is twice the length or more.
    ItemsWrittenOutOfBounds { buf_len: u64, items_written: u64 },
    /// 4: the read counter is twice the length or more.
    ItemsReadOutOfBounds { buf_len: u64, items_read: u64 },
    /// 5: more data than the length.
    DataAvailOutOfBounds {
        buf_len: u64,
        items_written: u64,
        items_read: u64,
    },
    /// 6: a registered length is above the greatest.
    OperationTooLarge {
        op: OperationType,
        len: u64,
        max_len: u64,
    },
    /// 7: the lengths in a list sum above 2^64 - 1.
    OperationTooLong { excess: u64 },
    /// 8: the types in a list differ.
    InconsistentOperationType,
    /// 9: the lent ring is not as long as the ring.
    RingMemory,
    /// 10: a taken counter ran back.
    RanBack,
    /// 11: the call needs one more answer of the socket.
    AnswerMissing,
    /// 12: a stored errno is not 1 to 4095 (place 0), or the answer at this place, from 1, is one that it cannot have.
    Misfit { place: u64 },
    /// 13: 2^64 - 1 acknowledgements are pending.
    PendingFull,
    /// 14: an image has not 1 to 65535 rows, or they have not 1 to 2^20 bytes.
    SizeOutOfBounds { rows: u64, row_bytes: u64 },
    /// 15: no plan exists, since one row and its header do not fit into the ring.
    NoPlan { row_bytes: u64, buf_len: u64 },
    /// 16: the run of this index, from 0, is empty.
    EmptyRun { run: u64 },
    /// 17: the run of this index does not begin where the one before ended, or ends past the last row.
    RunOutOfPlace { run: u64 },
    /// 18: the run of this index and its header do not fit into the ring.
    RunTooLong { run: u64 },
    /// 19: the runs reach this row, from 0, and not the end.
    RowsLeft { reached: u64 },
    /// 20: the fill that a record holds is wrong.
    HeldFillWrong,
    /// 39: a lent plan has fewer runs than it needs.
    PlanTooShort { needed: u64, lent: u64 },
}

/// The value of an answer that may be refused.
pub(crate) fn accepted<T>(refusal: abi::Refusal, value: T) -> Result<T, Refusal> {
    match refusal.number {
        0 => Ok(value),
        _ => Err(refusal.into()),
    }
}

/// The value of an answer to a record that was tested before: that it is not refused is proved.
pub(crate) fn sound<T>(refusal: abi::Refusal, value: T) -> T {
    accepted(refusal, value).expect("a sound record")
}

impl From<abi::Refusal> for Refusal {
    fn from(refusal: abi::Refusal) -> Self {
        let abi::Refusal { number, a, b, c } = refusal;
        match number {
            1 => Self::ZeroBufferLength,
            2 => Self::BufferTooLarge { buf_len: a },
            3 => Self::ItemsWrittenOutOfBounds {
                buf_len: a,
                items_written: b,
            },
            4 => Self::ItemsReadOutOfBounds {
                buf_len: a,
                items_read: b,
            },
            5 => Self::DataAvailOutOfBounds {
                buf_len: a,
                items_written: b,
                items_read: c,
            },
            6 => Self::OperationTooLarge {
                op: OperationType::of(a),
                len: b,
                max_len: c,
            },
            7 => Self::OperationTooLong { excess: a },
            8 => Self::InconsistentOperationType,
            9 => Self::RingMemory,
            10 => Self::RanBack,
            11 => Self::AnswerMissing,
            12 => Self::Misfit { place: a },
            13 => Self::PendingFull,
            14 => Self::SizeOutOfBounds {
                rows: a,
                row_bytes: b,
            },
            15 => Self::NoPlan {
                row_bytes: a,
                buf_len: b,
            },
            16 => Self::EmptyRun { run: a },
            17 => Self::RunOutOfPlace { run: a },
            18 => Self::RunTooLong { run: a },
            19 => Self::RowsLeft { reached: a },
            20 => Self::HeldFillWrong,
            39 => Self::PlanTooShort { needed: a, lent: b },
            _ => unreachable!("the library refuses with 1 to 20 and 39, not {number}"),
        }
    }
}

impl Refusal {
    /// The number, 1 to 20 or 39.
    pub fn number(self) -> u64 {
        self.flat().number
    }

    /// The values of the number; those that it lacks are 0.
    pub fn values(self) -> [u64; 3] {
        let abi::Refusal { a, b, c, .. } = self.flat();
        [a, b, c]
    }

    fn flat(self) -> abi::Refusal {
        let (number, a, b, c) = match self {
            Self::ZeroBufferLength => (1, 0, 0, 0),
            Self::BufferTooLarge { buf_len } => (2, buf_len, 0, 0),
            Self::ItemsWrittenOutOfBounds {
                buf_len,
                items_written,
            } => (3, buf_len, items_written, 0),
            Self::ItemsReadOutOfBounds {
                buf_len,
                items_read,
            } => (4, buf_len, items_read, 0),
            Self::DataAvailOutOfBounds {
                buf_len,
                items_written,
                items_read,
            } => (5, buf_len, items_written, items_read),
            Self::OperationTooLarge { op, len, max_len } => (6, op.number(), len, max_len),
            Self::OperationTooLong { excess } => (7, excess, 0, 0),
            Self::InconsistentOperationType => (8, 0, 0, 0),
            Self::RingMemory => (9, 0, 0, 0),
            Self::RanBack => (10, 0, 0, 0),
            Self::AnswerMissing => (11, 0, 0, 0),
            Self::Misfit { place } => (12, place, 0, 0),
            Self::PendingFull => (13, 0, 0, 0),
            Self::SizeOutOfBounds { rows, row_bytes } => (14, rows, row_bytes, 0),
            Self::NoPlan { row_bytes, buf_len } => (15, row_bytes, buf_len, 0),
            Self::EmptyRun { run } => (16, run, 0, 0),
            Self::RunOutOfPlace { run } => (17, run, 0, 0),
            Self::RunTooLong { run } => (18, run, 0, 0),
            Self::RowsLeft { reached } => (19, reached, 0, 0),
            Self::HeldFillWrong => (20, 0, 0, 0),
            Self::PlanTooShort { needed, lent } => (39, needed, lent, 0),
        };
        abi::Refusal { number, a, b, c }
    }
}

impl fmt::Display for Refusal {
    fn fmt(&self, f: &mut fmt::Formatter) -> fmt::Result {
        write!(f, "refused with {}: ", self.number())?;
        match *self {
            Self::ZeroBufferLength => write!(f, "the ring's length is 0"),
            Self::BufferTooLarge { buf_len } => {
                write!(f, "the ring's length, {buf_len}, is above 2^63")
            }
            Self::ItemsWrittenOutOfBounds {
                buf_len,
                items_written,
            } => write!(
                f,
                "the written counter, {items_written}, is not below twice the ring's length, {buf_len}"
            ),
            Self::ItemsReadOutOfBounds {
                buf_len,
                items_read,
            } => write!(
                f,
                "the read counter, {items_read}, is not below twice the ring's length, {buf_len}"
            ),
            Self::DataAvailOutOfBounds {
                buf_len,
                items_written,
                items_read,
            } => write!(
                f,
                "{items_written} written and {items_read} read are more data than the ring's length, {buf_len}"
            ),
            Self::OperationTooLarge { op, len, max_len } => {
                write!(f, "a {op} of {len} bytes, and at most {max_len} can be")
            }
            Self::OperationTooLong { excess } => {
                write!(f, "the lengths in a list sum {excess} above 2^64 - 1")
            }
            Self::InconsistentOperationType => write!(f, "a list has reads and writes"),
            Self::RingMemory => write!(f, "the lent ring is not as long as the ring"),
            Self::RanBack => write!(f, "a taken counter ran back"),
            Self::AnswerMissing => write!(f, "one more answer of the socket is needed"),
            Self::Misfit { place: 0 } => write!(f, "a stored errno is not 1 to 4095"),
            Self::Misfit { place } => {
                write!(
                    f,
                    "the socket's answer {place} is one that its place cannot have"
                )
            }
            Self::PendingFull => write!(f, "2^64 - 1 acknowledgements are pending"),
            Self::SizeOutOfBounds { rows, row_bytes } => write!(
                f,
                "{rows} rows of {row_bytes} bytes are not 1 to 65535 rows of 1 to 2^20 bytes"
            ),
            Self::NoPlan { row_bytes, buf_len } => write!(
                f,
                "no plan exists: a row of {row_bytes} bytes and its header do not fit into a ring of {buf_len}"
            ),
            Self::EmptyRun { run } => write!(f, "run {run} is empty"),
            Self::RunOutOfPlace { run } => write!(
                f,
                "run {run} does not begin where the one before ended, or ends past the last row"
            ),
            Self::RunTooLong { run } => {
                write!(f, "run {run} and its header do not fit into the ring")
            }
            Self::RowsLeft { reached } => {
                write!(f, "the runs reach row {reached} and not the end")
            }
            Self::HeldFillWrong => write!(f, "the fill that a record holds is wrong"),
            Self::PlanTooShort { needed, lent } => {
                write!(f, "a plan needs {needed} runs, and {lent} were lent")
            }
        }
    }
}

impl std::error::Error for Refusal {}
