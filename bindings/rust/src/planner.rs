//! How an image is cut into strips for a ring: a plan with the fewest strips, and a check of a plan from anywhere.
//!
//! A strip is a run of rows that is sent as one chunk, so its rows and the chunk's header of 8 bytes take at most the ring's
//! length. A plan is the runs of a whole image, in order.
//!
//! ```
//! use stripring::planner::{self, Run};
//!
//! # fn main() -> Result<(), stripring::Refusal> {
//! // 10 rows of 4 bytes, for a ring of 20: three rows and the header take all of it.
//! let plan = planner::propose(10, 4, 20)?;
//! let run = |first, count| Run { first, count };
//! assert_eq!(plan, [run(0, 3), run(3, 3), run(6, 3), run(9, 1)]);
//!
//! // A plan that somebody else made, and one that is none.
//! planner::check(10, 4, 20, &[run(0, 1), run(1, 3), run(4, 3), run(7, 3)])?;
//! let refusal = planner::check(10, 4, 20, &[run(0, 3), run(4, 3)]).unwrap_err();
//! assert_eq!((refusal.number(), refusal.values()), (17, [1, 0, 0]));
//! # Ok(())
//! # }
//! ```

use crate::abi;
use crate::refusal::{Refusal, accepted};

pub use crate::abi::Run;

/// A plan in three numbers. One strip alone is the first and the last.
#[derive(Clone, Copy, Debug, PartialEq, Eq)]
pub struct Strips {
    /// How many there are.
    pub count: u64,
    /// The rows of each but the last.
    pub height: u64,
    /// The rows of the last.
    pub last: u64,
}

/// What [`propose`] plans, in three numbers.
pub fn outline(rows: u64, row_bytes: u64, buf_len: u64) -> Result<Strips, Refusal> {
    let a = abi::stripring_planner_outline(rows, row_bytes, buf_len);
    let strips = Strips {
        count: a.count,
        height: a.height,
        last: a.last,
    };
    accepted(a.refusal, strips)
}

/// The plan with the fewest strips, every one but the last as tall as fits. Where there is none the sizes are refused, or one
/// row does not fit into the ring.
pub fn propose(rows: u64, row_bytes: u64, buf_len: u64) -> Result<Vec<Run>, Refusal> {
    let strips = outline(rows, row_bytes, buf_len)?;
    let mut plan = vec![Run::default(); strips.count as usize];
    let a = abi::planner_propose(rows, row_bytes, buf_len, &mut plan);
    accepted(a.refusal, plan)
}

/// Accepts a plan exactly when no run is empty, the first begins at row 0, each other where the one before ended, the last ends
/// at the last row, and each fits into the ring with its header. Else the first bad run is named.
pub fn check(rows: u64, row_bytes: u64, buf_len: u64, plan: &[Run]) -> Result<(), Refusal> {
    accepted(abi::planner_check(rows, row_bytes, buf_len, plan), ())
}
