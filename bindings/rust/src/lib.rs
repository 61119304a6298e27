//! Rings in shared memory that are proved right: a safe face of the static library `libstripring.a`.
//!
//! The library's calls are proved to meet their contracts; these declarations and what stands above them are not. The
//! environment variable `STRIPRING_LIB_DIR` names the directory of the library to the build.
//!
//! A ring is plain bytes that the caller lends to each call, here an array:
//!
//! ```
//! use stripring::{ReadingEnd, WritingEnd};
//!
//! # fn main() -> Result<(), stripring::Refusal> {
//! let mut ring = [0; 10];
//! let mut camera = WritingEnd::new(10)?;
//! let mut classifier = ReadingEnd::new(10)?;
//!
//! assert_eq!(camera.write(&mut ring, b"first strip")?, 10); // the ring is full
//! classifier.take(camera.send())?;
//! let mut strip = [0; 16];
//! assert_eq!(classifier.read(&ring, &mut strip)?, 10);
//! assert_eq!(&strip[..10], b"first stri");
//!
//! camera.take(classifier.send())?; // there is room again
//! assert_eq!(camera.write(&mut ring, b"p")?, 1);
//! # Ok(())
//! # }
//! ```
//!
//! # Between two processes
//!
//! The order of stores stays with the host: `std::sync::atomic::fence(Release)` between a copy and the counter or
//! announcement that it sends, `fence(Acquire)` between one that it receives and the copy. The example `strips` does so.
//!
//! Rust knows no memory that another process changes. Make the slice of a shared ring for one call at a time, look at its
//! bytes by these calls alone, and see that both processes go by their counters: then no byte is read and written at once.

#![deny(unsafe_code)]

#[allow(unsafe_code)]
pub mod abi;
mod ends;
mod failure;
pub mod planner;
mod receiver;
mod refusal;
mod scheduler;

pub use ends::{ReadCounter, ReadingEnd, WritingEnd, WrittenCounter};
pub use failure::{Failure, State, Violation};
pub use receiver::{Answer, Call, Ended, Outcome, Receiver, Wait};
pub use refusal::Refusal;
pub use scheduler::{OperationType, Places, Portion, Scheduler};
