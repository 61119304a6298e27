//! Stand-ins for what receiver.rs leans on and is not at hand: the rest of its own stream, and the
//! crates that it uses. Where the words of receiver.rs do not force a meaning, it is that of document
//! 01, and so nothing is shown there by a comparison (docs/DIFFERENCES.md lists these).

use crate::overflow::{Violation, overflowed};
use rustix::io::Errno;
use std::cell::Cell;

/// What a stream fails with. Its two cases are those that receiver.rs makes it from. Beside the Rust's
/// violation stands the one of docs/PAPER.md: receiver.rs carries it along and does not look at it.
#[derive(Debug, Clone, Copy, PartialEq, Eq)]
pub enum ShmStreamError {
    Io(Errno),
    Protocol(ShmProtocolViolation, Violation),
}

/// `UnknownHeader` is of docs/PAPER.md alone ("Violations"); receiver.rs names the others.
#[derive(Debug, Clone, Copy, PartialEq, Eq)]
pub enum ShmProtocolViolation {
    InvalidChunkAnnouncement = 1,
    ControlOverflow,
    UnknownHeader,
    InvalidChunkLength,
}

/// What a violation is told from.
#[derive(Clone, Copy, Default)]
struct Announced {
    /// The ring's length.
    ring: u64,
    /// The length that the header says; none before it is read, and none of an unknown format.
    length: Option<u64>,
}

thread_local! {
    /// Of the call that runs: receiver.rs says which violation it is, and nothing else.
    static ANNOUNCED: Cell<Announced> = Cell::default();
}

/// Before a call of receiver.rs, so that nothing of the one before is left.
pub fn announce_to(ring: u64) {
    let length = None;
    ANNOUNCED.set(Announced { ring, length });
}

impl ShmStreamError {
    /// docs/PAPER.md, "Failures": an orderly end of the stream is errno 32.
    pub const SHUTDOWN: Self = Self::Io(Errno::PIPE);

    /// A violation in which nothing overflowed.
    pub fn plain(violation: ShmProtocolViolation) -> Self {
        Self::Protocol(violation, [violation as u64, 0, 0])
    }

    /// A state is to be Normal for WOULDBLOCK and for EAGAIN, and behind this only WOULDBLOCK is
    /// tested: so it makes the one of the other, and on Linux they are one number.
    pub fn normalize(self) -> Self {
        self
    }

    /// docs/PAPER.md, "The reason rule", from a comment beside the call: the end gives way to an
    /// error, and nothing else.
    pub fn advance_failure_towards_error(self, error: Self) -> Self {
        match self == Self::SHUTDOWN {
            true => error,
            false => self,
        }
    }

    /// docs/PAPER.md, "The socket's answers": closed is failure 32. The socket's end is a receive
    /// of no byte.
    pub fn cache_shutdown_as_epipe(
        received: Result<io::fd_stream::ReadWithFdsResult, Errno>,
    ) -> Result<io::fd_stream::ReadWithFdsResult, Errno> {
        match received {
            Ok(result) if result.data_read == 0 => Err(Errno::PIPE),
            other => other,
        }
    }

    /// The comment beside the call: EPIPE becomes a read of no bytes.
    pub fn as_external_read_with_fds_result(
        self,
    ) -> Result<io::fd_stream::ReadWithFdsResult, Self> {
        match self == Self::SHUTDOWN {
            true => Ok(io::fd_stream::ReadWithFdsResult::empty()),
            false => Err(self),
        }
    }
}

/// `Err(E::IO)?` needs it.
impl From<Errno> for ShmStreamError {
    fn from(errno: Errno) -> Self {
        Self::Io(errno)
    }
}

/// `Err(ShmProtocolViolation::ControlOverflow)?` needs it. receiver.rs has no place for a format
/// that is unknown: such a header has the length 0 here, and what comes of that is named for what it
/// was. Nor has it one for the part that overflowed: that is the model's.
impl From<ShmProtocolViolation> for ShmStreamError {
    fn from(violation: ShmProtocolViolation) -> Self {
        use ShmProtocolViolation as V;
        let Announced { ring, length } = ANNOUNCED.get();
        match violation {
            V::InvalidChunkLength if length.is_none() => Self::plain(V::UnknownHeader),
            V::ControlOverflow => {
                let part = overflowed(ring, length.unwrap_or(0));
                Self::Protocol(violation, part.expect("a part without room"))
            }
            _ => Self::plain(violation),
        }
    }
}

pub mod shared {
    use super::{ANNOUNCED, Announced, zerocopy};
    use crate::rosenpass::sched::RingBufferScheduler;

    /// docs/PAPER.md, "The header": 8 bytes, most significant first.
    #[derive(Default)]
    pub struct ChunkHeader([u8; 8]);

    impl ChunkHeader {
        /// docs/PAPER.md, "The header": 2 bits format, 14 bits tag, 48 bits length. A format other
        /// than 0 is unknown, see `ShmStreamError`'s `From`.
        pub fn payload_len(self) -> usize {
            let bits = u64::from_be_bytes(self.0);
            let known = bits >> 62 == 0;
            let length = known.then_some(bits & ((1 << 48) - 1));
            let Announced { ring, .. } = ANNOUNCED.get();
            ANNOUNCED.set(Announced { ring, length });
            length.unwrap_or(0) as usize
        }
    }

    impl zerocopy::IntoBytes for ChunkHeader {
        fn as_mut_bytes(&mut self) -> &mut [u8] {
            &mut self.0
        }
    }
    impl zerocopy::FromBytes for ChunkHeader {}
    impl zerocopy::Immutable for ChunkHeader {}
    impl zerocopy::KnownLayout for ChunkHeader {}

    /// The shared memory, as plain bytes.
    pub struct SharedState {
        pub ring: Vec<u8>,
    }

    impl SharedState {
        /// Its answer is a count of bytes, and the scheduler that is lent to it becomes the stored
        /// one: so it reads what is scheduled for the whole destination, and registers it.
        pub fn read_from_receiver_buffer(
            &self,
            scheduler: &mut RingBufferScheduler,
            destination: &mut [u8],
        ) -> usize {
            let operations = scheduler.schedule_reads(destination.len() as u64);
            let mut n = 0;
            for op in &operations.container()[..] {
                for place in op.off..op.off + op.len.u64() {
                    destination[n] = self.ring[place as usize];
                    n += 1;
                }
            }
            *scheduler = scheduler
                .try_register_operation(&operations)
                .expect("what was scheduled");
            n
        }
    }
}

pub mod io {
    use super::rustix::io::Errno;

    /// docs/PAPER.md, "Interruptions": errno 4 is retried on the spot until the answer is something
    /// else.
    pub fn handle_interrupted<T>(mut ask: impl FnMut() -> Result<T, Errno>) -> Result<T, Errno> {
        loop {
            match ask() {
                Err(Errno::INTR) => {}
                answer => break answer,
            }
        }
    }

    /// The socket's messages come from the scripted socket, whatever the descriptor is.
    pub mod fd_stream {
        use super::super::rustix::{
            io::Errno,
            net::{RecvFlags, SendFlags},
        };
        use crate::scripted_socket::{self, Received};
        use std::os::fd::OwnedFd;

        /// Counts of bytes and of descriptors; by default none, for a chunk in progress.
        #[derive(Default)]
        pub struct ReadWithFdsResult {
            pub data_read: usize,
            pub fds: u64,
        }

        impl ReadWithFdsResult {
            /// The answer to an empty destination.
            pub fn empty() -> Self {
                Self::default()
            }
        }

        pub fn recv_fd_msg(
            _socket: &OwnedFd,
            destination: &mut [u8],
            max_new_fds: usize,
            _flags: RecvFlags,
        ) -> Result<ReadWithFdsResult, Errno> {
            match scripted_socket::receive(max_new_fds as u64)? {
                Received::Byte { byte, fds } => {
                    destination[0] = byte;
                    let data_read = 1;
                    Ok(ReadWithFdsResult { data_read, fds })
                }
                Received::Closed => Ok(ReadWithFdsResult::empty()),
            }
        }

        pub fn send_fd_msg(
            _socket: &OwnedFd,
            source: &[u8],
            _fds: &[OwnedFd],
            _flags: SendFlags,
        ) -> Result<usize, Errno> {
            scripted_socket::send(source.len() as u64).map(|sent| sent as usize)
        }
    }
}

pub mod util_rustix {
    use super::rustix::io::Errno;

    /// Its answer is that of a function to an `io::Result`.
    pub trait IntoStdioErr {
        fn into_stdio_err(self) -> std::io::Error;
    }

    impl IntoStdioErr for Errno {
        fn into_stdio_err(self) -> std::io::Error {
            std::io::Error::from_raw_os_error(self.0 as i32)
        }
    }
}

/// The crate: errnos with the numbers of Linux, and the shutdown of the scripted socket.
pub mod rustix {
    pub mod io {
        #[derive(Debug, Clone, Copy, PartialEq, Eq)]
        pub struct Errno(pub u64);

        impl Errno {
            pub const INTR: Self = Self(4);
            pub const IO: Self = Self(5);
            pub const AGAIN: Self = Self(11);
            pub const WOULDBLOCK: Self = Self(11);
            pub const PIPE: Self = Self(32);
        }
    }

    pub mod net {
        use super::io::Errno;
        use std::os::fd::OwnedFd;

        pub struct RecvFlags;

        impl RecvFlags {
            pub const DONTWAIT: Self = Self;
        }

        pub struct SendFlags;

        impl SendFlags {
            pub const DONTWAIT: Self = Self;
        }

        pub enum Shutdown {
            Both,
        }

        pub fn shutdown(_socket: &OwnedFd, _how: Shutdown) -> Result<(), Errno> {
            crate::scripted_socket::shutdown()
        }
    }
}

/// The crate, as far as `discriminant()` needs it.
pub mod strum {
    pub use derives::EnumDiscriminants;

    pub trait IntoDiscriminant {
        type Discriminant;
        fn discriminant(&self) -> Self::Discriminant;
    }
}

pub mod derive_more {
    pub use derives::{Constructor, From, IsVariant, TryUnwrap};
}

/// The crate, as far as the header's bytes need it.
pub mod zerocopy {
    pub trait IntoBytes {
        fn as_mut_bytes(&mut self) -> &mut [u8];
    }
    pub trait FromBytes {}
    pub trait Immutable {}
    pub trait KnownLayout {}
}

/// The crate, for calls that are not carried over and that nothing calls.
pub mod mio {
    pub struct Interest;
    pub struct Registry;
    pub struct Token;

    pub mod event {
        use super::{Interest, Registry, Token};
        use std::io::Result;

        pub trait Source {
            fn register(&mut self, _: &Registry, _: Token, _: Interest) -> Result<()>;
            fn reregister(&mut self, _: &Registry, _: Token, _: Interest) -> Result<()>;
            fn deregister(&mut self, _: &Registry) -> Result<()>;
        }
    }

    pub mod unix {
        use super::{Interest, Registry, Token, event::Source};
        use std::io::Result;
        use std::os::fd::RawFd;

        pub struct SourceFd<'a>(pub &'a RawFd);

        impl Source for SourceFd<'_> {
            fn register(&mut self, _: &Registry, _: Token, _: Interest) -> Result<()> {
                Ok(())
            }

            fn reregister(&mut self, _: &Registry, _: Token, _: Interest) -> Result<()> {
                Ok(())
            }

            fn deregister(&mut self, _: &Registry) -> Result<()> {
                Ok(())
            }
        }
    }
}
