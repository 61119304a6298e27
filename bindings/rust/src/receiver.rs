//! The receiver of a stream of announced chunks, over a socket that stays with the host.

pub use crate::abi::Answer;

use crate::abi;
use crate::failure::{Failure, State};
use crate::refusal::{Refusal, accepted, sound};
use crate::scheduler::Scheduler;
use std::io;

/// What a call comes to that is not refused.
#[derive(Clone, Copy, Debug, PartialEq, Eq)]
pub enum Outcome {
    /// So many bytes were read, and so many descriptors came with them.
    Read {
        n: usize,
        fds: u64,
    },
    /// Acknowledgements were sent, or the socket shut down.
    Done,
    Failed(Failure),
}

impl From<abi::Outcome> for Outcome {
    fn from(o: abi::Outcome) -> Self {
        match o.kind {
            0 => Self::Read {
                n: o.n as usize,
                fds: o.fds,
            },
            1 => Self::Done,
            _ => Self::Failed(o.failure.into()),
        }
    }
}

/// What the socket answered.
impl Answer {
    /// To a receive: a byte, and so many descriptors.
    pub fn received(byte: u8, descriptors: u64) -> Self {
        Self {
            kind: 0,
            value: byte.into(),
            descriptors,
        }
    }

    /// To a receive: the other side has closed.
    pub fn closed() -> Self {
        Self {
            kind: 1,
            ..Self::default()
        }
    }

    /// To anything: this errno, 1 to 4095.
    pub fn failed(errno: u64) -> Self {
        Self {
            kind: 2,
            value: errno,
            descriptors: 0,
        }
    }

    /// To a send: so many bytes.
    pub fn sent(n: u64) -> Self {
        Self {
            kind: 3,
            value: n,
            descriptors: 0,
        }
    }

    /// To a shutdown: it succeeded.
    pub fn done() -> Self {
        Self {
            kind: 4,
            ..Self::default()
        }
    }
}

impl From<io::Error> for Answer {
    /// An error that the system did not number is errno 5.
    fn from(e: io::Error) -> Self {
        Self::failed(e.raw_os_error().map_or(5, |errno| errno as u64))
    }
}

/// What a call waits for.
#[derive(Clone, Copy, Debug, PartialEq, Eq)]
pub enum Wait {
    /// Receive one byte, with at most so many descriptors.
    Receive { max_new_fds: u64 },
    /// Send so many acknowledgements, a byte each.
    Send { batch: usize },
    /// Shut the socket down.
    Shutdown,
}

/// What a call over a run of answers came to, and how many of them it used.
#[derive(Clone, Copy, Debug, PartialEq, Eq)]
pub struct Ended {
    pub outcome: Outcome,
    pub used: usize,
}

/// Receives chunks: the other process writes a header of 8 bytes and a body into the ring and sends a byte 0; a chunk that
/// was read to its end is acknowledged by a byte that goes back. The socket stays with the host, in one of two ways.
///
/// A call in progress tells what it waits for; the host does it and hands in the answer, until the call is over:
///
/// ```
/// use stripring::{Answer, Outcome, Receiver, Scheduler, Wait};
///
/// # fn main() -> Result<(), stripring::Refusal> {
/// let ring = b"\0\0\0\0\0\0\0\x05strip___"; // a header with the length 5, and the body
/// let mut receiver = Receiver::new(Scheduler::new(16)?);
/// let mut bytes = [0; 100];
///
/// let mut call = receiver.begin_read(ring, &mut bytes, 0)?;
/// while let Some(wait) = call.waits_for() {
///     let answer = match wait {
///         Wait::Receive { .. } => Answer::received(0, 0),
///         Wait::Send { batch } => Answer::sent(batch as u64),
///         Wait::Shutdown => Answer::done(),
///     };
///     call.answered(ring, answer)?;
/// }
/// assert_eq!(call.end()?, Outcome::Read { n: 5, fds: 0 });
/// assert_eq!(&bytes[..5], b"strip");
/// # Ok(())
/// # }
/// ```
///
/// Or the host hands in a run of answers at once:
///
/// ```
/// use stripring::{Answer, Ended, Outcome, Receiver, Refusal, Scheduler};
///
/// # fn main() -> Result<(), Refusal> {
/// let ring = b"\0\0\0\0\0\0\0\x05strip___";
/// let mut receiver = Receiver::new(Scheduler::new(16)?);
/// let mut bytes = [0; 100];
///
/// let answers = [Answer::received(0, 0), Answer::failed(4), Answer::sent(1)]; // the send is interrupted once
/// let read = receiver.read_with_fds(ring, &mut bytes, 0, &answers[..1]);
/// assert_eq!(read, Err(Refusal::AnswerMissing)); // it has changed nothing
/// let read = receiver.read_with_fds(ring, &mut bytes, 0, &answers);
/// assert_eq!(read, Ok(Ended { outcome: Outcome::Read { n: 5, fds: 0 }, used: 3 }));
/// # Ok(())
/// # }
/// ```
///
/// It is the one owner of its counters and of the acknowledgements that are pending, and neither `Copy` nor `Clone`: two would
/// acknowledge a chunk twice.
///
/// ```compile_fail,E0599
/// let receiver = stripring::Receiver::new(stripring::Scheduler::new(16).unwrap());
/// let other = receiver.clone();
/// ```
///
/// ```compile_fail,E0382
/// let receiver = stripring::Receiver::new(stripring::Scheduler::new(16).unwrap());
/// let other = receiver;
/// receiver.state(); // `receiver` is moved
/// ```
#[derive(Debug, PartialEq, Eq)]
pub struct Receiver(abi::Receiver);

impl Receiver {
    /// A receiver that goes on from this scheduler.
    pub fn new(s: Scheduler) -> Self {
        let a = abi::stripring_receiver_new(s.0);
        sound(a.refusal, Self(a.receiver))
    }

    /// How many bytes of a chunk are not read yet.
    pub fn data(&self) -> u64 {
        Scheduler(self.0.scheduler).data_avail()
    }

    pub fn state(&self) -> State {
        self.0.state.into()
    }

    /// Acknowledgements that are not sent yet.
    pub fn pending_acknowledgements(&self) -> u64 {
        self.0.pending_ack_count
    }

    /// Begins a read into `dst` that takes at most so many descriptors. It comes to [`Failure::END_OF_STREAM`] at the end.
    /// Of the ring the length is tested here; its bytes are copied here where a part of a chunk is still to be read. Refused
    /// with [`Refusal::RingMemory`] and [`Refusal::PendingFull`].
    pub fn begin_read<'a>(
        &'a mut self,
        ring: &[u8],
        dst: &'a mut [u8],
        max_new_fds: u64,
    ) -> Result<Call<'a>, Refusal> {
        let (ring_len, dst_len) = (ring.len(), dst.len() as u64);
        let step = abi::stripring_call_begin_read(self.0, ring_len, max_new_fds, dst_len);
        let mut call = Call::begun(self, dst, step)?;
        call.copy_in_time(ring);
        Ok(call)
    }

    /// Begins to send the pending acknowledgements. The record is tested anew, as by every call; a receiver's own passes.
    pub fn begin_service(&mut self) -> Result<Call<'_>, Refusal> {
        let step = abi::stripring_call_begin_service(self.0);
        Call::begun(self, &mut [], step)
    }

    /// Begins to drain, and to shut the socket down. The record is tested anew, as by every call; a receiver's own passes.
    pub fn begin_shutdown(&mut self) -> Result<Call<'_>, Refusal> {
        let step = abi::stripring_call_begin_shutdown(self.0);
        Call::begun(self, &mut [], step)
    }

    /// Reads into the first bytes of `dst`. The end of the stream is a read of 0 bytes.
    pub fn read_with_fds(
        &mut self,
        ring: &[u8],
        dst: &mut [u8],
        max_new_fds: u64,
        answers: &[Answer],
    ) -> Result<Ended, Refusal> {
        let a = abi::receiver_read_with_fds(self.0, ring, dst, max_new_fds, answers);
        self.ended(a)
    }

    /// The same, but the end of the stream is [`Failure::END_OF_STREAM`].
    pub fn read_with_fds_impl(
        &mut self,
        ring: &[u8],
        dst: &mut [u8],
        max_new_fds: u64,
        answers: &[Answer],
    ) -> Result<Ended, Refusal> {
        let a = abi::receiver_read_with_fds_impl(self.0, ring, dst, max_new_fds, answers);
        self.ended(a)
    }

    /// Sends the pending acknowledgements.
    pub fn service_chunk_acknowledgements(&mut self, answers: &[Answer]) -> Result<Ended, Refusal> {
        let a = abi::receiver_service_chunk_acknowledgements(self.0, answers);
        self.ended(a)
    }

    /// Drains, and shuts the socket down unless that was done.
    ///
    /// ```
    /// use stripring::{Answer, Failure, Outcome, Receiver, Scheduler, State};
    ///
    /// # fn main() -> Result<(), stripring::Refusal> {
    /// let mut receiver = Receiver::new(Scheduler::new(16)?);
    /// let first = receiver.shutdown(&[Answer::done()])?;
    /// assert_eq!((first.outcome, first.used), (Outcome::Done, 1));
    /// assert_eq!(receiver.state(), State::Draining(Failure::END_OF_STREAM));
    /// assert_eq!(receiver.shutdown(&[Answer::done()])?.used, 0);
    /// # Ok(())
    /// # }
    /// ```
    pub fn shutdown(&mut self, answers: &[Answer]) -> Result<Ended, Refusal> {
        let a = abi::receiver_shutdown(self.0, answers);
        self.ended(a)
    }

    fn ended(&mut self, a: abi::EndedAnswer) -> Result<Ended, Refusal> {
        self.0 = accepted(a.refusal, a.receiver)?;
        Ok(Ended {
            outcome: a.outcome.into(),
            used: a.used as usize,
        })
    }
}

/// A call in progress. The receiver has the record so far after each step: a call may be dropped at any time, finished or
/// not, and what it has received, sent and shut down by then stays counted.
///
/// ```
/// use stripring::{Answer, Receiver, Refusal, Scheduler, Wait};
///
/// # fn main() -> Result<(), stripring::Refusal> {
/// let ring = b"\0\0\0\0\0\0\0\x01s"; // whole chunks of one byte, each at the ring's start
/// let mut receiver = Receiver::new(Scheduler::new(9)?);
/// for _ in 0..3 {
///     receiver.read_with_fds(ring, &mut [0], 0, &[Answer::received(0, 0), Answer::failed(11)])?; // no room to send
/// }
/// let mut call = receiver.begin_service()?;
/// assert_eq!(call.answered(&[], Answer::sent(4)), Err(Refusal::Misfit { place: 1 })); // 3 are pending
/// assert_eq!(call.waits_for(), Some(Wait::Send { batch: 3 })); // it has changed nothing
/// call.answered(&[], Answer::sent(2))?;
/// drop(call);
/// assert_eq!(receiver.pending_acknowledgements(), 1);
/// # Ok(())
/// # }
/// ```
#[derive(Debug)]
#[must_use = "a call goes on by the answers that it is handed"]
pub struct Call<'a> {
    receiver: &'a mut Receiver,
    dst: &'a mut [u8],
    call: abi::Call,
    copied: usize,
    answers: u64,
}

impl<'a> Call<'a> {
    fn begun(
        receiver: &'a mut Receiver,
        dst: &'a mut [u8],
        step: abi::StepAnswer,
    ) -> Result<Self, Refusal> {
        let call = accepted(step.refusal, step.call)?;
        receiver.0 = call.receiver;
        Ok(Self {
            receiver,
            dst,
            call,
            copied: 0,
            answers: 0,
        })
    }

    /// What the host is to do next; nothing if the call is finished.
    pub fn waits_for(&self) -> Option<Wait> {
        let phase = &self.call.phase;
        match phase.kind {
            0 => Some(Wait::Receive {
                max_new_fds: phase.max_new_fds,
            }),
            1 => Some(Wait::Send {
                batch: phase.batch as usize,
            }),
            2 => Some(Wait::Shutdown),
            _ => None,
        }
    }

    /// Hands in what the socket answered. The ring is looked at, its length too, where a byte was received and only there:
    /// else an empty one does. Refused with [`Refusal::RingMemory`] there, and with [`Refusal::Misfit`] for an answer that
    /// is none to what the call waits for. A refused answer changes nothing and is not counted: the call still waits.
    pub fn answered(&mut self, ring: &[u8], answer: Answer) -> Result<(), Refusal> {
        let place = self.answers + 1;
        let step = abi::call_answered(self.call, ring, answer, place);
        self.call = accepted(step.refusal, step.call)?;
        self.receiver.0 = self.call.receiver;
        self.answers = place;
        self.copy_in_time(ring);
        Ok(())
    }

    /// How many bytes of a read are in the destination by now: all of them before the first send.
    pub fn copied(&self) -> usize {
        self.copied
    }

    /// What the call came to. One that still waits is refused with [`Refusal::AnswerMissing`], and dropped.
    pub fn end(self) -> Result<Outcome, Refusal> {
        match self.waits_for() {
            Some(_) => Err(Refusal::AnswerMissing),
            None => Ok(self.call.phase.outcome.into()),
        }
    }

    /// Copies the bytes of a read as soon as it has any: an acknowledgement allows the other process to overwrite them.
    fn copy_in_time(&mut self, ring: &[u8]) {
        let outcome = match self.call.phase.kind {
            0 | 2 => return,
            1 => self.call.phase.ending.outcome,
            _ => self.call.phase.outcome,
        };
        if let Outcome::Read { n, .. } = outcome.into()
            && self.copied < n
        {
            let a = abi::copies_read(self.call.source, ring, &mut self.dst[..n]);
            sound(a.refusal, ());
            self.copied = n;
        }
    }
}
