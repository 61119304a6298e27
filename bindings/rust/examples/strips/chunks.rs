//! Announced chunks. The camera writes a header of 8 bytes and a body, and sends a byte 0; the classifier reads by the
//! receiver, whose calls tell what to do on the socket, and each chunk that was read to its end is acknowledged by a byte.

use crate::sys::{self, Shared};
use crate::{Camera, Classifier, Result};
use std::collections::VecDeque;
use std::io::{self, ErrorKind, Read, Write};
use std::net::Shutdown;
use std::os::unix::net::UnixStream;
use std::sync::atomic::{Ordering, fence};
use stripring::{Answer, Call, Failure, OperationType, Outcome, Receiver, Scheduler, Wait};

pub const HEADER_LEN: usize = 8;
const MAX_BATCH: usize = 128;

/// What is in the ring: the camera's own counters, and the lengths of the chunks that are not acknowledged, oldest first.
struct Outstanding {
    scheduler: Scheduler,
    lens: VecDeque<u64>,
}

impl Outstanding {
    /// The oldest chunk's bytes are free again.
    fn acknowledged(&mut self) -> Result<()> {
        let len = self
            .lens
            .pop_front()
            .ok_or("an acknowledgement of nothing")?;
        Ok(self.scheduler.register(OperationType::Read, len)?)
    }

    /// The classifier has done with the bytes before the acknowledgement that frees them. False if it is gone.
    fn wait_for_acknowledgements(&mut self, mut socket: &UnixStream) -> Result<bool> {
        let n = match socket.read(&mut [0; MAX_BATCH]) {
            Err(e) if e.kind() == ErrorKind::ConnectionReset => 0,
            received => received?,
        };
        fence(Ordering::Acquire);
        for _ in 0..n {
            self.acknowledged()?;
        }
        Ok(n > 0)
    }

    /// False if the classifier is gone.
    fn wait_for_space(&mut self, socket: &UnixStream, len: usize) -> Result<bool> {
        while self.scheduler.space_avail() < len as u64 {
            if !self.wait_for_acknowledgements(socket)? {
                return Ok(false);
            }
        }
        Ok(true)
    }
}

/// 2 bits format, which is 0; 14 bits tag; 48 bits length; most significant byte first.
fn header(tag: usize, len: usize) -> [u8; HEADER_LEN] {
    ((tag as u64 % (1 << 14)) << 48 | len as u64).to_be_bytes()
}

/// The bytes of the ring come before the byte that announces them.
fn announce(mut socket: &UnixStream) -> Result<()> {
    fence(Ordering::Release);
    match socket.write_all(&[0]) {
        Err(e) if e.kind() == ErrorKind::BrokenPipe => Ok(()), // seen when nothing comes back
        sent => Ok(sent?),
    }
}

/// False if the classifier is gone.
fn film_chunk(camera: &mut Camera, o: &mut Outstanding, tag: usize, body: &[u8]) -> Result<bool> {
    let len = HEADER_LEN + body.len();
    if !o.wait_for_space(&camera.socket, len)? {
        return Ok(false);
    }
    o.scheduler
        .write(camera.ring.lend_mut(), &header(tag, body.len()))?;
    o.scheduler.write(camera.ring.lend_mut(), body)?;
    o.lens.push_back(len as u64);
    announce(&camera.socket)?;
    camera.filmed(body.len())?;
    Ok(true)
}

/// The longest body that the ring has room for.
fn longest(camera: &Camera) -> usize {
    camera.ring_len as usize - HEADER_LEN
}

/// A strip that is longer than the ring has room for goes in several chunks.
fn film_strip(camera: &mut Camera, o: &mut Outstanding, tag: usize, strip: &[u8]) -> Result<bool> {
    for body in strip.chunks(longest(camera)) {
        if !film_chunk(camera, o, tag, body)? {
            return Ok(false);
        }
    }
    Ok(true)
}

/// The header alone of a chunk with one byte more than the ring has room for. Nobody acknowledges it: the camera waits for that
/// until the classifier has shut the socket down. It sends nothing more, so nothing finds the socket shut (EPIPE) or lies
/// unread in it when it is closed (ECONNRESET).
fn film_too_long(camera: &mut Camera, o: &mut Outstanding, tag: usize) -> Result<bool> {
    if !o.wait_for_space(&camera.socket, HEADER_LEN)? {
        return Ok(false);
    }
    let header = header(tag, longest(camera) + 1);
    o.scheduler.write(camera.ring.lend_mut(), &header)?;
    o.lens.push_back(HEADER_LEN as u64);
    announce(&camera.socket)?;
    Ok(true)
}

/// All strips; or the first half, and then a chunk that is too long.
fn film_strips(camera: &mut Camera, o: &mut Outstanding) -> Result<bool> {
    let picture = camera.picture;
    let count = picture.strips().count() / if camera.too_long { 2 } else { 1 };
    for (tag, strip) in picture.strips().take(count).enumerate() {
        if !film_strip(camera, o, tag, strip)? {
            return Ok(false);
        }
    }
    match camera.too_long {
        true => film_too_long(camera, o, count),
        false => Ok(true),
    }
}

pub fn film(camera: &mut Camera) -> Result<()> {
    let mut o = Outstanding {
        scheduler: Scheduler::new(camera.ring_len)?,
        lens: VecDeque::new(),
    };
    let mut there = film_strips(camera, &mut o)?;
    while there && !o.lens.is_empty() {
        there = o.wait_for_acknowledgements(&camera.socket)?;
    }
    Ok(())
}

/// The announcement comes before the bytes that it tells of.
fn receive(mut socket: &UnixStream) -> io::Result<Answer> {
    let mut byte = [0];
    let n = socket.read(&mut byte)?;
    fence(Ordering::Acquire);
    Ok(match n {
        0 => Answer::closed(),
        _ => Answer::received(byte[0], 0),
    })
}

/// The bytes are read before the acknowledgements that free them.
fn acknowledge(mut socket: &UnixStream, batch: usize) -> io::Result<Answer> {
    fence(Ordering::Release);
    Ok(Answer::sent(socket.write(&[0; MAX_BATCH][..batch])? as u64))
}

fn do_what_it_waits_for(socket: &UnixStream, wait: Wait) -> io::Result<Answer> {
    match wait {
        Wait::Receive { .. } => receive(socket),
        Wait::Send { batch } => acknowledge(socket, batch),
        Wait::Shutdown => socket.shutdown(Shutdown::Both).map(|()| Answer::done()),
    }
}

/// Drives a call to its end.
fn drive(mut call: Call, ring: &Shared, socket: &UnixStream) -> Result<Outcome> {
    while let Some(wait) = call.waits_for() {
        let answer = do_what_it_waits_for(socket, wait).unwrap_or_else(Answer::from);
        call.answered(ring.lend(), answer)?;
    }
    Ok(call.end()?)
}

fn read(classifier: &mut Classifier, receiver: &mut Receiver) -> Result<Outcome> {
    let Classifier {
        ring, socket, copy, ..
    } = classifier;
    let call = receiver.begin_read(ring.lend(), copy.next(), 0)?;
    drive(call, ring, socket)
}

/// Waits for an announcement, and for room on the socket if acknowledgements are left, which are then sent: the camera may
/// announce nothing more before it has them.
fn wait_for_socket(classifier: &Classifier, receiver: &mut Receiver) -> Result<()> {
    let Classifier { ring, socket, .. } = classifier;
    if receiver.pending_acknowledgements() == 0 {
        sys::is_ready(socket, sys::POLLIN, true)?;
        return Ok(());
    }
    sys::is_ready(socket, sys::POLLIN | sys::POLLOUT, true)?;
    drive(receiver.begin_service()?, ring, socket)?;
    Ok(())
}

pub fn classify(classifier: &mut Classifier) -> Result<()> {
    let mut receiver = Receiver::new(Scheduler::new(classifier.ring_len)?);
    classifier.socket.set_nonblocking(true)?;
    loop {
        match read(classifier, &mut receiver)? {
            Outcome::Read { n, .. } => classifier.copy.took(n),
            Outcome::Failed(Failure::WOULDBLOCK) => wait_for_socket(classifier, &mut receiver)?,
            Outcome::Failed(Failure::END_OF_STREAM) => return Ok(()),
            Outcome::Failed(failure) => return Err(failure.into()),
            Outcome::Done => unreachable!("a read reads or fails"),
        }
    }
}
