//! The plain ends: each process has its own, and tells the other how far it is by sending its counter.

use crate::{Camera, Classifier, Result, sys};
use std::io::{ErrorKind, Read, Write};
use std::os::unix::net::UnixStream;
use std::sync::atomic::{Ordering, fence};
use stripring::{ReadCounter, ReadingEnd, WritingEnd, WrittenCounter};

/// The bytes of the ring come before the counter that tells of them.
fn send_counter(mut socket: &UnixStream, counter: u64) -> Result<()> {
    fence(Ordering::Release);
    match socket.write_all(&counter.to_ne_bytes()) {
        Err(e) if e.kind() == ErrorKind::BrokenPipe => Ok(()), // seen when nothing comes back
        sent => Ok(sent?),
    }
}

enum Came {
    Nothing,
    Counter(u64),
    Gone,
}

/// The last counter that has come, since those before it tell nothing more; waits for one if told to. The counter comes
/// before the bytes of the ring that it tells of.
fn receive_counter(mut socket: &UnixStream, wait: bool) -> Result<Came> {
    if !wait && !sys::is_ready(socket, sys::POLLIN, false)? {
        return Ok(Came::Nothing);
    }
    let mut bytes = [0; 512];
    let n = match socket.read(&mut bytes) {
        Err(e) if e.kind() == ErrorKind::ConnectionReset => 0,
        received => received?,
    };
    fence(Ordering::Acquire);
    // A counter is sent, and comes, in one piece.
    Ok(match bytes[..n].last_chunk() {
        Some(counter) => Came::Counter(u64::from_ne_bytes(*counter)),
        None => Came::Gone,
    })
}

/// False if the classifier is gone.
fn take_counter(camera: &Camera, end: &mut WritingEnd, wait: bool) -> Result<bool> {
    match receive_counter(&camera.socket, wait)? {
        Came::Nothing => {}
        Came::Counter(counter) => end.take(ReadCounter(counter))?,
        Came::Gone => return Ok(false),
    }
    Ok(true)
}

/// False if the classifier is gone. Counters are taken before each write, or both sockets fill up with them in the end.
fn wait_for_room(camera: &Camera, end: &mut WritingEnd) -> Result<bool> {
    loop {
        if !take_counter(camera, end, end.space() == 0)? {
            return Ok(false);
        }
        if end.space() > 0 {
            return Ok(true);
        }
    }
}

fn film_strip(camera: &mut Camera, end: &mut WritingEnd, mut strip: &[u8]) -> Result<bool> {
    while !strip.is_empty() {
        if !wait_for_room(camera, end)? {
            return Ok(false);
        }
        let n = end.write(camera.ring.lend_mut(), strip)?;
        let WrittenCounter(counter) = end.send();
        send_counter(&camera.socket, counter)?;
        camera.filmed(n)?;
        strip = &strip[n..];
    }
    Ok(true)
}

pub fn film(camera: &mut Camera) -> Result<()> {
    let mut end = WritingEnd::new(camera.ring_len)?;
    let picture = camera.picture;
    for strip in picture.strips() {
        if !film_strip(camera, &mut end, strip)? {
            return Ok(());
        }
    }
    while end.scheduler().fill() > 0 && take_counter(camera, &mut end, true)? {}
    Ok(())
}

pub fn classify(classifier: &mut Classifier) -> Result<()> {
    let mut end = ReadingEnd::new(classifier.ring_len)?;
    while let Came::Counter(counter) = receive_counter(&classifier.socket, true)? {
        end.take(WrittenCounter(counter))?;
        while end.scheduler().fill() > 0 {
            let n = end.read(classifier.ring.lend(), classifier.copy.next())?;
            classifier.copy.took(n);
        }
        send_counter(&classifier.socket, end.send().0)?;
    }
    Ok(())
}
