//! What the standard library lacks: memory that two processes share, a fork, and waiting for a socket.

use std::ffi::{CStr, c_char, c_int, c_long, c_short, c_uint, c_void};
use std::fs::File;
use std::io;
use std::os::fd::{AsRawFd, FromRawFd};
use std::os::unix::net::UnixStream;
use std::os::unix::process::ExitStatusExt;
use std::process::ExitStatus;
use std::ptr;
use std::sync::atomic::AtomicUsize;

#[repr(C)]
struct PollFd {
    fd: c_int,
    events: c_short,
    revents: c_short,
}

pub const POLLIN: c_short = 1;
pub const POLLOUT: c_short = 4;
const PROT_READ_WRITE: c_int = 1 | 2;
const MAP_SHARED: c_int = 1;
const SIGKILL: c_int = 9;

unsafe extern "C" {
    fn memfd_create(name: *const c_char, flags: c_uint) -> c_int;
    fn mmap(
        at: *mut c_void,
        len: usize,
        prot: c_int,
        flags: c_int,
        fd: c_int,
        offset: c_long,
    ) -> *mut c_void;
    fn poll(fds: *mut PollFd, count: usize, timeout: c_int) -> c_int;
    safe fn fork() -> c_int;
    safe fn kill(process: c_int, signal: c_int) -> c_int;
    fn waitpid(process: c_int, status: *mut c_int, options: c_int) -> c_int;
}

fn checked(answer: c_int) -> io::Result<c_int> {
    match answer {
        -1 => Err(io::Error::last_os_error()),
        _ => Ok(answer),
    }
}

/// Zeros that a child shares. They stay mapped as long as the process lives.
pub struct Shared {
    place: *mut u8,
    len: usize,
}

impl Shared {
    pub fn new(name: &CStr, len: usize) -> io::Result<Self> {
        // SAFETY: the name ends with a zero, and the descriptor is a new one.
        let file = unsafe { File::from_raw_fd(checked(memfd_create(name.as_ptr(), 0))?) };
        file.set_len(len as u64)?;
        let (prot, fd) = (PROT_READ_WRITE, file.as_raw_fd());
        // SAFETY: a new mapping, at a place that the system chooses.
        let place = unsafe { mmap(ptr::null_mut(), len, prot, MAP_SHARED, fd, 0) };
        if place as isize == -1 {
            return Err(io::Error::last_os_error());
        }
        Ok(Self {
            place: place.cast(),
            len,
        })
    }

    /// For one call: the other process may change these bytes, but none that the call looks at.
    pub fn lend(&self) -> &[u8] {
        // SAFETY: `len` bytes are mapped.
        unsafe { std::slice::from_raw_parts(self.place, self.len) }
    }

    /// For one call: the other process may look at these bytes, but at none that the call changes.
    pub fn lend_mut(&mut self) -> &mut [u8] {
        // SAFETY: as above, and this process has no other slice of them.
        unsafe { std::slice::from_raw_parts_mut(self.place, self.len) }
    }

    /// The first bytes as a number.
    pub fn number(&self) -> &AtomicUsize {
        assert!(self.len >= size_of::<AtomicUsize>());
        // SAFETY: a mapping starts at a page.
        unsafe { AtomicUsize::from_ptr(self.place.cast()) }
    }
}

/// A child process.
pub struct Child(c_int);

impl Child {
    /// Nothing in the child, which goes on from here. The process must have one thread.
    pub fn fork() -> io::Result<Option<Self>> {
        let process = checked(fork())?;
        Ok((process != 0).then_some(Self(process)))
    }

    pub fn kill(&self) -> io::Result<()> {
        checked(kill(self.0, SIGKILL)).map(|_| ())
    }

    pub fn wait(self) -> io::Result<ExitStatus> {
        let mut status = 0;
        // SAFETY: the status is a number of this call's.
        checked(unsafe { waitpid(self.0, &mut status, 0) })?;
        Ok(ExitStatus::from_raw(status))
    }
}

/// Whether the socket is ready for one of these events; waits for it if told to.
pub fn is_ready(socket: &UnixStream, events: c_short, wait: bool) -> io::Result<bool> {
    let mut fd = PollFd {
        fd: socket.as_raw_fd(),
        events,
        revents: 0,
    };
    let timeout = if wait { -1 } else { 0 };
    // SAFETY: one record.
    let ready = checked(unsafe { poll(&mut fd, 1, timeout) })?;
    Ok(ready > 0)
}
