//! Hands standard input on in pieces of a given length, for a reader that is to get no more at a
//! time: standard output is a pipe, and the next piece is written once the one before is read.

use std::ffi::{c_int, c_ulong};
use std::io::{self, Read, Write};
use std::time::{Duration, Instant};
use std::{fs::File, mem::ManuallyDrop, os::fd::FromRawFd, thread};

/// Linux's number, the same on x86-64 and aarch64.
const FIONREAD: c_ulong = 0x541b;
/// A reader that takes longer is taken as gone.
const PATIENCE: Duration = Duration::from_secs(10);

unsafe extern "C" {
    fn ioctl(fd: c_int, request: c_ulong, answer: *mut c_int) -> c_int;
}

pub fn run(length: &str) -> bool {
    let length = length.parse().expect("the length of a piece");
    let mut bytes = Vec::new();
    io::stdin().read_to_end(&mut bytes).expect("input");
    // Sound: standard output is open, and stays so. A file writes at once, which io::stdout doesn't.
    let mut pipe = ManuallyDrop::new(unsafe { File::from_raw_fd(1) });
    bytes.chunks(length).all(|piece| {
        pipe.write_all(piece).expect("output");
        is_taken()
    })
}

fn is_taken() -> bool {
    let start = Instant::now();
    while unread() > 0 {
        if start.elapsed() > PATIENCE {
            eprintln!("pieces: the reader takes no more");
            return false;
        }
        thread::yield_now();
    }
    true
}

/// How many bytes are in the pipe.
fn unread() -> c_int {
    let mut count = 0;
    // Sound: the call fills in one number.
    let failed = unsafe { ioctl(1, FIONREAD, &mut count) };
    assert_eq!(failed, 0, "standard output is no pipe");
    count
}
