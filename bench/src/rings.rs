//! Write a chunk to a ring, then read it.

use crate::best::best_turns;
use crate::stripring::{self, End, Scheduler};
use oracle::rosenpass::sched::RingBufferScheduler;
use std::cell::RefCell;
use std::ffi::c_void;
use std::hint::black_box;

/// How many bytes go through in a turn.
const TURN: usize = 1 << 20;

pub fn print_table() {
    println!(
        "\nRings: GB/s, and this library's times as multiples; an end's pass sends both counters too\n"
    );
    println!(
        "| chunk | two memcpy | copies | ends, by value | ends, in place | JACK | SPA | Rust | copies of memcpy | copies of JACK | in place of by value |"
    );
    println!("|---|---|---|---|---|---|---|---|---|---|---|");
    print_row("64 B", 64);
    print_row("4 KiB", 4 << 10);
    print_row("64 KiB", 64 << 10);
    print_row("1 MiB", 1 << 20);
}

fn print_row(name: &str, chunk: usize) {
    let src: Vec<u8> = (0..chunk).map(|i| (i % 251) as u8).collect();
    let dst = &RefCell::new(vec![0; chunk]);
    let len = chunk + chunk / 8 + 8;
    let turns = best_turns([
        &mut turn(Memcpy::new(chunk), &src, dst),
        &mut turn(Stripring::new(len), &src, dst),
        &mut turn(ByValue(Ends::new(len)), &src, dst),
        &mut turn(InPlace(Ends::new(len)), &src, dst),
        &mut turn(Jack::new(len), &src, dst),
        &mut turn(Spa::new(len), &src, dst),
        &mut turn(Rust::new(len), &src, dst),
    ]);
    let speeds = turns
        .map(|ns| format!("{:.2}", TURN as f64 / ns))
        .join(" | ");
    let [memcpy, copies, by_value, in_place, jack, ..] = turns;
    println!(
        "| {name} | {speeds} | {:.2} | {:.2} | {:.2} |",
        copies / memcpy,
        copies / jack,
        in_place / by_value
    );
}

/// A party's turn. Before the first one it is tested that the bytes come through, and by that all
/// of its ring has been touched.
fn turn<'a>(mut ring: impl Ring, src: &'a [u8], dst: &'a RefCell<Vec<u8>>) -> impl FnMut() {
    for _ in 0..4 {
        let dst = &mut *dst.borrow_mut();
        dst.fill(0);
        pass(&mut ring, src, dst);
        assert_eq!(src, dst);
    }
    move || {
        let dst = &mut *dst.borrow_mut();
        for _ in 0..TURN / src.len() {
            pass(&mut ring, src, dst);
        }
    }
}

fn pass(ring: &mut impl Ring, src: &[u8], dst: &mut [u8]) {
    assert_eq!(ring.write(black_box(src)), src.len());
    assert_eq!(ring.read(black_box(dst)), src.len());
}

/// Each call answers how many bytes it moved.
trait Ring {
    fn write(&mut self, src: &[u8]) -> usize;
    fn read(&mut self, dst: &mut [u8]) -> usize;
}

/// No ring: each chunk goes to the same place.
struct Memcpy(Vec<u8>);

impl Memcpy {
    fn new(chunk: usize) -> Self {
        Self(vec![0; chunk])
    }
}

impl Ring for Memcpy {
    fn write(&mut self, src: &[u8]) -> usize {
        black_box(&mut *self.0).copy_from_slice(src);
        src.len()
    }

    fn read(&mut self, dst: &mut [u8]) -> usize {
        dst.copy_from_slice(black_box(&*self.0));
        dst.len()
    }
}

struct Stripring {
    scheduler: Scheduler,
    memory: Vec<u8>,
}

impl Stripring {
    fn new(len: usize) -> Self {
        Self {
            scheduler: stripring::try_new(len as u64).of,
            memory: vec![0; len],
        }
    }
}

impl Ring for Stripring {
    fn write(&mut self, src: &[u8]) -> usize {
        let copied = stripring::write(self.scheduler, &mut self.memory, src).of;
        self.scheduler = copied.scheduler;
        copied.n as usize
    }

    fn read(&mut self, dst: &mut [u8]) -> usize {
        let copied = stripring::read(self.scheduler, &self.memory, dst).of;
        self.scheduler = copied.scheduler;
        copied.n as usize
    }
}

/// A writing and a reading end over one memory. Whoever has moved bytes sends its counter, and the other takes it.
struct Ends {
    writing: End,
    reading: End,
    memory: Vec<u8>,
}

impl Ends {
    fn new(len: usize) -> Self {
        Self {
            writing: stripring::writing_end(len as u64).of,
            reading: stripring::reading_end(len as u64).of,
            memory: vec![0; len],
        }
    }
}

struct ByValue(Ends);

impl Ring for ByValue {
    fn write(&mut self, src: &[u8]) -> usize {
        let ends = &mut self.0;
        let wrote = stripring::end_write(ends.writing, &mut ends.memory, src).of;
        ends.writing = wrote.end;
        let sent = stripring::send_written(ends.writing).of;
        ends.reading = stripring::take_written(ends.reading, sent).of;
        wrote.n as usize
    }

    fn read(&mut self, dst: &mut [u8]) -> usize {
        let ends = &mut self.0;
        let got = stripring::end_read(ends.reading, &ends.memory, dst).of;
        ends.reading = got.end;
        let sent = stripring::send_read(ends.reading).of;
        ends.writing = stripring::take_read(ends.writing, sent).of;
        got.n as usize
    }
}

struct InPlace(Ends);

impl Ring for InPlace {
    fn write(&mut self, src: &[u8]) -> usize {
        let ends = &mut self.0;
        let moved = stripring::end_write_in_place(&mut ends.writing, &mut ends.memory, src).of;
        let sent = stripring::send_written(ends.writing).of;
        stripring::take_written_in_place(&mut ends.reading, sent);
        moved.n as usize
    }

    fn read(&mut self, dst: &mut [u8]) -> usize {
        let ends = &mut self.0;
        let moved = stripring::end_read_in_place(&mut ends.reading, &ends.memory, dst).of;
        let sent = stripring::send_read(ends.reading).of;
        stripring::take_read_in_place(&mut ends.writing, sent);
        moved.n as usize
    }
}

/// It rounds its length up to a power of two.
struct Jack(*mut c_void);

#[link(name = "jack")]
unsafe extern "C" {
    fn jack_ringbuffer_create(size: usize) -> *mut c_void;
    fn jack_ringbuffer_write(ring: *mut c_void, src: *const u8, len: usize) -> usize;
    fn jack_ringbuffer_read(ring: *mut c_void, dst: *mut u8, len: usize) -> usize;
    fn jack_ringbuffer_free(ring: *mut c_void);
}

// Sound, here and below: the ring lives as long as its owner, and each pointer goes with the length
// of its slice.
impl Jack {
    fn new(len: usize) -> Self {
        Self(unsafe { jack_ringbuffer_create(len) })
    }
}

impl Ring for Jack {
    fn write(&mut self, src: &[u8]) -> usize {
        unsafe { jack_ringbuffer_write(self.0, src.as_ptr(), src.len()) }
    }

    fn read(&mut self, dst: &mut [u8]) -> usize {
        unsafe { jack_ringbuffer_read(self.0, dst.as_mut_ptr(), dst.len()) }
    }
}

impl Drop for Jack {
    fn drop(&mut self) {
        unsafe { jack_ringbuffer_free(self.0) }
    }
}

/// Its length has to be a power of two.
struct Spa {
    /// SPA's own record.
    indices: [u32; 2],
    memory: Vec<u8>,
}

#[link(name = "spa_ring", kind = "static")]
unsafe extern "C" {
    fn spa_ring_write(
        indices: *mut [u32; 2],
        ring: *mut u8,
        size: u32,
        src: *const u8,
        len: u32,
    ) -> u32;
    fn spa_ring_read(
        indices: *mut [u32; 2],
        ring: *const u8,
        size: u32,
        dst: *mut u8,
        len: u32,
    ) -> u32;
}

impl Spa {
    fn new(len: usize) -> Self {
        Self {
            indices: [0, 0],
            memory: vec![0; len.next_power_of_two()],
        }
    }
}

impl Ring for Spa {
    fn write(&mut self, src: &[u8]) -> usize {
        let ring = &mut self.memory;
        let (size, len) = (ring.len() as u32, src.len() as u32);
        let indices = &mut self.indices;
        unsafe { spa_ring_write(indices, ring.as_mut_ptr(), size, src.as_ptr(), len) as usize }
    }

    fn read(&mut self, dst: &mut [u8]) -> usize {
        let ring = &self.memory;
        let (size, len) = (ring.len() as u32, dst.len() as u32);
        let indices = &mut self.indices;
        unsafe { spa_ring_read(indices, ring.as_ptr(), size, dst.as_mut_ptr(), len) as usize }
    }
}

struct Rust {
    scheduler: RingBufferScheduler,
    memory: Vec<u8>,
}

impl Rust {
    fn new(len: usize) -> Self {
        Self {
            scheduler: RingBufferScheduler::new(len as u64),
            memory: vec![0; len],
        }
    }
}

impl Ring for Rust {
    #[inline(never)]
    fn write(&mut self, src: &[u8]) -> usize {
        let list = self.scheduler.schedule_writes(src.len() as u64);
        self.scheduler = self.scheduler.register_operation(&list);
        let mut n = 0;
        for op in list.container() {
            let (off, len) = (op.off as usize, op.len.u64() as usize);
            self.memory[off..off + len].copy_from_slice(&src[n..n + len]);
            n += len;
        }
        n
    }

    #[inline(never)]
    fn read(&mut self, dst: &mut [u8]) -> usize {
        let list = self.scheduler.schedule_reads(dst.len() as u64);
        self.scheduler = self.scheduler.register_operation(&list);
        let mut n = 0;
        for op in list.container() {
            let (off, len) = (op.off as usize, op.len.u64() as usize);
            dst[n..n + len].copy_from_slice(&self.memory[off..off + len]);
            n += len;
        }
        n
    }
}
