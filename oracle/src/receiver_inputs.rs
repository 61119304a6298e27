//! The inputs that the calls of receiver.rs are tried on: states and failures, and random runs whose
//! answers mostly fit.

use crate::memory::Memory;
use crate::numbers::Random;
use crate::sched_inputs::{data, sound_scheduler};
use oracle::receiver_answers::{BY_COUNTERS, FAILURE, Kind, Lent, Part, STATE};
use oracle::scripted_socket::Answer;

const M: u64 = u64::MAX;
/// Of answers in a random run.
const LONGEST_RUN: usize = 10;
/// The longest ring that has its memory, see `copies`.
const LONG: u64 = 4096;

const NORMAL: u64 = 0;
const DRAINING: u64 = 1;
const TERMINATED: u64 = 2;
/// Any kind past the last is the last.
const PAST: u64 = 3;

/// The numbers of a failure.
type Failure = [u64; FAILURE];
/// The numbers of a state.
pub type State = [u64; STATE];
/// The numbers of a receiver, without the fill.
pub type Receiver = [u64; BY_COUNTERS];

/// Errnos that fit, interruption, blocked and the stream's end among them, the five violations, two numbers that
/// none has, and a kind that none has. Of all but the overflows, 2 and 5, the last two numbers are not looked at.
const FAILURES: [Failure; 22] = [
    [0, 1, 0, 0],
    [0, 4, 8, 4],
    [0, 5, 0, 0],
    [0, 11, 0, 0],
    [0, 11, 57, 56],
    [0, 32, 0, 0],
    [0, 32, 8, 4],
    [0, 104, M, 0],
    [0, 4095, 0, M],
    [1, 1, 8, 4],
    [1, 2, 0, 0],
    [1, 2, 8, 4],
    [1, 2, 4, M],
    [1, 3, 0, M],
    [1, 4, 57, 56],
    [1, 5, 0, 0],
    [1, 5, 57, 56],
    [1, 5, 56, 57],
    [1, 5, M, 0],
    [1, 0, 8, 4],
    [1, 6, 57, 56],
    [7, 5, 57, 56],
];
/// Errnos that do not fit.
const MISFITS: [Failure; 3] = [[0, 0, 0, 0], [0, 4096, 8, 4], [0, M, M, M]];
/// Around the batch of 128, and the ends.
const PENDING: [u64; 12] = [0, 1, 2, 127, 128, 129, 255, 256, 257, 300, M - 1, M];

/// What a call over a run of answers takes.
#[derive(Clone, Debug)]
pub struct Input {
    pub receiver: Receiver,
    /// The ring and the destination.
    pub memory: Memory,
    pub max_new_fds: u64,
    pub answers: Vec<Answer>,
}

impl Input {
    /// Lends it out with other memory in its place, so that it stays as it is.
    pub fn lent<'a>(&'a self, memory: &'a mut Memory) -> Lent<'a> {
        let (ring, destination) = memory.parts();
        Lent {
            receiver: self.receiver,
            ring,
            destination,
            max_new_fds: self.max_new_fds,
            answers: &self.answers,
        }
    }

    /// Of a ring of length l.
    pub fn random(random: &mut Random, kind: Kind, l: u64) -> Self {
        let scheduler = scheduler(random, l);
        Self::over(random, kind, scheduler)
    }

    /// Over this scheduler.
    pub fn over(random: &mut Random, kind: Kind, scheduler: [u64; 3]) -> Self {
        let memory = lent_memory(random, scheduler);
        let state = state(random);
        let (pending, issued) = (pending(random), random.next() % 2);
        let receiver = receiver(scheduler, state, pending, issued);
        Self::of(random, kind, receiver, memory)
    }

    /// Of this receiver and this memory.
    pub fn of(random: &mut Random, kind: Kind, receiver: Receiver, memory: Memory) -> Self {
        let [l, written, read, .., pending, _] = receiver;
        let max_new_fds = pick(random, &[0, 1, 2, 3, M]);
        let announces = kind == Kind::Read && data([l, written, read]) == 0;
        Self {
            receiver,
            memory,
            max_new_fds,
            answers: answers(random, kind, announces.then_some(max_new_fds), pending),
        }
    }
}

/// The ring, with a header where the next one is read, and a destination.
pub fn lent_memory(random: &mut Random, scheduler: [u64; 3]) -> Memory {
    let [l, _, read] = scheduler;
    let ring = ring_length(random, l);
    let length = chunk_length(random, l);
    let at_hand = match data(scheduler) {
        0 => length,
        data => data,
    };
    let destination = destination_length(random, at_hand, ring);
    let mut memory = Memory::new(random, ring, destination);
    write_header(random, &mut memory, read, length);
    memory
}

/// Every value of a part of the states' calls; Normal and none also with a failure that is not looked
/// at.
pub fn values(part: Part) -> Vec<Vec<u64>> {
    let failures = [&FAILURES[..], &MISFITS].concat();
    let bare = [[0, 0, 0, 0], [0, 4096, 8, 4]];
    match part {
        Part::Scheduler => panic!("a scheduler is chosen apart"),
        Part::Failure => failures.iter().map(|failure| failure.to_vec()).collect(),
        Part::PotentialFailure => with_kinds(&[(0, &bare), (1, &failures)]),
        Part::State => with_kinds(&[
            (NORMAL, &bare),
            (DRAINING, &failures),
            (TERMINATED, &failures),
            (PAST, &[[0, 5, 57, 56], [7, 5, 57, 56]]),
        ]),
    }
}

fn with_kinds(kinds: &[(u64, &[Failure])]) -> Vec<Vec<u64>> {
    kinds
        .iter()
        .flat_map(|&(kind, failures)| failures.iter().map(move |f| [&[kind], &f[..]].concat()))
        .collect()
}

/// Its numbers, in their order.
pub const fn receiver(
    [l, written, read]: [u64; 3],
    [kind, failure, value, needed, room]: State,
    pending: u64,
    issued: u64,
) -> Receiver {
    [
        l, written, read, kind, failure, value, needed, room, pending, issued,
    ]
}

pub fn pick<T: Copy>(random: &mut Random, choices: &[T]) -> T {
    choices[random.next() as usize % choices.len()]
}

/// Mostly empty, so that an announcement is asked for.
fn scheduler(random: &mut Random, l: u64) -> [u64; 3] {
    let outside = l == 0 || l > 1 << 63;
    match random.next() % 16 {
        0 => any_counters(random, l),
        _ if outside => [l, 0, 0],
        1..6 => sound_scheduler(random, l),
        _ => {
            let [_, _, read] = sound_scheduler(random, l);
            [l, read, read]
        }
    }
}

/// Around the ends of what is sound.
fn any_counters(random: &mut Random, l: u64) -> [u64; 3] {
    let end = l.wrapping_mul(2).wrapping_add(2).max(1);
    [l, random.next() % end, random.next() % end]
}

/// Now and then a byte short or long.
fn ring_length(random: &mut Random, l: u64) -> u64 {
    match (l > LONG, random.next() % 32) {
        (true, _) => l % LONG,
        (false, 0) => l.saturating_sub(1),
        (false, 1) => l + 1,
        (false, _) => l,
    }
}

/// Mostly what is accepted, else around the ends, or any.
fn chunk_length(random: &mut Random, l: u64) -> u64 {
    let length = match random.next() % 12 {
        0 => 0,
        1 => random.near(l.wrapping_sub(8)),
        2 => random.near(l),
        3 => random.next(),
        _ => random.next() % l.saturating_sub(8).max(1) + 1,
    };
    length % (1 << 48)
}

fn destination_length(random: &mut Random, at_hand: u64, ring: u64) -> u64 {
    let length = match random.next() % 8 {
        0 => 0,
        1 => 1,
        2..4 => random.near(at_hand),
        4 => at_hand,
        _ => random.next(),
    };
    length % (ring + 4)
}

/// At the read counter; mostly of the format 0, with any tag.
fn write_header(random: &mut Random, memory: &mut Memory, read: u64, length: u64) {
    let format = match random.next() % 8 {
        0 => random.next() % 4,
        _ => 0,
    };
    let tag = pick(random, &[0, 1, (1 << 14) - 1]);
    put_header(memory, read, format << 62 | tag << 48 | length);
}

pub fn put_header(memory: &mut Memory, read: u64, header: u64) {
    header_into(memory.parts().0, read, header);
}

/// At the read counter, most significant byte first; a ring that is too short has a part of it.
pub fn header_into(ring: &mut [u8], read: u64, header: u64) {
    let length = ring.len() as u64;
    for (i, byte) in (0..length).zip(header.to_be_bytes()) {
        ring[((read % length + i) % length) as usize] = byte;
    }
}

fn state(random: &mut Random) -> State {
    let kind = match random.next() % 8 {
        0 => TERMINATED,
        1..4 => DRAINING,
        _ => NORMAL,
    };
    let [failure, value, needed, room] = failure(random);
    [kind, failure, value, needed, room]
}

fn failure(random: &mut Random) -> Failure {
    match random.next() % 32 {
        0 => pick(random, &MISFITS),
        1..8 => any_violation(random),
        _ => pick(random, &FAILURES),
    }
}

/// With any numbers; 0, 6 and 7 no violation has.
fn any_violation(random: &mut Random) -> Failure {
    [1, random.next() % 8, random.mixed(8), random.mixed(8)]
}

fn pending(random: &mut Random) -> u64 {
    match random.next() % 4 {
        0 => random.next() % 600,
        1 => random.next() % 3,
        _ => pick(random, &PENDING),
    }
}

/// As a call asks for them: a receive if it takes an announcement, sends until nothing is pending, a
/// shutdown after a failure. Where it goes another way they do not fit; and some are spoilt.
fn answers(random: &mut Random, kind: Kind, max_new_fds: Option<u64>, pending: u64) -> Vec<Answer> {
    let mut run = vec![];
    if let Some(max_new_fds) = max_new_fds {
        interruptions(random, &mut run);
        run.push(received(random, max_new_fds));
    }
    if matches!(run.last(), None | Some([0, 0, _])) {
        let left = pending.saturating_add(u64::from(kind == Kind::Read));
        let most = sends(random, kind);
        push_sends(random, most, left, &mut run);
    }
    run.push(shut(random));
    run.truncate(LONGEST_RUN);
    spoil(random, &mut run);
    run
}

fn push_sends(random: &mut Random, most: u64, mut left: u64, run: &mut Vec<Answer>) {
    for _ in 0..most {
        interruptions(random, run);
        let sent = sent(random, left.min(128));
        run.push(sent);
        left = match sent {
            [3, n, _] if 0 < n && n < left => left - n,
            _ => break,
        };
    }
}

fn sends(random: &mut Random, kind: Kind) -> u64 {
    match kind {
        Kind::Shutdown => 0,
        _ => random.next() % 5,
    }
}

fn interruptions(random: &mut Random, run: &mut Vec<Answer>) {
    while let 0 = random.next() % 8 {
        run.push(failed(random, 4));
    }
}

/// The last number is not looked at.
fn failed(random: &mut Random, errno: u64) -> Answer {
    [2, errno, random.next() % 4]
}

fn any_failed(random: &mut Random) -> Answer {
    let errno = match random.next() % 8 {
        0 => pick(random, &[0, 4096, M]),
        _ => pick(random, &[1, 5, 11, 11, 32, 104, 4095]),
    };
    failed(random, errno)
}

fn received(random: &mut Random, max_new_fds: u64) -> Answer {
    let fds = random.next() % (max_new_fds.min(3) + 1);
    match random.next() % 16 {
        0 => [0, random.next() % 256, fds],
        1 => [0, pick(random, &[255, 256, M]), fds],
        2 => [0, 0, max_new_fds.wrapping_add(random.next() % 2)],
        3 => [1, random.next() % 4, random.next() % 4],
        4..7 => any_failed(random),
        _ => [0, 0, fds],
    }
}

fn sent(random: &mut Random, batch: u64) -> Answer {
    let sent = match random.next() % 16 {
        0 => 0,
        1 => batch + 1,
        2..4 => return any_failed(random),
        4..7 => random.next() % (batch + 1),
        _ => batch,
    };
    [3, sent, random.next() % 4]
}

fn shut(random: &mut Random) -> Answer {
    match random.next() % 8 {
        0 => any_failed(random),
        1 => failed(random, 4),
        _ => [4, random.next() % 4, random.next() % 4],
    }
}

fn spoil(random: &mut Random, run: &mut Vec<Answer>) {
    let place = random.next() as usize % run.len();
    match random.next() % 16 {
        0 => run.truncate(place),
        1 => {
            run[place] = [
                random.next() % 6,
                pick(random, &[0, 1, 4, 128, 129, 256, M]),
                0,
            ]
        }
        _ => {}
    }
}
