//! The lines that `ringplan` is tried on: those of docs/PAPER.md ("The case", "Readings"), and random
//! ones of the kinds below.

use crate::line_kinds::{
    Fields, Kind, Line, Lines, changed_byte, damaged, decimal, kind, number, one_of, print,
    print_user, written,
};
use crate::line_rows::whole_lines;
use crate::numbers::Random;
use crate::ringplan_paper::ROWS;
use crate::sched_inputs::{any_scheduler, length, sound_scheduler};

/// The greatest buffer.
const H: u64 = 1 << 63;

/// L, written, read, type, m.
struct Ringplan;

impl Lines for Ringplan {
    const NUMBERS: &'static [usize] = &[0, 1, 2, 4];

    fn good_fields(random: &mut Random) -> Fields {
        match random.next() % 4 {
            0 => any_ring(random),
            1 => small_ring(random),
            2 => greatest_ring(random),
            _ => sound_ring(random),
        }
    }
}

/// Well formed, then damaged as only these lines can be.
#[rustfmt::skip]
fn kinds() -> Vec<Kind> {
    let mut kinds = vec![
        kind("small ring", 150, |r| written(&small_ring(r))),
        kind("sound ring", 200, |r| written(&sound_ring(r))),
        kind("ring of 2^63", 60, |r| written(&greatest_ring(r))),
        kind("any m", 40, |r| written(&any_amount(r))),
        kind("any ring", 60, |r| written(&any_ring(r))),
        kind("refused 1", 20, |r| written(&refused_1(r))),
        kind("refused 2", 20, |r| written(&refused_2(r))),
        kind("refused 3", 30, |r| written(&refused_3(r))),
        kind("refused 4", 30, |r| written(&refused_4(r))),
        kind("refused 5", 30, |r| written(&refused_5(r))),

        kind("r or w", 10, |r| with_type(r, &[b"r", b"w"])),
        kind("another type", 10, |r| with_type(r, &[b"X", b"RW", b"WW", b"R\0", b"Read", b"0", b"1"])),
        kind("fields in another order", 10, another_order),
    ];
    kinds.extend(damaged::<Ringplan>());
    kinds
}

pub fn run() -> bool {
    print(whole_lines(ROWS), &kinds(), "10 7 3 W 9")
}

/// Prints what a user may have: rings of powers of two, and of 1000 lines one that is bad or
/// refused.
pub fn run_user() -> bool {
    print_user(|random| match random.next() % 2000 {
        0 => changed_byte::<Ringplan>(random),
        1 => written(&any_ring(random)),
        _ => written(&user_ring(random)),
    })
}

// ---- Well formed lines, as fields

fn fields(random: &mut Random, scheduler: [u64; 3], max_len: u64) -> Fields {
    let [l, written, read] = scheduler.map(decimal);
    let typ = one_of(random, &[b"R", b"W"]).to_vec();
    vec![l, written, read, typ, decimal(max_len)]
}

fn planned(random: &mut Random, scheduler: [u64; 3]) -> Fields {
    let max_len = length(random, scheduler);
    fields(random, scheduler, max_len)
}

fn small_ring(random: &mut Random) -> Fields {
    let l = 1 + random.next() % 12;
    let read = random.next() % (2 * l);
    let written = (read + random.next() % (l + 1)) % (2 * l);
    let max_len = random.next() % (l + 3);
    fields(random, [l, written, read], max_len)
}

/// Of any length that a ring can have.
fn sound(random: &mut Random) -> [u64; 3] {
    let l = random.mixed(0).wrapping_sub(1) % H + 1;
    sound_scheduler(random, l)
}

fn sound_ring(random: &mut Random) -> Fields {
    let scheduler = sound(random);
    planned(random, scheduler)
}

fn greatest_ring(random: &mut Random) -> Fields {
    let scheduler = sound_scheduler(random, H);
    planned(random, scheduler)
}

fn any_amount(random: &mut Random) -> Fields {
    let scheduler = sound(random);
    let max_len = random.mixed(scheduler[0]);
    fields(random, scheduler, max_len)
}

/// Mostly refused.
fn any_ring(random: &mut Random) -> Fields {
    let l = random.mixed(0);
    let scheduler = any_scheduler(random, l);
    planned(random, scheduler)
}

fn user_ring(random: &mut Random) -> Fields {
    let l = 1 << (6 + random.next() % 25);
    let read = random.next() % (2 * l);
    let written = (read + random.next() % (l + 1)) % (2 * l);
    let max_len = random.next() % l;
    fields(random, [l, written, read], max_len)
}

fn refused_1(random: &mut Random) -> Fields {
    let scheduler = any_scheduler(random, 0);
    planned(random, scheduler)
}

fn refused_2(random: &mut Random) -> Fields {
    let l = H + 1 + random.mixed(0) % (H - 1);
    let scheduler = any_scheduler(random, l);
    planned(random, scheduler)
}

/// The read counter is in bounds or not.
fn refused_3(random: &mut Random) -> Fields {
    let [l, _, read] = ring_with_counters_to_spare(random);
    let written = out_of_bounds(random, l);
    let read = match random.next() % 2 {
        0 => out_of_bounds(random, l),
        _ => read,
    };
    planned(random, [l, written, read])
}

fn refused_4(random: &mut Random) -> Fields {
    let [l, written, _] = ring_with_counters_to_spare(random);
    let read = out_of_bounds(random, l);
    planned(random, [l, written, read])
}

/// The data is a little or much above L.
fn refused_5(random: &mut Random) -> Fields {
    let [l, _, read] = sound(random);
    let l = l.max(2);
    let data = u128::from(l) + 1 + u128::from(random.mixed(0) % (l - 1));
    let written = (u128::from(read) + data) % (u128::from(l) * 2);
    planned(random, [l, written as u64, read])
}

/// Shorter than 2^63: there is a 64-bit number that is no counter of it.
fn ring_with_counters_to_spare(random: &mut Random) -> [u64; 3] {
    let l = random.mixed(0) % (H - 1) + 1;
    sound_scheduler(random, l)
}

/// Not below 2L; often just there.
fn out_of_bounds(random: &mut Random, l: u64) -> u64 {
    let end = 2 * l;
    match random.next() % 3 {
        0 => end,
        1 => end.saturating_add(random.next() % 3),
        _ => random.next().max(end),
    }
}

// ---- Damaged lines

fn with_type(random: &mut Random, types: &[&[u8]]) -> Line {
    let mut fields = Ringplan::good_fields(random);
    fields[3] = one_of(random, types).to_vec();
    written(&fields)
}

/// The type where a number belongs.
fn another_order(random: &mut Random) -> Line {
    let mut fields = Ringplan::good_fields(random);
    fields.swap(3, number::<Ringplan>(random));
    written(&fields)
}
