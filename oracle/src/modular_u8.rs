//! modular.rs at 8 bits against the definition, on every input.

use crate::tally::Tally;
use oracle::modular_answers::{CALLS, answer};

pub fn run() -> bool {
    let mut tally = Tally::new(["the Rust", "the definition"]);
    for (no, call) in CALLS.iter().enumerate() {
        for modulus in 0..=u8::MAX {
            for a in all(call.numbers >= 1) {
                for b in all(call.numbers >= 2) {
                    let rust = answer(no, modulus, a, b).map(i32::from);
                    let definition = definition(no, modulus.into(), a.into(), b.into());
                    tally.compare([rust, definition], || {
                        format!("{}, modulus {modulus}, a {a}, b {b}", call.name)
                    });
                }
            }
        }
    }
    tally.report("modular-u8: modular.rs at u8 against the definition, all inputs")
}

/// Every number, or just 0 where it is not looked at.
fn all(looked_at: bool) -> std::ops::RangeInclusive<u8> {
    0..=if looked_at { u8::MAX } else { 0 }
}

/// The paper's words over whole numbers, written apart from the Rust.
fn definition(no: usize, raw: i32, a: i32, b: i32) -> Option<i32> {
    let m = if raw == 0 { 256 } else { raw };
    match no {
        0 => Some(0),
        1 => (raw != 0).then_some(raw),
        2 => Some((raw == 0).into()),
        3 => (raw != 0).then_some(raw),
        4 => Some((a < m).into()),
        5 => (2 * m <= 256).then_some(2 * m % 256),
        6 => Some(a % m),
        7 => (a < m).then_some(a),
        8 => Some((-a).rem_euclid(m)),
        9 => Some((a % m - b % m).rem_euclid(m)),
        10 => Some((a % m + b % m).rem_euclid(m)),
        _ => panic!("there is no call {no}"),
    }
}
