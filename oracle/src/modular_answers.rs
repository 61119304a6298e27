//! The answers of modular.rs as plain numbers, at any width.

use crate::rosenpass::modular::{ModularArithmetic, ModularArithmeticBase, Modulus};

pub struct Call {
    pub name: &'static str,
    /// Whether it looks at the modulus.
    pub modulus: bool,
    /// How many of the numbers a, b it looks at.
    pub numbers: usize,
}

const fn call(name: &'static str, modulus: bool, numbers: usize) -> Call {
    Call {
        name,
        modulus,
        numbers,
    }
}

/// A call's place here is its number, in the recorded list too.
pub const CALLS: [Call; 11] = [
    call("new_full_range", false, 0),
    call("try_new", true, 0),
    call("is_full_range", true, 0),
    call("modulus", true, 0),
    call("contains", true, 1),
    call("double", true, 0),
    call("new_number", true, 1),
    call("try_new of a number", true, 1),
    call("neg", true, 1),
    call("sub", true, 2),
    call("add", true, 2),
];

/// The Rust's answer to call number `no`. A modulus is its raw number, 0 the full range; a bool is
/// 0 or 1. The modulus of `try_new` is its argument.
pub fn answer<T: ModularArithmeticBase>(no: usize, modulus: T, a: T, b: T) -> Option<T> {
    let m = of_raw(modulus);
    match no {
        0 => Some(raw(Modulus::new_full_range())),
        1 => Modulus::try_new(modulus).map(raw),
        2 => Some(bit(m.is_full_range())),
        3 => m.modulus(),
        4 => Some(bit(m.contains(a))),
        5 => m.double().map(raw),
        6 => Some(m.new_number(a).value()),
        7 => ModularArithmetic::try_new(a, m).map(|number| number.value()),
        8 => Some((-m.new_number(a)).value()),
        9 => Some(m.formula([a, b], |[a, b]| a - b)),
        10 => Some(m.formula([a, b], |[a, b]| a + b)),
        _ => panic!("there is no call {no}"),
    }
}

fn of_raw<T: ModularArithmeticBase>(raw: T) -> Modulus<T> {
    Modulus::try_new(raw).unwrap_or_else(Modulus::new_full_range)
}

fn raw<T: ModularArithmeticBase>(modulus: Modulus<T>) -> T {
    modulus.modulus().unwrap_or_else(T::zero)
}

fn bit<T: ModularArithmeticBase>(yes: bool) -> T {
    if yes { T::one() } else { T::zero() }
}
