//! The fixed list of the answers of modular.rs that the replay program runs.

use crate::numbers::{Random, edges};
use oracle::modular_answers::{CALLS, Call, answer};

const SEED: u64 = 1;
/// Of each call that looks at an input.
const RANDOM_LINES: u64 = 150;
/// For the calls with numbers: pairs and triples of all edges would be a long list.
const FEW_EDGES: [u64; 9] = [
    0,
    1,
    2,
    1 << 32,
    (1 << 63) - 1,
    1 << 63,
    (1 << 63) + 1,
    u64::MAX - 1,
    u64::MAX,
];

pub fn run() -> bool {
    print_head();
    let mut random = Random(SEED);
    for (no, call) in CALLS.iter().enumerate() {
        for modulus in moduli(call) {
            for &a in numbers(call.numbers >= 1) {
                for &b in numbers(call.numbers >= 2) {
                    print_line(no, modulus, a, b);
                }
            }
        }
        if call.modulus {
            (0..RANDOM_LINES).for_each(|_| print_random_line(no, &mut random));
        }
    }
    true
}

fn print_head() {
    println!(
        "# Answers of rosenpass/src/internal/util/int/modular.rs, rosenpass commit ed07bfab94,"
    );
    println!("# unchanged, at u64. Made in oracle/ by: cargo run --release --quiet record-modular");
    println!("# Edges, and random inputs by splitmix64 from seed {SEED}.");
    println!("# A line: op modulus a b some value");
    println!("# op:");
    for (no, call) in CALLS.iter().enumerate() {
        println!("#   {no} {}", call.name);
    }
    println!("# modulus: its raw number, 0 the full range; of op 1 its argument");
    println!("# modulus, a, b: 0 where op does not look at it");
    println!("# some: 1 where there is a value, 0 for None");
    println!("# value: a modulus as its raw number, a bool as 0 or 1; 0 for None");
}

fn print_line(no: usize, modulus: u64, a: u64, b: u64) {
    let answer = answer(no, modulus, a, b);
    let some = u64::from(answer.is_some());
    println!("{no} {modulus} {a} {b} {some} {}", answer.unwrap_or(0));
}

fn print_random_line(no: usize, random: &mut Random) {
    let modulus = random.mixed(0);
    let mut number = |looked_at| if looked_at { random.mixed(modulus) } else { 0 };
    let a = number(CALLS[no].numbers >= 1);
    let b = number(CALLS[no].numbers >= 2);
    print_line(no, modulus, a, b);
}

fn moduli(call: &Call) -> Vec<u64> {
    match (call.modulus, call.numbers) {
        (false, _) => vec![0],
        (true, 0) => edges(),
        (true, _) => FEW_EDGES.to_vec(),
    }
}

fn numbers(looked_at: bool) -> &'static [u64] {
    if looked_at { &FEW_EDGES } else { &[0] }
}
