//! The best time of each of several parties.

use std::time::Instant;

const TURNS: u32 = 500;

/// The least ns that a turn of each party took. They take turns, so that what else the machine
/// does hits all of them alike.
pub fn best_turns<const N: usize>(mut parties: [&mut dyn FnMut(); N]) -> [f64; N] {
    let mut best = [f64::INFINITY; N];
    for _ in 0..TURNS {
        for (turn, best) in parties.iter_mut().zip(&mut best) {
            let start = Instant::now();
            turn();
            *best = best.min(start.elapsed().as_nanos() as f64);
        }
    }
    best
}
