//! Runs of calls, each over the record that the one before it answered. What a record holds is always what was written less
//! what was read, counted here over wide integers, and so no call is refused with 20.

mod ends;
mod receivers;
mod schedulers;

use crate::numbers::Random;
use crate::sched_inputs::sound_scheduler;
use oracle::fill_model::Record;
use oracle::sched_answers::Row;

const SEED: u64 = 1;
const WALKS: usize = 3_000;
/// Of a walk.
const STEPS: usize = 200;

pub fn run() -> bool {
    schedulers::run() & ends::run() & receivers::run()
}

/// A ring, and all that was ever written and read of it, as far as is known.
#[derive(Clone, Copy)]
struct Known {
    l: u64,
    written: u128,
    read: u128,
}

impl Known {
    /// Somewhere on the way. It never comes back as far as to 0.
    fn random(random: &mut Random, l: u64) -> Self {
        let [_, _, read] = sound_scheduler(random, l);
        let fill = random.next() % (l + 1);
        let read = u128::from(read) + 2 * u128::from(l) * (WALKS * STEPS) as u128;
        Self {
            l,
            written: read + u128::from(fill),
            read,
        }
    }

    /// A counter is taken modulo 2L.
    fn counter(self, position: u128) -> u64 {
        (position % (2 * u128::from(self.l))) as u64
    }

    fn data(self) -> u64 {
        (self.written - self.read) as u64
    }

    fn space(self) -> u64 {
        self.l - self.data()
    }

    fn record(self) -> Record {
        let (written, read) = (self.counter(self.written), self.counter(self.read));
        [self.l, written, read, self.data()]
    }
}

/// The refusal, and these numbers behind it.
fn row_of(refusal: &[u64], numbers: &[u64]) -> Row {
    let mut row = Row::default();
    row[..refusal.len()].copy_from_slice(refusal);
    row[4..4 + numbers.len()].copy_from_slice(numbers);
    row
}

/// A position from one to another, both included.
fn between(random: &mut Random, first: u128, last: u128) -> u128 {
    first + u128::from(random.next()) % (last - first + 1)
}
