//! The strip planner as docs/PAPER.md tells it ("Strips"), over wide integers. The Rust has none: this model, written
//! from the words and not from the code, is what the static library and the program `stripplan` are compared with.

const MAX_BUF_LEN: u64 = 1 << 63;
const MAX_ROWS: u64 = 65535;
const MAX_ROW_BYTES: u64 = 1 << 20;
const HEADER_BYTES: u128 = 8;

/// What is to be cut into strips, and the length of the ring that each strip has to fit into.
#[derive(Clone, Copy, Debug, PartialEq)]
pub struct Image {
    pub rows: u64,
    pub row_bytes: u64,
    pub buf_len: u64,
}

#[derive(Clone, Copy, Debug, PartialEq)]
pub struct Run {
    pub first: u64,
    pub count: u64,
}

/// How many runs a plan has, and the rows of its first and of its last one.
#[derive(Clone, Copy, Debug, PartialEq)]
pub struct Strips {
    pub count: u64,
    pub height: u64,
    pub last: u64,
}

/// The number and its values; 0 where it has none.
pub type Refused = [u64; 3];

impl Run {
    /// The row behind the last one.
    fn end(self) -> u128 {
        u128::from(self.first) + u128::from(self.count)
    }
}

impl Image {
    /// The length of the ring first, then the sizes of the image, then whether one row goes in with its header.
    fn demand_sizes(self) -> Result<(), Refused> {
        let Self {
            rows,
            row_bytes,
            buf_len,
        } = self;
        if buf_len == 0 {
            return Err([1, 0, 0]);
        }
        if buf_len > MAX_BUF_LEN {
            return Err([2, buf_len, 0]);
        }
        if !(1..=MAX_ROWS).contains(&rows) || !(1..=MAX_ROW_BYTES).contains(&row_bytes) {
            return Err([14, rows, row_bytes]);
        }
        if !self.fits(1) {
            return Err([15, row_bytes, buf_len]);
        }
        Ok(())
    }

    /// So many rows and their header take at most the ring's length.
    pub fn fits(self, count: u64) -> bool {
        u128::from(count) * u128::from(self.row_bytes) + HEADER_BYTES <= u128::from(self.buf_len)
    }

    /// What a plan is, clause by clause: no run is empty, the first starts at row 0, each other where the one before
    /// ended, the last ends at the last row, and each fits.
    pub fn is_plan(self, runs: &[Run]) -> bool {
        let rows = u128::from(self.rows);
        runs.iter().all(|run| run.count > 0)
            && runs.first().is_some_and(|run| run.first == 0)
            && runs
                .windows(2)
                .all(|pair| pair[0].end() == u128::from(pair[1].first))
            && runs.last().is_some_and(|run| run.end() == rows)
            && runs.iter().all(|run| self.fits(run.count))
    }

    /// Names the first bad run.
    pub fn check(self, runs: &[Run]) -> Result<(), Refused> {
        self.demand_sizes()?;
        let mut reached = 0;
        for (no, &run) in (0..).zip(runs) {
            self.demand_run(reached, run)
                .map_err(|number| [number, no, 0])?;
            reached = run.first + run.count;
        }
        match reached < self.rows {
            true => Err([19, reached, 0]),
            false => Ok(()),
        }
    }

    /// Empty, then out of place or past the last row, then too long.
    fn demand_run(self, reached: u64, run: Run) -> Result<(), u64> {
        if run.count == 0 {
            return Err(16);
        }
        if run.first != reached || run.end() > u128::from(self.rows) {
            return Err(17);
        }
        if !self.fits(run.count) {
            return Err(18);
        }
        Ok(())
    }

    /// Row by row: a run takes the next row as long as that fits.
    pub fn plan(self) -> Result<Vec<Run>, Refused> {
        self.demand_sizes()?;
        let mut runs: Vec<Run> = Vec::new();
        for row in 0..self.rows {
            match runs.last_mut() {
                Some(run) if self.fits(run.count + 1) => run.count += 1,
                _ => runs.push(Run {
                    first: row,
                    count: 1,
                }),
            }
        }
        Ok(runs)
    }

    /// The plan in three numbers, without making it.
    pub fn outline(self) -> Result<Strips, Refused> {
        self.demand_sizes()?;
        let body = u128::from(self.buf_len) - HEADER_BYTES;
        let fitting = body / u128::from(self.row_bytes);
        let height = fitting.min(self.rows.into()) as u64;
        let count = self.rows.div_ceil(height);
        Ok(Strips {
            count,
            height,
            last: self.rows - (count - 1) * height,
        })
    }
}

/// What `plan` puts at the front of a lent plan of numbers, two to a run; the rest stays. 39 where the runs have no
/// room, once the sizes are known to be right.
pub fn propose(plan: &Result<Vec<Run>, Refused>, lent: &mut [u64]) -> Result<u64, Refused> {
    let runs = plan.as_ref().map_err(|refused| *refused)?;
    let needed = runs.len() as u64;
    let room = lent.len() as u64 / 2;
    if room < needed {
        return Err([39, needed, room]);
    }
    for (place, run) in lent.chunks_exact_mut(2).zip(runs) {
        place.copy_from_slice(&[run.first, run.count]);
    }
    Ok(needed)
}

/// A number left over at the end is no run.
pub fn runs(plan: &[u64]) -> Vec<Run> {
    let run = |pair: &[u64]| Run {
        first: pair[0],
        count: pair[1],
    };
    plan.chunks_exact(2).map(run).collect()
}

pub fn numbers(runs: &[Run]) -> Vec<u64> {
    runs.iter().flat_map(|run| [run.first, run.count]).collect()
}
