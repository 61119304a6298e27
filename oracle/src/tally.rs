//! Counts comparisons and keeps the first difference.

use std::fmt::Debug;

pub struct Tally {
    /// Whose answers they are.
    sides: [&'static str; 2],
    comparisons: u64,
    differences: u64,
    first: Option<String>,
}

impl Tally {
    pub fn new(sides: [&'static str; 2]) -> Self {
        Self {
            sides,
            comparisons: 0,
            differences: 0,
            first: None,
        }
    }

    /// The input is only put into words where the answers differ.
    pub fn compare<A: PartialEq + Debug>(
        &mut self,
        answers: [A; 2],
        input: impl FnOnce() -> String,
    ) {
        self.comparisons += 1;
        if answers[0] != answers[1] {
            self.differences += 1;
            let [one, other] = self.sides;
            self.first.get_or_insert_with(|| {
                format!(
                    "{}: {one} {:?}, {other} {:?}",
                    input(),
                    answers[0],
                    answers[1]
                )
            });
        }
    }

    /// Prints the counts and the first difference; true where there is none.
    pub fn report(self, what: &str) -> bool {
        let Self {
            comparisons,
            differences,
            first,
            ..
        } = self;
        println!("{what}: {comparisons} comparisons, {differences} differences");
        if let Some(first) = first {
            println!("first difference: {first}");
        }
        differences == 0
    }
}
