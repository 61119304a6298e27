//! What docs/PAPER.md says of the program `stripplan` ("Lines of strips", "Strips answered"), over the model of
//! the planner.

use crate::lines::{self, fields, number};
use crate::planner_model::{Image, Strips};
use std::io::{self, BufRead, Write};

pub const HEADER: &str = "strip plan";

/// Answers every line of the input.
pub fn run(input: impl BufRead, output: impl Write) -> io::Result<()> {
    lines::run(HEADER, input, output, parse, answer)
}

fn parse(line: &[u8]) -> Option<Image> {
    let mut fields = fields(line);
    let image = Image {
        rows: number(fields.next()?)?,
        row_bytes: number(fields.next()?)?,
        buf_len: number(fields.next()?)?,
    };
    fields.next().is_none().then_some(image)
}

fn answer(image: &Image, output: &mut impl Write) -> io::Result<()> {
    match image.outline() {
        Ok(strips) => {
            let Strips {
                count,
                height,
                last,
            } = strips;
            writeln!(output, "ok {count} {height} {last}")
        }
        Err([number, ..]) => writeln!(output, "refused {number}"),
    }
}
