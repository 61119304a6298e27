//! What docs/PAPER.md says of the program `ringplan` ("Lines", "Lines answered"), over the unchanged
//! scheduler, as a user of it would write that program.

use crate::lines::{self, fields, number};
use crate::rosenpass::sched::{OperationType, RingBufferScheduler, ScheduledOperations};
use crate::sched_answers::Refusal;
use std::io::{self, BufRead, Write};

pub const HEADER: &str = "ring plan";

struct Request {
    buf_len: u64,
    written: u64,
    read: u64,
    typ: OperationType,
    max_len: u64,
}

/// Answers every line of the input.
pub fn run(input: impl BufRead, output: impl Write) -> io::Result<()> {
    lines::run(HEADER, input, output, parse, answer)
}

fn parse(line: &[u8]) -> Option<Request> {
    let mut fields = fields(line);
    let request = Request {
        buf_len: number(fields.next()?)?,
        written: number(fields.next()?)?,
        read: number(fields.next()?)?,
        typ: operation_type(fields.next()?)?,
        max_len: number(fields.next()?)?,
    };
    fields.next().is_none().then_some(request)
}

fn operation_type(field: &[u8]) -> Option<OperationType> {
    match field {
        b"R" => Some(OperationType::Read),
        b"W" => Some(OperationType::Write),
        _ => None,
    }
}

fn answer(request: &Request, output: &mut impl Write) -> io::Result<()> {
    match plan(request) {
        Ok(list) => {
            write!(output, "ok {}", list.container().len())?;
            for op in list.container() {
                write!(output, " {} {}", op.off, op.len.u64())?;
            }
            writeln!(output)
        }
        Err(Refusal(numbers)) => writeln!(output, "refused {}", numbers.all[0]),
    }
}

fn plan(request: &Request) -> Result<ScheduledOperations, Refusal> {
    let &Request {
        buf_len,
        written,
        read,
        typ,
        max_len,
    } = request;
    let scheduler = RingBufferScheduler::try_from_counters(buf_len, written, read)?;
    Ok(scheduler.schedule_contiguous_operations(typ, max_len))
}
