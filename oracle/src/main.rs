//! The judge: runs the unchanged Rust beside what it is compared with (see README.md).

mod copy_answers;
mod fill_paper;
mod line_answers;
mod line_kinds;
mod line_rows;
mod memory;
mod modular_u8;
mod numbers;
mod overflow_paper;
mod pieces;
mod planner_inputs;
mod planner_paper;
mod receiver_inputs;
mod receiver_paper;
mod record_modular;
mod record_receiver;
mod record_sched;
mod ringplan_lines;
mod ringplan_paper;
mod sched_inputs;
mod sched_paper;
mod stripplan_lines;
mod stripplan_paper;
mod tally;

#[cfg(feature = "judge")]
mod copies;
#[cfg(feature = "judge")]
mod ends;
#[cfg(feature = "judge")]
mod fill;
#[cfg(feature = "judge")]
mod machine;
#[cfg(feature = "judge")]
mod modular;
#[cfg(feature = "judge")]
mod planner;
#[cfg(feature = "judge")]
mod planner_damage;
#[cfg(feature = "judge")]
mod receiver;
#[cfg(feature = "judge")]
mod sched;
#[cfg(feature = "judge")]
mod stripring;

use std::io::{self, BufWriter, StdinLock, StdoutLock};
use std::process::ExitCode;

fn main() -> ExitCode {
    let arguments: Vec<String> = std::env::args().skip(1).collect();
    let words: Vec<&str> = arguments.iter().map(String::as_str).collect();
    let passed = match words[..] {
        ["modular-u8"] => modular_u8::run(),
        #[cfg(feature = "judge")]
        ["modular"] => modular::run(),
        #[cfg(feature = "judge")]
        ["sched"] => sched::run(),
        #[cfg(feature = "judge")]
        ["copies"] => copies::run() & ends::run(),
        #[cfg(feature = "judge")]
        ["receiver"] => receiver::run(),
        #[cfg(feature = "judge")]
        ["machine"] => machine::run(),
        #[cfg(feature = "judge")]
        ["fill"] => fill::run(),
        #[cfg(feature = "judge")]
        ["planner"] => planner::run(),
        ["sched-paper"] => sched_paper::run() & fill_paper::run(),
        ["receiver-paper"] => receiver_paper::run() & overflow_paper::run(),
        ["planner-paper"] => planner_paper::run(),
        ["record-modular"] => record_modular::run(),
        ["record-sched"] => record_sched::run(),
        ["record-receiver"] => record_receiver::run(),
        ["ringplan"] => answer_lines(|i, o| oracle::ringplan::run(i, o)),
        ["ringplan-paper"] => ringplan_paper::run(),
        ["ringplan-lines"] => ringplan_lines::run(),
        ["ringplan-user-lines"] => ringplan_lines::run_user(),
        ["stripplan"] => answer_lines(|i, o| oracle::stripplan::run(i, o)),
        ["stripplan-paper"] => stripplan_paper::run(),
        ["stripplan-lines"] => stripplan_lines::run(),
        ["compare-answers", name, lines, rust, program, what] => {
            line_answers::run(name, lines, rust, program, what)
        }
        ["pieces", length] => pieces::run(length),
        _ => {
            eprintln!(
                "usage: oracle modular-u8|modular|sched|copies|receiver|machine|fill|planner\
                |sched-paper|receiver-paper|planner-paper\
                |record-modular|record-sched|record-receiver\
                |ringplan|ringplan-paper|ringplan-lines|ringplan-user-lines\
                |stripplan|stripplan-paper|stripplan-lines"
            );
            eprintln!("usage: oracle compare-answers NAME LINES RUST PROGRAM WHAT");
            eprintln!("usage: oracle pieces LENGTH");
            eprintln!(
                "modular, sched, copies, receiver, machine, fill and planner need a build with the feature judge"
            );
            return ExitCode::from(2);
        }
    };
    if passed {
        ExitCode::SUCCESS
    } else {
        ExitCode::FAILURE
    }
}

fn answer_lines(program: fn(StdinLock, BufWriter<StdoutLock>) -> io::Result<()>) -> bool {
    let output = BufWriter::new(io::stdout().lock());
    program(io::stdin().lock(), output).is_ok()
}
