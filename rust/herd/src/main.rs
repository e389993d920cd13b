//! `herd`: herd images made, filled, asked and shown, for the people beside the crate. Changes, searches, lots, dues and
//! whether an image is accepted are proved calls of `vpindex`; what is here reads words and files, and writes what was
//! answered.
//!
//! The status is 0, 1 where something was refused, 2 for wrong use.

mod args;
mod calendar;
mod closed;
mod commands;
mod file;
mod head;
mod json;
mod layout;
mod list;
mod progress;
mod report;
mod words;

use std::env;
use std::io::{self, ErrorKind, Write};
use std::process::ExitCode;

use report::{Failure, Report};

fn main() -> ExitCode {
    let (report, status) = match commands::run(env::args_os().skip(1).collect()) {
        Ok(report) => (report, 0),
        Err(Failure::Refused(sentence)) => (Report { refused: vec![sentence], ..Report::default() }, 1),
        Err(Failure::Misuse(sentence)) => (Report { refused: vec![sentence], ..Report::default() }, 2),
    };
    let status = if report.refused.is_empty() { status } else { status.max(1) };
    let printed = print(&report.text);
    // also where the report could not be written
    report.noticed.iter().chain(&report.refused).for_each(|sentence| complain(sentence));
    let Err(error) = printed else { return ExitCode::from(status) };
    // whoever read a part of the output has seen enough of it, and need not be told
    if error.kind() != ErrorKind::BrokenPipe {
        complain(&format!("the output could not be written: {}", file::reason(&error)));
    }
    ExitCode::from(status.max(1))
}

fn print(text: &str) -> io::Result<()> {
    if closed::output() {
        return Err(io::Error::other("standard output is closed"));
    }
    let mut out = io::stdout().lock();
    out.write_all(text.as_bytes())?;
    out.flush()
}

// Where nobody can be told, the status still tells.
fn complain(sentence: &str) {
    let _ = writeln!(io::stderr(), "herd: {}", file::escaped(sentence));
}
