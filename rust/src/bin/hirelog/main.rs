//! hirelog, the command for people: the library's services on files.
//!
//! `usage` reads the command line. Each command (`audit`, `district`, `assemble`, `check`, `digest`)
//! reads its files and comes to an `Answer`, which is printed as lines, with explanations, or as JSON.
//! A new command is a module with a `COMMAND`, and an entry in `COMMANDS`.

mod answer;
mod assemble;
mod audit;
mod check;
mod digest;
mod district;
mod files;
mod formats;
mod hints;
mod json;
mod usage;

use answer::{once, Failure, Status};
use std::ffi::OsString;
use std::io::{self, Write};
use std::path::PathBuf;
use std::process::ExitCode;
use usage::{Command, Request, Run};

/// The commands, in the order of the help.
pub const COMMANDS: &[Command] =
    &[audit::COMMAND, district::COMMAND, assemble::COMMAND, check::COMMAND, digest::COMMAND];

/// What a run leaves: bytes for stdout, messages for stderr, and the exit status.
struct Outcome {
    output: Vec<u8>,
    messages: Vec<String>,
    status: Status,
    /// The file that was written, if one was.
    written: Option<PathBuf>,
}

fn main() -> ExitCode {
    let arguments: Vec<OsString> = std::env::args_os().skip(1).collect();
    let outcome = run(&arguments).unwrap_or_else(|failure| Outcome {
        output: Vec::new(),
        messages: failure.messages,
        status: failure.status,
        written: None,
    });
    finish(outcome)
}

/// Does what the command line asks for.
fn run(arguments: &[OsString]) -> Result<Outcome, Failure> {
    let (command, options, operands) = match usage::parse(arguments)? {
        Request::Print(text) => {
            let (output, status) = (text.into_bytes(), Status::NothingFound);
            return Ok(Outcome { output, messages: Vec::new(), status, written: None });
        }
        Request::Run { command, options, operands } => (command, options, operands),
    };
    let answer = match command.run {
        Run::Reads(run) => run(&operands),
        Run::Writes(run) => {
            usage::output(command, &options, &operands).and_then(|file| run(&operands, file))
        }
    };
    let mut answer = answer.map_err(|mut failure| {
        failure.messages.extend(usage::parted_name(&operands));
        failure
    })?;
    answer.hints = once(answer.hints);
    let output = if options.json {
        answer.json(command.name, options.explain)
    } else {
        answer.text(options.explain)
    };
    let (messages, status) = (answer.messages(options.explain), answer.status);
    let written = options.output.filter(|_| status == Status::NothingFound);
    Ok(Outcome { output, messages, status, written })
}

/// Prints what a run leaves: stdout first, so that its lines stand before the messages.
fn finish(outcome: Outcome) -> ExitCode {
    let mut stdout = io::stdout().lock();
    let printed = stdout.write_all(&outcome.output).and_then(|()| stdout.flush());
    let mut status = outcome.status;
    let mut messages = outcome.messages;
    if let Err(error) = printed {
        let written = outcome.written.map(|path| format!("; {path:?} is written"));
        messages
            .push(format!("the answer cannot be written ({error}){}", written.unwrap_or_default()));
        status = Status::Unreadable;
    }
    for message in once(messages) {
        // Where stderr is closed too, the exit status is all that can be said.
        let _ = writeln!(io::stderr(), "hirelog: {message}");
    }
    ExitCode::from(status as u8)
}
