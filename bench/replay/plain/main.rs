//! `drmsim replay`, `serial` and `check` in plain Rust: what the proved program is measured beside. Nothing of it is
//! proved; `bench/replay/equal` compares the two. It is written for speed, with the standard library alone: one pass
//! over the text, jobs checked as they are read, a count of unmet dependencies in each job, so that a pick looks at
//! ready entities only, and answers that are written in pieces once the whole text is judged. It knows no flags.
mod core;
mod header;
mod job;
mod journal;
mod memory;
mod output;
mod script;
mod text;

use crate::core::Core;
use journal::Journal;
use output::Output;
use script::Script;
use std::env;
use std::fs::File;
use std::io::{self, ErrorKind, Read};
use std::os::fd::AsFd;
use std::process::ExitCode;
use text::{with_room, Ending, PADDING, TEXT_LIMIT};

/// Standard input to its end, or to one byte more than a text may have, and the bytes 00 behind it.
fn read_input() -> Result<Vec<u8>, Ending> {
    let mut text = with_room(TEXT_LIMIT + PADDING + 1)?;
    let input = io::stdin().as_fd().try_clone_to_owned().map_err(|_| Ending::Input)?;
    match File::from(input).take(TEXT_LIMIT as u64 + 1).read_to_end(&mut text) {
        Err(error) if error.kind() == ErrorKind::OutOfMemory => Err(Ending::Memory),
        Err(_) => Err(Ending::Input),
        Ok(length) if length > TEXT_LIMIT => Err(Ending::Fault { at: 0, number: text::TOO_LONG }),
        Ok(_) => {
            text.extend([0; PADDING]);
            Ok(text)
        }
    }
}

fn replay(text: &[u8]) -> Result<u8, Ending> {
    let script = Script::read(text)?;
    let mut output = Output::new()?;
    let mut core = Core::new(&script)?;
    for event in &script.events {
        core.apply(event, &mut output);
        output.line_done()?;
    }
    output.flush()?;
    Ok(0)
}

fn serial(text: &[u8]) -> Result<u8, Ending> {
    let memory = Journal::read(text)?.serial()?;
    let mut output = Output::new()?;
    for buffer in 0..memory.buffers() {
        output.bytes(memory.buffer(buffer));
        output.line_done()?;
    }
    output.flush()?;
    Ok(0)
}

fn check(text: &[u8]) -> Result<u8, Ending> {
    let journal = Journal::read(text)?;
    let difference = journal.difference(&journal.serial()?);
    let mut output = Output::new()?;
    match difference {
        None => output.words(b"same\n"),
        Some((buffer, byte)) => {
            output.line(b"differs at buffer ", buffer as u64, b" byte ");
            output.line(b"", byte as u64, b"\n");
        }
    }
    output.flush()?;
    Ok(u8::from(difference.is_some()))
}

/// Says on standard error why a run ended, and tells its status.
fn tell(ending: Ending, text: &[u8]) -> u8 {
    match ending {
        Ending::Fault { at, number } => {
            let (line, column, number) = text::place(text, at as usize, number);
            eprintln!("line {line} column {column}: fault {number}");
            2
        }
        Ending::NoDevice { part, index } => {
            eprintln!("refused 1 {part} {index}");
            2
        }
        Ending::Memory => {
            eprintln!("out of memory");
            3
        }
        Ending::Input => {
            eprintln!("input failed");
            4
        }
        Ending::Output => {
            eprintln!("output failed");
            4
        }
    }
}

fn main() -> ExitCode {
    let command = match env::args().nth(1).as_deref() {
        Some("replay") => replay,
        Some("serial") => serial,
        Some("check") => check,
        _ => {
            eprintln!("usage: replay | serial | check");
            return ExitCode::from(2);
        }
    };
    let status = match read_input() {
        Err(ending) => tell(ending, &[0; PADDING]),
        Ok(text) => command(&text).unwrap_or_else(|ending| tell(ending, &text)),
    };
    ExitCode::from(status)
}
