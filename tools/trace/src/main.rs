//! A trace as files: lines of the bench protocol for each day on one side, 32-bit words with the low byte
//! first on the other. What a trace is, the second program says; the library merges two days of traces.

#![forbid(unsafe_code)]

mod command;
mod make;
mod merge;
mod print;

use std::fmt::Display;
use std::fs;
use std::io::{self, Write};
use std::path::{Path, PathBuf};
use std::process::ExitCode;

use command::{Command, USAGE};
use make::{bytes, make};
use merge::merge;
use print::{print, words};
use reference::merge::Named;

fn main() -> ExitCode {
    compare::options::main(USAGE, command::read, |(command, output)| {
        match run(command).and_then(|bytes| write(output.as_deref(), &bytes)) {
            Ok(()) => ExitCode::SUCCESS,
            Err(trouble) => {
                eprintln!("{trouble}");
                ExitCode::FAILURE
            }
        }
    })
}

/// The bytes that are asked for.
fn run(command: Command) -> Result<Vec<u8>, String> {
    match command {
        Command::Make(days) => {
            let named = |path: &PathBuf| Ok((path.display().to_string(), read(path)?));
            let days: Result<Vec<_>, String> = days.iter().map(named).collect();
            Ok(bytes(&make(&days?)?))
        }
        Command::Merge(days) => {
            let names = days.each_ref().map(|(file, _)| file.display().to_string());
            let [(first, one), (second, other)] = days;
            let (first, second) = (read_words(&first)?, read_words(&second)?);
            let named = |trace, day| Named { trace, day };
            let (first, second) = (named(&first, one), named(&second, other));
            Ok(bytes(&merge([(&names[0], first), (&names[1], second)])?))
        }
        Command::Print(file) => {
            let text = print(&read_words(&file)?).map_err(|trouble| of_file(&file, trouble))?;
            Ok(text.into_bytes())
        }
    }
}

/// The words of a trace.
fn read_words(file: &Path) -> Result<Vec<u32>, String> {
    words(&read(file)?).map_err(|trouble| of_file(file, trouble))
}

fn read(file: &Path) -> Result<Vec<u8>, String> {
    fs::read(file).map_err(|error| of_file(file, error))
}

fn of_file(file: &Path, trouble: impl Display) -> String {
    format!("{}: {trouble}", file.display())
}

/// Writes to a file, or to standard output where none is named.
fn write(file: Option<&Path>, bytes: &[u8]) -> Result<(), String> {
    match file {
        Some(file) => fs::write(file, bytes).map_err(|error| of_file(file, error)),
        None => {
            let mut output = io::stdout().lock();
            let written = output.write_all(bytes).and_then(|()| output.flush());
            written.map_err(|error| format!("standard output: {error}"))
        }
    }
}
