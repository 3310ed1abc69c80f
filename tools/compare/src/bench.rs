//! Random scripts of the bench protocol (document 01, "The bench program"), each answered by a program and by
//! the second program, compared line by line.

mod hostile;
mod met;
pub mod plan;
pub mod program;
mod script;

use draw::edges;
use draw::tally::Tally;
use reference::protocol::{self, UNREAD};
use reference::refusal;

use crate::difference::{Difference, What};
use crate::run::{self, Failure, Summary};

/// Lines of a usual run.
pub const LINES: u64 = 40_000;
/// The same of a run in which a program gets each line only once it has answered the one before.
pub const LINES_ONE_BY_ONE: u64 = 400;
/// Lines of a script on average.
pub const LINES_PER_SCRIPT: u64 = 400;

/// A run of so many lines must show every kind of answer.
const LINES_FOR_ALL: u64 = 20_000;
/// A run that has counted so many must show every kind of unread line, every case, every call at an edge, and
/// every question that tells a tick.
const ODD_FOR_ALL: u64 = 1_500;
const CASES_FOR_ALL: u64 = 60_000;
const EDGES_FOR_ALL: u64 = 6_000;
const TICKS_FOR_ALL: u64 = 8_000;
/// Longest part of a line that is shown; hostile lines can be far longer.
const SHOWN_BYTES: usize = 160;

/// What a run has to meet. A script can draw every kind of answer but refusal 11: only words that no call
/// wrote are an unsound block.
pub fn summary() -> Summary {
    let refusals = refusal::CALLS.filter(|number| *number != refusal::BLOCK);
    let lines = Tally::of_answers(refusals, &[UNREAD], LINES_FOR_ALL);
    Summary::new([
        ("lines", lines),
        ("odd lines", Tally::new(met::odd(), ODD_FOR_ALL)),
        ("cases", Tally::new(met::all(), CASES_FOR_ALL)),
        ("edges", Tally::new(edges::all(), EDGES_FOR_ALL)),
        ("ticks told", Tally::new(edges::all_telling(), TICKS_FOR_ALL)),
    ])
}

/// Gives each script of a plan to both sides and compares every line of their outputs.
pub fn run(
    plan: impl Iterator<Item = (u64, Vec<u8>)>,
    program: impl Fn(&[u8]) -> Vec<u8>,
) -> Result<Summary, Failure> {
    run::run(summary(), plan, |script, summary| {
        let [ours, theirs] = [output(&script), program(&script)];
        if let Some(line) = first_difference(&ours, &theirs) {
            let told = told(line, [&script, &ours, &theirs]);
            return Err(Difference { script: Some(script), ..Difference::new(What::Line, told) });
        }
        for answer in lines(&ours).map(content) {
            let answer = String::from_utf8_lossy(answer);
            summary.tally("lines").add_answer(&answer);
        }
        met::count(&script, summary);
        Ok(())
    })
}

/// The second program's output for a script.
pub fn output(script: &[u8]) -> Vec<u8> {
    let mut output = Vec::new();
    protocol::run(script, &mut output).expect("a vector takes every byte");
    output
}

/// The first line, counted from 0, in which two outputs differ; a line that one of them lacks is one.
pub fn first_difference(ours: &[u8], theirs: &[u8]) -> Option<usize> {
    let (mut ours, mut theirs) = (lines(ours), lines(theirs));
    for line in 0.. {
        match (ours.next(), theirs.next()) {
            (None, None) => break,
            (one, other) if one != other => return Some(line),
            _ => {}
        }
    }
    None
}

/// The line with its number, which counts from 1 as in an editor.
fn told(line: usize, texts: [&[u8]; 3]) -> String {
    let [input, ours, theirs] = texts.map(|text| shown(lines(text).nth(line)));
    let number = line + 1;
    format!("line {number}\ninput:   {input}\nexpected {ours}\nprogram: {theirs}")
}

fn shown(line: Option<&[u8]>) -> String {
    match line {
        None => "(no line)".to_string(),
        Some(bytes) if bytes.len() > SHOWN_BYTES => {
            let start = bytes[..SHOWN_BYTES].escape_ascii();
            format!("\"{start}\".. ({} bytes)", bytes.len())
        }
        Some(bytes) => format!("\"{}\"", bytes.escape_ascii()),
    }
}

/// Lines with their newlines, so that a missing one shows.
pub fn lines(bytes: &[u8]) -> impl Iterator<Item = &[u8]> {
    bytes.split_inclusive(|byte| *byte == b'\n')
}

/// A line without its newline.
pub fn content(line: &[u8]) -> &[u8] {
    line.strip_suffix(b"\n").unwrap_or(line)
}
