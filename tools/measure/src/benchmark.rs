//! Measures the calls of the static library against two hand-written Rust versions and against a bare read of
//! the words, all in one run on the same grown books, grounds against questions, a replayed day against the
//! same calls one by one, and a merge of two days against a copy. Prints Markdown tables.

mod calls;
mod load;
mod merge;
mod table;
mod timing;

use std::process::ExitCode;

use compare::options::Words;
use table::{moved, targets, Table};

/// Reads a command line: how many rounds, and whether to measure twice; the error says what is wrong.
pub fn read(mut words: Words) -> Result<(usize, bool), String> {
    let rounds = words.number("--rounds")?.unwrap_or(601);
    let twice = words.flag("--twice");
    let [] = words.operands([])?;
    if rounds == 0 {
        return Err("--rounds needs at least 1".to_string());
    }
    Ok((rounds as usize, twice))
}

/// Measures all and prints the tables.
pub fn run(rounds: usize, twice: bool) -> ExitCode {
    let tables = measured(rounds);
    for table in &tables {
        println!("{table}");
    }
    println!("{}", targets(&tables));
    if twice {
        println!("{}", moved(&tables, &measured(rounds)));
    }
    ExitCode::SUCCESS
}

fn measured(rounds: usize) -> Vec<Table> {
    // A day or a merge has as many words as many batches of calls, so there are fewer of them.
    let fewer = rounds.div_ceil(6);
    let mut tables = calls::run(rounds, fewer);
    tables.push(merge::run(fewer));
    tables
}

#[test]
fn words_of_the_command_line() {
    let read = |words: &str| read(Words::new(words.split_whitespace())).ok();
    assert_eq!(read(""), Some((601, false)));
    assert_eq!(read("--twice --rounds 7"), Some((7, true)));
    assert_eq!(read("--rounds 0").or(read("--thrice")), None);
}
