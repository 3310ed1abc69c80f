//! Measures the static library: how fast it is beside hand-written Rust, or how far its sums are off.

#![forbid(unsafe_code)]

mod benchmark;
mod errors;
mod rivals;

use std::process::ExitCode;

use compare::options::{self, Words};

const USAGE: &str = "\
usage: measure benchmark [--rounds N] [--twice]
       measure errors PICTURE

benchmark times the calls of the static library beside hand-written Rust, a ground beside its
question, the replay of a day beside its calls one by one and the merge of two days beside a copy,
and prints the tables.
  --rounds N  timed batches of each candidate for each row, at least 1 (601); a sixth as many days
              and merges
  --twice     measures all a second time and tells how far the ratios moved

errors feeds books of the site shape in several orders, compares their answers with the exact
ledger's, prints a table and writes a picture of the errors, as SVG.";

fn main() -> ExitCode {
    options::main(USAGE, read, |run| run())
}

/// What the command line asks for.
fn read(mut words: Words) -> Result<Box<dyn FnOnce() -> ExitCode>, String> {
    let part = words.subcommand().unwrap_or_default();
    if part == "benchmark" {
        let (rounds, twice) = benchmark::read(words)?;
        Ok(Box::new(move || benchmark::run(rounds, twice)))
    } else if part == "errors" {
        let [picture] = words.operands(["PICTURE"])?;
        Ok(Box::new(move || errors::run(&picture)))
    } else {
        Err("the first word is benchmark or errors".to_string())
    }
}
