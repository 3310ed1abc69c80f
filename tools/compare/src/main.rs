//! Compares the bench program or the static library with the second program.

use std::ffi::OsString;
use std::path::PathBuf;
use std::process::{self, ExitCode};
use std::time::Duration;
use std::{env, fs, io};

use compare::bench::plan::Plan;
use compare::bench::program::{output_one_by_one, program_output};
use compare::bench::{self, LINES, LINES_ONE_BY_ONE, LINES_PER_SCRIPT};
use compare::books::BOOKS;
use compare::implementation::Archive;
use compare::merges::MERGES;
use compare::options::{self, Trials, Words};
use compare::replays::REPLAYS;
use compare::run::{Comparison, Failure, Summary};

const USAGE: &str = "\
usage: compare bench PROGRAM [--one-by-one] [--lines N] [--seed S] [--trials N] [--trial I]
       compare books|replays|merges [--seed S] [--trials N] [--trial I]

bench    gives random scripts of the bench protocol to PROGRAM and to the second program and compares
         every line
books    gives books of every kind to the static library and to the second program, a handful of calls
         on each, and compares every answer, the splits of a delivery with it, the ground of a question,
         and every word
replays  finds and replays days of traces of every kind on books of every kind, compares every number,
         part and word, and holds lists of calls and replays against the ledger, with the grounds of
         their questions, and with the sums that must be exact
merges   merges days of every kind, judges every number and output, and replays each merged day, of which
         each record has to meet its own clock

  --seed S      another seed gives other trials (1)
  --trials N    number of scripts (one for every 400 lines), books (24000), traces (24000) or merges
                (48000)
  --trial I     trial I alone, counted from 0, as a failed run names it; a script also depends on
                --lines and --trials
  --one-by-one  gives PROGRAM each line only once it has answered the one before
  --lines N     lines of all scripts together (40000; one by one 400)";

/// How long a program has for one answer. It needs no more than milliseconds, also on a slow machine,
/// but others may be busy there.
const PATIENCE: Duration = Duration::from_secs(20);

/// What a run is asked to do.
struct Options {
    task: Task,
    trials: Trials,
    /// Whether it is the usual run, which has to meet everything.
    is_usual: bool,
}

enum Task {
    Bench { program: OsString, one_by_one: bool, lines: u64 },
    Archive(&'static Comparison),
}

fn main() -> ExitCode {
    options::main(USAGE, read, |options| match run(&options) {
        Ok(summary) => report(&options, &summary),
        Err(failure) => report_failure(&options, &failure),
    })
}

fn read(mut words: Words) -> Result<Options, String> {
    let name = words.subcommand().ok_or("bench, books, replays or merges is missing")?;
    if name == "bench" {
        return read_bench(words);
    }
    let comparison = [&BOOKS, &REPLAYS, &MERGES].into_iter().find(|one| name == one.name);
    let comparison = comparison.ok_or(format!("no comparison: {}", name.display()))?;
    let trials = Trials::read(&mut words, comparison.usual)?;
    let [] = words.operands([])?;
    Ok(Options {
        task: Task::Archive(comparison),
        is_usual: trials.are_usual(comparison.usual),
        trials,
    })
}

fn read_bench(mut words: Words) -> Result<Options, String> {
    let one_by_one = words.flag("--one-by-one");
    let usual = if one_by_one { LINES_ONE_BY_ONE } else { LINES };
    let lines = words.number("--lines")?.unwrap_or(usual);
    let trials = Trials::read(&mut words, (lines / LINES_PER_SCRIPT).max(1))?;
    let [program] = words.operands(["PROGRAM"])?;
    if lines == 0 {
        return Err("--lines needs at least 1".to_string());
    }
    if trials.numbers.end > trials.count {
        return Err(format!("there are only {} scripts", trials.count));
    }
    let is_usual = lines == LINES && trials.are_usual(LINES / LINES_PER_SCRIPT);
    Ok(Options { task: Task::Bench { program, one_by_one, lines }, trials, is_usual })
}

fn run(Options { task, trials, .. }: &Options) -> Result<Summary, Failure> {
    let (seed, numbers) = (trials.seed, trials.numbers.clone());
    match task {
        Task::Archive(comparison) => comparison.run(&Archive, seed, numbers),
        Task::Bench { program, one_by_one, lines } => {
            let before = usize::try_from(numbers.start).expect("at most as many as scripts");
            let scripts = Plan::new(seed, *lines, trials.count).skip(before);
            bench::run(numbers.zip(scripts), |script| {
                if *one_by_one {
                    output_one_by_one(program, script, PATIENCE)
                } else {
                    program_output(program, script)
                }
            })
        }
    }
}

/// What is compared, with all that its trials depend on but their numbers.
fn name(Options { task, trials, .. }: &Options) -> String {
    let (seed, count) = (trials.seed, trials.count);
    match task {
        Task::Archive(comparison) => format!("{} --seed {seed}", comparison.name),
        Task::Bench { one_by_one, lines, .. } => {
            let how = if *one_by_one { " --one-by-one" } else { "" };
            format!("bench{how} --seed {seed} --lines {lines} --trials {count}")
        }
    }
}

/// Tells what a run met and what is wrong with that.
fn report(options: &Options, summary: &Summary) -> ExitCode {
    let (name, trials) = (name(options), summary.trials());
    println!("{name}: all equal; trials {trials}; {summary}");
    let faults = summary.faults(options.is_usual);
    for fault in &faults {
        eprintln!("{name}: {fault}");
    }
    ExitCode::from(status(&faults))
}

fn status(faults: &[String]) -> u8 {
    u8::from(!faults.is_empty())
}

/// Tells where a run failed, in the words that make this trial again.
fn report_failure(options: &Options, failure: &Failure) -> ExitCode {
    let (name, Failure { number, difference }) = (name(options), failure);
    let (what, told) = (difference.what, &difference.told);
    eprintln!("{name} --trial {number}: {what:?}\n{told}");
    if let Some(script) = &difference.script {
        match keep(options.trials.seed, *number, script) {
            Ok(path) => eprintln!("script in: {}", path.display()),
            Err(error) => eprintln!("the script could not be kept: {error}"),
        }
    }
    ExitCode::FAILURE
}

/// Writes a script to a file of its own, also where several runs fail at once.
fn keep(seed: u64, number: u64, script: &[u8]) -> io::Result<PathBuf> {
    let process = process::id();
    let path = env::temp_dir().join(format!("compare-{seed}-{number}-{process}.txt"));
    fs::write(&path, script)?;
    Ok(path)
}

#[test]
fn the_usual_runs() {
    let is_usual = |words: &str| read(Words::new(words.split_whitespace())).unwrap().is_usual;
    for words in ["bench a", "books", "replays", "merges", "books --trials 24000 --seed 1"] {
        assert!(is_usual(words), "{words}");
    }
    for words in ["bench a --one-by-one", "bench a --lines 2", "books --seed 2", "books --trial 0"]
    {
        assert!(!is_usual(words), "{words}");
    }
}

#[test]
fn a_fault_is_a_failure() {
    assert_eq!(status(&[]), 0);
    assert_eq!(status(&["books: never occurred: grown".to_string()]), 1);
}
