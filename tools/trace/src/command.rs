//! The command line.

use std::ffi::OsStr;
use std::path::PathBuf;

use compare::options::Words;

/// How the program is called.
pub const USAGE: &str = "\
usage: trace make [-o FILE] DAY ..
       trace merge [-o FILE] FIRST I SECOND J
       trace print FILE

make writes a trace, as 32-bit words with the low byte first. Each DAY is a file of the bench
protocol's lines c, d and q, one for each record; the days are numbered from 0 as they are named.
merge writes a trace of one day: day I of the trace in file FIRST, merged by the library with day J
of that in SECOND. If it is refused, the number and the reason are told, and FILE is not touched.
  -o FILE  writes to FILE, over what is there, and not to standard output
print tells where each day of a trace starts, how many words it has, and its records as such lines,
or where the layout is broken.";

/// What the program is asked for.
pub enum Command {
    /// A trace of the days in these files.
    Make(Vec<PathBuf>),
    /// A trace of one day, merged from two: the files of their traces, and their numbers there.
    Merge([(PathBuf, u32); 2]),
    /// The lines of the trace in this file.
    Print(PathBuf),
}

/// Reads a command line: what is asked for, and the file that it goes to, if it is one; the error says what is
/// wrong.
pub fn read(mut words: Words) -> Result<(Command, Option<PathBuf>), String> {
    let output = words.file("-o")?.map(PathBuf::from);
    let mut rest = words.rest()?.into_iter();
    let command = rest.next().ok_or("make, merge or print is missing")?;
    let command = match command.to_str() {
        Some("make") if rest.len() == 0 => return Err("DAY is missing".to_string()),
        Some("make") => Command::Make(rest.map(PathBuf::from).collect()),
        Some("merge") => {
            let names = ["FIRST", "I", "SECOND", "J"];
            let [first, one, second, other] = Words::new(rest).operands(names)?;
            Command::Merge([(first.into(), day(&one)?), (second.into(), day(&other)?)])
        }
        Some("print") if output.is_some() => return Err("-o goes with make and merge".to_string()),
        Some("print") => {
            let [file] = Words::new(rest).operands(["FILE"])?;
            Command::Print(file.into())
        }
        _ => {
            let command = command.display();
            return Err(format!("neither make nor merge nor print: {command}"));
        }
    };
    Ok((command, output))
}

/// The number of a day.
fn day(word: &OsStr) -> Result<u32, String> {
    let number = word.to_str().and_then(|word| word.parse().ok());
    number.ok_or(format!("no number of a day: {}", word.display()))
}
