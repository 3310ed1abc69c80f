//! One reader for the command lines of all programs here. A program takes out what it knows, and
//! what is left over at the end is an error.

use std::env;
use std::ffi::{OsStr, OsString};
use std::ops::Range;
use std::process::ExitCode;

/// The exit status for a command line that does not read.
const USAGE_ERROR: u8 = 2;

/// The words of a command line that are not read yet.
pub struct Words {
    left: Vec<OsString>,
}

impl Words {
    /// These words, the program's own name not among them.
    pub fn new<W: Into<OsString>>(words: impl IntoIterator<Item = W>) -> Words {
        Words { left: words.into_iter().map(W::into).collect() }
    }

    /// Takes out the first word, which says what a program is to do.
    pub fn subcommand(&mut self) -> Option<OsString> {
        (!self.left.is_empty()).then(|| self.left.remove(0))
    }

    /// Takes out a word like `--twice`; whether it was there.
    pub fn flag(&mut self, name: &str) -> bool {
        let place = self.place(name);
        place.is_some_and(|place| {
            self.left.remove(place);
            true
        })
    }

    /// Takes out a word like `--seed` and the number after it.
    pub fn number(&mut self, name: &str) -> Result<Option<u64>, String> {
        let Some(value) = self.after(name) else {
            return Ok(None);
        };
        let number = value.and_then(|value| value.to_str()?.parse().ok());
        number.map(Some).ok_or(format!("{name} needs a number"))
    }

    /// Takes out a word like `-o` and the file's name after it.
    pub fn file(&mut self, name: &str) -> Result<Option<OsString>, String> {
        match self.after(name) {
            None => Ok(None),
            Some(None) => Err(format!("{name} needs a file")),
            Some(file) => Ok(file),
        }
    }

    /// What is left, which must be one word for each of these names; the names only serve to say
    /// what is missing.
    pub fn operands<const N: usize>(self, names: [&str; N]) -> Result<[OsString; N], String> {
        let left = self.rest()?;
        if let Some(missing) = names.get(left.len()) {
            return Err(format!("{missing} is missing"));
        }
        let too_many = |words: Vec<OsString>| format!("one word too many: {}", words[N].display());
        left.try_into().map_err(too_many)
    }

    /// What is left, however many words that are; none of them may be an option. A `-` alone is none.
    pub fn rest(self) -> Result<Vec<OsString>, String> {
        let is_option = |word: &&OsString| word.len() > 1 && word.as_encoded_bytes()[0] == b'-';
        match self.left.iter().find(is_option) {
            Some(unknown) => Err(format!("unknown or twice: {}", unknown.display())),
            None => Ok(self.left),
        }
    }

    /// Takes out a word, where it is there, and the one after it.
    fn after(&mut self, name: &str) -> Option<Option<OsString>> {
        let place = self.place(name)?;
        self.left.remove(place);
        Some((place < self.left.len()).then(|| self.left.remove(place)))
    }

    fn place(&self, name: &str) -> Option<usize> {
        self.left.iter().position(|word| word == OsStr::new(name))
    }
}

/// Which of its numbered trials a comparison is to make.
#[derive(Clone, Debug, PartialEq, Eq)]
pub struct Trials {
    /// The seed of all trials.
    pub seed: u64,
    /// How many trials the run has.
    pub count: u64,
    /// The numbers of those that are made.
    pub numbers: Range<u64>,
}

impl Trials {
    /// Takes out `--seed`, `--trials` for how many, and `--trial` for one alone.
    pub fn read(words: &mut Words, usual: u64) -> Result<Trials, String> {
        let seed = words.number("--seed")?.unwrap_or(1);
        let count = words.number("--trials")?.unwrap_or(usual);
        if count == 0 {
            return Err("--trials needs at least 1".to_string());
        }
        let numbers = match words.number("--trial")? {
            None => 0..count,
            // The end must not wrap, or the range would be empty and the run would pass.
            Some(number) => {
                let end = number.checked_add(1);
                number..end.ok_or(format!("--trial needs a number below {number}"))?
            }
        };
        Ok(Trials { seed, count, numbers })
    }

    /// Whether these are the trials of the usual run. Another seed may meet fewer things by chance.
    pub fn are_usual(&self, usual: u64) -> bool {
        self.seed == 1 && self.numbers == (0..usual)
    }
}

/// The whole of a `main`: reads the command line and runs the program, or says how it is called.
/// `--help` prints the usage; words that do not read are told with the usage and exit status 2.
pub fn main<T>(
    usage: &str,
    read: impl FnOnce(Words) -> Result<T, String>,
    run: impl FnOnce(T) -> ExitCode,
) -> ExitCode {
    let mut words = Words::new(env::args_os().skip(1));
    if words.flag("--help") {
        println!("{usage}");
        return ExitCode::SUCCESS;
    }
    match read(words) {
        Ok(options) => run(options),
        Err(trouble) => {
            eprintln!("{trouble}\n\n{usage}");
            ExitCode::from(USAGE_ERROR)
        }
    }
}
