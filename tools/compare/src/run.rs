//! A run of trials, up to the first in which the sides differ, and what it has met.

use std::fmt::{self, Display, Formatter};
use std::ops::Range;

use draw::random::Random;
use draw::tally::Tally;

use crate::difference::Difference;
use crate::implementation::Implementation;

/// A tally of more kinds is told by its total alone.
const MOST_TOLD: usize = 30;
/// The usual run must meet every kind so often, so that a small change of what is drawn loses none.
const OFTEN: u64 = 3;

/// What the trials of a run have met, in several tallies.
#[derive(Clone, Debug, PartialEq, Eq)]
pub struct Summary {
    trials: u64,
    tallies: Vec<(&'static str, Tally)>,
}

impl Summary {
    /// Nothing met yet. Each tally has a name.
    pub fn new(tallies: impl Into<Vec<(&'static str, Tally)>>) -> Summary {
        Summary { trials: 0, tallies: tallies.into() }
    }

    /// Trials without a difference.
    pub fn trials(&self) -> u64 {
        self.trials
    }

    /// The names of the tallies.
    pub fn names(&self) -> impl Iterator<Item = &'static str> + '_ {
        self.tallies.iter().map(|(name, _)| *name)
    }

    /// A tally by its name.
    pub fn tally(&mut self, name: &str) -> &mut Tally {
        let mut tallies = self.tallies.iter_mut();
        let named = tallies.find(|(tally, _)| *tally == name);
        &mut named.unwrap_or_else(|| panic!("no tally of {name}")).1
    }

    /// Counts one thing of a kind.
    pub fn add(&mut self, name: &str, kind: &str) {
        self.tally(name).add(kind);
    }

    /// Counts one thing of several kinds.
    pub fn add_all<K: AsRef<str>>(&mut self, name: &str, kinds: impl IntoIterator<Item = K>) {
        let tally = self.tally(name);
        kinds.into_iter().for_each(|kind| tally.add(kind.as_ref()));
    }

    /// What is wrong with what was met. The usual run must meet every kind often, another one those for which
    /// it is long enough. The first tally is of what is compared, so it cannot be empty.
    pub fn faults(&self, is_usual: bool) -> Vec<String> {
        let mut faults = Vec::new();
        for (name, tally) in &self.tallies {
            let found = if is_usual { tally.faults_below(OFTEN) } else { tally.faults() };
            faults.extend(found.into_iter().map(|fault| format!("{name}: {fault}")));
        }
        if self.tallies[0].1.total() == 0 {
            faults.push("nothing was compared".to_string());
        }
        faults
    }
}

impl Display for Summary {
    fn fmt(&self, f: &mut Formatter<'_>) -> fmt::Result {
        let told = self.tallies.iter().map(|(name, tally)| {
            let total = tally.total();
            match tally.kinds() {
                kinds if kinds > MOST_TOLD => format!("{name} {total} ({kinds} kinds)"),
                _ => format!("{name} {total} ({tally})"),
            }
        });
        f.write_str(&told.collect::<Vec<_>>().join("; "))
    }
}

/// The trial in which the sides differ.
#[derive(Clone, Debug, PartialEq, Eq)]
pub struct Failure {
    /// The trial, counted from 0.
    pub number: u64,
    /// What differs.
    pub difference: Difference,
}

/// Makes numbered trials, each of something that was drawn for it.
pub fn run<T>(
    mut summary: Summary,
    trials: impl Iterator<Item = (u64, T)>,
    mut trial: impl FnMut(T, &mut Summary) -> Result<(), Difference>,
) -> Result<Summary, Failure> {
    for (number, drawn) in trials {
        let result = trial(drawn, &mut summary);
        result.map_err(|difference| Failure { number, difference })?;
        summary.trials += 1;
    }
    Ok(summary)
}

/// A comparison of an implementation with the second program.
pub struct Comparison {
    /// Its name.
    pub name: &'static str,
    /// Trials of a usual run.
    pub usual: u64,
    /// What a run has to meet.
    pub summary: fn() -> Summary,
    /// A trial of this number.
    pub trial: fn(&dyn Implementation, &mut Random, u64, &mut Summary) -> Result<(), Difference>,
}

impl Comparison {
    /// The trials of these numbers. A trial depends on the seed and its number alone.
    pub fn run(
        &self,
        implementation: &dyn Implementation,
        seed: u64,
        numbers: Range<u64>,
    ) -> Result<Summary, Failure> {
        let trials = numbers.map(|number| (number, (number, Random::of_trial(seed, number))));
        run((self.summary)(), trials, |(number, mut random), summary| {
            (self.trial)(implementation, &mut random, number, summary)
        })
    }
}
