//! How often each kind of thing occurred in a run, and which kinds a long run must show.

use std::collections::BTreeMap;
use std::fmt::{self, Display, Formatter};

use reference::calls::{Answer, Reply};
use reference::protocol;

/// The kinds of deliveries by their splits.
const SPLITS: [&str; 3] = ["no split", "one split", "several splits"];

/// Counts by kind.
#[derive(Clone, Debug, PartialEq, Eq)]
pub struct Tally {
    expected: Vec<String>,
    enough: u64,
    counts: BTreeMap<String, u64>,
}

impl Tally {
    /// A run that has counted `enough` must have shown each of these kinds; others are faults at
    /// once.
    pub fn new<K: ToString>(expected: impl IntoIterator<Item = K>, enough: u64) -> Tally {
        Tally {
            expected: expected.into_iter().map(|kind| kind.to_string()).collect(),
            enough,
            counts: BTreeMap::new(),
        }
    }

    /// For answers: accepted ones, these refusals, and these others.
    pub fn of_answers(refusals: impl Iterator<Item = u32>, others: &[&str], enough: u64) -> Tally {
        let accepted = [Answer::Done, Answer::Sum(0)].map(|answer| protocol::answer(Ok(answer)));
        let refused = refusals.map(|number| protocol::answer(Err(number)));
        let others = others.iter().map(|other| other.to_string());
        let kinds = accepted.into_iter().chain(others).chain(refused);
        Tally::new(kinds.map(|answer| answer_kind(&answer)), enough)
    }

    /// For accepted deliveries: how many buckets each of them split.
    pub fn of_splits(enough: u64) -> Tally {
        Tally::new(SPLITS, enough)
    }

    /// Counts one thing of a kind.
    pub fn add(&mut self, kind: &str) {
        *self.counts.entry(kind.to_string()).or_default() += 1;
    }

    /// Counts an answer as the bench program prints it.
    pub fn add_answer(&mut self, answer: &str) {
        self.add(&answer_kind(answer));
    }

    /// Counts the splits of an accepted delivery; other answers have none to count.
    pub fn add_splits(&mut self, reply: Reply) {
        let [none, one, several] = SPLITS;
        match reply {
            Ok(Answer::Splits(0)) => self.add(none),
            Ok(Answer::Splits(1)) => self.add(one),
            Ok(Answer::Splits(_)) => self.add(several),
            _ => {}
        }
    }

    fn count(&self, kind: &str) -> u64 {
        self.counts.get(kind).copied().unwrap_or(0)
    }

    /// All that was counted.
    pub fn total(&self) -> u64 {
        self.counts.values().sum()
    }

    /// What is wrong: kinds that cannot occur, and in a run that is long enough every expected
    /// kind that never occurred.
    pub fn faults(&self) -> Vec<String> {
        let is_enough = self.total() >= self.enough;
        self.faults_below(u64::from(is_enough))
    }

    /// Kinds that cannot occur, and every expected one that occurred less often than this.
    pub fn faults_below(&self, least: u64) -> Vec<String> {
        let unexpected = self.unexpected().map(|kind| format!("unexpected: {kind}"));
        let counts = self.expected.iter().map(|kind| (kind, self.count(kind)));
        let rare = counts.filter(|(_, count)| *count < least);
        let rare = rare.map(|(kind, count)| match count {
            0 => format!("never occurred: {kind}"),
            _ => format!("only {count}: {kind}"),
        });
        unexpected.chain(rare).collect()
    }

    /// How many kinds are expected.
    pub fn kinds(&self) -> usize {
        self.expected.len()
    }

    fn unexpected(&self) -> impl Iterator<Item = &String> {
        let kinds = self.counts.keys();
        kinds.filter(|kind| !self.expected.contains(kind))
    }
}

/// Expected kinds first, in their order, then the others.
impl Display for Tally {
    fn fmt(&self, f: &mut Formatter<'_>) -> fmt::Result {
        let kinds = self.expected.iter().chain(self.unexpected());
        let counts: Vec<String> = kinds.map(|k| format!("{k}: {}", self.count(k))).collect();
        write!(f, "{}", counts.join(", "))
    }
}

/// The kinds of these lists.
pub(crate) fn names(lists: &[&[&str]]) -> Vec<String> {
    lists.concat().into_iter().map(str::to_string).collect()
}

/// Kinds, and whether something is of each.
pub(crate) type Cases<const N: usize> = [(&'static str, bool); N];

/// Those of these kinds that hold.
pub(crate) fn that_hold(kinds: impl IntoIterator<Item = (&'static str, bool)>) -> Vec<String> {
    let holding = kinds.into_iter().filter(|(_, holds)| *holds);
    holding.map(|(kind, _)| kind.to_string()).collect()
}

/// The first of these kinds that holds, which the last one does.
pub(crate) fn first_that_holds(kinds: &[(&'static str, bool)]) -> (&'static str, bool) {
    let mut holding = kinds.iter().filter(|(_, holds)| *holds);
    *holding.next().expect("a kind that always holds")
}

/// An answer without what varies within its kind.
fn answer_kind(answer: &str) -> String {
    match answer.strip_prefix("= ") {
        Some(_) => "=".to_string(),
        None => answer.to_string(),
    }
}
