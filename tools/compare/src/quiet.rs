//! The kinds of answered questions that document 02, request Seven, tells apart, and which a long run must
//! show.

use std::collections::BTreeSet;

use reference::ledger::{Entry, Ledger};
use reference::window::opening;

/// Windows of at most n.
const SHORT: [&str; 2] = ["a window below n", "a window of n"];
/// Wider windows whose sums are promised all the same.
const QUIET: [&str; 2] = ["a wider one over fewer than n stamps", "a wider one over n stamps"];
/// Wider windows of which nothing is promised, by whether the sum is exact.
const BUSY: [[&str; 2]; 2] = [
    ["over n + 1 stamps, exact", "over n + 1 stamps, off"],
    ["over more stamps, exact", "over more stamps, off"],
];
/// Quiet ones that would not be so if these stamps counted too.
const EARLIER: &str = "quiet without stamps before the opening";
const GRADES: &str = "quiet without other grades' stamps";
const CURRENT: &str = "quiet without the current interval's stamps";
const REPEATS: &str = "quiet without repeated stamps";

/// All kinds that there are.
pub fn all() -> Vec<&'static str> {
    let kinds = SHORT.into_iter().chain(QUIET).chain(BUSY.concat());
    kinds.chain([EARLIER, GRADES, CURRENT, REPEATS]).collect()
}

/// The kinds of a question that was answered with this sum: one by its window and its stamps, and others
/// where they hold.
pub fn kinds(ledger: &Ledger, grade: u32, window: u32, sum: u64) -> Vec<&'static str> {
    let n = ledger.shape().n() as usize;
    if ledger.is_short(window) {
        return vec![SHORT[usize::from(window as usize == n)]];
    }
    let stamps = ledger.different_stamps(grade, window);
    if stamps > n {
        let kinds = BUSY[usize::from(stamps > n + 1)];
        let is_off = sum != ledger.window_sum(grade, window);
        return vec![kinds[usize::from(is_off)]];
    }
    let mut kinds = vec![QUIET[usize::from(stamps == n)]];
    kinds.extend(left_out(ledger, grade, window));
    kinds
}

/// Which stamps have to be left out for a question to be quiet.
fn left_out(ledger: &Ledger, grade: u32, window: u32) -> impl Iterator<Item = &'static str> {
    let (shape, clock) = (ledger.shape(), ledger.clock());
    let opening = opening(clock, window).expect("another window than 0");
    let is_of_grade = |e: &Entry| e.grade == grade;
    let is_from_opening = |e: &Entry| u64::from(e.stamp) >= opening;
    let is_in_interval = |e: &Entry| shape.interval(e.stamp.into()) == shape.interval(opening);
    let different = |is_counted: &dyn Fn(&Entry) -> bool| {
        let counted = ledger.entries().iter().filter(|e| is_counted(e));
        counted.map(|e| e.stamp).collect::<BTreeSet<u32>>().len()
    };
    let is_counted = |e: &&Entry| is_of_grade(e) && is_from_opening(e) && is_in_interval(e);
    let deliveries = ledger.entries().iter().filter(is_counted).count();
    let counts = [
        (EARLIER, different(&|e| is_of_grade(e) && is_in_interval(e))),
        (GRADES, different(&|e| is_from_opening(e) && is_in_interval(e))),
        (CURRENT, different(&|e| is_of_grade(e) && is_from_opening(e))),
        (REPEATS, deliveries),
    ];
    let n = shape.n() as usize;
    let met = counts.into_iter().filter(move |(_, stamps)| *stamps > n);
    met.map(|(kind, _)| kind)
}
