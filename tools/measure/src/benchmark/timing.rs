//! Timing: rounds in which all that is timed side by side takes its turn.

use std::time::Instant;

/// Round by round the times of all that is timed side by side.
pub struct Times(Vec<Vec<f64>>);

impl Times {
    /// Of these rounds the first only warms up, and of the others only the fastest tenth counts: in the rest
    /// something else may have had the processor or its other half, for which a check and a bare read pay in
    /// different measure.
    pub fn new(rounds: impl IntoIterator<Item = Vec<f64>>) -> Times {
        let mut rounds: Vec<Vec<f64>> = rounds.into_iter().skip(1).collect();
        let whole = |round: &Vec<f64>| round.iter().sum::<f64>();
        rounds.sort_by(|one, other| whole(one).total_cmp(&whole(other)));
        rounds.truncate(rounds.len().div_ceil(10));
        Times(rounds)
    }

    /// The median time of one; nothing where it is not timed.
    pub fn median_of(&self, timed: usize) -> Option<f64> {
        self.median(|round| round.get(timed).copied())
    }

    /// The median of how much longer one takes than another.
    pub fn ratio(&self, timed: usize, other: usize) -> Option<f64> {
        self.median(|round| Some(round.get(timed)? / round.get(other)?))
    }

    fn median(&self, value: impl Fn(&[f64]) -> Option<f64>) -> Option<f64> {
        let values = self.0.iter().map(|round| value(round));
        let mut values: Vec<f64> = values.collect::<Option<_>>()?;
        values.sort_by(f64::total_cmp);
        values.get(values.len() / 2).copied()
    }
}

/// The times of one round, in which each of so many that are timed, named by its place, comes first as often
/// as any other.
pub fn in_turns(round: usize, count: usize, mut time: impl FnMut(usize) -> f64) -> Vec<f64> {
    let mut times = vec![0.0; count];
    for turn in 0..count {
        let timed = (turn + round) % count;
        times[timed] = time(timed);
    }
    times
}

/// Microseconds for each of the so many calls of some work.
pub fn time(calls: usize, work: impl FnOnce()) -> f64 {
    let start = Instant::now();
    work();
    start.elapsed().as_secs_f64() * 1e6 / calls as f64
}

#[test]
fn the_fastest_tenth_counts_and_each_comes_first_in_its_turn() {
    let rounds = [0].into_iter().chain((1..=30).rev()).map(f64::from);
    let times = Times::new(rounds.map(|time| vec![time, 3.0 * time]));
    assert_eq!(times.median_of(1), Some(6.0));
    assert_eq!((times.ratio(1, 0), times.ratio(1, 2)), (Some(3.0), None));
    for round in 0..6 {
        let mut order = Vec::new();
        in_turns(round, 3, |timed| {
            order.push(timed);
            0.0
        });
        assert_eq!((order.len(), order[0]), (3, round % 3));
    }
}
