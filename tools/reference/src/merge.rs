//! One day from two (document 02, request Five): when a merge is refused, which outputs are a merged day, and
//! which clock each of its records meets. Which of several merged days a merge writes is undecided, so an output
//! is judged as it is, and not compared with the one that is written here.

use crate::calls::{perform, Call};
use crate::layout;
use crate::refusal::{self, when};
use crate::replay::find_day;
use crate::shape::Shape;
use crate::trace::{calls, RECORD_WORDS};

/// A day, named by its trace and its number.
#[derive(Clone, Copy, Debug, PartialEq, Eq)]
pub struct Named<'t> {
    /// All words of the trace.
    pub trace: &'t [u32],
    /// The day's number.
    pub day: u32,
}

impl<'t> Named<'t> {
    /// The words of the day.
    pub fn find(self) -> Result<&'t [u32], u32> {
        find_day(self.trace, self.day)
    }
}

/// Why a day is out of order, so that it cannot be merged.
#[derive(Clone, Copy, Debug, PartialEq, Eq)]
pub enum Disorder {
    /// It has records, and the first of them sets no clock.
    Opening,
    /// A clock is below the one before it.
    Fall,
    /// A clock is past the last tick that the clock of a book can show.
    Limit,
}

/// The words of the two days, unless their merge into so many words is refused. Each refusal is looked for
/// on both sides before the next one.
pub fn judge(named: [Named<'_>; 2], room: usize) -> Result<[&[u32]; 2], u32> {
    let found = named.map(Named::find);
    for number in [refusal::TRACE, refusal::DAY] {
        when(found.contains(&Err(number)), number)?;
    }
    let [first, second] = found;
    let days = [first?, second?];
    let disorder = days.iter().any(|day| home_clocks(day).is_err());
    when(disorder, refusal::ORDER)?;
    when(room != length(days), refusal::OUTPUT)?;
    Ok(days)
}

/// Writes one of the merged days, unless that is refused: at an equal clock all of the first day's records before
/// those of the second.
pub fn merge(named: [Named; 2], output: &mut [u32]) -> Result<(), u32> {
    let days = judge(named, output.len())?;
    let mut all = Vec::new();
    for day in days {
        let clocks = home_clocks(day).expect("a day in order");
        all.extend(clocks.into_iter().zip(records(day)));
    }
    // Where clocks are equal, the order stays.
    all.sort_by_key(|(clock, _)| *clock);
    let records: Vec<&[u32]> = all.into_iter().map(|(_, record)| record).collect();
    output.copy_from_slice(&records.concat());
    Ok(())
}

/// How many words two days have together.
pub fn length(days: [&[u32]; 2]) -> usize {
    days.iter().map(|day| day.len()).sum()
}

/// The clock of each record at home: that of the last clock record up to it in its own day. The error is the
/// first thing that is out of order.
pub fn home_clocks(day: &[u32]) -> Result<Vec<u32>, Disorder> {
    let mut clocks: Vec<u32> = Vec::new();
    for call in calls(day) {
        let last = clocks.last().copied();
        let clock = match (call, last) {
            (Call::Clock { clock }, _) if clock > Shape::CLOCK_MAX => return Err(Disorder::Limit),
            (Call::Clock { clock }, Some(last)) if clock < last => return Err(Disorder::Fall),
            (Call::Clock { clock }, _) => clock,
            (_, Some(last)) => last,
            (_, None) => return Err(Disorder::Opening),
        };
        clocks.push(clock);
    }
    Ok(clocks)
}

/// From which day each record of an output comes, 0 for the first and 1 for the second, if the output is a
/// merged day of the two: it has every record of both, each day's own order is kept, and clocks never fall.
///
/// A record can stand in both days, so it does not show from which one it has to be taken. Therefore every
/// number of records taken from the one day and from the other is tried that can be reached.
pub fn sources(days: [&[u32]; 2], output: &[u32]) -> Option<Vec<usize>> {
    if output.len() != length(days) {
        return None;
    }
    let clocks = [home_clocks(days[0]).ok()?, home_clocks(days[1]).ok()?];
    let [first, second, output] = [days[0], days[1], output].map(records);
    let days = [first, second];
    // Whether the output may go on with this day where so many records are taken of each.
    let goes_on = |taken: [usize; 2], day: usize| {
        let (next, other) = (taken[day], 1 - day);
        let before = clocks[other][..taken[other]].last();
        next < days[day].len()
            && days[day][next] == output[taken[0] + taken[1]]
            && before.is_none_or(|before| *before <= clocks[day][next])
    };
    // By which day's record each pair of such numbers was reached first.
    let mut last = vec![vec![None; days[1].len() + 1]; days[0].len() + 1];
    let mut open = vec![[0, 0]];
    while let Some(taken) = open.pop() {
        for day in [0, 1].into_iter().filter(|day| goes_on(taken, *day)) {
            let mut more = taken;
            more[day] += 1;
            let reached = &mut last[more[0]][more[1]];
            if reached.is_none() {
                *reached = Some(day);
                open.push(more);
            }
        }
    }
    let mut taken = [days[0].len(), days[1].len()];
    let mut sources = Vec::new();
    while taken != [0, 0] {
        let day: usize = last[taken[0]][taken[1]]?;
        taken[day] -= 1;
        sources.push(day);
    }
    sources.reverse();
    Some(sources)
}

/// The clock at home of each record of a merged day; nothing where the output is none.
pub fn merged_clocks(days: [&[u32]; 2], output: &[u32]) -> Option<Vec<u32>> {
    let sources = sources(days, output)?;
    let home = |day: &[u32]| home_clocks(day).expect("days that were merged");
    let mut clocks = days.map(|day| home(day).into_iter());
    sources.into_iter().map(|day| clocks[day].next()).collect()
}

/// The clock that each record of a day meets when it is replayed on a book: the book's own, once the record
/// was run, whether it was accepted or not. The book has at least the words of a head.
pub fn met_clocks(book: &mut [u32], day: &[u32]) -> Vec<u32> {
    let run = |call| {
        // A refused record does not stop a replay.
        let _ = perform(book, call);
        book[layout::CLOCK]
    };
    calls(day).map(run).collect()
}

fn records(day: &[u32]) -> Vec<&[u32]> {
    day.chunks(RECORD_WORDS).collect()
}
