//! What a merge meets: how its two days lie to each other, why it is refused, and how long the output is. A
//! long run must show every kind.

use reference::calls::Call;
use reference::merge::{home_clocks, judge, Disorder, Named};
use reference::refusal;
use reference::shape::Shape;
use reference::trace::{calls, days, lay_out, CLOCK, RECORD_WORDS};

use super::lengths;
use crate::tally::{first_that_holds, names, that_hold, Cases};

/// What each side can be refused for by itself: no trace, no such day, a day out of order. 0 is nothing.
const OWN: [u32; 4] = [0, refusal::TRACE, refusal::DAY, refusal::ORDER];
const SIDES: [&str; 2] = ["the first day", "the second day"];
/// In the order of `Disorder`.
const DISORDERS: [&str; 3] =
    ["opens without a clock", "has a clock that falls", "has a clock past the limit"];

/// Every kind that there is.
pub fn all() -> Vec<String> {
    let trace = lay_out(&[[]]);
    let named = [0, 0].map(|day| Named { trace: &trace, day });
    let of_order = order([&[], &[]]).map(|(name, _)| name);
    let of_clocks = clocks(named, [&[], &[]]).map(|(name, _)| name);
    let of_disorder = nearly(&[CLOCK, 0, 0, 0], Disorder::Fall).map(|(name, _)| name);
    let of_lengths = outputs([0, 0], 0).map(|(name, _)| name);
    let mut all = names(&[&of_order, &of_clocks, &of_disorder, &of_lengths]);
    let sides = OWN.map(|first| OWN.map(|second| refused_by([first, second])));
    // The first of each refuses nothing.
    all.extend(sides.into_iter().flatten().skip(1));
    all.extend(OWN.into_iter().skip(1).map(and_length));
    for side in SIDES {
        all.extend(DISORDERS.map(|why| of_side(side, why)));
    }
    all
}

fn refused_by([first, second]: [u32; 2]) -> String {
    format!("{first} by the first, {second} by the second")
}

/// A later refusal holds as well.
fn and_length(number: u32) -> String {
    format!("{number}, and another length")
}

fn of_side(side: &str, why: &str) -> String {
    format!("{side} {why}")
}

/// The kinds of a merge of these days into so many words.
pub fn kinds(named: [Named; 2], room: usize) -> Vec<String> {
    match judge(named, room) {
        Ok(days) => that_hold(order(days).into_iter().chain(clocks(named, days))),
        Err(refusal::OUTPUT) => that_hold([first_that_holds(&outputs(lengths(named), room))]),
        Err(number) => refused(named, number, room),
    }
}

fn refused(named: [Named; 2], number: u32, room: usize) -> Vec<String> {
    let own = |named: Named| match named.find().map(home_clocks) {
        Err(number) => number,
        Ok(clocks) => clocks.map_or(refusal::ORDER, |_| 0),
    };
    let mut kinds = vec![refused_by(named.map(own))];
    if room != lengths(named).iter().sum() {
        kinds.push(and_length(number));
    }
    if number == refusal::ORDER {
        let days = named.map(|named| named.find().expect("a day that is there"));
        let sides = SIDES.into_iter().zip(days);
        kinds.extend(sides.flat_map(|(side, day)| out_of_order(side, day)));
    }
    kinds
}

fn out_of_order(side: &str, day: &[u32]) -> Vec<String> {
    let Err(disorder) = home_clocks(day) else {
        return Vec::new();
    };
    let mut kinds = vec![of_side(side, DISORDERS[disorder as usize])];
    kinds.extend(that_hold(nearly(day, disorder)));
    kinds
}

/// How near to a day in order one is that is not.
fn nearly(day: &[u32], disorder: Disorder) -> Cases<3> {
    let clocks = clocks_set(day);
    let before = home_clocks(&day[..day.len() - RECORD_WORDS]);
    let by_one = |two: &[u32]| two[0].checked_sub(1) == Some(two[1]);
    let falls = disorder == Disorder::Fall && clocks.windows(2).any(by_one);
    let passes = disorder == Disorder::Limit && clocks.contains(&(Shape::CLOCK_MAX + 1));
    [
        ("the last record alone out of order", before.is_ok()),
        ("a clock that falls by one", falls),
        ("a clock past the limit by one", passes),
    ]
}

/// How two days in order lie to each other.
fn order(days: [&[u32]; 2]) -> Cases<7> {
    let [first, second] = days.map(clocks_set);
    let [no_first, no_second] = days.map(<[u32]>::is_empty);
    let both = !no_first && !no_second;
    let first_ends = both && first.last() < second.first();
    let second_ends = both && second.last() < first.first();
    [
        ("both days empty", no_first && no_second),
        ("the first day empty", no_first && !no_second),
        ("the second day empty", !no_first && no_second),
        ("two days of records", both),
        ("the first day before the second", first_ends),
        ("the second day before the first", second_ends),
        ("days at the same time", both && !first_ends && !second_ends),
    ]
}

/// What stands twice in two days in order, and at the ends of the clocks.
fn clocks(named: [Named; 2], days: [&[u32]; 2]) -> Cases<8> {
    let [first, second] = days.map(|day| {
        let clocks = home_clocks(day).expect("a day in order").into_iter();
        clocks.zip(day.chunks(RECORD_WORDS)).collect::<Vec<_>>()
    });
    let set = days.map(clocks_set);
    let equal = set[0].iter().any(|clock| set[1].contains(clock));
    let record = first.iter().any(|record| second.contains(record));
    let twice = |clocks: &Vec<u32>| clocks.windows(2).any(|two| two[0] == two[1]);
    let [zero, limit] = [0, Shape::CLOCK_MAX].map(|clock| set.concat().contains(&clock));
    let disorder = named.into_iter().any(has_disorder);
    let same = std::ptr::eq(named[0].trace, named[1].trace);
    let same_day = same && named[0].day == named[1].day && !days[0].is_empty();
    [
        ("an equal clock in both days", equal),
        ("the same record at an equal clock in both days", record),
        ("a clock set twice in a day", set.iter().any(twice)),
        ("a clock of 0", zero),
        ("a clock at the limit", limit),
        ("another day out of order", disorder),
        ("a trace with itself", same),
        ("a day with itself", same_day),
    ]
}

/// Whether some day of a trace is out of order. Where the named one is not, it is another.
fn has_disorder(named: Named) -> bool {
    let days = days(named.trace).expect("a sound trace");
    let mut words = days.into_iter().map(|part| &named.trace[part]);
    words.any(|day| home_clocks(day).is_err())
}

/// The clocks that a found day sets, in their order.
fn clocks_set(day: &[u32]) -> Vec<u32> {
    let clock = |call| match call {
        Call::Clock { clock } => Some(clock),
        _ => None,
    };
    calls(day).filter_map(clock).collect()
}

/// The lengths of an output that are wrong for days of these. The first that holds is told.
fn outputs(days: [usize; 2], room: usize) -> Cases<9> {
    let needed = days[0] + days[1];
    [
        ("no output", room == 0),
        ("a word short", room + 1 == needed),
        ("a record short", room + RECORD_WORDS == needed),
        ("as long as the first day", room == days[0]),
        ("as long as the second day", room == days[1]),
        ("words short", room < needed),
        ("a word more", room == needed + 1),
        ("a record more", room == needed + RECORD_WORDS),
        ("more words", true),
    ]
}
