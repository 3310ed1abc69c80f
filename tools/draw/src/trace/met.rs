//! What a replay meets: in which way a trace is broken, where the day stands that is asked for, and how
//! much room there is for the answers. A long run must show every kind.

use std::cmp::Ordering;

use reference::refusal;
use reference::replay::{find_day, ANSWER_WORDS};
use reference::trace::{days, lay_out, pair, pairs_end, Fault, Why, CLOCK, DAYS_MAX, RECORD_WORDS};

use super::records;
use crate::tally::{first_that_holds, names, that_hold, Cases};

/// Faults of a trace as a whole.
const WHOLE: [&str; 5] =
    ["no words", "65 days", "more than 65 days", "pairs missing", "a word that follows"];
/// Faults of a day, and where that day stands.
const OF_A_DAY: [&str; 7] = [
    "an offset",
    "a length",
    "an end",
    "a kind",
    "rest word 2 of a clock",
    "rest word 3 of a clock",
    "rest word 3 of a question",
];
const PLACES: [&str; 3] = ["the day asked for", "an earlier day", "a later day"];
/// A later refusal holds as well. There is no room where the day that is laid out needs more answer words
/// than there are, or the last day where there is no such day.
const TWICE: [&str; 3] = ["no trace, no such day", "no trace, no room", "no such day, no room"];

/// Every kind that there is.
pub fn all() -> Vec<String> {
    let of_found = which(&lay_out(&[[]]), 0).map(|(name, _)| name);
    let of_missing = missing(0, 0).map(|(name, _)| name);
    let of_rooms = rooms(0, 0).map(|(name, _)| name);
    let mut all = names(&[&WHOLE, &TWICE, &of_missing, &of_found, &of_rooms]);
    for fault in OF_A_DAY {
        all.extend(PLACES.map(|place| format!("{fault} in {place}")));
    }
    all
}

/// The kinds of a replay of this day with so many answer words.
pub fn kinds(trace: &[u32], day: u32, room: usize) -> Vec<String> {
    match find_day(trace, day) {
        Ok(part) => {
            let room = first_that_holds(&rooms(part.len() / RECORD_WORDS, room));
            that_hold(which(trace, day).into_iter().chain([room]))
        }
        Err(refusal::DAY) => {
            let day_is = first_that_holds(&missing(trace[0], day));
            that_hold([day_is, (TWICE[2], lacks_room(trace, day, room))])
        }
        Err(_) => broken(trace, day, room),
    }
}

fn broken(trace: &[u32], day: u32, room: usize) -> Vec<String> {
    let fault = days(trace).expect_err("no trace");
    let name = fault_name(trace, fault);
    let place = fault.day.map(|at| match at.cmp(&(day as usize)) {
        Ordering::Equal => PLACES[0],
        Ordering::Less => PLACES[1],
        Ordering::Greater => PLACES[2],
    });
    let mut kinds = vec![place.map_or(name.to_string(), |place| format!("{name} in {place}"))];
    if trace.first().is_none_or(|count| day >= *count) {
        kinds.push(TWICE[0].to_string());
    } else if lacks_room(trace, day, room) {
        kinds.push(TWICE[1].to_string());
    }
    kinds
}

fn lacks_room(trace: &[u32], day: u32, room: usize) -> bool {
    room < ANSWER_WORDS * records(trace, day)
}

fn fault_name(trace: &[u32], fault: Fault) -> &'static str {
    match fault.why {
        Why::Empty => WHOLE[0],
        Why::Count(count) if count == DAYS_MAX + 1 => WHOLE[1],
        Why::Count(_) => WHOLE[2],
        Why::Pairs => WHOLE[3],
        Why::Follows => WHOLE[4],
        Why::Offset(..) => OF_A_DAY[0],
        Why::Length(_) => OF_A_DAY[1],
        Why::End(_) => OF_A_DAY[2],
        Why::Kind(_) => OF_A_DAY[3],
        Why::Rest(_) => {
            let first = pairs_end(trace[0] as usize);
            let place = (fault.word - first) % RECORD_WORDS;
            match (trace[fault.word - place], place) {
                (CLOCK, 2) => OF_A_DAY[4],
                (CLOCK, _) => OF_A_DAY[5],
                _ => OF_A_DAY[6],
            }
        }
    }
}

/// How far beyond the last day the one is that is asked for. The first that holds is told.
fn missing(count: u32, day: u32) -> Cases<4> {
    [
        ("no day at all", count == 0),
        ("day = count", day == count),
        ("day = count + 1", day == count + 1),
        ("a day far beyond", true),
    ]
}

/// Which day is found.
fn which(trace: &[u32], day: u32) -> Cases<4> {
    let count = trace[0];
    let is_empty = |day: u32| trace[pair(day as usize).end - 1] == 0;
    let after_empty = day > 0 && is_empty(day - 1) && !is_empty(day);
    [
        ("the first day", day == 0),
        ("a day between", day > 0 && day + 1 < count),
        ("the last day", day + 1 == count),
        ("a day after an empty one", after_empty),
    ]
}

/// How much room there is for the answers. The first that holds is told.
fn rooms(records: usize, room: usize) -> Cases<9> {
    let needed = ANSWER_WORDS * records;
    [
        ("empty day, no room", records == 0 && room == 0),
        ("empty day, room", records == 0),
        ("no room", room == 0),
        ("a word short", room + 1 == needed),
        ("a word for each record", room == records),
        ("words short", room < needed),
        ("as many words as needed", room == needed),
        ("a word more", room == needed + 1),
        ("more words", true),
    ]
}
