//! Calls at the edges of windows and of lateness, where a mistake of one tick shows: of which kind a
//! call is, and which kinds a long run must show.

use reference::calls::{sum_from, Answer, Call, Reply};
use reference::ledger::Ledger;
use reference::refusal;
use reference::shape::Shape;
use reference::soundness::sound_head;
use reference::window::opening;
use reference::words::{decode_block, decode_head};

use crate::shapes::{within, EXAMPLE};
use crate::tally::that_hold;

/// The kinds of a call that a book of this shape answered at this clock, mostly none. A question
/// counts where it is accepted, a delivery at the oldest stamp that is accepted or at the one before
/// it, which is late.
pub fn kinds(shape: Shape, clock: u32, call: Call, reply: Reply) -> Vec<String> {
    let Some(place) = place(shape, clock) else {
        return Vec::new();
    };
    let names = match (call, reply) {
        (Call::Query { window, .. }, Ok(_)) => windows(shape, clock, window),
        (Call::Delivery { stamp, .. }, Ok(_)) => {
            that_hold([("oldest stamp", stamp == shape.oldest(clock))])
        }
        // A late stamp is below the clock, so that there is a next one.
        (Call::Delivery { stamp, .. }, Err(refusal::LATE)) => {
            that_hold([("stamp before the oldest", stamp + 1 == shape.oldest(clock))])
        }
        _ => Vec::new(),
    };
    let kind = |name| format!("{name} at clock {place}");
    names.into_iter().map(kind).collect()
}

/// Where a clock stands: at the start of time, in the first interval, or next to the end of that one
/// or of a later one. Nothing for other clocks.
fn place(shape: Shape, clock: u32) -> Option<&'static str> {
    let (ticks, clock) = (shape.interval_ticks(), u64::from(clock));
    let [last, first, second] = if clock <= ticks + 1 {
        ["2^k - 1", "2^k", "2^k + 1"]
    } else {
        ["j 2^k - 1", "j 2^k", "j 2^k + 1"]
    };
    match shape.offset(clock) {
        _ if clock == 0 => Some("0"),
        _ if clock == 1 => Some("1"),
        offset if offset == ticks - 1 => Some(last),
        _ if clock < ticks => Some("below 2^k - 1"),
        0 => Some(first),
        1 => Some(second),
        _ => None,
    }
}

/// What a window is that has its length from the clock or the shape; it may be several at once.
fn windows(shape: Shape, clock: u32, window: u32) -> Vec<String> {
    let ticks = shape.interval_ticks();
    let [window, clock] = [window, clock].map(u64::from);
    that_hold([
        ("window 0", window == 0),
        ("window 1", window == 1),
        ("window clock", window == clock),
        ("window clock + 1", window == clock + 1),
        ("window 2^k - 1", window == ticks - 1),
        ("window 2^k", window == ticks),
    ])
}

/// The kinds of a question that tell its window from a neighbour: a tick less or a tick more gives
/// another sum. So a side that is wrong for one kind alone is found.
pub fn telling(book: &[u32], call: Call, reply: Reply) -> Vec<String> {
    let (Call::Query { grade, window }, Ok(Answer::Sum(sum))) = (call, reply) else {
        return Vec::new();
    };
    let (shape, clock) = sound_head(decode_head(book)).expect("an accepted call");
    let block = decode_block(shape, &book[shape.block(grade)]).map(|raw| raw.histogram());
    let sum_of = |other| opening(clock, other).map_or(0, |at| sum_from(shape, clock, at, &block));
    let kinds = kinds(shape, clock, call, reply);
    by_neighbours(kinds, window, |other| sum_of(other) != sum)
}

/// Each kind with the name of each neighbouring window that differs.
fn by_neighbours(kinds: Vec<String>, window: u32, differs: impl Fn(u32) -> bool) -> Vec<String> {
    let shorter = window.checked_sub(1).map(|other| ("a tick less", other));
    let neighbours = shorter.into_iter().chain([("a tick more", window + 1)]);
    let names = neighbours.filter(|(_, other)| differs(*other));
    let told = |(name, _)| kinds.iter().map(move |kind| format!("{kind}, told from {name}"));
    names.flat_map(told).collect()
}

/// All kinds that there are: those that the example shows.
pub fn all() -> Vec<String> {
    let of_call = |(clock, call, reply)| kinds(within(EXAMPLE), clock, call, reply);
    example().flat_map(of_call).collect()
}

/// All that questions can tell: the same, with each neighbouring window that opens elsewhere.
pub fn all_telling() -> Vec<String> {
    let of_call = |(clock, call, reply)| {
        let Call::Query { window, .. } = call else {
            return Vec::new();
        };
        let kinds = kinds(within(EXAMPLE), clock, call, reply);
        let differs = |other| opening(clock, other) != opening(clock, window);
        by_neighbours(kinds, window, differs)
    };
    example().flat_map(of_call).collect()
}

/// Every window and every stamp of the example's shape, which is small enough for that, at each clock up to the
/// second tick of its third interval.
fn example() -> impl Iterator<Item = (u32, Call, Reply)> {
    let calls = |clock: u32| {
        let windows = (0..=4).map(|window| Call::Query { grade: 0, window });
        let stamps = (0..=clock).map(|stamp| Call::Delivery { grade: 0, stamp, volume: 1 });
        windows.chain(stamps).map(move |call| (clock, call))
    };
    (0..=9).flat_map(calls).map(|(clock, call)| {
        let mut ledger = Ledger::new(within(EXAMPLE));
        let [_, reply] = [Call::Clock { clock }, call]
            .map(|call| ledger.perform(call, within(EXAMPLE).book_length()));
        (clock, call, reply)
    })
}
