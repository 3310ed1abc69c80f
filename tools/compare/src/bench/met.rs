//! What the lines of a script are: how far its books grow, which cases of the calls it meets, and in which ways
//! lines are unread.

use draw::edges;
use reference::calls::{perform, Answer, Call, Reply};
use reference::histogram::Histogram;
use reference::ledger::Ledger;
use reference::protocol::{parse, BUFFER_WORDS};
use reference::shape::Shape;
use reference::window::{opening, window_from};
use reference::words::decode_block;

use super::{content, lines};
use crate::run::Summary;

/// A name, and whether an unread line is of this kind.
type Way = (&'static str, fn(&[u8]) -> bool);

/// The ways to be unread.
const WAYS: [Way; 23] = [
    ("empty", |l| l.is_empty()),
    ("leading zero", |l| holds(l, b" 01")),
    ("zero twice", |l| l.ends_with(b" 00")),
    ("double space", |l| holds(l, b"  ")),
    ("leading space", |l| l.starts_with(b" ")),
    ("trailing space", |l| l.ends_with(b" ")),
    ("tab", |l| holds(l, b"\t")),
    ("trailing tab", |l| l.ends_with(b"\t")),
    ("trailing return", |l| l.ends_with(b"\r")),
    ("inner return", |l| holds(&l[..l.len().max(1) - 1], b"\r")),
    ("nul", |l| holds(l, b"\0")),
    ("trailing nul", |l| l.ends_with(b"\0")),
    ("no ASCII", |l| l.len() < 50 && !l.is_ascii()),
    ("letter in a number", |l| holds(l, b"1a")),
    ("sign", |l| holds(l, b" +1") || holds(l, b" -1")),
    ("large letter", |l| l.starts_with(b"D ") || l.starts_with(b"C ")),
    ("no space", |l| l.starts_with(b"d0")),
    ("command alone", |l| l == b"q"),
    ("2^32", |l| holds(l, b"4294967296")),
    ("2^64", |l| holds(l, b"18446744073709551616")),
    ("long number", |l| longest_number(l) >= 400),
    ("thousands of bytes", |l| (4_000..7_000).contains(&l.len())),
    ("longer than a chunk", |l| l.len() > 1 << 16),
];

/// A line that reads, with the greatest number that does.
const GREATEST: &str = "the greatest number, read";

/// All kinds of lines that are odd.
pub fn odd() -> impl Iterator<Item = &'static str> {
    let unread = WAYS.iter().map(|(name, _)| *name);
    unread.chain([GREATEST])
}

fn holds(line: &[u8], part: &[u8]) -> bool {
    line.windows(part.len()).any(|window| window == part)
}

fn longest_number(line: &[u8]) -> usize {
    let runs = line.split(|byte| !byte.is_ascii_digit());
    runs.map(<[u8]>::len).max().unwrap_or(0)
}

/// Named cases, and whether a call is one of each.
type Cases = Vec<(&'static str, bool)>;

/// A call, with the book before it: its ledger, and the buffer of which it has the first words.
struct Step<'a> {
    call: Call,
    reply: Reply,
    before: &'a Ledger,
    words: &'a [u32],
}

impl Step<'_> {
    /// The cases of a call that was accepted.
    fn cases(&self) -> Cases {
        let Ok(answer) = self.reply else {
            return Vec::new();
        };
        match (self.call, answer) {
            (Call::Make { k, n, m, g }, _) => self.make(Shape::new(k, n, m, g).expect("accepted")),
            (Call::Clock { clock }, _) => self.clock(clock),
            (Call::Delivery { grade, stamp, volume }, _) => self.delivery(grade, stamp, volume),
            (Call::Query { grade, window }, Answer::Sum(sum)) => self.question(grade, window, sum),
            (Call::Query { .. }, _) => panic!("a question answers a sum"),
        }
    }

    /// The half of a grade that serves a tick.
    fn half(&self, grade: u32, tick: u64) -> Histogram {
        let shape = self.before.shape();
        let block = decode_block(shape, &self.words[shape.block(grade)]);
        block[shape.parity(tick)].histogram()
    }

    fn make(&self, new: Shape) -> Cases {
        let old = self.before.shape();
        let [before, after] = [old, new].map(Shape::book_length);
        let [rest, new_rest] = [old, new].map(|shape| [shape.n(), shape.m(), shape.g()]);
        let (other_k, other_m) = (old.k() != new.k(), old.m() != new.m());
        vec![
            ("make: same shape", old == new),
            ("make: another k alone", other_k && rest == new_rest),
            ("make: same length, other M", before == after && other_m),
            ("make: longer", before < after),
            ("make: shorter", before > after),
            ("make: whole buffer", after == BUFFER_WORDS),
            ("make: nearly the whole buffer", after > BUFFER_WORDS - 800),
        ]
    }

    fn clock(&self, clock: u32) -> Cases {
        let (shape, old) = (self.before.shape(), self.before.clock());
        let entered = shape.interval(clock.into()) - shape.interval(old.into());
        vec![
            ("clock: stays", clock == old),
            ("clock: steps", clock != old && entered == 0),
            ("clock: next interval", entered == 1),
            ("clock: skips one", entered == 2),
            ("clock: skips more", entered > 2),
            ("clock: limit", clock == Shape::CLOCK_MAX),
        ]
    }

    fn delivery(&self, grade: u32, stamp: u32, volume: u32) -> Cases {
        let (shape, now) = (self.before.shape(), self.before.clock());
        let tick = u64::from(stamp);
        let half = self.half(grade, tick);
        let older = shape.interval(tick) != shape.interval(now.into());
        let oldest = window_from(now, stamp) == Some(1 << shape.k());
        let fills = half.total + u64::from(volume) == shape.capacity();
        let ignored = |level: usize| half.levels[level].first > shape.offset(tick);
        let full = half.levels[0].buckets.len() as u32 == shape.n();
        vec![
            ("delivery", true),
            ("delivery: interval before", older),
            ("delivery: oldest", oldest),
            ("delivery: fills", fills),
            ("delivery: fills 2^17 or more", fills && shape.m() >= 17),
            ("delivery: 200 or more", volume >= 200),
            ("delivery: largest", volume == Shape::VOLUME_MAX),
            ("delivery: ignored by level 0", ignored(0)),
            ("delivery: ignored by level 1", ignored(1)),
            ("delivery: level 0 full", full),
        ]
    }

    fn question(&self, grade: u32, window: u32, sum: u64) -> Cases {
        let (shape, now) = (self.before.shape(), self.before.clock());
        let Some(opening) = opening(now, window) else {
            return vec![("question: no tick", true)];
        };
        let at = |tick: Option<u64>| {
            let mut entries = self.before.entries().iter();
            entries.any(|e| e.grade == grade && Some(e.stamp.into()) == tick)
        };
        let offset = shape.offset(opening);
        let older = shape.interval(opening) != shape.interval(now.into());
        let half = self.half(grade, opening);
        let grown = half.total > 0;
        let whole = u64::from(window) == shape.interval_ticks();
        let exact = self.before.window_sum(grade, window);
        let level = half.serving_level(offset).expect("a sound half");
        let less = half.levels[level..].iter().any(|l| l.first > offset);
        let tick_before = at(opening.checked_sub(1));
        vec![
            ("question: no tick", false),
            ("question: grown book", grown),
            ("question: current interval", grown && !older),
            ("question: interval before", grown && older),
            ("question: both halves", grown && older && sum > half.total),
            ("question: window above clock", grown && window > now),
            ("question: whole interval", grown && whole),
            ("question: delivery at the opening", at(Some(opening))),
            ("question: delivery a tick before", tick_before),
            ("question: level 0", grown && level == 0),
            ("question: level 1", level == 1),
            ("question: level 2", level == 2),
            ("question: level 3 or 4", (3..=4).contains(&level)),
            ("question: level 5 to 9", (5..=9).contains(&level)),
            ("question: level 10 or more", level >= 10),
            ("question: bucket cut", sum != exact),
            ("question: coarser level keeps less", less),
        ]
    }
}

/// All cases that there are: those of a script with each call.
pub fn all() -> Vec<&'static str> {
    let mut all = Vec::new();
    let script = b"m 2 2 4 1\nm 2 2 4 1\nc 5\nd 0 5 1\nq 0 1\n";
    each_call(script, |step| {
        all.extend(step.cases().into_iter().map(|(name, _)| name));
    });
    all
}

/// Counts what a script is.
pub fn count(script: &[u8], summary: &mut Summary) {
    for line in lines(script).map(content) {
        if parse(line).is_none() {
            let ways = WAYS.iter().filter(|(_, is_way)| is_way(line));
            summary.add_all("odd lines", ways.map(|(name, _)| name));
        } else if holds(line, b"4294967295") {
            summary.add("odd lines", GREATEST);
        }
    }
    each_call(script, |step| {
        let cases = step.cases().into_iter().filter(|(_, holds)| *holds);
        summary.add_all("cases", cases.map(|(name, _)| name));
        let (shape, clock) = (step.before.shape(), step.before.clock());
        summary.add_all("edges", edges::kinds(shape, clock, step.call, step.reply));
        let book = &step.words[..shape.book_length()];
        summary.add_all("ticks told", edges::telling(book, step.call, step.reply));
    });
}

/// Shows every call of a script that finds a book, accepted or not.
fn each_call(script: &[u8], mut show: impl FnMut(Step)) {
    let mut words = vec![0; BUFFER_WORDS];
    let mut ledger: Option<Ledger> = None;
    for call in lines(script).map(content).filter_map(parse) {
        let asked = match call {
            Call::Make { k, n, m, g } => Shape::new(k, n, m, g),
            _ => ledger.as_ref().map(Ledger::shape),
        };
        let borrowed = asked.map_or(BUFFER_WORDS, Shape::book_length);
        let borrowed = borrowed.min(BUFFER_WORDS);
        let before = words.clone();
        let reply = perform(&mut words[..borrowed], call);
        match &mut ledger {
            None if reply.is_ok() => ledger = asked.map(Ledger::new),
            None => {}
            Some(ledger) => {
                show(Step { call, reply, before: ledger, words: &before });
                let noted = ledger.perform(call, borrowed);
                assert_eq!(noted.err(), reply.err(), "{call:?}");
            }
        }
    }
}
