//! The tables of calls: batches of equal calls by the static library, by two hand-written versions and beside
//! two bare reads, questions beside their grounds, and a day replayed at once and performed call by call.

use std::hint::black_box;
use std::ops::Range;

use compare::implementation::{Archive, Implementation};
use draw::calls::call_of;
use draw::shapes::{SITE, SITE_OF_EIGHT};
use reference::calls::{Answer, Call, Reply};
use reference::replay::{answer_words, ANSWER_WORDS};
use reference::trace::{lay_out, record};

use super::load::{Grown, Load, ARRIVALS_PER_CLOCK, DELIVERIES};
use super::table::{thousands, Form, Table, Targets};
use super::timing::{in_turns, time, Times};
use crate::rivals::{Calls, Fast, Plain};

/// What is timed: calls, all calls of a batch replayed at once, or bare reads of the words that a call inspects.
/// Each is behind a function pointer, so that none is inlined into the loop that times it.
#[derive(Clone, Copy)]
enum Timed {
    Calls(fn(&mut [u32], Call) -> Reply),
    Replay,
    Read(fn(&[u32]) -> u32),
}

/// The static library, (a), (b), (c) and (c4).
const CANDIDATES: [Timed; 5] = [
    Timed::Calls(library),
    Timed::Calls(Plain::perform),
    Timed::Calls(Fast::perform),
    Timed::Read(sum),
    Timed::Read(sum_by_four_vectors),
];
const CALLS: Form = Form {
    columns: &["library", "(a)", "(b)", "(c)", "(c4)"],
    ratios: &[
        ("library / (a)", 0, 1),
        ("library / (b)", 0, 2),
        ("(b) / (c)", 2, 3),
        ("(b) / (c4)", 2, 4),
    ],
    digits: 2,
};

/// The static library, asked for a sum and for its ground.
const QUESTION_AND_GROUND: [Timed; 2] = [Timed::Calls(library), Timed::Calls(ground)];
const GROUNDS: Form =
    Form { columns: &["question", "ground"], ratios: &[("ground / question", 1, 0)], digits: 3 };

/// The static library, call by call and by a replay.
const CALLS_AND_REPLAY: [Timed; 2] = [Timed::Calls(library), Timed::Replay];
const REPLAYS: Form = Form {
    columns: &["separate calls", "replay"],
    ratios: &[("replay / separate calls", 1, 0)],
    digits: 3,
};

/// (c): every word once, added modulo 2^32. The compiler makes a small loop of it, two vectors at a
/// time, whose speed depends on where the linker puts it and on what else the core does.
#[inline(never)]
fn sum(words: &[u32]) -> u32 {
    words.iter().fold(0, |sum, word| sum.wrapping_add(*word))
}

/// (c4): the same, four vectors at a time, which is steadier.
#[inline(never)]
fn sum_by_four_vectors(words: &[u32]) -> u32 {
    let (groups, rest) = words.as_chunks::<16>();
    let mut sums = [0; 16];
    for group in groups {
        for (sum, word) in sums.iter_mut().zip(group) {
            *sum = word.wrapping_add(*sum);
        }
    }
    sum(&sums).wrapping_add(sum(rest))
}

fn library(book: &mut [u32], call: Call) -> Reply {
    Archive.perform(book, call)
}

/// Answers a question with its ground's sum, once all of the ground is there.
fn ground(book: &mut [u32], call: Call) -> Reply {
    let Call::Query { grade, window } = call else {
        return library(book, call);
    };
    let ground = litres::ground(book, grade, window).map_err(|refused| refused.0)?;
    Ok(Answer::Sum(black_box(ground).sum))
}

/// The calls of a batch.
#[derive(Clone, Copy)]
enum Kind {
    /// Deliveries of this volume, or of those of the load.
    Delivery(Option<u32>),
    /// Questions over this part of an interval.
    Question(u32),
    Clock,
    NextInterval,
    Make,
    /// Mostly deliveries, the clock moving on with them, and some questions.
    Day,
}

/// Calls of a day.
const RECORDS: u32 = 1_000;
/// One in so many asks, over a short window, half an interval and a whole one in turn.
const RECORDS_PER_QUERY: u32 = 50;

/// On the site shape the library may cost a tenth more than (b), and (b), to be a fair rival, three bare reads.
const FAIR: Targets = &[(1, 1.1), (2, 3.0), (3, 3.0)];
const QUESTION: Targets = &[(1, 1.1)];
/// A ground may cost a twentieth more than its question, a replayed record than its call.
const NEAR: Targets = &[(0, 1.05)];

/// The short window is an hour of the site, the whole interval opens in the one before.
const KINDS: [(&str, Kind, Targets); 8] = [
    ("delivery of 1 decilitre", Kind::Delivery(Some(1)), FAIR),
    ("delivery, volumes of the load", Kind::Delivery(None), FAIR),
    ("question, short window", Kind::Question(256), QUESTION),
    ("question, half an interval", Kind::Question(2), QUESTION),
    ("question, a whole interval", Kind::Question(1), QUESTION),
    ("clock within the interval", Kind::Clock, &[]),
    ("clock into the next interval", Kind::NextInterval, &[]),
    ("make", Kind::Make, &[]),
];

/// A timed batch has about so many words to inspect: long beside the clock's step, short beside the
/// time after which another process may get the processor.
const WORDS_PER_BATCH: usize = 1 << 18;

/// One kind of call on copies of a grown book.
struct Work<'a> {
    kind: Kind,
    grown: &'a Grown,
    timed: &'static [Timed],
}

impl<'a> Work<'a> {
    /// By all candidates. A make reads nothing, so there is no bare read beside it.
    fn new(kind: Kind, grown: &'a Grown) -> Work<'a> {
        let timed = match kind {
            Kind::Make => &CANDIDATES[..3],
            _ => &CANDIDATES,
        };
        Work { kind, grown, timed }
    }

    /// A batch that is long enough to be timed. A clock that enters the next interval stands alone, because a
    /// second one would find an emptied half.
    fn batch(&self, load: &mut Load) -> Vec<Call> {
        let calls = match self.kind {
            Kind::NextInterval => 1,
            Kind::Day => RECORDS,
            _ => (WORDS_PER_BATCH / self.inspected(0).len()).clamp(2, 256) as u32,
        };
        (0..calls).map(|number| self.call(number, load)).collect()
    }

    fn call(&self, number: u32, load: &mut Load) -> Call {
        let (shape, clock) = (self.grown.shape, self.grown.clock());
        let (grade, ticks) = (number % shape.g(), shape.interval_ticks() as u32);
        let clock_at = |clock| Call::Clock { clock };
        let question = |part| {
            let window = ticks / part;
            Call::Query { grade, window }
        };
        // A day's clock is set once in so many arrivals and moves on with them.
        let step = u64::from(ticks) * u64::from(ARRIVALS_PER_CLOCK) / DELIVERIES;
        let now = clock + (1 + number / ARRIVALS_PER_CLOCK) * step as u32;
        match self.kind {
            Kind::Delivery(volume) => load.delivery(grade, clock, volume),
            Kind::Question(part) => question(part),
            Kind::Clock => clock_at(clock + number),
            Kind::NextInterval => clock_at(clock + ticks),
            Kind::Make => call_of(shape.numbers()),
            Kind::Day if number.is_multiple_of(ARRIVALS_PER_CLOCK) => clock_at(now),
            Kind::Day if number % RECORDS_PER_QUERY == RECORDS_PER_QUERY - 1 => {
                question([256, 2, 1][(number / RECORDS_PER_QUERY) as usize % 3])
            }
            Kind::Day => load.delivery(grade, now, None),
        }
    }

    /// The words that the call of this number inspects.
    fn inspected(&self, number: usize) -> Range<usize> {
        let shape = self.grown.shape;
        match self.kind {
            Kind::Delivery(_) | Kind::Question(_) => shape.block(number as u32 % shape.g()),
            _ => 0..shape.book_length(),
        }
    }

    /// Each candidate performs the same batch on the same words. They are restored before each batch,
    /// outside the timing, which also leaves them in the caches; all candidates work in the same
    /// buffer, one after another, and must leave the same words and answer the same numbers.
    fn round(&self, load: &mut Load, [book, left]: &mut [Vec<u32>; 2], round: usize) -> Vec<f64> {
        let batch = self.batch(load);
        let records: Vec<_> = batch.iter().filter_map(|call| record(*call)).collect();
        let trace = lay_out(&[records.concat()]);
        let (mut expected, mut told) = (None, None);
        in_turns(round, self.timed.len(), |timed| {
            book.clone_from(&self.grown.words);
            let mut answers = vec![u32::MAX; ANSWER_WORDS * batch.len()];
            let mut splits = None;
            let time = time(batch.len(), || match self.timed[timed] {
                Timed::Calls(perform) => {
                    for (call, answer) in batch.iter().zip(answers.chunks_mut(ANSWER_WORDS)) {
                        let reply = black_box(perform(black_box(book), *black_box(call)));
                        answer.copy_from_slice(&answer_words(reply));
                        if let Ok(Answer::Splits(more)) = reply {
                            *splits.get_or_insert(0) += more;
                        }
                    }
                }
                Timed::Replay => {
                    let (book, trace, answers) = black_box((&mut *book, &trace, &mut answers));
                    litres::replay(book, trace, 0, answers).expect("a day with room");
                }
                Timed::Read(read) => (0..batch.len()).for_each(|number| {
                    black_box(read(black_box(&book[self.inspected(number)])));
                }),
            });
            if !matches!(self.timed[timed], Timed::Read(_)) {
                let mut numbers = answers.iter().step_by(ANSWER_WORDS);
                assert!(numbers.all(|number| *number == 0), "a call is refused");
                let expected = expected.get_or_insert_with(|| {
                    left.clone_from(book);
                    answers.clone()
                });
                // A replay tells no splits.
                let are_alike = splits.is_none_or(|splits| *told.get_or_insert(splits) == splits);
                let is_alike = are_alike && answers == *expected && book == left;
                assert!(is_alike, "the candidates differ");
            }
            time
        })
    }
}

/// Times works side by side, each once a round, so that what else the machine does hits all alike.
fn measure(works: &[&Work], rounds: usize) -> Vec<Times> {
    let loads = works.iter().map(|work| Load::new(work.grown.shape, 2));
    let mut loads: Vec<Load> = loads.collect();
    let mut times = vec![Vec::new(); works.len()];
    let mut buffers = [Vec::new(), Vec::new()];
    for round in 0..=rounds {
        for ((work, load), times) in works.iter().zip(&mut loads).zip(&mut times) {
            times.push(work.round(load, &mut buffers, round));
        }
    }
    times.into_iter().map(Times::new).collect()
}

/// The rows of all tables take turns, so that each is spread over the whole run.
fn measured(plans: Vec<Table<Work>>, rounds: usize) -> Vec<Table> {
    let works = plans.iter().flat_map(|plan| &plan.rows);
    let works: Vec<&Work> = works.map(|(.., work)| work).collect();
    let mut times = measure(&works, rounds).into_iter();
    let timed = plans.into_iter().map(|plan| plan.timed(&mut times));
    timed.collect()
}

/// Measures all calls, and fewer days, which have as many calls as many batches.
pub fn run(rounds: usize, days: usize) -> Vec<Table> {
    let [k, n, m, g] = SITE;
    let sites = [SITE, SITE_OF_EIGHT, [10, 64, 16, 1]].map(Grown::new);
    let by_slots = [64, 128, 256, 441, 1024].map(|n| Grown::new([k, n, m, g]));
    let by_levels = [8, 12, 16, 20, 24].map(|m| Grown::new([k, n, m, g]));
    let plans = vec![
        every_kind("Site shape", &sites[0]),
        every_kind("Site shape with eight grades", &sites[1]),
        every_kind("Small shape", &sites[2]),
        growth("n", "slots", &by_slots),
        growth("M", "levels", &by_levels),
        grounds(&sites[0]),
    ];
    eprintln!("measuring {rounds} rounds and {days} days");
    let mut tables = measured(plans, rounds);
    tables.extend(measured(vec![day(&sites[0])], days));
    tables
}

fn every_kind<'a>(name: &str, grown: &'a Grown) -> Table<Work<'a>> {
    let [k, n, m, g] = grown.shape.numbers();
    let (words, filled) = (thousands(grown.shape.block_length()), filled(grown));
    let shape = format!("({k}, {n}, {m}, {g}): {words} words in a block, {filled}");
    let rows = KINDS.map(|(name, kind, of_site)| {
        let targets = if [k, n, m, g] == SITE { of_site } else { &[] };
        (name.to_string(), targets, Work::new(kind, grown))
    });
    let title = format!("{name} {shape}. Microseconds");
    Table::new(title, "call", &CALLS, rows.into())
}

fn growth<'a>(number: &str, head: &'static str, books: &'a [Grown]) -> Table<Work<'a>> {
    let rows = books.iter().map(|grown| {
        let (n, m, filled) = (grown.shape.n(), grown.shape.m(), filled(grown));
        let name = format!("n = {n}, M = {m}, {filled}");
        (name, &[][..], Work::new(Kind::Delivery(Some(1)), grown))
    });
    let title = format!("Delivery of 1 decilitre, growing with {number}, shape (20, n, M, 1)");
    Table::new(title + ". Microseconds", head, &CALLS, rows.collect())
}

fn grounds(grown: &Grown) -> Table<Work<'_>> {
    let timed = &QUESTION_AND_GROUND;
    let rows = KINDS[2..5].iter().map(|&(name, kind, _)| {
        let work = Work { kind, grown, timed };
        (name.to_string(), NEAR, work)
    });
    let title = "A question and its ground on the site shape. Microseconds".to_string();
    Table::new(title, "call", &GROUNDS, rows.collect())
}

fn day(grown: &Grown) -> Table<Work<'_>> {
    let (kind, timed) = (Kind::Day, &CALLS_AND_REPLAY);
    let work = Work { kind, grown, timed };
    let row = ("replayed record".to_string(), NEAR, work);
    let title = format!("A day of {RECORDS} records on the site shape. Microseconds for a record");
    Table::new(title, "", &REPLAYS, vec![row])
}

/// How many levels of the first grade have no free slot.
fn filled(grown: &Grown) -> String {
    let ([even, odd], levels) = (grown.full_levels(0), grown.shape.levels());
    format!("{even} + {odd} of 2 x {levels} levels full")
}

/// Each round compares the answers and the words that are left.
#[test]
fn candidates_and_replays_agree_and_grounds_have_the_sums_of_their_questions() {
    let grown = &Grown::new([12, 64, 24, 2]);
    let plans = vec![every_kind("", grown), grounds(grown), day(grown)];
    for (name, _, times) in measured(plans, 1).iter().flat_map(|table| &table.rows) {
        assert!(times.median_of(1) > Some(0.0), "{name}");
    }
}
