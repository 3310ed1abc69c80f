//! Replays: days of traces of every kind, found and replayed on books of every kind, beside the second program
//! and beside the implementation's own calls, one by one. Some trials are lists of calls and replays, which
//! are also held against the ledger.

use draw::book::{other_length, Book, Kind};
use draw::damage::changed;
use draw::random::Random;
use draw::tally::Tally;
use draw::trace::{self, damage, met, Drawn, FORMS};
use reference::protocol::answer;
use reference::refusal;
use reference::replay::ANSWER_WORDS;
use reference::shape::Shape;

use crate::desk::{Asked, Desk, TAIL};
use crate::difference::Difference;
use crate::implementation::Implementation;
use crate::list::{List, GROUNDS};
use crate::quiet;
use crate::run::{Comparison, Summary};

/// The comparison on traces.
pub const REPLAYS: Comparison = Comparison { name: "replays", usual: 24_000, summary, trial };

/// A run of so many traces must show every kind of trace, of replay, of answer and of question.
const TRACES_FOR_ALL: u64 = 4_000;
/// Traces of more words are not damaged word by word.
const EVERY_WORD: usize = 120;
/// Answer slices of all lengths up to so far from the limit.
const EVERY_ROOM: usize = 4;

const WAYS: [&str; 5] = ["any days", "all days in turn", "every word", "every room", "a list"];
const LENT: [&str; 4] = ["grown", "built", "damaged", "lent other words"];
const LISTS: [&str; 5] = ["a call", "a replay", "a refused replay", "an exact sum", "another sum"];

fn summary() -> Summary {
    const ALL: u64 = TRACES_FOR_ALL;
    let sound = FORMS.map(|(name, _, _)| name);
    let damaged = damage::KINDS.map(|(name, _)| name);
    let refused = refusal::REPLAYS.map(|number| answer(Err(number)));
    let replays = ["replayed".to_string()].into_iter().chain(refused);
    // No record is a make.
    let records = refusal::CALLS.filter(|number| *number != refusal::SHAPE);
    Summary::new([
        ("traces", Tally::new(WAYS, ALL)),
        ("sound traces", Tally::new(sound, ALL / 4)),
        ("damaged traces", Tally::new(damaged, ALL / 4)),
        ("books", Tally::new(LENT, ALL)),
        ("replays", Tally::new(replays, ALL)),
        ("records", Tally::of_answers(records, &[], 4 * ALL)),
        ("deliveries", Tally::of_splits(ALL)),
        ("traces, days and rooms", Tally::new(met::all(), 8 * ALL)),
        ("lists", Tally::new(LISTS, ALL / 4)),
        // Most that are off have few slots.
        ("grounds of lists", Tally::new(GROUNDS.concat(), 4 * ALL)),
        ("questions of lists", Tally::new(quiet::all(), ALL)),
    ])
}

fn trial(
    implementation: &dyn Implementation,
    random: &mut Random,
    _: u64,
    summary: &mut Summary,
) -> Result<(), Difference> {
    let way = random.below(12);
    if way == 0 {
        summary.add("traces", "a list");
        let mut list = List::new(implementation, random)?;
        return (0..random.between(2, 12)).try_for_each(|_| list.step(summary));
    }
    let mut table = Table::draw(implementation, random, summary);
    match way {
        1 => table.every_word(),
        2 => table.every_room(),
        3..=4 => table.all_days(),
        _ => table.any_days(),
    }
}

/// A book, and what a trial needs to ask about it.
struct Table<'a> {
    random: &'a mut Random,
    summary: &'a mut Summary,
    shape: Shape,
    desk: Desk<'a>,
}

impl<'a> Table<'a> {
    fn draw(
        implementation: &'a dyn Implementation,
        random: &'a mut Random,
        summary: &'a mut Summary,
    ) -> Table<'a> {
        let any = random.below(4);
        let Book { kind, shape, words } = Book::draw(random, any);
        let kind = match kind {
            Kind::Grown => "grown",
            Kind::Built => "built",
            Kind::Damaged(_) => "damaged",
        };
        summary.add("books", kind);
        let desk = Desk::new(implementation, random, &words);
        Table { random, summary, shape, desk }
    }

    /// A sound trace for a trial of this way.
    fn sound(&mut self, way: &str) -> Drawn {
        self.summary.add("traces", way);
        let drawn = Drawn::sound(self.random, self.shape, self.desk.book());
        self.summary.add("sound traces", drawn.kind);
        drawn
    }

    /// Any days of any trace, two to four of them, mostly with all words of the book.
    fn any_days(&mut self) -> Result<(), Difference> {
        self.summary.add("traces", "any days");
        let drawn = Drawn::draw(self.random, self.shape, self.desk.book());
        let traces = if drawn.damaged { "damaged traces" } else { "sound traces" };
        self.summary.add(traces, drawn.kind);
        for _ in 0..self.random.between(2, 4) {
            let day = trace::day(self.random, drawn.count());
            let room = trace::room(self.random, trace::records(&drawn.words, day));
            let exact = self.desk.book().len();
            let lent = match self.random.below(10) {
                0 => other_length(self.random, exact, TAIL),
                _ => exact,
            };
            self.ask(&drawn.words, day, lent, room)?;
        }
        Ok(())
    }

    /// A whole week, one day after another, and the day after the last, so that a trace of no days is asked
    /// for one as well.
    fn all_days(&mut self) -> Result<(), Difference> {
        let drawn = self.sound("all days in turn");
        for day in 0..=drawn.count() {
            let room = ANSWER_WORDS * trace::records(&drawn.words, day);
            self.ask_whole(&drawn.words, day, room)?;
        }
        Ok(())
    }

    /// A trace that is damaged at each of its words, one after another.
    fn every_word(&mut self) -> Result<(), Difference> {
        self.summary.add("traces", "every word");
        let drawn = loop {
            let drawn = Drawn::sound(self.random, self.shape, self.desk.book());
            if drawn.words.len() <= EVERY_WORD {
                break drawn;
            }
        };
        self.summary.add("sound traces", drawn.kind);
        for place in 0..drawn.words.len() {
            let mut words = drawn.words.clone();
            // Some changes leave some words as they are, such as half of 0.
            while words[place] == drawn.words[place] {
                words[place] = changed(self.random, words[place]);
            }
            let day = trace::day(self.random, drawn.count());
            let room = ANSWER_WORDS * trace::records(&drawn.words, day);
            self.ask_whole(&words, day, room)?;
        }
        Ok(())
    }

    /// Answer slices of every length about the limit.
    fn every_room(&mut self) -> Result<(), Difference> {
        let drawn = self.sound("every room");
        let day = trace::day(self.random, drawn.count());
        let needed = ANSWER_WORDS * trace::records(&drawn.words, day);
        for room in needed.saturating_sub(EVERY_ROOM)..=needed + EVERY_ROOM {
            self.ask_whole(&drawn.words, day, room)?;
        }
        Ok(())
    }

    fn ask_whole(&mut self, trace: &[u32], day: u32, room: usize) -> Result<(), Difference> {
        self.ask(trace, day, self.desk.book().len(), room)
    }

    fn ask(&mut self, trace: &[u32], day: u32, lent: usize, room: usize) -> Result<(), Difference> {
        let asked = Asked { trace, day, lent, room };
        let outcome = self.desk.ask(asked)?;
        let summary = &mut *self.summary;
        if lent != self.desk.book().len() {
            summary.add("books", "lent other words");
        }
        summary.add_all("traces, days and rooms", met::kinds(trace, day, room));
        match outcome {
            Ok(replies) => {
                summary.add("replays", "replayed");
                for answered in replies {
                    let reply = answered.reply;
                    summary.tally("records").add_answer(&answer(reply));
                    summary.tally("deliveries").add_splits(reply);
                }
            }
            Err(number) => summary.add("replays", &answer(Err(number))),
        }
        Ok(())
    }
}
