//! One book, asked by both sides in turn. What is lent has other words around it, and words that are to be
//! written hold something before, so that each word that is written or left shows. What is lent to be read
//! only is compared too: no stand-in in safe Rust can change it, but the archive's machine code could.

use std::hint::black_box;
use std::ops::Range;

use draw::random::Random;
use reference::calls::{self, Call, Reply};
use reference::ground::{ground, Ground};
use reference::replay::{self, answer_words, ANSWER_WORDS};

use crate::difference::{check_words, told, Difference, Of, What};
use crate::implementation::{Implementation, Lent};

/// Words past the book, for calls that are lent more than it has.
pub const TAIL: usize = 24;
/// Words around the answers or an output, and around a trace.
pub const MARGIN: usize = 5;

/// The calls of an accepted replay, or the number of its refusal.
pub type Outcome = Result<Vec<Answered>, u32>;

/// A call that the implementation performed by itself.
#[derive(Clone, Copy, Debug, PartialEq, Eq)]
pub struct Answered {
    /// The call.
    pub call: Call,
    /// Its answer, on which both sides agree.
    pub reply: Reply,
    /// The implementation's ground of a question, on the same book.
    pub ground: Option<Result<Ground, u32>>,
}

/// A day of a trace, and the words that are lent for its replay.
#[derive(Clone, Copy, Debug)]
pub struct Asked<'t> {
    /// All words of the trace.
    pub trace: &'t [u32],
    /// The day.
    pub day: u32,
    /// How many words of the book are lent.
    pub lent: usize,
    /// How many words are lent for the answers.
    pub room: usize,
}

/// A book with words around it, for both sides. They are equal between calls.
pub struct Desk<'i> {
    implementation: &'i dyn Implementation,
    random: Random,
    ours: Vec<u32>,
    theirs: Vec<u32>,
    before: Vec<u32>,
    start: usize,
    length: usize,
}

/// What a replay leaves of one side's words.
#[derive(Clone, PartialEq, Eq)]
struct Side {
    book: Vec<u32>,
    answers: Vec<u32>,
}

impl<'i> Desk<'i> {
    /// These words at any distance from a round address, between any others.
    pub fn new(
        implementation: &'i dyn Implementation,
        random: &mut Random,
        book: &[u32],
    ) -> Desk<'i> {
        let mut random = Random::new(random.bits());
        let before = words_before(&mut random);
        let after: Vec<u32> = (0..TAIL).map(|_| random.word()).collect();
        Desk::between(implementation, random, [&before, book, &after])
    }

    /// A book between these words.
    pub fn between(
        implementation: &'i dyn Implementation,
        random: Random,
        [before, book, after]: [&[u32]; 3],
    ) -> Desk<'i> {
        let words = [before, book, after].concat();
        Desk {
            implementation,
            random,
            ours: words.clone(),
            theirs: words.clone(),
            before: words,
            start: before.len(),
            length: book.len(),
        }
    }

    /// The words of the book.
    pub fn book(&self) -> &[u32] {
        self.lent(self.length)
    }

    /// So many words from the book's first on.
    pub fn lent(&self, lent: usize) -> &[u32] {
        &self.ours[self.start..self.start + lent]
    }

    /// Lends both sides so many words for a call and compares answers and all words.
    pub fn call(&mut self, lent: usize, call: Call) -> Result<Reply, Difference> {
        let range = self.start..self.start + lent;
        self.before.copy_from_slice(&self.ours);
        let expected = calls::perform(&mut self.ours[range.clone()], call);
        let found = self.implementation.perform(&mut self.theirs[range], call);
        if expected.is_err() || matches!(call, Call::Query { .. }) {
            assert!(self.ours == self.before, "the second program: {call:?}");
        }
        let words = self.check_book(&self.before);
        let checked = if expected == found {
            words
        } else {
            let told = format!("answers {}, expected {}", told(found), told(expected));
            let words = words.map_or_else(|word| word.told, |()| "words equal".to_string());
            Err(Difference::new(What::Answer, format!("{told}\n{words}")))
        };
        let about = || format!("call {call:?} on {lent} words");
        checked.map_err(|difference| difference.of(about()))?;
        Ok(expected)
    }

    /// Lends both sides so many words for the ground of a sum, and compares grounds and all words.
    pub fn ground(
        &self,
        lent: usize,
        grade: u32,
        window: u32,
    ) -> Result<Result<Ground, u32>, Difference> {
        let range = self.start..self.start + lent;
        let expected = ground(&self.ours[range.clone()], grade, window);
        let found = self.implementation.ground(&self.theirs[range], grade, window);
        let checked = if expected == found {
            self.check_book(&self.ours)
        } else {
            let told = format!("{found:?}, expected {expected:?}");
            Err(Difference::new(What::Ground, told))
        };
        let about = || format!("ground of grade {grade} and window {window} on {lent} words");
        checked.map_err(|difference| difference.of(about()))?;
        Ok(expected)
    }

    fn check_book(&self, before: &[u32]) -> Result<(), Difference> {
        let words = [before, &self.ours, read_again(&self.theirs)];
        check_words(What::Word(Of::Book), words, self.start)
    }

    /// A call on all words of the book, and the implementation's ground where it is a question.
    pub fn answer(&mut self, call: Call) -> Result<Answered, Difference> {
        let reply = self.call(self.length, call)?;
        Ok(self.answered(self.book(), call, reply))
    }

    fn answered(&self, book: &[u32], call: Call, reply: Reply) -> Answered {
        let ground = match call {
            Call::Query { grade, window } => Some(self.implementation.ground(book, grade, window)),
            _ => None,
        };
        Answered { call, reply, ground }
    }

    /// Finds a day and replays it, by both sides and by the implementation's own calls one by one.
    pub fn ask(&mut self, asked: Asked) -> Result<Outcome, Difference> {
        let around = around(&mut self.random, asked.trace);
        let kept = around.clone();
        let trace = &around[MARGIN..MARGIN + asked.trace.len()];
        let outcome = self.replay(Asked { trace, ..asked }, || {
            let words = [&kept[..], &kept, read_again(&around)];
            check_words(What::Word(Of::Trace), words, MARGIN)
        });
        let Asked { day, lent, room, .. } = asked;
        outcome.map_err(|difference| {
            let trace = format!("trace {:?}", asked.trace);
            difference.of(format!("day {day}, {lent} words of the book, {room} answers\n{trace}"))
        })
    }

    /// The same for words that are lent; `check_trace` says whether those of the trace are as they were.
    fn replay(
        &mut self,
        asked: Asked,
        check_trace: impl Fn() -> Result<(), Difference>,
    ) -> Result<Outcome, Difference> {
        check_part(self.implementation, asked)?;
        let before =
            Side { book: self.ours.clone(), answers: unlikely(&mut self.random, asked.room) };
        let mut ours = before.clone();
        let expected = self.lent_of(&mut ours, asked).by(replay::replay);
        let refused_writes = expected.is_err() && ours != before;
        assert!(!refused_writes, "the second program: {asked:?}");
        let mut theirs = before.clone();
        let found = self.implementation.replay(self.lent_of(&mut theirs, asked));
        check_numbers(expected.as_ref().err().copied(), found.err())?;
        self.check_side(What::Word, [&before, &ours, &theirs])?;
        check_trace()?;
        let calls = replay::calls(asked.trace, asked.day, asked.room).unwrap_or_default();
        let mut apart = before.clone();
        let answered = self.one_by_one(self.lent_of(&mut apart, asked), &calls);
        self.check_side(What::Apart, [&before, &theirs, &apart])?;
        check_replies(expected.as_deref().unwrap_or(&[]), &answered)?;
        self.theirs.copy_from_slice(&ours.book);
        self.ours = ours.book;
        Ok(expected.map(|_| answered))
    }

    /// What a replay is lent of a side.
    fn lent_of<'l>(&self, side: &'l mut Side, asked: Asked<'l>) -> Lent<'l> {
        Lent {
            book: &mut side.book[self.start..self.start + asked.lent],
            trace: asked.trace,
            day: asked.day,
            answers: &mut side.answers[MARGIN..MARGIN + asked.room],
        }
    }

    fn check_side(&self, what: fn(Of) -> What, sides: [&Side; 3]) -> Result<(), Difference> {
        let [books, answers] =
            [sides.map(|side| &side.book[..]), sides.map(|side| &side.answers[..])];
        check_words(what(Of::Book), books, self.start)?;
        check_words(what(Of::Answers), answers, MARGIN)
    }

    /// The implementation's own calls, their replies also written as a replay writes its answers.
    fn one_by_one(&self, lent: Lent, calls: &[Call]) -> Vec<Answered> {
        let places = lent.answers.chunks_mut(ANSWER_WORDS);
        let answered = calls.iter().zip(places).map(|(call, place)| {
            let reply = self.implementation.perform(lent.book, *call);
            place.copy_from_slice(&answer_words(reply));
            self.answered(lent.book, *call, reply)
        });
        answered.collect()
    }
}

/// A few words, so that a book stands at any distance from a round address.
pub fn words_before(random: &mut Random) -> Vec<u32> {
    let count = random.between(1, 8);
    (0..count).map(|_| random.word()).collect()
}

/// The compiler may take words that are lent for reading as unchanged; so it has to read them again.
pub fn read_again(words: &[u32]) -> &[u32] {
    black_box(words)
}

/// So many words to be written and others around them, none of which is likely to be written.
pub fn unlikely(random: &mut Random, room: usize) -> Vec<u32> {
    let words = 0..room + 2 * MARGIN;
    words.map(|_| random.word() | 1 << 31).collect()
}

/// The words of a trace with others around them.
pub fn around(random: &mut Random, trace: &[u32]) -> Vec<u32> {
    let mut margin = || [(); MARGIN].map(|()| random.word());
    [&margin()[..], trace, &margin()].concat()
}

/// The numbers under which a replay or a merge is refused, the second program's first.
pub fn check_numbers(expected: Option<u32>, found: Option<u32>) -> Result<(), Difference> {
    if expected == found {
        return Ok(());
    }
    let [expected, found] = [expected, found].map(|number| number.unwrap_or(0));
    let told = format!("number {found}, expected {expected}");
    Err(Difference::new(What::Number, told))
}

/// The parts must be the same words at the same place, not only equal ones.
fn check_part(implementation: &dyn Implementation, asked: Asked) -> Result<(), Difference> {
    let Asked { trace, day, .. } = asked;
    let expected = replay::find_day(trace, day);
    let found = implementation.find_day(trace, day);
    let equal = match (expected, found) {
        (Ok(expected), Ok(found)) => std::ptr::eq(expected, found),
        (expected, found) => expected == found,
    };
    if equal {
        return Ok(());
    }
    let [expected, found] = [expected, found].map(|part| part.map(|part| place(trace, part)));
    let told = format!("found {found:?}, expected {expected:?}");
    Err(Difference::new(What::Part, told))
}

/// Where a part stands in a trace, if it is one.
fn place(trace: &[u32], part: &[u32]) -> Option<Range<usize>> {
    let [first, start] = [trace, part].map(|words| words.as_ptr().addr());
    let start = start.checked_sub(first)? / size_of::<u32>();
    let end = start + part.len();
    (end <= trace.len()).then_some(start..end)
}

/// The answer words have been compared; the replies also tell the splits of deliveries.
fn check_replies(expected: &[Reply], found: &[Answered]) -> Result<(), Difference> {
    let mut both = expected.iter().zip(found);
    let Some((expected, found)) = both.find(|(expected, found)| **expected != found.reply) else {
        return Ok(());
    };
    let [answer, expected] = [found.reply, *expected].map(told);
    let told = format!("{:?} by itself: {answer}, expected {expected}", found.call);
    Err(Difference::new(What::Splits, told))
}
