//! Lists of calls and replays from a make on, beside the ledger. A replay counts there as its calls, one
//! that is refused as none. The ground of each question is held against the ledger too, and its sum must be
//! the ledger's where that is promised.

use draw::calls::{call_of, Source};
use draw::pace::Pace;
use draw::random::Random;
use draw::shapes::{self, Makes};
use draw::trace::{self, Drawn};
use reference::calls::{Answer, Call, Reply};
use reference::ledger::Ledger;
use reference::protocol::answer;
use reference::replay::ANSWER_WORDS;

use crate::desk::{Answered, Asked, Desk};
use crate::difference::{Difference, What};
use crate::implementation::Implementation;
use crate::quiet;
use crate::run::Summary;

/// Longer books would leave time for few calls only.
const LONGEST: usize = 2_000;

/// Grounds that were held against the ledger, by whether it has the same sum. Where n is at most k + 1,
/// nothing but the limit bounds the difference.
pub const GROUNDS: [[&str; 2]; 2] =
    [["exact", "off"], ["exact where n is at most k + 1", "off where n is at most k + 1"]];

/// A book and its ledger.
pub struct List<'i> {
    source: Source,
    desk: Desk<'i>,
    ledger: Ledger,
}

impl<'i> List<'i> {
    /// The list after an accepted make of a shape with a short book.
    pub fn new(
        implementation: &'i dyn Implementation,
        random: &mut Random,
    ) -> Result<List<'i>, Difference> {
        let shape = shapes::draw_short(random, LONGEST);
        let length = shape.book_length();
        let mut desk = Desk::new(implementation, random, &vec![0; length]);
        let made = desk.call(length, call_of(shape.numbers()))?;
        assert_eq!(made, Ok(Answer::Done), "a make of the book's length");
        Ok(List {
            source: Source {
                pace: Pace::growing(random),
                random: Random::new(random.bits()),
                makes: Makes::Length(length),
            },
            desk,
            ledger: Ledger::new(shape),
        })
    }

    /// One more step: a call, or replays of days that were drawn for the book.
    pub fn step(&mut self, summary: &mut Summary) -> Result<(), Difference> {
        let (shape, random) = (self.ledger.shape(), &mut self.source.random);
        match random.below(6) {
            0..=1 => {
                let call = self.source.call(&self.ledger);
                let answered = self.desk.answer(call)?;
                summary.add("lists", "a call");
                self.note(answered, summary)
            }
            2 => {
                let drawn = Drawn::draw(random, shape, self.desk.book());
                let day = trace::day(random, drawn.count());
                let room = trace::room(random, trace::records(&drawn.words, day));
                self.replay(&drawn.words, day, room, summary)
            }
            _ => {
                let drawn = Drawn::sound(random, shape, self.desk.book());
                let needed = |day| ANSWER_WORDS * trace::records(&drawn.words, day);
                let mut days = 0..drawn.count();
                days.try_for_each(|day| self.replay(&drawn.words, day, needed(day), summary))
            }
        }
    }

    fn replay(
        &mut self,
        trace: &[u32],
        day: u32,
        room: usize,
        summary: &mut Summary,
    ) -> Result<(), Difference> {
        let outcome = self.desk.ask(Asked { trace, day, lent: self.desk.book().len(), room })?;
        let kind = match outcome {
            Ok(_) => "a replay",
            Err(_) => "a refused replay",
        };
        summary.add("lists", kind);
        let mut calls = outcome.into_iter().flatten();
        calls.try_for_each(|answered| self.note(answered, summary))
    }

    fn note(&mut self, answered: Answered, summary: &mut Summary) -> Result<(), Difference> {
        let Answered { call, reply, .. } = answered;
        summary.tally("deliveries").add_splits(reply);
        let expected = self.ledger.perform(call, self.desk.book().len());
        if let (Call::Query { grade, window }, Ok(Answer::Sum(sum))) = (call, reply) {
            let is_exact = expected == reply;
            let kind = if is_exact { "an exact sum" } else { "another sum" };
            summary.add("lists", kind);
            let shape = self.ledger.shape();
            let grounds = GROUNDS[usize::from(shape.n() <= shape.k() + 1)];
            summary.add("grounds of lists", grounds[usize::from(!is_exact)]);
            let kinds = quiet::kinds(&self.ledger, grade, window, sum);
            summary.add_all("questions of lists", kinds);
        }
        check(&self.ledger, expected, answered)
    }
}

/// What a ledger that performed a call too, and answered this, contradicts in the book's answer.
pub fn check(ledger: &Ledger, expected: Reply, answered: Answered) -> Result<(), Difference> {
    let Answered { call, reply, .. } = answered;
    let told = |what, found: &str| {
        let expected = answer(expected);
        Difference::new(what, format!("call {call:?}: {found}, the ledger: {expected}"))
    };
    if !agrees(ledger, expected, reply) {
        return Err(told(What::Ledger, &answer(reply)));
    }
    if !is_grounded(ledger, answered) {
        return Err(told(What::Limit, &format!("{:?}", answered.ground)));
    }
    match (call, reply) {
        (Call::Query { grade, window }, Ok(Answer::Sum(sum)))
            if !ledger.admits_exact(grade, window, sum) =>
        {
            let stamps = ledger.different_stamps(grade, window);
            let n = ledger.shape().n();
            let found = format!("= {sum} over {stamps} different stamps, n = {n}");
            Err(told(What::Inexact, &found))
        }
        _ => Ok(()),
    }
}

/// Whether a question has the ground of its answer: with the same sum, from which the ledger's is at most the
/// limit away, whatever n is, or refused under the same number. Other calls have none.
fn is_grounded(ledger: &Ledger, answered: Answered) -> bool {
    let Call::Query { grade, window } = answered.call else {
        return answered.ground.is_none();
    };
    match (answered.reply, answered.ground) {
        (Ok(Answer::Sum(sum)), Some(Ok(ground))) => {
            ground.sum == sum && ledger.admits_ground(grade, window, ground)
        }
        (Err(number), Some(Err(refused))) => number == refused,
        _ => false,
    }
}

/// Whether a book may answer this where its ledger answers that: under the same number, with a sum
/// within the bound, and with any count of splits, since the ledger has none.
fn agrees(ledger: &Ledger, expected: Reply, found: Reply) -> bool {
    match (expected, found) {
        (Ok(Answer::Sum(exact)), Ok(Answer::Sum(sum))) => ledger.admits(exact, sum),
        (Ok(Answer::Done), Ok(Answer::Splits(_))) => true,
        (expected, found) => expected == found,
    }
}
