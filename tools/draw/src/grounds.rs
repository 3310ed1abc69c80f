//! Grounds (document 02, request Six): what is asked for, of which kind a ground is, and which kinds a long
//! run must show.

use reference::calls::Call;
use reference::ground::{Finer, Ground};
use reference::protocol::answer;
use reference::refusal;
use reference::soundness::sound_head;
use reference::window::opening;
use reference::words::{decode_block, decode_head};

use crate::book::Book;
use crate::calls::Source;
use crate::random::Random;
use crate::shapes::Makes;
use crate::tally::{names, that_hold};
use crate::view::Words;

const WINDOW_0: &str = "window 0";
const LEVELS: [&str; 3] = ["level 0", "level 1", "a level above 1"];
const BEFORE: &str = "a level above 0 in the interval before";
const HIGHER: &str = "a finer level with an F above the next finer one's";
const LOST: &str = "a coarser level that has lost the opening";

/// What refuses a question, and so a ground.
const REFUSALS: [u32; 5] =
    [refusal::LENGTH, refusal::HEAD, refusal::GRADE, refusal::WINDOW, refusal::BLOCK];

/// A book, of each kind in turn, with the grade and the window of a question.
pub fn draw(random: &mut Random, index: u64) -> (Vec<u32>, u32, u32) {
    let Book { shape, words, .. } = Book::draw(random, index);
    let mut source = Source::new(random.bits(), Makes::Same);
    let question = source.caller(&Words::new(shape, &words)).question();
    let Call::Query { grade, window } = question else {
        panic!("no question: {question:?}");
    };
    (words, grade, window)
}

/// All kinds that there are.
pub fn all() -> Vec<String> {
    let refused = REFUSALS.map(|number| answer(Err(number)));
    let kinds = names(&[&[WINDOW_0], &LEVELS, &[BEFORE, HIGHER, LOST]]);
    kinds.into_iter().chain(refused).collect()
}

/// The kinds of a ground of this grade and window, or of its refusal: one by its level, and others where
/// they hold.
pub fn kinds(book: &[u32], grade: u32, window: u32, ground: Result<Ground, u32>) -> Vec<String> {
    match ground {
        Err(number) => vec![answer(Err(number))],
        Ok(ground) if ground.finer == Finer::WindowZero => vec![WINDOW_0.to_string()],
        Ok(ground) => levels(book, grade, window, ground.level as usize),
    }
}

fn levels(book: &[u32], grade: u32, window: u32, level: usize) -> Vec<String> {
    let (shape, clock) = sound_head(decode_head(book)).expect("an answered question");
    let opening = opening(clock, window).expect("another window than 0");
    let is_before = shape.interval(opening) < shape.interval(clock.into());
    let firsts = firsts(book, grade, opening);
    let (finer, from) = firsts.split_at(level);
    let lost = |first: &u64| *first > shape.offset(opening);
    that_hold([
        (LEVELS[level.min(2)], true),
        (BEFORE, is_before && level > 0),
        (HIGHER, finer.iter().max() > finer.last()),
        (LOST, from.iter().any(lost)),
    ])
}

/// The first kept offset of each level, from level 0 on, in the half of a tick.
pub fn firsts(book: &[u32], grade: u32, tick: u64) -> Vec<u64> {
    let (shape, _) = sound_head(decode_head(book)).expect("a sound book");
    let halves = decode_block(shape, &book[shape.block(grade)]);
    let levels = halves[shape.parity(tick)].levels.iter();
    levels.map(|level| level.first).collect()
}
