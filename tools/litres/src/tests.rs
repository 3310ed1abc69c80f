//! What C gets, which the safe calls cannot show: what is written where a call is refused.

use super::archive;
use draw::book::{lent, Book};
use draw::calls::Source;
use draw::grounds;
use draw::random::Random;
use draw::shapes::Makes;
use draw::tally::Tally;
use draw::trace::{day, Drawn};
use draw::view::Words;
use reference::calls::{deliver, Answer, Call};
use reference::ground::{ground, Finer, Ground};
use reference::protocol::answer;
use reference::replay::find_day;
use reference::trace::days;

/// The safe call cannot see this, a C program can.
#[test]
fn a_refused_query_writes_no_sum() {
    let book = [0; 8];
    for len in [0, 7, 8] {
        let mut sum = 123;
        // SAFETY: `len` is at most the array's length, and `sum` is apart from it.
        let number = unsafe { archive::litres_query(book.as_ptr(), len, 0, 0, &mut sum) };
        assert_eq!((number, sum), (if len < 8 { 2 } else { 7 }, 123));
    }
}

/// What the places of a ground hold before a call, so that it shows which of them are written.
const UNWRITTEN: [u64; 5] = [123, 456, 789, 12, 345];

/// What C gets for a ground: number and places.
fn grounded(book: &[u32], grade: u32, window: u32) -> (u32, [u64; 5]) {
    let mut ground = UNWRITTEN;
    let (words, len) = (book.as_ptr(), book.len());
    // SAFETY: the pointer and the length are of one slice; the array is apart from it.
    let number = unsafe { archive::litres_ground(words, len, grade, window, &mut ground) };
    (number, ground)
}

/// The book of document 01's P7.
fn p7() -> Vec<u32> {
    let mut book = vec![0; 90];
    super::make(&mut book, 2, 2, 4, 1).unwrap();
    super::clock(&mut book, 3).unwrap();
    for (stamp, volume) in [(0, 3), (3, 1), (1, 1), (1, 1), (2, 2)] {
        super::delivery(&mut book, 0, stamp, volume).unwrap();
    }
    book
}

#[test]
fn a_ground_has_each_number_at_its_place() {
    let book = p7();
    assert_eq!(grounded(&book, 0, 0), (0, [0, 0, 0, 0, 0]));
    assert_eq!(grounded(&book, 0, 2), (0, [3, 0, 0, 1, 0]));
    assert_eq!(grounded(&book, 0, 3), (0, [4, 2, 12, 2, 2]));
}

/// The safe call drops the places of a refused ground, so no comparison through it would see a written
/// one.
#[test]
fn places_of_drawn_grounds() {
    let random = &mut Random::new(3);
    let mut met = Tally::new(grounds::all(), 1);
    for index in 0..6_000 {
        let (words, grade, window) = grounds::draw(random, index);
        let right = ground(&words, grade, window);
        let expected = right.map_or_else(|number| (number, UNWRITTEN), |g| (0, places(g)));
        let found = grounded(&words, grade, window);
        assert_eq!(found, expected, "{grade} {window} on {words:?}");
        for kind in grounds::kinds(&words, grade, window, right) {
            met.add(&kind);
        }
    }
    assert_eq!(met.faults(), Vec::<String>::new());
}

/// The second program's ground as C gets it.
fn places(ground: Ground) -> [u64; 5] {
    let (case, first) = match ground.finer {
        Finer::WindowZero => (0, 0),
        Finer::LevelZero => (1, 0),
        Finer::First(first) => (2, first.into()),
    };
    [ground.sum, ground.level.into(), ground.limit, case, first]
}

/// What C gets for a delivery: number and halvings. The variable holds something else before, so
/// that it shows if it is not written.
fn delivered(book: &mut [u32], [grade, stamp, volume]: [u32; 3]) -> (u32, u32) {
    let mut halvings = 123;
    let (words, len) = (book.as_mut_ptr(), book.len());
    // SAFETY: the pointer and the length are of one exclusive slice; the variable is apart from it.
    let number =
        unsafe { archive::litres_delivery(words, len, grade, stamp, volume, &mut halvings) };
    (number, halvings)
}

/// The safe call drops the halvings of a refused delivery, so no comparison through it would see a
/// wrong number there.
#[test]
fn halvings_of_drawn_deliveries() {
    let random = &mut Random::new(2);
    let numbers = [2, 3, 4, 7, 8, 9, 11, 12];
    let mut refused = Tally::new(numbers.map(|number| answer(Err(number))), 1);
    let mut splits = Tally::of_splits(1);
    for index in 0..4_000 {
        let Book { shape, mut words, .. } = Book::draw(random, index);
        let mut source = Source::new(random.bits(), Makes::Same);
        let call = source.caller(&Words::new(shape, &words)).delivery();
        // Where the interval is full, a clock may be drawn instead.
        let Call::Delivery { grade, stamp, volume } = call else {
            continue;
        };
        words.resize(lent(random, call, words.len(), 2), 0);
        let found = delivered(&mut words.clone(), [grade, stamp, volume]);
        let expected = deliver(&mut words.clone(), grade, stamp, volume);
        let both = expected.map_or_else(|number| (number, 0), |splits| (0, splits));
        assert_eq!(found, both, "{call:?} on {words:?}");
        splits.add_splits(expected.map(Answer::Splits));
        if let Err(number) = expected {
            refused.add(&answer(Err(number)));
        }
    }
    let faults = [splits.faults(), refused.faults()].concat();
    assert_eq!(faults, Vec::<String>::new());
}

/// What C gets for a day: number, start and length. The variables hold something else before, so
/// that it shows if one is not written.
fn place(trace: &[u32], day: u32) -> (u32, usize, usize) {
    let (mut start, mut length) = (123, 456);
    let (words, len) = (trace.as_ptr(), trace.len());
    // SAFETY: the pointer and the length are of one slice; the variables are apart from it.
    let number = unsafe { archive::litres_day(words, len, day, &mut start, &mut length) };
    (number, start, length)
}

/// The safe call drops the place of a refused day, so no comparison through it would see a wrong one.
#[test]
fn places_of_drawn_days() {
    let random = &mut Random::new(1);
    let mut met = Tally::new([0, 13, 14], 1);
    for index in 0..4_000 {
        let Book { shape, words, .. } = Book::draw(random, index);
        let drawn = Drawn::draw(random, shape, &words);
        let (trace, day) = (&drawn.words[..], day(random, drawn.count()));
        let expected = match (find_day(trace, day), days(trace)) {
            (Err(number), _) => (number, 0, 0),
            (Ok(_), days) => {
                let part = &days.expect("a sound trace")[day as usize];
                (0, part.start, part.len())
            }
        };
        assert_eq!(place(trace, day), expected, "day {day} of {trace:?}");
        met.add(&expected.0.to_string());
    }
    assert_eq!(met.faults(), Vec::<String>::new());
}
