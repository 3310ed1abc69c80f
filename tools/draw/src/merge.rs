//! Random merges: two traces, a day of each and how many words the output has. The clocks of both days come
//! from the same few ticks and their records from the same few numbers, so that many are equal.

pub mod met;

use reference::calls::{clock, deliver, perform};
use reference::layout;
use reference::merge::{home_clocks, Named};
use reference::shape::Shape;
use reference::trace::{lay_out, Record, CLOCK, DAYS_MAX, DELIVERY, QUERY, RECORD_WORDS};

use crate::calls::call_of;
use crate::random::Random;
use crate::sound;
use crate::trace::{self, damage};

/// Where the book comes from on which a merged day is replayed.
pub const BOOKS: [&str; 3] = ["made", "grown", "built"];

/// What a merge is given.
pub struct Drawn {
    /// The first trace and the second, or one that is both.
    pub traces: Vec<Vec<u32>>,
    /// The number of a day in each.
    pub days: [u32; 2],
    /// How many words the output has.
    pub room: usize,
}

impl Drawn {
    /// A merge of days for a book of this shape. Each thing that refuses it is drawn by itself, so that
    /// several come together.
    pub fn draw(random: &mut Random, shape: Shape) -> Drawn {
        let scene = Scene::draw(random, shape);
        let count = if random.one_in(8) { 1 } else { 2 };
        let mut traces: Vec<Vec<u32>> = (0..count).map(|_| scene.trace(random)).collect();
        let days = [traces[0][0], traces[count - 1][0]].map(|count| match random.below(6) {
            0 => trace::day(random, count),
            _ => random.below(count.into()) as u32,
        });
        for words in &mut traces {
            if random.one_in(12) {
                damage::damage(random, words);
            }
        }
        let room = 0;
        let mut drawn = Drawn { traces, days, room };
        drawn.room = self::room(random, lengths(drawn.named()));
        drawn
    }

    /// The two days.
    pub fn named(&self) -> [Named<'_>; 2] {
        let traces: Vec<&[u32]> = self.traces.iter().map(|words| &words[..]).collect();
        self.named_in(&traces)
    }

    /// The two days, if the words of the traces stand there.
    pub fn named_in<'t>(&self, traces: &[&'t [u32]]) -> [Named<'t>; 2] {
        let both = [traces[0], traces[traces.len() - 1]];
        [0, 1].map(|side| Named { trace: both[side], day: self.days[side] })
    }
}

/// How many words the days have, whether their records read or not. Where there is no such day, it is as
/// many as the last one has.
fn lengths(named: [Named; 2]) -> [usize; 2] {
    named.map(|Named { trace, day }| RECORD_WORDS * trace::records(trace, day))
}

/// How many words an output gets: mostly as many as days of these lengths need, else fewer, more or none.
fn room(random: &mut Random, lengths: [usize; 2]) -> usize {
    let needed = lengths[0] + lengths[1];
    match random.below(24) {
        0 => 0,
        1 => needed.saturating_sub(1),
        2 => needed.saturating_sub(RECORD_WORDS),
        3 => lengths[0],
        4 => lengths[1],
        5 => random.below(needed as u64 + 1) as usize,
        6 => needed + 1,
        7 => needed + RECORD_WORDS,
        8 => needed + random.between(2, 40) as usize,
        _ => needed,
    }
}

/// The clocks and the numbers from which the days of both traces are drawn.
struct Scene {
    shape: Shape,
    base: u32,
}

impl Scene {
    fn draw(random: &mut Random, shape: Shape) -> Scene {
        let ticks = shape.interval_ticks() as u32;
        let base = match random.below(6) {
            0 => 0,
            1 => Shape::CLOCK_MAX - random.between(0, 9),
            _ => random.between(0, 4 * ticks),
        };
        Scene { shape, base }
    }

    /// A sound trace with at least one day.
    fn trace(&self, random: &mut Random) -> Vec<u32> {
        let count = random.pick(&[1, 1, 2, 3, 5]);
        let mut days: Vec<Vec<u32>> = (0..count).map(|_| self.day(random)).collect();
        if random.one_in(40) {
            days.resize(DAYS_MAX as usize, Vec::new());
        }
        lay_out(&days)
    }

    fn day(&self, random: &mut Random) -> Vec<u32> {
        match random.below(10) {
            0..=1 => Vec::new(),
            2 => self.disordered(random),
            _ => self.ordered(random),
        }
    }

    /// A day that opens with a clock, whose clocks neither fall nor pass the limit.
    fn ordered(&self, random: &mut Random) -> Vec<u32> {
        let start = random.pick(&[0, 0, 1, 2, 4, 20]);
        let mut clock = (self.base + start).min(Shape::CLOCK_MAX);
        let mut day = vec![CLOCK, clock, 0, 0];
        let most = match random.below(40) {
            0 => 200,
            _ => random.pick(&[2, 8, 8, 24]),
        };
        for _ in 0..random.below(most) {
            if random.below(5) < 2 {
                let step = random.pick(&[0, 0, 1, 1, 2, 3]);
                clock = (clock + step).min(Shape::CLOCK_MAX);
                day.extend([CLOCK, clock, 0, 0]);
            } else {
                day.extend(self.record(random, clock));
            }
        }
        day
    }

    /// A day that is out of order, mostly by one record.
    fn disordered(&self, random: &mut Random) -> Vec<u32> {
        loop {
            let mut day = self.ordered(random);
            let clocks = home_clocks(&day).expect("a day in order");
            let place = match random.below(3) {
                0 => clocks.len(),
                _ => random.below(clocks.len() as u64) as usize,
            };
            let before = clocks[..place].last().copied().unwrap_or(0);
            let lower = random.pick(&[1, 1, 2, before]);
            let past = random.pick(&[1, 1, 2, u32::MAX - Shape::CLOCK_MAX]);
            let mut insert = |place: usize, record: Record| {
                let at = RECORD_WORDS * place;
                day.splice(at..at, record);
            };
            match random.below(4) {
                0 => insert(0, self.record(random, self.base)),
                1 => drop(day.drain(..RECORD_WORDS)),
                2 => insert(place, [CLOCK, before.saturating_sub(lower), 0, 0]),
                _ => insert(place, [CLOCK, Shape::CLOCK_MAX + past, 0, 0]),
            }
            if home_clocks(&day).is_err() {
                return day;
            }
        }
    }

    /// A delivery or a question, which a book at this clock mostly accepts.
    fn record(&self, random: &mut Random, clock: u32) -> Record {
        let ticks = self.shape.interval_ticks() as u32;
        let grade = match random.below(20) {
            0 => self.shape.g(),
            _ => random.below(self.shape.g().into()) as u32,
        };
        let record = if random.one_in(3) {
            let window = random.pick(&[0, 1, 2, ticks, ticks + 1]);
            [QUERY, grade, window, 0]
        } else {
            let back = random.pick(&[0, 0, 1, 2, ticks]);
            let ahead = u32::from(random.one_in(20));
            let volume = random.pick(&[1, 1, 1, 2, 3, 0]);
            [DELIVERY, grade, clock.saturating_sub(back) + ahead, volume]
        };
        trace::rarely_any_numbers(random, record)
    }
}

/// A sound book that is not past this clock, and where it comes from.
pub fn book(random: &mut Random, shape: Shape, most: u32) -> (&'static str, Vec<u32>) {
    let at = match random.below(3) {
        0 => most,
        1 => most.saturating_sub(random.between(1, 3)),
        _ => random.between(0, most),
    };
    let kind = random.pick(&BOOKS);
    if kind == "built" {
        // What the blocks hold does not depend on the clock.
        let mut book = sound::book(random, shape);
        book[layout::CLOCK] = at;
        return (kind, book);
    }
    let mut book = vec![0; shape.book_length()];
    perform(&mut book, call_of(shape.numbers())).expect("the length is right");
    if kind == "grown" {
        clock(&mut book, at).expect("a later or equal clock");
        for _ in 0..random.below(12) {
            let reach = random.pick(&[3, 2 * shape.interval_ticks()]);
            let stamp = at.saturating_sub(random.below(reach) as u32);
            let grade = random.below(shape.g().into()) as u32;
            // Some are late, and some find the interval full.
            let _ = deliver(&mut book, grade, stamp, random.between(1, 4));
        }
    }
    (kind, book)
}
