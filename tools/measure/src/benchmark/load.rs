//! Books grown by a realistic load: deliveries mostly in order, some hours late, through one
//! interval and three quarters of the next, so that the totals come near what an interval keeps.

use draw::random::Random;
use draw::shapes::{within, Numbers};
use reference::calls::Call;
use reference::layout;
use reference::shape::Shape;

use crate::rivals::{Calls, Fast};

/// Deliveries of a grade in one interval, where it keeps as many decilitres: about one a minute on
/// the site shape.
pub const DELIVERIES: u64 = 20_000;
/// The clock is set once in so many arrivals.
pub const ARRIVALS_PER_CLOCK: u32 = 16;
const ACCEPTED: &str = "the book takes the load";

pub struct Load {
    shape: Shape,
    random: Random,
}

impl Load {
    pub fn new(shape: Shape, seed: u64) -> Load {
        let random = Random::new(seed);
        Load { shape, random }
    }

    /// A delivery that arrives at this clock: one in ten up to six hours late, the others 20 seconds, and less
    /// where the interval is shorter than the site's. Without a volume it has such a one that an interval's
    /// deliveries reach nine tenths of what it keeps.
    pub fn delivery(&mut self, grade: u32, clock: u32, volume: Option<u32>) -> Call {
        let is_late = self.random.one_in(10);
        let delay = if is_late { 6 * 60 * 60 } else { 20 };
        let ticks = delay * self.shape.interval_ticks() / (1 << 20);
        let stamp = clock.saturating_sub(self.random.below(ticks + 1) as u32);
        let most = 2 * self.mean() - 1;
        let volume = volume.unwrap_or_else(|| 1 + self.random.below(most) as u32);
        Call::Delivery { grade, stamp, volume }
    }

    fn mean(&self) -> u64 {
        (self.most() / DELIVERIES).max(1)
    }

    /// The decilitres of an interval.
    fn most(&self) -> u64 {
        self.shape.capacity() * 9 / 10
    }

    /// A book of one grade after the load.
    fn grow(&mut self) -> Vec<u32> {
        let [k, n, m, _] = self.shape.numbers();
        let mut book = vec![0; within([k, n, m, 1]).book_length()];
        Fast::make(&mut book, k, n, m, 1).expect(ACCEPTED);
        let arrivals = self.most() / self.mean() * 7 / 4;
        let end = self.shape.interval_ticks() * 7 / 4;
        for arrival in 1..=arrivals {
            let now = (end * arrival / arrivals) as u32;
            if arrival % u64::from(ARRIVALS_PER_CLOCK) == 1 || arrival == arrivals {
                Fast::clock(&mut book, now).expect(ACCEPTED);
            }
            let delivery = self.delivery(0, book[layout::CLOCK], None);
            Fast::perform(&mut book, delivery).expect(ACCEPTED);
        }
        book
    }
}

/// A book after the load, with its clock in the second interval.
pub struct Grown {
    pub shape: Shape,
    pub words: Vec<u32>,
}

impl Grown {
    /// Grades do not touch, so each grade's block grows in a book of its own, where the clock checks no
    /// other.
    pub fn new([k, n, m, g]: Numbers) -> Grown {
        eprintln!("growing ({k}, {n}, {m}, {g})");
        let shape = within([k, n, m, g]);
        let (mut load, mut words) = (Load::new(shape, 1), vec![0; shape.book_length()]);
        Fast::make(&mut words, k, n, m, g).expect(ACCEPTED);
        for grade in 0..g {
            let alone = load.grow();
            words[layout::CLOCK] = alone[layout::CLOCK];
            words[shape.block(grade)].copy_from_slice(&alone[layout::HEAD_WORDS..]);
        }
        Grown { shape, words }
    }

    pub fn clock(&self) -> u32 {
        self.words[layout::CLOCK]
    }

    /// How many levels of a grade have no free slot, even half first.
    pub fn full_levels(&self, grade: u32) -> [usize; 2] {
        let (shape, block) = (self.shape, &self.words[self.shape.block(grade)]);
        [0, 1].map(|parity| {
            let counts = (0..shape.levels()).map(|i| block[shape.level(parity, i)][layout::COUNT]);
            counts.filter(|count| *count == shape.n()).count()
        })
    }
}

#[test]
fn grown_books_are_sound_and_nearly_full() {
    for [k, n, m, g] in [[10, 64, 16, 1], [8, 20, 12, 2], [10, 64, 8, 1]] {
        let grown = Grown::new([k, n, m, g]);
        for grade in 0..g {
            assert!(reference::calls::query(&grown.words, grade, 1 << k).is_ok());
            let block = &grown.words[grown.shape.block(grade)];
            let parts = [0, 1].map(|parity| u64::from(block[parity]) * 100 / (1 << m));
            let is_full = (75..=100).contains(&parts[0]) && (50..80).contains(&parts[1]);
            assert!(is_full, "{parts:?}");
            let filled = grown.full_levels(grade);
            assert!(m < 10 || filled.iter().all(|full| *full >= 7), "{filled:?}");
        }
    }
}
