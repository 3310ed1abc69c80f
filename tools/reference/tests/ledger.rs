//! Random runs of the book against the ledger: the same refusals, answers within the bound and exact
//! where that is promised, grounds within their limits, late deliveries never missed, levels near the
//! truth, and every grown block sound.

mod books;

use books::{delivery, made};
use draw::calls::Source;
use draw::pace::Pace;
use draw::random::Random;
use draw::shapes::{within, Makes, Numbers};
use reference::calls::{perform, Answer, Call};
use reference::ground::ground;
use reference::histogram::Histogram;
use reference::ledger::Ledger;
use reference::shape::Shape;
use reference::soundness::block_faults;
use reference::window::opening;
use reference::words::decode_block;

/// What a run has met, so that a test can tell that it tested something.
#[derive(Default)]
struct Seen {
    refused: [usize; 13],
    makes: usize,
    /// Clocks that left out an interval.
    skips: usize,
    /// Answers under the bound, and those among them that differ from the ledger's.
    bounded: usize,
    inexact: usize,
    above: usize,
    from_level_0: usize,
    /// Grounds that differ from the ledger, where n is at most k + 1 and no bound holds.
    unbounded_inexact: usize,
    late_checked: usize,
}

struct Run {
    words: Vec<u32>,
    ledger: Ledger,
    /// Stamps that were refused as late since the last accepted make.
    late: Vec<u32>,
    seen: Seen,
}

impl Run {
    fn new(numbers: Numbers) -> Run {
        Run {
            words: made(numbers),
            ledger: Ledger::new(within(numbers)),
            late: Vec::new(),
            seen: Seen::default(),
        }
    }

    fn steps(&mut self, source: &mut Source, calls: usize) {
        for _ in 0..calls {
            let call = source.call(&self.ledger);
            self.step(call, self.words.len());
        }
    }

    /// One call on the first `borrowed` words, by book and by ledger.
    fn step(&mut self, call: Call, borrowed: usize) {
        let before = self.words.clone();
        let old = self.ledger.clock();
        let book = perform(&mut self.words[..borrowed], call);
        let ledger = self.ledger.perform(call, borrowed);
        assert_eq!(book.err(), ledger.err(), "{call:?} on {borrowed} words");
        if let Call::Query { window, .. } = call {
            self.check_late(window);
        }
        match (call, book) {
            (_, Err(number)) => {
                assert!(number != 7 && number != 11);
                assert_eq!(self.words, before);
                self.seen.refused[number as usize] += 1;
                if let (Call::Delivery { stamp, .. }, 9) = (call, number) {
                    self.late.push(stamp);
                }
            }
            (Call::Delivery { .. }, Ok(Answer::Splits(splits))) => {
                assert!(splits <= self.ledger.shape().k() * self.ledger.shape().m());
            }
            (Call::Query { grade, window }, Ok(Answer::Sum(sum))) => {
                assert_eq!(self.words, before);
                let exact = self.ledger.window_sum(grade, window);
                assert_eq!(ledger, Ok(Answer::Sum(exact)));
                self.check_sum(grade, window, sum);
            }
            (Call::Make { .. }, _) => {
                self.late.clear();
                self.seen.makes += 1;
            }
            (Call::Clock { clock }, _) => {
                let entered = |tick: u32| self.ledger.shape().interval(tick.into());
                self.seen.skips += usize::from(entered(clock) - entered(old) > 1);
            }
            _ => {}
        }
        self.check_blocks();
    }

    /// A window that a query may ask reaches none of the stamps refused as late.
    fn check_late(&mut self, window: u32) {
        if u64::from(window) <= self.ledger.shape().interval_ticks() {
            for stamp in &self.late {
                assert!(!self.ledger.covers(window, *stamp));
                self.seen.late_checked += 1;
            }
        }
    }

    fn check_sum(&mut self, grade: u32, window: u32, book: u64) {
        let shape = self.ledger.shape();
        let exact = self.ledger.window_sum(grade, window);
        if let Some(opening) = opening(self.ledger.clock(), window) {
            let histogram = &self.block(grade)[shape.parity(opening)];
            if histogram.serving_level(shape.offset(opening)) == Some(0) {
                assert_eq!(book, exact);
                self.seen.from_level_0 += 1;
            }
        } else {
            assert_eq!(book, 0);
        }
        assert!(self.ledger.admits(exact, book), "{exact}: {book}");
        let admitted = self.ledger.admits_exact(grade, window, book);
        assert!(admitted, "{exact}: {book}, window {window}");
        let ground = ground(&self.words, grade, window).expect("a query that was answered");
        assert_eq!(ground.sum, book);
        let admitted = self.ledger.admits_ground(grade, window, ground);
        assert!(admitted, "{ground:?}");
        if shape.n() > shape.k() + 1 {
            self.seen.bounded += 1;
            self.seen.inexact += usize::from(book != exact);
            self.seen.above += usize::from(book > exact);
        } else {
            self.seen.unbounded_inexact += usize::from(book != exact);
        }
    }

    fn block(&self, grade: u32) -> [Histogram; 2] {
        let shape = self.ledger.shape();
        decode_block(shape, &self.words[shape.block(grade)]).map(|raw| raw.histogram())
    }

    fn check_blocks(&self) {
        let shape = self.ledger.shape();
        for grade in 0..shape.g() {
            let block = decode_block(shape, &self.words[shape.block(grade)]);
            assert_eq!(block_faults(shape, &block), []);
        }
    }

    /// From every opening that a level keeps, its sum is at most (k+1) 2^i away from the truth.
    /// Gives the number of openings where it is not the truth.
    fn check_levels(&self) -> usize {
        let shape = self.ledger.shape();
        let current = shape.interval(self.ledger.clock().into());
        let mut inexact = 0;
        for grade in 0..shape.g() {
            let block = self.block(grade);
            for interval in current.saturating_sub(1)..=current {
                let histogram = &block[interval as usize % 2];
                let truth = self.sums_from(grade, interval);
                assert_eq!(histogram.total, truth[0]);
                for (index, level) in histogram.levels.iter().enumerate() {
                    for opening in level.first..shape.interval_ticks() {
                        let exact = truth[opening as usize];
                        let error = level.sum_from(opening).abs_diff(exact);
                        assert!(error <= u64::from(shape.k() + 1) << index);
                        assert!(error == 0 || index > 0);
                        inexact += usize::from(error > 0);
                    }
                }
            }
        }
        inexact
    }

    /// The exact volume from each offset of an interval on.
    fn sums_from(&self, grade: u32, interval: u64) -> Vec<u64> {
        let shape = self.ledger.shape();
        let mut sums = vec![0; shape.interval_ticks() as usize];
        for entry in self.ledger.entries() {
            let stamp = u64::from(entry.stamp);
            if entry.grade == grade && shape.interval(stamp) == interval {
                sums[shape.offset(stamp) as usize] += u64::from(entry.volume);
            }
        }
        for offset in (1..sums.len()).rev() {
            sums[offset - 1] += sums[offset];
        }
        sums
    }
}

/// Calls with an accepted make once in so many, of the same shape, and volumes up to the usual.
fn source(seed: u64, span: u64, volume: u64) -> Source {
    let mut source = Source::new(seed, Makes::Same);
    source.pace = Pace {
        span,
        clocks: 8,
        edges: 30,
        volume,
        step_divisor: 8,
        leap: 4,
        flood: false,
        ..source.pace
    };
    source
}

#[test]
fn small_shapes_stay_within_the_bound() {
    let mut inexact = 0;
    let shapes = [[2, 4, 12, 1], [4, 6, 10, 2], [5, 9, 12, 1], [5, 16, 9, 3]];
    for (seed, numbers) in (1..).zip(shapes) {
        let mut run = Run::new(numbers);
        run.steps(&mut source(seed, 300, 5), 6000);
        assert!(run.seen.makes > 5 && run.seen.skips > 5);
        assert!(run.seen.from_level_0 > 100);
        inexact += run.seen.inexact;
    }
    assert!(inexact > 300, "{inexact}");
}

#[test]
fn long_intervals_stay_within_a_narrow_bound() {
    // 2(k+1)/(n-k-1) is near a third, an eighth and an eleventh.
    for (seed, numbers, volume) in
        [(11, [8, 64, 12, 1], 6), (12, [10, 190, 13, 1], 20), (13, [12, 300, 14, 1], 40)]
    {
        let mut run = Run::new(numbers);
        let mut source = source(seed, 3000, volume);
        source.pace = Pace { edges: 200, step_divisor: 400, leap: 100, ..source.pace };
        run.steps(&mut source, 9000);
        let (inexact, above) = (run.seen.inexact, run.seen.above);
        assert!(inexact > 50 && above > 0 && above < inexact, "{inexact}");
    }
}

#[test]
fn few_slots_still_share_every_refusal() {
    let mut inexact = 0;
    for seed in 21..=30 {
        let mut random = Random::new(seed);
        let k = random.between(2, 6);
        let mut run = Run::new([k, random.between(2, k + 1), random.between(1, 14), 2]);
        run.steps(&mut source(seed, 200, 3), 2500);
        assert_eq!(run.seen.bounded, 0);
        assert!(run.seen.from_level_0 > 0);
        inexact += run.seen.unbounded_inexact;
    }
    assert!(inexact > 300, "{inexact}");
}

#[test]
fn makes_of_other_shapes_in_the_same_words() {
    let mut seen = Seen::default();
    let shapes = [[4, 6, 15, 1], [5, 10, 9, 1], [2, 2, 4, 1], [3, 6, 7, 2]];
    for (seed, numbers) in (31..).zip(shapes) {
        let mut run = Run::new(numbers);
        let mut source = source(seed, 120, 4);
        source.makes = Makes::Length(run.words.len());
        // Makes keep the clock in the first intervals, where half of the windows are drawn at edges
        // and most of these are exact.
        run.steps(&mut source, 24_000);
        for (sum, refused) in seen.refused.iter_mut().zip(run.seen.refused) {
            *sum += refused;
        }
        seen.makes += run.seen.makes;
        seen.inexact += run.seen.inexact;
        seen.late_checked += run.seen.late_checked;
    }
    let met = [seen.makes, seen.inexact, seen.late_checked];
    assert!(met[0] > 100 && met[1] > 100 && met[2] > 1000, "{met:?}");
    for number in [1, 2, 3, 4, 5, 6, 8, 9, 10, 12] {
        assert!(seen.refused[number] > 20, "refusal {number}");
    }
}

#[test]
fn clock_at_its_last_tick() {
    for (seed, numbers) in (41..).zip([[2, 4, 8, 2], [6, 9, 11, 1], [20, 30, 9, 1]]) {
        let mut run = Run::new(numbers);
        let mut source = source(seed, 1 << 40, 3);
        let near = Shape::CLOCK_MAX - 30;
        run.step(Call::Clock { clock: near }, run.words.len());
        run.steps(&mut source, 2000);
        let last = Shape::CLOCK_MAX;
        run.step(Call::Clock { clock: last }, run.words.len());
        assert_eq!(run.ledger.clock(), last);
        run.steps(&mut source, 500);
        assert!(run.seen.refused[6] > 50);
    }
}

#[test]
fn volumes_up_to_the_largest() {
    let mut run = Run::new([3, 5, 24, 1]);
    let mut source = source(51, 1 << 40, 65_535);
    source.pace.clocks = 3;
    run.steps(&mut source, 600);
    assert!(run.seen.inexact > 5, "{}", run.seen.inexact);
}

#[test]
fn other_numbers_of_borrowed_words() {
    let shapes = [[3, 5, 6, 1], [3, 5, 6, 2], [4, 4, 5, 1]];
    let lengths = shapes.map(|numbers| within(numbers).book_length());
    let longest = *lengths.iter().max().unwrap();
    let mut run = Run::new(shapes[1]);
    assert_eq!(run.words.len(), longest);
    let mut random = Random::new(61);
    let mut source = source(62, 40, 3);
    source.makes = Makes::UpTo(longest);
    for _ in 0..8000 {
        let borrowed = match random.below(10) {
            0 => random.below(10) as usize,
            1 => random.below(longest as u64 + 1) as usize,
            2 => random.pick(&lengths),
            _ => run.ledger.shape().book_length(),
        };
        run.step(source.call(&run.ledger), borrowed);
    }
    assert!(run.seen.makes > 20 && run.seen.refused[2] > 1000);
}

#[test]
fn every_level_is_near_the_truth() {
    let shapes = [[2, 2, 6, 1], [3, 2, 8, 2], [4, 3, 9, 1], [5, 7, 10, 1]];
    for (seed, numbers) in (71..).zip(shapes.into_iter().chain([[6, 12, 11, 1]])) {
        let mut run = Run::new(numbers);
        let mut source = source(seed, 400, 3);
        let mut inexact = 0;
        for _ in 0..3000 {
            run.steps(&mut source, 1);
            inexact += run.check_levels();
        }
        assert!(inexact > 1000, "{inexact}");
    }
}

#[test]
fn exhaustive_orders_of_units_are_near_the_truth() {
    // All lists of seven single decilitres over the four offsets of an interval.
    for code in 0..1u32 << 14 {
        let mut run = Run::new([2, 2, 3, 1]);
        run.step(Call::Clock { clock: 3 }, run.words.len());
        for unit in 0..7 {
            let stamp = code >> (2 * unit) & 3;
            run.step(delivery(0, stamp, 1), run.words.len());
        }
        run.check_levels();
    }
}

#[test]
fn the_bound_is_a_bound() {
    // 2 (k + 1) / (n - k - 1) is 6 / 3.
    let ledger = Ledger::new(within([2, 6, 9, 1]));
    assert!(ledger.admits(10, 30) && ledger.admits(10, 0));
    assert!(!ledger.admits(10, 31) && !ledger.admits(0, 1));
    assert!(Ledger::new(within([5, 6, 9, 1])).admits(u64::MAX >> 8, 0));
    assert!(!Ledger::new(within([2, 4, 9, 1])).admits(1, 8));
}
