//! Exact on quiet grades (document 02, request Seven): which stamps are counted, that the book's sum is the
//! ledger's where they are at most n, and that n + 1 are too many. Random runs are in ledger.rs.

mod books;

use books::{Both, DELIVERIES};
use draw::calls::call_of;
use draw::shapes::EXAMPLE;
use reference::calls::{Answer, Call};

/// What is asked of a book and the ledger of the same calls.
impl Both {
    /// Sets the clock, then delivers a decilitre at each stamp.
    fn feed_units(&mut self, clock: u32, grade: u32, stamps: impl IntoIterator<Item = u32>) {
        let units: Vec<_> = stamps.into_iter().map(|stamp| (stamp, 1)).collect();
        self.feed(clock, grade, &units);
    }

    /// The sums of book and ledger, of which the first must be what is promised.
    fn sums(&mut self, grade: u32, window: u32) -> [u64; 2] {
        let answers = self.call(Call::Query { grade, window });
        let [book, ledger] = answers.map(|answer| match answer {
            Answer::Sum(sum) => sum,
            other => panic!("{other:?}"),
        });
        let is_admitted = self.ledger.admits_exact(grade, window, book);
        assert!(is_admitted, "window {window}: {book}, ledger {ledger}");
        [book, ledger]
    }

    /// How many stamps a question counts, and that this makes it quiet or not.
    fn assert_stamps(&self, grade: u32, window: u32, stamps: usize) {
        let found = self.ledger.different_stamps(grade, window);
        assert_eq!(found, stamps, "grade {grade}, window {window}");
        let n = self.ledger.shape().n() as usize;
        let is_quiet = self.ledger.is_quiet(grade, window);
        assert_eq!(is_quiet, stamps <= n, "grade {grade}, window {window}");
    }

    /// The same, with the book's sum and the ledger's.
    fn assert_row(&mut self, grade: u32, window: u32, stamps: usize, sums: [u64; 2]) {
        self.assert_stamps(grade, window, stamps);
        let found = self.sums(grade, window);
        assert_eq!(found, sums, "grade {grade}, window {window}");
    }

    /// So many stamps, at most n, of a window above n, and the exact sum.
    fn assert_wide_and_exact(&mut self, grade: u32, window: u32, stamps: usize, sum: u64) {
        assert!(!self.ledger.is_short(window) && self.ledger.is_quiet(grade, window));
        assert!(self.ledger.promises_exact(grade, window));
        self.assert_row(grade, window, stamps, [sum, sum]);
    }
}

/// Window 2 is quiet. Window 3 has n + 1 stamps, and the book's sum is not the ledger's.
#[test]
fn p7_has_one_stamp_too_many_for_window_3() {
    let mut p7 = Both::example(5);
    for (window, stamps, sums) in
        [(0, 0, [0, 0]), (1, 1, [1, 1]), (2, 2, [3, 3]), (3, 3, [4, 5]), (4, 4, [8, 8])]
    {
        p7.assert_row(0, window, stamps, sums);
        assert_eq!(p7.ledger.is_short(window), window <= 2);
        assert_eq!(p7.ledger.promises_exact(0, window), window <= 2);
    }
}

/// Which sums are admitted beside the ledger's.
#[test]
fn another_sum_is_admitted_only_where_nothing_is_promised() {
    let p7 = Both::example(5);
    let others = |exact: u64| [exact + 1, exact.wrapping_sub(1), exact + 12, u64::MAX];
    for (window, exact) in [(0, 0), (1, 1), (2, 3), (3, 5), (4, 8)] {
        assert!(p7.ledger.admits_exact(0, window, exact), "{window}");
        for other in others(exact) {
            let is_admitted = p7.ledger.admits_exact(0, window, other);
            assert_eq!(is_admitted, window > 2, "{window}: {other}");
        }
    }
}

#[test]
fn n_plus_one_stamps_may_be_exact() {
    // P3: level 1, where the window opens on the edge of a bucket.
    Both::example(3).assert_row(0, 4, 3, [5, 5]);
}

#[test]
fn a_repeated_stamp_counts_once() {
    let mut both = Both::new(EXAMPLE);
    both.feed_units(3, 0, [3, 1, 3, 3, 1, 1, 3]);
    both.assert_wide_and_exact(0, 3, 2, 7);
    both.assert_wide_and_exact(0, 4, 2, 7);
    both.assert_row(0, 2, 1, [4, 4]);
}

#[test]
fn other_grades_do_not_count() {
    let mut both = Both::new([2, 2, 4, 2]);
    both.feed(3, 1, &DELIVERIES);
    both.feed_units(3, 0, [1, 3]);
    both.assert_wide_and_exact(0, 3, 2, 2);
    both.assert_row(1, 3, 3, [4, 5]);
}

/// Window 4 opens at a stamp, which counts; window 3 a tick later.
#[test]
fn stamps_before_the_opening_do_not_count() {
    let mut both = Both::new([3, 2, 6, 1]);
    both.feed_units(7, 0, [0, 1, 2, 3, 4, 6, 7]);
    both.assert_wide_and_exact(0, 3, 2, 2);
    both.assert_stamps(0, 4, 3);
    both.assert_stamps(0, 8, 7);
}

/// At clock 6 window 4 opens at 3, the last tick of the interval before.
#[test]
fn stamps_of_the_current_interval_do_not_count_where_the_window_opens_before_it() {
    let mut both = Both::new(EXAMPLE);
    both.feed(6, 0, &[(4, 2), (5, 1), (6, 1), (6, 3), (5, 1)]);
    both.assert_wide_and_exact(0, 4, 0, 8);
    both.assert_stamps(0, 3, 3);
    both.feed_units(6, 0, [3]);
    both.assert_wide_and_exact(0, 4, 1, 9);
    both.assert_stamps(0, 3, 3);
}

/// The window opens at 1 or 2, in the interval that ends with 3.
#[test]
fn the_last_tick_of_the_interval_counts() {
    let mut both = Both::new([2, 2, 6, 1]);
    both.feed_units(4, 0, [2, 3, 4]);
    both.assert_wide_and_exact(0, 3, 2, 3);
    both.assert_wide_and_exact(0, 4, 2, 3);
    both.feed_units(4, 0, [1]);
    both.assert_stamps(0, 4, 3);
    both.assert_wide_and_exact(0, 3, 2, 3);
}

/// At clocks 3, 7 and 11 the next tick starts another interval, whose half an older one had.
#[test]
fn window_0_counts_no_stamp() {
    let mut both = Both::new([2, 2, 6, 1]);
    for clock in 0..=12 {
        both.feed_units(clock, 0, [clock]);
        both.assert_row(0, 0, 0, [0, 0]);
    }
}

/// At clock 9 interval 2 has the half that interval 0 had.
#[test]
fn an_old_interval_of_the_same_parity_does_not_count() {
    let mut both = Both::new([2, 2, 6, 1]);
    both.feed_units(3, 0, 0..=3);
    both.feed_units(7, 0, 5..=6);
    both.feed_units(9, 0, [9]);
    both.assert_row(0, 2, 1, [1, 1]);
    both.assert_wide_and_exact(0, 4, 1, 2);
    both.feed_units(11, 0, [8]);
    both.assert_wide_and_exact(0, 4, 2, 2);
}

#[test]
fn a_make_forgets() {
    let mut p7 = Both::example(5);
    p7.assert_stamps(0, 3, 3);
    p7.call(call_of(EXAMPLE));
    p7.assert_row(0, 4, 0, [0, 0]);
    p7.feed_units(3, 0, [2]);
    p7.assert_wide_and_exact(0, 3, 1, 1);
}

/// Of the interval before, the opening leaves two stamps of twelve; the current one has eleven.
#[test]
fn a_wide_window_between_busy_stretches() {
    let mut both = Both::new([4, 2, 9, 1]);
    let before = (0..10).rev().chain([14, 12, 12]);
    both.feed(15, 0, &before.map(|stamp| (stamp, 5)).collect::<Vec<_>>());
    both.feed_units(26, 0, (16..=26).rev());
    for window in 13..=16 {
        let stamps = if window < 15 { 1 } else { 2 };
        let opened = if window < 15 { 5 } else { 15 };
        both.assert_wide_and_exact(0, window, stamps, opened + 11);
    }
}

/// All lists of five decilitres over eight ticks, in two intervals or in one, and every window.
#[test]
fn every_order_of_units() {
    let [mut wide_quiet, mut exact_busy, mut off] = [0; 3];
    for clock in [7, 10] {
        for code in 0..1u32 << 15 {
            let mut both = Both::new([3, 3, 4, 1]);
            let stamps = (0..5).map(|unit: u32| clock - (code >> (3 * unit) & 7));
            both.feed_units(clock, 0, stamps);
            for window in 0..=8 {
                let [book, ledger] = both.sums(0, window);
                let is_quiet = both.ledger.is_quiet(0, window);
                assert!(is_quiet || !both.ledger.is_short(window));
                wide_quiet += usize::from(is_quiet && !both.ledger.is_short(window));
                exact_busy += usize::from(!is_quiet && book == ledger);
                off += usize::from(book != ledger);
            }
        }
    }
    let met = [wide_quiet, exact_busy, off];
    assert!(met.iter().all(|count| *count > 10_000), "{met:?}");
}
