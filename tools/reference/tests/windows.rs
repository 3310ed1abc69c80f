//! Windows and lateness as document 02, request One, has them: which stamps a window covers, where
//! it opens, and that windows laid end to end count each delivery once.

mod books;

use books::{assert_sums, feed, made};
use reference::calls::{clock, query, Call};
use reference::ledger::Ledger;
use reference::shape::Shape;
use reference::window::{opening, window_from};

const MAX: u32 = u32::MAX;

fn shape(k: u32) -> Shape {
    Shape::new(k, 20, 10, 1).unwrap()
}

fn ledger_at(clock: u32) -> Ledger {
    let mut ledger = Ledger::new(shape(4));
    let borrowed = shape(4).book_length();
    ledger.perform(Call::Clock { clock }, borrowed).unwrap();
    ledger
}

#[test]
fn openings() {
    for (clock, window, first) in [
        (0, 0, None),
        (0, 1, Some(0)),
        (0, 2, Some(0)),
        (3, 2, Some(2)),
        (3, 3, Some(1)),
        (3, 4, Some(0)),
        (3, 5, Some(0)),
        (8, 0, None),
        (8, 1, Some(8)),
        (8, 4, Some(5)),
        (MAX, 0, None),
        (MAX, 1, Some(MAX.into())),
        (MAX, MAX, Some(1)),
    ] {
        assert_eq!(opening(clock, window), first, "{clock} {window}");
    }
}

#[test]
fn window_from_gives_the_window_that_opens_there() {
    for clock in 0..40 {
        for stamp in 0..=clock {
            let window = window_from(clock, stamp).unwrap();
            assert_eq!(opening(clock, window), Some(stamp.into()));
        }
        assert_eq!(window_from(clock, clock + 1), None);
    }
    let windows = [MAX, 1, 0].map(|opening| window_from(MAX, opening));
    assert_eq!(windows, [Some(1), Some(MAX), None]);
}

/// The condition of document 02 as a sum, which needs no case for a window that exceeds the clock.
#[test]
fn windows_cover_what_the_document_says() {
    for clock in 0..40 {
        let ledger = ledger_at(clock);
        for window in 0..45 {
            for stamp in 0..45 {
                let covered = clock < stamp + window && stamp <= clock;
                assert_eq!(ledger.covers(window, stamp), covered);
            }
        }
        assert!((0..=clock).all(|stamp| ledger.covers(MAX, stamp)));
        assert!(!ledger.covers(MAX, MAX));
    }
}

/// k, a clock and the oldest stamp that is not late there.
#[test]
fn oldest_stamps() {
    for (k, clock, oldest) in [
        (2, 0, 0),
        (2, 3, 0),
        (2, 4, 1),
        (2, 8, 5),
        (20, (1 << 20) - 1, 0),
        (20, 1 << 20, 1),
        (20, MAX, MAX - (1 << 20) + 1),
    ] {
        let shape = shape(k);
        assert_eq!(shape.oldest(clock), oldest, "{k} {clock}");
        assert!(!shape.is_late(clock, oldest) && !shape.is_late(clock, clock));
        for stamp in oldest.saturating_sub(2)..oldest {
            assert!(shape.is_late(clock, stamp), "{k} {clock} {stamp}");
        }
    }
}

/// A stamp that is not ahead is late exactly if the longest window does not cover it.
#[test]
fn late_is_before_the_longest_window() {
    let shape = shape(4);
    let longest = shape.interval_ticks() as u32;
    for clock in 0..80 {
        let ledger = ledger_at(clock);
        for stamp in 0..=clock {
            let late = shape.is_late(clock, stamp);
            assert_eq!(late, stamp < shape.oldest(clock), "{clock} {stamp}");
            assert_eq!(late, !ledger.covers(longest, stamp), "{clock} {stamp}");
            let reached = (0..=longest).any(|window| ledger.covers(window, stamp));
            assert_eq!(late, !reached, "{clock} {stamp}");
        }
    }
}

#[test]
fn windows_end_to_end_cover_each_stamp_once() {
    for (end, first, second) in (0..30)
        .flat_map(|end| (0..=end).map(move |first| (end, first)))
        .flat_map(|(end, first)| (0..20).map(move |second| (end, first, second)))
    {
        let seam = end - first;
        let (later, earlier) = (ledger_at(end), ledger_at(seam));
        for stamp in 0..40 {
            let [later, earlier, both] = [
                later.covers(first, stamp),
                earlier.covers(second, stamp),
                later.covers(first + second, stamp),
            ];
            assert!(!(later && earlier), "{end} {first} {second} {stamp}");
            assert_eq!(later || earlier, both, "{end} {first} {second} {stamp}");
        }
    }
}

/// A site that asks for the last `ticks` each time that as many have passed.
fn read_end_to_end(k: u32, ticks: u32, end: u32) -> (u64, u64) {
    // As many slots as an interval has ticks, so that each sum is exact.
    let mut words = made([k, 1 << k, 20, 1]);
    let (mut delivered, mut read) = (0, 0);
    for now in 0..=end {
        // Each volume is another, so that no error can make up for another one.
        feed(&mut words, now, &[(now, now * now + 1)]);
        delivered += u64::from(now * now + 1);
        if (now + 1) % ticks == 0 {
            read += query(&words, 0, ticks).unwrap();
        }
    }
    (delivered, read)
}

#[test]
fn readings_end_to_end_add_up_to_all_deliveries() {
    for k in [2, 3, 4] {
        for ticks in (1..=1 << k).filter(|ticks| 48 % ticks == 0) {
            let (delivered, read) = read_end_to_end(k, ticks, 47);
            assert_eq!(read, delivered, "2^{k} ticks, windows of {ticks}");
        }
    }
}

/// A delivery on the seam stands in the earlier window alone, before, on and after the edge of an
/// interval.
#[test]
fn delivery_on_the_seam_is_counted_once() {
    for seam in [1, 2, 3, 4, 5, 7, 8, 9, 11, 12, 13] {
        for window in 1..=4 {
            let mut words = made([2, 4, 4, 1]);
            feed(&mut words, seam, &[(seam, 1)]);
            assert_sums(&words, &[(window, 1)]);
            clock(&mut words, seam + window).unwrap();
            assert_sums(&words, &[(window, 0)]);
            if window < 4 {
                assert_sums(&words, &[(window + 1, 1)]);
            }
        }
    }
}

/// Every window of a book from its make on, before, on and after the edges of intervals. At an interval's last
/// tick the longest window is that interval; at its other ticks it opens in the one before, or at 0.
#[test]
fn windows_as_the_clock_passes_the_edges() {
    let mut words = made([2, 4, 6, 1]);
    assert_sums(&words, &[(0, 0), (1, 0), (2, 0), (3, 0), (4, 0)]);
    for now in 0..=8 {
        feed(&mut words, now, &[(now, now + 1)]);
        for window in 0..=4 {
            let stamps = (now + 1).saturating_sub(window)..=now;
            let sum = stamps.map(|stamp| u64::from(stamp) + 1).sum();
            assert_sums(&words, &[(window, sum)]);
        }
    }
}
