//! Exact sums on the site shape (document 02, request Seven): every window of up to n ticks on a busy book,
//! and a wide window over a stretch with few stamps.

mod books;

use books::made;
use draw::shapes::SITE;
use litres::{clock, delivery, query};

const N: u32 = SITE[1];
/// Ticks of an interval.
const TICKS: u32 = 1 << SITE[0];

/// A book, and all that was delivered to it.
struct Site {
    book: Vec<u32>,
    now: u32,
    deliveries: Vec<(u32, u32)>,
}

impl Site {
    fn new() -> Site {
        Site { book: made(SITE), now: 0, deliveries: Vec::new() }
    }

    /// Sets the clock, then delivers at each stamp, out of order: every 41st from the first on, then from the
    /// second on, and so forth.
    fn feed(&mut self, now: u32, stamps: impl IntoIterator<Item = u32>) {
        const STEP: usize = 41;
        self.now = now;
        clock(&mut self.book, now).unwrap();
        let stamps: Vec<u32> = stamps.into_iter().collect();
        for start in 0..STEP {
            for &stamp in stamps.iter().skip(start).step_by(STEP) {
                let volume = 1 + stamp % 97 * 5;
                delivery(&mut self.book, 0, stamp, volume).unwrap();
                self.deliveries.push((stamp, volume));
            }
        }
    }

    /// Whether the book's sum is that of the deliveries in the window.
    fn is_exact(&self, window: u32) -> bool {
        let deliveries = self.deliveries.iter();
        let covered = deliveries.filter(|(stamp, _)| self.now - stamp < window);
        let sum: u64 = covered.map(|(_, volume)| u64::from(*volume)).sum();
        query(&self.book, 0, window) == Ok(sum)
    }

    /// The window that opens at a tick.
    fn window_from(&self, opening: u32) -> u32 {
        self.now - opening + 1
    }
}

/// Each of the last 3,000 ticks has a delivery. The windows open in the current interval, in the one before,
/// or at the seam.
#[test]
fn windows_of_up_to_n_ticks() {
    for now in [TICKS + 1_500, TICKS + 200, TICKS, 2 * TICKS - 1] {
        let mut site = Site::new();
        site.feed(now, now - 2_999..=now);
        for window in 0..=N {
            assert!(site.is_exact(window), "{window} at {now}");
        }
        let inexact = (N + 1..=3_000).filter(|window| !site.is_exact(*window));
        assert!(inexact.count() > 100, "{now}");
    }
}

/// Interval 0 has a stamp at each of its first 2,000 ticks and n later on; interval 1 is busy again.
#[test]
fn a_wide_window_over_a_quiet_stretch() {
    let mut site = Site::new();
    site.feed(TICKS - 1, 0..2_000);
    let first = TICKS - 1_000 * N;
    site.feed(TICKS - 1, (first..TICKS).step_by(1_000));
    site.feed(TICKS + 500_000, TICKS..TICKS + 2_000);
    assert!(site.is_exact(TICKS));
    for opening in [first - 1, first, first + 1, TICKS - 1_000, TICKS - 1] {
        assert!(site.is_exact(site.window_from(opening)), "{opening}");
    }
    // One stamp too many for the windows that open before the first of the n.
    site.feed(site.now, [first - 1]);
    assert!(!site.is_exact(TICKS));
    assert!(site.is_exact(site.window_from(first)));
}
