//! Books and ledgers to begin with.

// Each test is a program of its own and uses a part of this.
#![allow(dead_code)]

use draw::shapes::{within, Numbers, EXAMPLE};
use reference::calls::{clock, deliver, make, perform, query, Answer, Call};
use reference::ledger::Ledger;

/// Stamp and volume of the deliveries of document 01's examples from P1 to P7.
pub const DELIVERIES: [(u32, u32); 5] = [(0, 3), (3, 1), (1, 1), (1, 1), (2, 2)];

/// The words of an empty book.
pub fn made(numbers: Numbers) -> Vec<u32> {
    let [k, n, m, g] = numbers;
    let mut words = vec![9; within(numbers).book_length()];
    make(&mut words, k, n, m, g).unwrap();
    words
}

/// Sets the clock, then delivers (stamp, volume) of grade 0.
pub fn feed(words: &mut [u32], now: u32, deliveries: &[(u32, u32)]) {
    clock(words, now).unwrap();
    for &(stamp, volume) in deliveries {
        deliver(words, 0, stamp, volume).unwrap();
    }
}

/// Asks grade 0 for the sum of each window.
pub fn assert_sums(words: &[u32], sums: &[(u32, u64)]) {
    for &(window, sum) in sums {
        assert_eq!(query(words, 0, window), Ok(sum), "window {window}");
    }
}

pub fn delivery(grade: u32, stamp: u32, volume: u32) -> Call {
    Call::Delivery { grade, stamp, volume }
}

/// A book and the ledger of the same calls.
pub struct Both {
    pub words: Vec<u32>,
    pub ledger: Ledger,
}

impl Both {
    pub fn new(numbers: Numbers) -> Both {
        Both { words: made(numbers), ledger: Ledger::new(within(numbers)) }
    }

    /// The example's book at clock 3, after the first of its deliveries.
    pub fn example(deliveries: usize) -> Both {
        let mut both = Both::new(EXAMPLE);
        both.feed(3, 0, &DELIVERIES[..deliveries]);
        both
    }

    /// What book and ledger answer to a call that both accept.
    pub fn call(&mut self, call: Call) -> [Answer; 2] {
        let book = perform(&mut self.words, call);
        let ledger = self.ledger.perform(call, self.words.len());
        [book, ledger].map(|reply| reply.unwrap_or_else(|number| panic!("{call:?}: {number}")))
    }

    /// Sets the clock, then delivers (stamp, volume) of a grade.
    pub fn feed(&mut self, clock: u32, grade: u32, deliveries: &[(u32, u32)]) {
        self.call(Call::Clock { clock });
        for &(stamp, volume) in deliveries {
            self.call(delivery(grade, stamp, volume));
        }
    }
}
