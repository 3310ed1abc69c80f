//! Books to begin with, through the archive.

// Each test is a program of its own and uses a part of this.
#![allow(dead_code)]

use litres::{clock, delivery, make, words};

/// The shape of document 01's examples.
pub const EXAMPLE: [u32; 4] = [2, 2, 4, 1];
/// Stamp and volume of its deliveries from P1 to P7.
pub const DELIVERIES: [(u32, u32); 5] = [(0, 3), (3, 1), (1, 1), (1, 1), (2, 2)];

/// The words of an empty book.
pub fn made([k, n, m, g]: [u32; 4]) -> Vec<u32> {
    let mut book = vec![u32::MAX; words(k, n, m, g).unwrap()];
    make(&mut book, k, n, m, g).unwrap();
    book
}

/// The example's book at clock 3 after deliveries of (stamp, volume).
pub fn after(deliveries: &[(u32, u32)]) -> Vec<u32> {
    let mut book = made(EXAMPLE);
    clock(&mut book, 3).unwrap();
    for &(stamp, volume) in deliveries {
        delivery(&mut book, 0, stamp, volume).unwrap();
    }
    book
}
