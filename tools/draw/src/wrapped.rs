//! Damage that 32-bit arithmetic cannot see: numbers that are right only modulo 2^32.

use reference::layout::{BOOK, LENGTH, OFFSET, SHAPE, SLOT_WORDS};
use reference::shape::Shape;
use reference::words::{number, write_number};

use crate::places::{add, weight, Place};
use crate::random::Random;
use crate::shapes::same_modulo_2_to_the_32;

/// One number, or a few that belong together, modulo 2^32.
pub fn damage(random: &mut Random, shape: Shape, words: &mut [u32]) {
    match random.below(8) {
        0 => head(random, shape, words),
        1 => count(random, shape, words),
        2..=4 => weights(random, shape, words),
        _ => ends(random, shape, words),
    }
}

/// Shape words that give the same shifts or the same length of a book.
fn head(random: &mut Random, shape: Shape, words: &mut [u32]) {
    let [k, n, m, g] = same_modulo_2_to_the_32(shape);
    let (place, word) =
        random.pick(&[(0, k), (0, k + 32), (1, n), (2, m), (2, shape.m() + 32), (3, g)]);
    words[SHAPE][place] = word;
}

/// A count for which the words of all slots come out few.
fn count(random: &mut Random, shape: Shape, words: &mut [u32]) {
    const PART: u32 = u32::MAX / SLOT_WORDS as u32 + 1;
    let count = Place::draw(random, shape).count();
    let parts = random.between(1, SLOT_WORDS as u32 - 1);
    words[count] = words[count].wrapping_add(parts.wrapping_mul(PART));
}

/// Two weights grow together by 2^32, for each of their words: the sum comes out right, or a little less where F
/// is not 0.
fn weights(random: &mut Random, shape: Shape, words: &mut [u32]) {
    let place = Place::draw(random, shape);
    if let Some((low, high)) = place.neighbours(random, words) {
        let any = random.word().into();
        let half = 1 << (32 * BOOK.number_words - 1);
        let grown = random.pick(&[half, u64::MAX, any]);
        add(&mut words[weight(low)], grown);
        add(&mut words[weight(high)], grown.wrapping_neg());
    }
}

/// A level whose buckets go once round all 32-bit offsets before they part the interval. Modulo
/// 2^32 they join without a gap, their offsets are multiples of their lengths, which are powers of
/// two, and their weights add up to the total.
fn ends(random: &mut Random, shape: Shape, words: &mut [u32]) {
    let round = random.pick(&[2, 2, 4, 8]);
    let count = round + 1;
    let place = Place::draw(random, shape);
    let total = number(&words[place.total()]);
    // The level on which so many buckets can have this total.
    let Some(index) = (total / u64::from(count)).checked_ilog2() else {
        return;
    };
    if index == 0 || index > shape.m() || count > shape.n() {
        return;
    }
    let place = Place::new(shape, place.grade, place.parity, index as usize);
    words[place.words()].fill(0);
    words[place.count()] = count;
    let length = 1 << (32 - round.trailing_zeros());
    let mut rest = total;
    for turn in 0..count {
        let slot = place.slot(turn as usize);
        let part = rest / u64::from(count - turn);
        rest -= part;
        words[slot + OFFSET] = length * (turn % round);
        words[slot + LENGTH] = if turn < round { length } else { 1 << shape.k() };
        write_number(part, &mut words[weight(slot)]);
    }
}
