//! Damage to a book: words that no call wrote. Some of it leaves the book sound.

use reference::layout::{CLOCK, HEAD_WORDS, LENGTH, OFFSET, SLOT_WORDS, WEIGHT};
use reference::shape::Shape;
use reference::words::{encode_block, encode_head, number};

use crate::places::{add, weight, Place};
use crate::random::Random;
use crate::{sound, wrapped};

/// Changes some words of a book of this shape.
type Change = fn(&mut Random, Shape, &mut [u32]);

/// Each kind of damage with its name.
pub const KINDS: [(&str, Change); 19] = [
    ("a word changed", |r, _, w| any_word(r, w)),
    ("a head word changed", head_word),
    ("a count changed", count_word),
    ("an F changed", first_word),
    ("an offset changed", |r, s, w| slot_word(r, s, w, OFFSET)),
    ("a length changed", |r, s, w| slot_word(r, s, w, LENGTH)),
    ("a weight changed", |r, s, w| slot_word(r, s, w, WEIGHT)),
    ("a total changed", total_word),
    ("a slot copied", copied_slot),
    ("two slots swapped", swapped_slots),
    ("a level copied", copied_level),
    ("a block copied", copied_block),
    ("a range copied", copied_range),
    ("a boundary moved", moved_boundary),
    ("a weight moved", moved_weight),
    ("a total above the capacity", overfull),
    ("random words", random_words),
    ("right modulo 2^32 only", wrapped::damage),
    ("a level cleared", cleared_level),
];

/// Damages a book in one way, rarely in two, and names the last.
pub fn damage(random: &mut Random, shape: Shape, words: &mut [u32]) -> &'static str {
    let mut done = "";
    for _ in 0..=u64::from(random.one_in(6)) {
        let (name, change) = random.pick(&KINDS);
        change(random, shape, words);
        done = name;
    }
    done
}

/// Another value for a word, often a near one.
pub fn changed(random: &mut Random, word: u32) -> u32 {
    match random.below(12) {
        0..=1 => word.wrapping_add(1),
        2..=3 => word.wrapping_sub(1),
        4 => word / 2,
        5 => word.wrapping_mul(2),
        6 => 0,
        7 => u32::MAX,
        8 => word ^ 1 << random.below(32),
        9 => word.wrapping_add(1 << 31),
        10 => random.between(0, 16),
        _ => random.word(),
    }
}

/// Changes any word of some.
pub fn any_word(random: &mut Random, words: &mut [u32]) {
    let place = random.below(words.len() as u64) as usize;
    words[place] = changed(random, words[place]);
}

fn head_word(random: &mut Random, shape: Shape, words: &mut [u32]) {
    let place = random.below(HEAD_WORDS as u64) as usize;
    let limits = Shape::LIMITS.map(|[least, most]| [least - 1, most + 1]);
    let clock = [Shape::CLOCK_MAX + 1, shape.interval_ticks() as u32];
    words[place] = match limits.iter().chain([&clock]).nth(place) {
        Some(edges) if random.one_in(3) => random.pick(edges),
        _ => changed(random, words[place]),
    };
}

fn count_word(random: &mut Random, shape: Shape, words: &mut [u32]) {
    let count = Place::draw(random, shape).count();
    words[count] = match random.below(4) {
        0 => shape.n() + 1,
        1 => shape.n(),
        _ => changed(random, words[count]),
    };
}

fn first_word(random: &mut Random, shape: Shape, words: &mut [u32]) {
    let place = Place::draw(random, shape);
    let ticks = shape.interval_ticks() as u32;
    let offset = words[place.any_slot(random, words) + OFFSET];
    words[place.first()] = match random.below(6) {
        0 => ticks,
        1 => ticks - 1,
        2 => offset,
        3 => offset.wrapping_add(1),
        _ => changed(random, words[place.first()]),
    };
}

fn slot_word(random: &mut Random, shape: Shape, words: &mut [u32], field: usize) {
    let place = Place::draw(random, shape);
    let word = place.any_slot(random, words) + field;
    let limit = 1u32 << place.index;
    words[word] = match random.below(8) {
        0 => shape.interval_ticks() as u32,
        1 if field == WEIGHT => limit - 1,
        2 if field == WEIGHT => 2 * limit,
        _ => changed(random, words[word]),
    };
}

fn total_word(random: &mut Random, shape: Shape, words: &mut [u32]) {
    let total = Place::draw(random, shape).total().start;
    words[total] = match random.below(4) {
        0 => shape.capacity() as u32 + 1,
        _ => changed(random, words[total]),
    };
}

fn copied_slot(random: &mut Random, shape: Shape, words: &mut [u32]) {
    let (from, to) = (Place::draw(random, shape), Place::draw(random, shape));
    let to = if random.one_in(2) { from } else { to };
    let (from, to) = (from.any_slot(random, words), to.any_slot(random, words));
    words.copy_within(from..from + SLOT_WORDS, to);
}

fn swapped_slots(random: &mut Random, shape: Shape, words: &mut [u32]) {
    let place = Place::draw(random, shape);
    if let Some((low, high)) = place.neighbours(random, words) {
        for field in 0..SLOT_WORDS {
            words.swap(low + field, high + field);
        }
    }
}

fn copied_level(random: &mut Random, shape: Shape, words: &mut [u32]) {
    let (from, to) = (Place::draw(random, shape), Place::draw(random, shape));
    words.copy_within(from.words(), to.start);
}

fn copied_block(random: &mut Random, shape: Shape, words: &mut [u32]) {
    let [from, to] = [0, 1].map(|_| random.below(shape.g().into()) as u32);
    words.copy_within(shape.block(from), shape.block(to).start);
}

fn copied_range(random: &mut Random, shape: Shape, words: &mut [u32]) {
    let longest = (words.len() as u64).min(2 * shape.level_length() as u64);
    let length = 1 + random.below(longest) as usize;
    let [from, to] = [0, 1].map(|_| random.below((words.len() - length) as u64 + 1) as usize);
    words.copy_within(from..from + length, to);
}

/// One tick goes from a bucket to its neighbour: all meet, but lengths stop dividing offsets.
fn moved_boundary(random: &mut Random, shape: Shape, words: &mut [u32]) {
    let place = Place::draw(random, shape);
    if let Some((low, high)) = place.neighbours(random, words) {
        let (short, long) = (words[low + LENGTH], words[high + LENGTH]);
        match random.below(3) {
            0 => {
                words[low + LENGTH] = short.wrapping_sub(1);
                words[high + OFFSET] = words[high + OFFSET].wrapping_sub(1);
                words[high + LENGTH] = long.wrapping_add(1);
            }
            1 => {
                words[low + LENGTH] = short.wrapping_add(1);
                words[high + OFFSET] = words[high + OFFSET].wrapping_add(1);
                words[high + LENGTH] = long.wrapping_sub(1);
            }
            // The two lengths change places.
            _ => {
                words[high + OFFSET] = words[low + OFFSET].wrapping_add(long);
                words[low + LENGTH] = long;
                words[high + LENGTH] = short;
            }
        }
    }
}

/// The sum stays; a weight may fall too low or rise too high.
fn moved_weight(random: &mut Random, shape: Shape, words: &mut [u32]) {
    let place = Place::draw(random, shape);
    if let Some((low, high)) = place.neighbours(random, words) {
        let (from, to) = random.pick(&[(low, high), (high, low)]);
        let all = number(&words[weight(from)]);
        let spare = all.saturating_sub(1 << place.index);
        let moved = random.pick(&[1, spare, spare + 1, all]);
        add(&mut words[weight(from)], moved.wrapping_neg());
        add(&mut words[weight(to)], moved);
    }
}

/// Levels that are sound but for a total above 2^M.
fn overfull(random: &mut Random, shape: Shape, words: &mut [u32]) {
    let capacity = shape.capacity();
    let block = [0, 1].map(|_| {
        let total = capacity + 1 - random.below(2) * capacity + random.below(capacity - 1);
        sound::histogram(random, shape, total)
    });
    let grade = random.below(shape.g().into()) as u32;
    encode_block(shape, &block, &mut words[shape.block(grade)]);
}

fn random_words(random: &mut Random, shape: Shape, words: &mut [u32]) {
    let clock = words[CLOCK];
    let small = random.one_in(2);
    for word in words.iter_mut() {
        *word = match random.below(4) {
            0 => random.word(),
            1 => 0,
            _ if small => random.between(0, 9),
            _ => random.word(),
        };
    }
    if !random.one_in(4) {
        encode_head(shape, clock.min(Shape::CLOCK_MAX), words);
    }
}

fn cleared_level(random: &mut Random, shape: Shape, words: &mut [u32]) {
    let place = Place::draw(random, shape);
    words[place.words()].fill(0);
    if random.one_in(4) {
        let parity = place.parity;
        for index in 0..shape.levels() {
            words[Place::new(shape, place.grade, parity, index).words()].fill(0);
        }
        words[place.total()].fill(0);
    }
}
