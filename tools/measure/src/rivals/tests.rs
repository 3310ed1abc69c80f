//! Both versions against the reference, answers and words.

use super::{Calls, Fast, Plain};
use draw::book::{lent, Book};
use draw::calls::{call_of, Source};
use draw::random::Random;
use draw::shapes::{within, Makes};
use draw::view::Words;
use reference::calls::{perform, Call, Reply};
use reference::layout::{COUNT, FIRST, LEVEL_HEAD_WORDS, SLOT_WORDS};
use reference::refusal;
use reference::shape::Shape;

/// One call by all three on copies of the words, which then become what it left.
fn agree(words: &mut [u32], asked: Call) -> Reply {
    let (mut plain, mut fast) = (words.to_vec(), words.to_vec());
    let answer = perform(words, asked);
    assert_eq!(Plain::perform(&mut plain, asked), answer, "{asked:?}");
    assert_eq!(Fast::perform(&mut fast, asked), answer, "{asked:?}");
    assert!(plain == words && fast == words, "{asked:?}");
    answer
}

/// Grown, built and damaged ones, also such as are right only modulo 2^32, with calls of every kind on as many
/// words as they have, and now and then on more or fewer.
#[test]
fn drawn_books() {
    let mut random = Random::new(1);
    let [mut accepted, mut unsound] = [0; 2];
    for index in 0..4000 {
        let Book { shape, words, .. } = Book::draw(&mut random, index);
        let (mut source, mut book) = (Source::new(random.bits(), Makes::Same), words);
        for _ in 0..6 {
            let asked = source.call(&Words::new(shape, &book));
            let mut other = book.clone();
            other.resize(lent(&mut random, asked, book.len(), 9), 0);
            let _ = agree(&mut other, asked);
            let answer = agree(&mut book, asked);
            accepted += u32::from(answer.is_ok());
            unsound += u32::from(answer == Err(refusal::BLOCK));
        }
    }
    assert!(accepted.min(unsound) > 1000, "{accepted} {unsound}");
}

/// A book of n slots a level whose even half is sound for a total.
fn half(k: u32, n: u32, total: u32) -> (Shape, Vec<u32>) {
    let shape = within([k, n, 24, 1]);
    let (mut words, last) = (vec![!0; shape.book_length()], (1 << k) - 1);
    agree(&mut words, call_of(shape.numbers())).unwrap();
    agree(&mut words, Call::Clock { clock: last }).unwrap();
    for volume in [Shape::VOLUME_MAX].repeat((total / Shape::VOLUME_MAX) as usize) {
        Fast::delivery(&mut words, 0, last, volume).unwrap();
    }
    let rest = total % Shape::VOLUME_MAX;
    assert!(rest == 0 || Fast::delivery(&mut words, 0, last, rest).is_ok());
    (shape, words)
}

/// Puts these buckets on a level of the even half.
fn put((shape, words): &mut (Shape, Vec<u32>), index: usize, buckets: &[[u32; 3]]) {
    let level = &mut words[shape.block(0)][shape.level(0, index)];
    level.fill(0);
    (level[COUNT], level[FIRST]) = (buckets.len() as u32, buckets[0][0]);
    let slots = &mut level[LEVEL_HEAD_WORDS..][..SLOT_WORDS * buckets.len()];
    slots.copy_from_slice(buckets.as_flattened());
}

/// Whether both versions find the block sound.
fn both((shape, words): &(Shape, Vec<u32>)) -> bool {
    let block = &words[shape.block(0)];
    let sound = Fast::is_sound(*shape, block);
    assert_eq!(Plain::is_sound(*shape, block), sound, "{shape:?} {block:?}");
    sound
}

/// Levels of some turns of sixteen slots and a rest, with one fault at a time at every slot: each is one that
/// a single comparison of the fast version sees. Some totals need a sum of the weights, others only a bound.
#[test]
fn every_slot_and_every_bit_of_a_level() {
    let mut verdicts = [0; 2];
    let counts = [5, 16, 17, 33, 53, 62].map(|count| (12, count));
    let counts = counts.iter().chain(&[(4, 16), (6, 64)]);
    let levels = [(0, 1, 9), (0, 1, 99), (3, 1, 9), (3, 1, 24), (3, 4, 14), (3, 4, 999)];
    for ((k, count), (index, length, each)) in counts.flat_map(|c| levels.map(|l| (*c, l))) {
        // In an interval of as many ticks as buckets nothing was evicted, so that the sum is the total.
        let (total, first) = (each * count, (1u32 << k).saturating_sub(length * count));
        let book = &mut half(k, count, total);
        let level: Vec<_> = (0..count).map(|slot| [first + length * slot, length, 8]).collect();
        let mut check = |change: &dyn Fn(&mut [[u32; 3]])| {
            let mut changed = level.clone();
            change(&mut changed);
            put(book, index, &changed);
            verdicts[usize::from(both(book))] += 1;
        };
        for slot in 0..level.len() {
            let moved = |level: &mut [[u32; 3]], by: u32| {
                let slots = level[..=slot].iter_mut();
                slots.for_each(|bucket| bucket[0] = bucket[0].wrapping_add(by));
            };
            for bit in 0..32 {
                (0..3).for_each(|word| check(&|level| level[slot][word] ^= 1 << bit));
                // Only the end of this slot fits no longer, or only its length.
                check(&|level| moved(level, 1 << bit));
                check(&|level| {
                    level[slot][1] += 1 << bit;
                    moved(level, 0u32.wrapping_sub(1 << bit));
                });
            }
            let most = total - 8 * (count - 1);
            for weight in [15, 16, most, most + 1] {
                check(&|level| level[slot][2] = weight);
            }
        }
    }
    assert!(verdicts[0].min(verdicts[1]) > 1000, "{verdicts:?}");
}

/// Every word after the buckets of an empty book, however many slots a level has.
#[test]
fn unused_slots_that_are_not_zero() {
    for n in (2..30).chain([61, 200]) {
        let mut book = half(4, n, 0);
        assert!(both(&book));
        for (parity, index, used) in [(0, 0, 2), (0, 1, 5), (1, 0, 2), (1, 2, 5)] {
            let (block, level) = (book.0.block(0).start, book.0.level(parity, index));
            for at in block + level.start + used..block + level.end {
                book.1[at] = 1 << (at % 32);
                assert!(!both(&book), "{n} {at}");
                book.1[at] = 0;
            }
        }
    }
}

/// Whether all three accept a book with these buckets on a level.
fn accept(k: u32, index: usize, total: u32, buckets: &[[u32; 3]]) -> bool {
    let mut book = half(k, buckets.len().max(2) as u32, total);
    put(&mut book, index, buckets);
    let (grade, window) = (0, 1);
    let answer = agree(&mut book.1, Call::Query { grade, window });
    assert!(matches!(answer, Ok(_) | Err(refusal::BLOCK)), "{answer:?}");
    answer.is_ok()
}

/// The same on level 1 for spans of weight 2, with a total that they just reach and with one that no bound of
/// the weights comes near.
fn accept_spans(k: u32, spans: &[[u32; 2]]) -> bool {
    let buckets: Vec<_> = spans.iter().map(|[o, l]| [*o, *l, 2]).collect();
    let totals = [2, 64].map(|each| each * buckets.len() as u32);
    totals.iter().any(|total| accept(k, 1, *total, &buckets))
}

#[test]
fn ends_that_are_right_only_modulo_two_to_the_32() {
    let (half, odd) = (1 << 31, (1 << 31) + 1);
    assert!(accept_spans(2, &[[0, 2], [2, 1], [3, 1]]));
    for spans in [
        &[[0, half], [half, half], [0, 4]][..],
        &[[0, 2], [2, 2], [4, half - 4], [half, half], [0, 4]],
        &[[0, odd], [odd, odd], [2, 2]],
        &[[0, 0], [0, 4]],
        &[[0, 2], [2, 0], [2, 2]],
        &[[0, 4], [4, 0]],
    ] {
        assert!(!accept_spans(2, spans), "{spans:?}");
    }
    // After some ticks spans double until an offset is 0 again, at any place of a turn or of the rest, and a
    // sound level of few or many buckets follows.
    let few = vec![[0, 1 << 7]];
    let many: Vec<_> = (0..1 << 7).map(|tick| [tick, 1]).collect();
    assert!(accept_spans(7, &many));
    for (power, sound) in (4..32).flat_map(|power| [(power, &few), (power, &many)]) {
        let (from, most) = (1 << power, if power == 22 { 50 } else { 12 });
        let doubled: Vec<_> = (power..32).map(|bit| [1 << bit, 1 << bit]).collect();
        let mut starts = vec![vec![[0, from]]];
        starts.extend((0..most).map(|ticks| (from - ticks..from).map(|tick| [tick, 1]).collect()));
        for start in starts {
            let spans = [&start, &doubled, sound].map(|part| &part[..]).concat();
            assert!(!accept_spans(7, &spans), "{power} {start:?}");
        }
    }
}

#[test]
fn weights_that_are_right_only_modulo_two_to_the_32() {
    for (bits, index) in (22..32).flat_map(|bits| (0..4).map(move |index| (bits, index))) {
        let count = 1 << (32 - bits);
        let first = if index == 0 { 0 } else { 4096 - count };
        let ticks = (first..first + count).map(|tick| [tick, 1, 1 << bits]);
        let mut ticks: Vec<[u32; 3]> = ticks.collect();
        // They add up to 2^32, to a little less, and to a little more.
        assert!(!accept(12, index, 0, &ticks), "{index} {bits}");
        ticks[0][2] -= 1;
        assert!(!accept(12, index, 0, &ticks), "{index} {bits}");
        ticks[1][2] += 1 << index;
        for total in [(1 << index) - 1, 1 << 12] {
            assert!(!accept(12, index, total, &ticks), "{index} {bits}");
        }
    }
}
