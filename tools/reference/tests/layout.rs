//! A layout is a value: books of one-word and of two-word numbers stand side by side.

use draw::random::Random;
use draw::{shapes, sound};
use reference::histogram::Histogram;
use reference::layout::{Layout, HEAD_WORDS};
use reference::shape::Shape;
use reference::soundness::{block_faults, Fault};
use reference::words::{decode_head, RawHead, RawHistogram};

const NARROW: Layout = Layout { number_words: 1, mark: 0 };
const WIDE: Layout = Layout { number_words: 2, mark: 2 };

fn example() -> Shape {
    shapes::within(shapes::EXAMPLE)
}

fn encoded(layout: Layout, shape: Shape, block: &[Histogram; 2]) -> Vec<u32> {
    let mut words = vec![u32::MAX; layout.block_words(shape)];
    layout.encode_block(shape, block, &mut words);
    words
}

fn histograms(layout: Layout, shape: Shape, words: &[u32]) -> [Histogram; 2] {
    layout.decode_block(shape, words).map(|raw| raw.histogram())
}

/// Empty levels, but one bucket of the even half's level 2 has this weight, and so has its total.
fn heavy(weight: u64) -> [Histogram; 2] {
    let mut block = [0, 1].map(|_| Histogram::empty(example()));
    block[0].total = weight;
    block[0].levels[2].buckets[0].weight = weight;
    block
}

#[test]
fn lengths_and_places() {
    let shape = example();
    for (layout, slot, total, level, block, answer) in
        [(NARROW, 3, 1..2, 18..26, 82, 2), (WIDE, 4, 2..4, 24..34, 104, 3)]
    {
        assert_eq!(layout.slot_words(), slot);
        assert_eq!(layout.total(1), total);
        assert_eq!(layout.level(shape, 0, 2), level);
        assert_eq!(layout.block_words(shape), block);
        assert_eq!(layout.block(shape, 0), HEAD_WORDS..HEAD_WORDS + block);
        assert_eq!(layout.book_words(shape), HEAD_WORDS + block);
        assert_eq!(layout.answer_words(), answer);
    }
    assert_eq!(WIDE.book_words(shape), 112);
}

#[test]
fn a_weight_above_2_to_the_32() {
    let block = heavy((7 << 32) + 5);
    let words = encoded(WIDE, example(), &block);
    assert_eq!(words[..4], [5, 7, 0, 0]);
    assert_eq!(words[24..34], [1, 0, 0, 4, 5, 7, 0, 0, 0, 0]);
    assert_eq!(histograms(WIDE, example(), &words), block);
}

#[test]
#[should_panic(expected = "does not fit its words")]
fn no_such_weight_in_one_word() {
    encoded(NARROW, example(), &heavy(1 << 32));
}

#[test]
fn a_head_is_sound_under_its_own_mark_alone() {
    for (layout, other, mark) in [(NARROW, WIDE, 0), (WIDE, NARROW, 2)] {
        let mut words = [u32::MAX; HEAD_WORDS];
        layout.encode_head(example(), 9, &mut words);
        assert_eq!(words, [2, 2, 4, 1, 9, mark, 0, 0]);
        let head = decode_head(&words);
        assert_eq!(layout.sound_head(head), Some((example(), 9)));
        assert_eq!(other.sound_head(head), None);
        for padding in [[mark, 1, 0], [mark, 0, 1]] {
            assert_eq!(layout.sound_head(RawHead { padding, ..head }), None);
        }
    }
}

#[test]
fn the_same_block_in_both_layouts() {
    let mut random = Random::new(11);
    for _ in 0..200 {
        let shape = shapes::draw_short(&mut random, 2_000);
        let block = [0, 1].map(|_| {
            let total = random.below(shape.capacity() + 1);
            sound::histogram(&mut random, shape, total)
        });
        for layout in [NARROW, WIDE] {
            let words = encoded(layout, shape, &block);
            assert_eq!(histograms(layout, shape, &words), block);
        }
    }
}

/// Two weights of 2^63 add up to 0 modulo 2^64.
#[test]
fn sums_of_two_word_weights_do_not_wrap() {
    let mut block: [RawHistogram; 2] = {
        let words = encoded(WIDE, example(), &heavy(0));
        WIDE.decode_block(example(), &words)
    };
    let level = &mut block[1].levels[0];
    level.count = 2;
    for (slot, offset) in level.slots.iter_mut().zip(0..) {
        (slot.offset, slot.length, slot.weight) = (offset, 1, 1 << 63);
    }
    let faults = block_faults(example(), &block);
    assert_eq!(faults, [Fault::Excess, Fault::Missing]);
}
