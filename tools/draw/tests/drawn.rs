//! Drawn books, traces, merges and makes are what they are called, and depend on the seed alone.

use std::collections::BTreeSet;

use draw::book::Book;
use draw::random::Random;
use draw::shapes::{self, within, Makes, Numbers, EXAMPLE};
use draw::trace::Drawn;
use draw::{merge, sound};
use reference::calls::clock;
use reference::histogram::{Bucket, Histogram};
use reference::layout;
use reference::protocol::BUFFER_WORDS;
use reference::shape::Shape;
use reference::trace::days;
use reference::words::decode_block;

#[test]
fn equal_seeds_give_equal_draws() {
    let drawn = |seed| {
        let random = &mut Random::new(seed);
        let Book { shape, words, .. } = Book::draw(random, 2);
        let trace = Drawn::draw(random, shape, &words).words;
        let merge = merge::Drawn::draw(random, shape);
        (words, trace, merge.traces, merge.days, merge.room)
    };
    assert_eq!(drawn(1), drawn(1));
    assert_ne!(drawn(1), drawn(2));
}

/// A clock is set to what it is only where the whole book is sound.
fn assert_sound(words: &[u32]) {
    let now = words[layout::CLOCK];
    assert_eq!(clock(&mut words.to_vec(), now), Ok(()));
}

/// What can be remarkable about a level, and whether it is.
fn features(shape: Shape, half: &Histogram, index: usize) -> [(&'static str, bool); 10] {
    let level = &half.levels[index];
    let (first, buckets) = (level.first, &level.buckets);
    let weights: u64 = buckets.iter().map(|b| b.weight).sum();
    let (n, is_whole) = (u64::from(shape.n()), weights == half.total);
    let is_full = buckets.len() as u64 == n;
    let is_heavy = |b: &Bucket| b.length == 1 && b.weight >= 2 << index;
    let rises = index > 0 && first > half.levels[index - 1].first;
    [
        ("evicted, weights below the total", !is_whole),
        ("evicted, weights the total", first != 0 && is_whole),
        ("full, nothing evicted", is_full && first == 0),
        ("evicted to the end", first + n == shape.interval_ticks()),
        ("level 0 evicted", index == 0 && first != 0),
        ("a heavy tick", index > 0 && buckets.iter().any(is_heavy)),
        ("a single bucket", index > 0 && buckets.len() == 1),
        ("a finer level evicted less", rises),
        ("capacity reached", half.total == shape.capacity()),
        ("an empty half", half.total == 0),
    ]
}

#[test]
fn built_books_are_sound_and_various() {
    let random = &mut Random::new(5);
    let mut seen = BTreeSet::new();
    for _ in 0..3000 {
        let shape = shapes::draw(random);
        let words = sound::book(random, shape);
        assert_eq!(words[layout::SHAPE], shape.numbers());
        assert_sound(&words);
        let now = u64::from(words[layout::CLOCK]);
        let halves = decode_block(shape, &words[shape.block(0)]).map(|raw| raw.histogram());
        for half in &halves {
            let all = (0..shape.levels()).flat_map(|index| features(shape, half, index));
            seen.extend(all.filter(|(_, holds)| *holds).map(|(name, _)| name));
        }
        let last = halves[shape.parity(now)].levels[0].buckets.last();
        if last.is_some_and(|b| b.offset > shape.offset(now)) {
            seen.insert("a bucket ahead of the clock");
        }
        if now < shape.interval_ticks() && halves[1].total > 0 {
            seen.insert("an odd interval before the first one began");
        }
    }
    assert_eq!(seen.len(), 12, "{seen:?}");
}

#[test]
fn books_for_merges_are_sound_and_not_past_the_clock() {
    let random = &mut Random::new(3);
    for _ in 0..600 {
        let shape = shapes::draw_short(random, 600);
        let most = random.pick(&[0, 1, 40, Shape::CLOCK_MAX]);
        let (_, words) = merge::book(random, shape, most);
        assert!(words[layout::CLOCK] <= most);
        assert_sound(&words);
    }
}

#[test]
fn sound_traces_are_sound() {
    let random = &mut Random::new(1);
    for index in 0..2_000 {
        let Book { shape, words, .. } = Book::draw(random, index);
        let drawn = Drawn::sound(random, shape, &words);
        let days = days(&drawn.words).unwrap_or_else(|fault| panic!("{fault}"));
        assert_eq!(days.len() as u32, drawn.count());
    }
}

/// Where a make is refused, each of the four numbers is at times the only one outside its limits, and at
/// times none of them is.
#[test]
fn makes_are_accepted_or_refused_as_asked() {
    let random = &mut Random::new(11);
    let medium = [12, 40, 18, 2];
    let length = |numbers: Numbers| Makes::Length(within(numbers).book_length());
    let is_shape = |[k, n, m, g]: Numbers| Shape::new(k, n, m, g).is_some();
    for (makes, start) in [
        (Makes::UpTo(BUFFER_WORDS), EXAMPLE),
        (Makes::UpTo(700), EXAMPLE),
        (length(EXAMPLE), EXAMPLE),
        (length(medium), medium),
        (Makes::Same, EXAMPLE),
    ] {
        let (mut current, mut reasons) = (within(start), [0; 5]);
        for _ in 0..2_000 {
            let numbers = makes.refused(random, current);
            assert_eq!(makes.shape(current, numbers), None, "{numbers:?}");
            reasons[4] += u32::from(is_shape(numbers));
            for place in (0..4).filter(|_| !is_shape(numbers)) {
                let mut mended = numbers;
                mended[place] = EXAMPLE[place];
                reasons[place] += u32::from(is_shape(mended));
            }
            let numbers = makes.accepted(random, current);
            let shape = makes.shape(current, numbers);
            current = shape.unwrap_or_else(|| panic!("{makes:?}: {numbers:?}"));
        }
        assert!(reasons.iter().all(|count| *count > 100), "{reasons:?}");
    }
}
