//! Words that no call wrote: sound books that no run of calls reaches, random words, damaged books,
//! and deliveries beside the damaged block of another grade.

mod books;

use books::{assert_sums, made};
use draw::calls::Source;
use draw::damage::any_word;
use draw::pace::Pace;
use draw::random::Random;
use draw::shapes::{within, Makes};
use draw::view::Words;
use reference::calls::{clock, deliver, perform, query, Call};
use reference::histogram::Histogram;
use reference::layout::{CLOCK, HEAD_WORDS};
use reference::ledger::Ledger;
use reference::shape::Shape;
use reference::soundness::block_faults;
use reference::words::{decode_block, encode_block, encode_head};

#[test]
fn sound_words_that_no_run_reaches_are_accepted() {
    let shape = within([2, 2, 3, 1]);
    let mut words = made([2, 2, 3, 1]);
    // Clock 1 in interval 0: stamps ahead, an odd interval, levels that contradict each other.
    words[CLOCK] = 1;
    let levels = [
        (0, [1, 0, 3, 1, 4, 0, 0, 0]),
        (1, [2, 2, 2, 1, 2, 3, 1, 2]),
        (2, [1, 0, 0, 4, 4, 0, 0, 0]),
        (3, [1, 0, 0, 4, 4, 0, 0, 0]),
    ];
    for (parity, (index, level)) in [0, 1].into_iter().flat_map(|p| levels.map(|l| (p, l))) {
        words[8 + parity] = 4;
        words[8..][shape.level(parity, index)].copy_from_slice(&level);
    }
    assert_sums(&words, &[(1, 4)]);
    deliver(&mut words, 0, 1, 2).unwrap();
    // Window 0 does not count what lies past the clock either.
    assert_sums(&words, &[(1, 6), (0, 0)]);
    let expected = [[2, 0, 1, 1, 2, 3, 1, 4], [2, 2, 2, 1, 2, 3, 1, 2], [1, 0, 0, 4, 6, 0, 0, 0]];
    assert_eq!(words[10..34], expected.concat());
    // In interval 1 the odd histogram goes; the even one still answers as the older one.
    clock(&mut words, 5).unwrap();
    assert_sums(&words, &[(4, 4), (2, 0)]);
}

fn random_histogram(random: &mut Random, shape: Shape, total: u64) -> Histogram {
    let mut histogram = Histogram::empty(shape);
    for _ in 0..total {
        histogram.insert(shape, random.below(shape.interval_ticks()), 1);
    }
    histogram
}

#[test]
fn levels_mixed_from_two_histories_stay_sound() {
    let shape = within([4, 3, 6, 1]);
    let mut random = Random::new(1);
    for _ in 0..300 {
        let mut block = [0, 1].map(|_| Histogram::empty(shape));
        for histogram in &mut block {
            let total = random.below(50);
            *histogram = random_histogram(&mut random, shape, total);
            let other = random_histogram(&mut random, shape, total);
            for (level, other) in histogram.levels.iter_mut().zip(other.levels) {
                if random.one_in(2) {
                    *level = other;
                }
            }
        }
        let mut words = made(shape.numbers());
        words[CLOCK] = random.between(16, 47);
        encode_block(shape, &block, &mut words[shape.block(0)]);
        for _ in 0..20 {
            let (now, volume) = (words[CLOCK], random.between(1, 6));
            let stamp = random.between(now - 15, now);
            let full = deliver(&mut words, 0, stamp, volume);
            assert!(matches!(full, Ok(_) | Err(12)));
            assert!(query(&words, 0, random.between(0, 16)).is_ok());
            let after = decode_block(shape, &words[shape.block(0)]);
            assert_eq!(block_faults(shape, &after), []);
        }
    }
}

/// Performs a call on words of any content; a refused call or a query may not change them.
fn perform_checked(words: &mut [u32], call: Call) -> Result<(), u32> {
    let before = words.to_vec();
    let answer = perform(words, call);
    if answer.is_err() || matches!(call, Call::Query { .. }) {
        assert_eq!(words, before, "{call:?}");
    }
    answer.map(|_| ())
}

/// Up to so many calls on an empty book, some of them refused.
fn grown(source: &mut Source, shape: Shape, most: u64) -> Vec<u32> {
    let mut words = made(shape.numbers());
    for _ in 0..source.random.below(most) {
        let call = source.call(&Words::new(shape, &words));
        let _ = perform_checked(&mut words, call);
    }
    words
}

fn source(seed: u64) -> Source {
    let mut source = Source::new(seed, Makes::Same);
    source.pace = Pace { span: 1 << 40, volume: 3, step_divisor: 4, ..source.pace };
    source
}

#[test]
fn random_words_of_any_length() {
    let shape = within([2, 2, 2, 1]);
    let mut source = source(2);
    let mut empty = Ledger::new(shape);
    let clock = Call::Clock { clock: 7 };
    empty.perform(clock, shape.book_length()).unwrap();
    for _ in 0..100_000 {
        let length = source.random.below(140) as usize;
        let mut words = vec![0; length];
        for word in &mut words {
            *word = match source.random.below(4) {
                0 => source.random.word(),
                1 => 0,
                _ => source.random.between(0, 9),
            };
        }
        // Some get a sound head, so that the blocks are inspected as well.
        if length == shape.book_length() || source.random.one_in(2) {
            let mut head = [0; HEAD_WORDS];
            encode_head(shape, 7, &mut head);
            words.iter_mut().zip(head).for_each(|(word, h)| *word = h);
        }
        let call = source.call(&empty);
        let answer = perform_checked(&mut words, call);
        assert!(answer.is_ok() || (1..=12).contains(&answer.unwrap_err()));
    }
}

#[test]
fn grown_books_with_damaged_words() {
    let shape = within([3, 3, 5, 2]);
    let mut source = source(3);
    let (mut accepted, mut refused) = ([0; 2], [0; 13]);
    for _ in 0..4000 {
        let mut words = grown(&mut source, shape, 60);
        for _ in 0..=source.random.below(3) {
            any_word(&mut source.random, &mut words[HEAD_WORDS..]);
        }
        for _ in 0..8 {
            let call = source.call(&Words::new(shape, &words));
            match perform_checked(&mut words, call) {
                Ok(()) => accepted[usize::from(matches!(call, Call::Delivery { .. }))] += 1,
                Err(number) => refused[number as usize] += 1,
            }
        }
    }
    assert!(accepted[0] > 1000 && accepted[1] > 1000, "{accepted:?}");
    assert!(refused[11] > 1000 && refused[7] == 0, "{refused:?}");
}

/// What every grade but one answers to every window.
fn other_answers(shape: Shape, words: &[u32], grade: u32) -> Vec<Result<u64, u32>> {
    let others = (0..shape.g()).filter(|other| *other != grade);
    let windows = 0..=shape.interval_ticks() as u32 + 1;
    others
        .flat_map(|other| windows.clone().map(move |window| (other, window)))
        .map(|(other, window)| query(words, other, window))
        .collect()
}

#[test]
fn delivery_touches_no_other_grade() {
    let shape = within([3, 3, 5, 3]);
    let mut source = source(4);
    let mut beside_unsound = 0;
    for round in 0..1500 {
        let mut words = grown(&mut source, shape, 80);
        let grade = round % 3;
        for other in (0..3).filter(|other| *other != grade && round % 4 != 0) {
            any_word(&mut source.random, &mut words[shape.block(other)]);
        }
        let before = words.clone();
        let answers = other_answers(shape, &words, grade);
        let stamp = words[CLOCK].saturating_sub(source.random.between(0, 7));
        if deliver(&mut words, grade, stamp, 1).is_ok() {
            let block = shape.block(grade);
            assert_ne!(words[block.clone()], before[block.clone()]);
            assert_eq!(words[..block.start], before[..block.start]);
            assert_eq!(words[block.end..], before[block.end..]);
            assert_eq!(other_answers(shape, &words, grade), answers);
            beside_unsound += usize::from(answers.contains(&Err(11)));
        }
    }
    assert!(beside_unsound > 300, "{beside_unsound}");
}
