//! Grounds of sums: the three cases, the interval in which the window opens, and what a ground says of the
//! levels, on books of every kind; and which sums a limit admits. The worked rows are in examples.rs, the
//! refusals in refusals.rs, runs beside the ledger in ledger.rs.

mod books;

use books::{feed, made, Both, DELIVERIES};
use draw::grounds::{all, draw, firsts, kinds};
use draw::random::Random;
use draw::shapes::EXAMPLE;
use draw::tally::Tally;
use reference::calls::{clock, query};
use reference::ground::{ground, Finer, Ground};
use reference::soundness::sound_head;
use reference::window::opening;
use reference::words::decode_head;

const LEVEL_ZERO: Finer = Finer::LevelZero;

fn found(sum: u64, level: u32, limit: u64, finer: Finer) -> Result<Ground, u32> {
    Ok(Ground { sum, level, limit, finer })
}

#[test]
fn window_0_is_told_from_level_0() {
    let mut words = made(EXAMPLE);
    for now in [0, 3, 4, 9] {
        clock(&mut words, now).unwrap();
        assert_eq!(ground(&words, 0, 0), found(0, 0, 0, Finer::WindowZero));
        for window in 1..=4 {
            assert_eq!(ground(&words, 0, window), found(0, 0, 0, LEVEL_ZERO));
        }
    }
}

/// Window 8 at clock 10 opens at 3, in the interval before, and window 3 at 8, in the current one. Level 2
/// answers both, and level 1 of the two halves has another F.
#[test]
fn the_half_in_which_the_window_opens() {
    let mut words = made([3, 2, 6, 1]);
    let units = [5, 7, 7, 7, 7, 6, 7].map(|stamp| (stamp, 1));
    feed(&mut words, 7, &units);
    feed(&mut words, 10, &[(9, 6), (8, 1), (10, 1)]);
    assert_eq!(firsts(&words, 0, 3), [6, 4, 0, 0, 0, 0, 0]);
    assert_eq!(firsts(&words, 0, 8), [1, 2, 0, 0, 0, 0, 0]);
    // The opening cuts the only bucket of level 2, and the 8 decilitres of the current interval are left.
    assert_eq!(ground(&words, 0, 8), found(8, 2, 16, Finer::First(4)));
    assert_eq!(ground(&words, 0, 3), found(8, 2, 16, Finer::First(2)));
}

/// The level is that of the half in which the window opens, also where the current one is empty and would
/// have its level 0 serve every opening.
#[test]
fn an_empty_half_after_a_full_one() {
    let mut words = made(EXAMPLE);
    feed(&mut words, 3, &DELIVERIES);
    clock(&mut words, 4).unwrap();
    assert_eq!(ground(&words, 0, 4), found(4, 2, 12, Finer::First(2)));
    assert_eq!(ground(&words, 0, 3), found(3, 0, 0, LEVEL_ZERO));
    assert_eq!(ground(&words, 0, 1), found(0, 0, 0, LEVEL_ZERO));
    feed(&mut words, 4, &[(4, 1)]);
    assert_eq!(ground(&words, 0, 4), found(5, 2, 12, Finer::First(2)));
}

/// What document 02 proves of a ground, read off the words.
fn assert_true_of(words: &[u32], grade: u32, window: u32, ground: Ground) {
    let (shape, clock) = sound_head(decode_head(words)).expect("an answered query");
    let Some(opening) = opening(clock, window) else {
        assert_eq!((ground.level, ground.limit), (0, 0));
        assert_eq!(ground.finer, Finer::WindowZero);
        return;
    };
    let firsts = firsts(words, grade, opening);
    let (finer, from) = firsts.split_at(ground.level as usize);
    let offset = shape.offset(opening);
    assert!(from[0] <= offset && finer.iter().all(|first| *first > offset));
    let (said, limit) = match finer.last() {
        None => (LEVEL_ZERO, 0),
        Some(first) => {
            (Finer::First(*first as u32), (1 << ground.level) * (u64::from(shape.k()) + 1))
        }
    };
    assert_eq!((ground.finer, ground.limit), (said, limit));
}

/// Accepted exactly if the query is, with its sum, on grown, built and damaged books.
#[test]
fn grounds_of_drawn_questions() {
    let random = &mut Random::new(1);
    let mut met = Tally::new(all(), 1);
    for index in 0..6_000 {
        let (words, grade, window) = draw(random, index);
        let ground = ground(&words, grade, window);
        let (sum, asked) = (ground.map(|g| g.sum), query(&words, grade, window));
        assert_eq!(sum, asked, "{grade} {window} on {words:?}");
        for kind in kinds(&words, grade, window, ground) {
            met.add(&kind);
        }
        if let Ok(ground) = ground {
            assert_true_of(&words, grade, window, ground);
        }
    }
    assert_eq!(met.faults(), Vec::<String>::new());
}

#[test]
fn limits_include_their_ends() {
    let mut both = Both::new(EXAMPLE);
    both.feed(3, 0, &[(2, 13)]);
    let admits = |sum, limit| {
        let ground = found(sum, 2, limit, Finer::First(1)).unwrap();
        both.ledger.admits_ground(0, 2, ground)
    };
    assert!(admits(13, 0) && !admits(12, 0) && !admits(14, 0));
    assert!(admits(1, 12) && admits(25, 12));
    assert!(!admits(0, 12) && !admits(26, 12));
}
