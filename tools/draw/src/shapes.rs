//! Shapes for books, and the four numbers of a make: accepted ones and every kind of refused one.

use reference::shape::Shape;

use crate::random::Random;

/// k, n, M and g, within their limits or not.
pub type Numbers = [u32; 4];

/// The shape of document 01's examples.
pub const EXAMPLE: Numbers = [2, 2, 4, 1];
/// The shape of a site.
pub const SITE: Numbers = [20, 441, 24, 1];
/// A site with every grade.
pub const SITE_OF_EIGHT: Numbers = [20, 441, 24, 8];

/// Few slots, so that a few deliveries already make levels evict buckets; 2 6 1 1 needs as many
/// words as the example.
const SMALL: [Numbers; 11] = [
    [2, 2, 1, 1],
    [2, 6, 1, 1],
    [3, 2, 3, 2],
    [3, 3, 20, 1],
    [4, 6, 6, 2],
    [5, 7, 9, 3],
    [4, 5, 17, 1],
    [6, 4, 18, 1],
    [8, 10, 12, 2],
    [20, 5, 24, 8],
    [3, 5, 24, 8],
];

/// Thousands of words; some have more slots than an interval has ticks.
const MEDIUM: [Numbers; 9] = [
    [10, 64, 16, 1],
    [12, 40, 18, 2],
    [16, 100, 12, 1],
    [20, 30, 24, 3],
    [20, 117, 20, 1],
    [20, 1024, 1, 1],
    [2, 1024, 2, 1],
    [5, 72, 16, 2],
    [7, 200, 10, 1],
];

/// The shape of numbers that are within their limits.
pub fn within([k, n, m, g]: Numbers) -> Shape {
    Shape::new(k, n, m, g).expect("numbers within their limits")
}

/// The shape of a book to begin with: mostly small, some medium, a few at site size.
pub fn draw(random: &mut Random) -> Shape {
    within(match random.below(4000) {
        0..=2 => SITE_OF_EIGHT,
        3..=39 => SITE,
        40..=239 => random.pick(&MEDIUM),
        240..=1239 => [
            random.between(Shape::K_MIN, Shape::K_MAX),
            random.between(Shape::N_MIN, 12),
            random.between(Shape::M_MIN, Shape::M_MAX),
            random.between(1, 3),
        ],
        _ => [
            random.between(2, 5),
            random.between(2, 6),
            random.between(1, 12),
            random.between(1, 2),
        ],
    })
}

/// The same, but of a book with at most so many words. The example's has 90, so from 90 on the search ends.
pub fn draw_short(random: &mut Random, longest: usize) -> Shape {
    loop {
        let shape = draw(random);
        if shape.book_length() <= longest {
            return shape;
        }
    }
}

/// The shapes for which a make is accepted.
#[derive(Clone, Copy, Debug, PartialEq, Eq)]
pub enum Makes {
    /// That of the book alone.
    Same,
    /// Those whose book has exactly so many words.
    Length(usize),
    /// Those whose book has at most so many words, of which a make is lent as many as it needs. The
    /// example is one of them.
    UpTo(usize),
}

impl Makes {
    /// The shape of these numbers, where a make of it is accepted for a book of that shape.
    pub fn shape(self, current: Shape, [k, n, m, g]: Numbers) -> Option<Shape> {
        let shape = Shape::new(k, n, m, g)?;
        let length = shape.book_length();
        let accepted = match self {
            Makes::Same => shape == current,
            Makes::Length(words) => length == words,
            Makes::UpTo(words) => length <= words,
        };
        accepted.then_some(shape)
    }

    /// Numbers that are accepted, often for a book as long as the current one.
    pub fn accepted(self, random: &mut Random, current: Shape) -> Numbers {
        let [k, n, m, g] = current.numbers();
        let other_k = random.between(Shape::K_MIN, Shape::K_MAX);
        match self {
            Makes::Same => [k, n, m, g],
            Makes::Length(words) => match random.below(4) {
                0 => [k, n, m, g],
                // k is not in the length.
                1 => [other_k, n, m, g],
                _ => random.pick(&of_length(k, words)),
            },
            Makes::UpTo(words) => match random.below(20) {
                0..=4 => EXAMPLE,
                5 => [k, n, m, g],
                6..=7 => [other_k, n, m, g],
                8 => random.pick(&of_length(k, current.book_length())),
                9 => fullest(random, words),
                10 => {
                    let [k, n, m, g] = fullest(random, words);
                    [k, random.between(Shape::N_MIN, n.min(20)), m, g]
                }
                11..=13 => fitting(random, &MEDIUM, words),
                _ => fitting(random, &SMALL, words),
            },
        }
    }

    /// Numbers that are refused, by one of them or by all.
    pub fn refused(self, random: &mut Random, current: Shape) -> Numbers {
        loop {
            let numbers = self.unlikely(random, current);
            if self.shape(current, numbers).is_none() {
                return numbers;
            }
        }
    }

    fn unlikely(self, random: &mut Random, current: Shape) -> Numbers {
        let mut numbers = current.numbers();
        let place = random.below(4) as usize;
        match random.below(10) {
            0..=2 => {
                let [least, most] = Shape::LIMITS[place];
                numbers[place] = random.pick(&[0, least - 1, most + 1, u32::MAX]);
            }
            3 => numbers[place] = random.word(),
            4 => numbers[place] = same_modulo_2_to_the_32(current)[place],
            5 => numbers = random.pick(&[SITE, SITE_OF_EIGHT, [20, 1024, 24, 8]]),
            6 => numbers = [0; 4].map(|_| random.word()),
            7 => numbers = [random.pick(&[0, u32::MAX]); 4],
            // A slot more than there are words for, or outside the limits.
            _ => match self {
                Makes::UpTo(words) => {
                    numbers = fullest(random, words);
                    numbers[1] += 1;
                }
                _ => numbers = random.pick(&SMALL),
            },
        }
        numbers
    }
}

/// One of those shapes that so many words hold, or the example.
fn fitting(random: &mut Random, shapes: &[Numbers], words: usize) -> Numbers {
    let fits = |numbers: &&Numbers| within(**numbers).book_length() <= words;
    let mut found: Vec<Numbers> = shapes.iter().filter(fits).copied().collect();
    if found.is_empty() {
        found.push(EXAMPLE);
    }
    random.pick(&found)
}

/// As many slots as so many words hold for the other numbers, which are any.
fn fullest(random: &mut Random, words: usize) -> Numbers {
    loop {
        let k = random.between(Shape::K_MIN, Shape::K_MAX);
        let m = random.between(Shape::M_MIN, Shape::M_MAX);
        let g = random.between(Shape::G_MIN, Shape::G_MAX);
        if let Some(n) = most_slots([k, m, g], words) {
            return [k, n, m, g];
        }
    }
}

/// All numbers with this k whose book has exactly so many words.
fn of_length(k: u32, words: usize) -> Vec<Numbers> {
    let mut found = Vec::new();
    for m in Shape::M_MIN..=Shape::M_MAX {
        for g in Shape::G_MIN..=Shape::G_MAX {
            let numbers = most_slots([k, m, g], words).map(|n| [k, n, m, g]);
            found.extend(numbers.filter(|numbers| within(*numbers).book_length() == words));
        }
    }
    found
}

/// The most slots for which a book has at most so many words, if there are any. Each slot more needs as many
/// words as the one before.
fn most_slots([k, m, g]: [u32; 3], words: usize) -> Option<u32> {
    let length = |n: u32| within([k, n, m, g]).book_length();
    let fewest = length(Shape::N_MIN);
    let more = words.checked_sub(fewest)? / (length(Shape::N_MIN + 1) - fewest);
    Some(Shape::N_MAX.min(Shape::N_MIN + more as u32))
}

/// For k, n, M and g another number, the others kept, with which the length of a book comes out
/// the same modulo 2^32. k is not in the length; its number gives the same shift.
pub(crate) fn same_modulo_2_to_the_32(shape: Shape) -> Numbers {
    let step = |factor: usize| 1u32 << (32 - factor.trailing_zeros());
    let [k, n, m, g] = shape.numbers();
    [
        k + 32,
        n + step(2 * g as usize * shape.levels()),
        m.wrapping_add(step(2 * g as usize * shape.level_length())),
        g.wrapping_add(step(shape.block_length())),
    ]
}

/// Decilitres that the second program, which takes them one by one, inserts in little time.
pub(crate) fn quick_volume(shape: Shape) -> u64 {
    const STEPS: u64 = 500_000;
    let steps_of_one = shape.levels() as u64 * (6 + u64::from(shape.n()) / 8);
    (STEPS / steps_of_one).max(1)
}
