//! The lengths of books beside the second program's, for shapes within the limits and outside.

use draw::random::Random;
use litres::words;
use reference::shape::Shape;

fn assert_equal(k: u32, n: u32, m: u32, g: u32) {
    let expected = Shape::new(k, n, m, g).map(Shape::book_length);
    assert_eq!(words(k, n, m, g), expected, "shape {k} {n} {m} {g}");
}

#[test]
fn every_shape_and_its_neighbours() {
    for k in [1, 2, 3, 19, 20, 21] {
        for n in 0..=Shape::N_MAX + 2 {
            for m in 0..=Shape::M_MAX + 2 {
                for g in 0..=Shape::G_MAX + 2 {
                    assert_equal(k, n, m, g);
                }
            }
        }
    }
}

#[test]
fn any_numbers() {
    let mut random = Random::new(1);
    for _ in 0..100_000 {
        let mut numbers = [12, 30, 9, 2];
        for number in &mut numbers {
            let high = 1 << random.below(32);
            *number = match random.below(6) {
                0 => random.word(),
                1 => high,
                2 => number.wrapping_add(high),
                3 => u32::MAX,
                _ => *number,
            };
        }
        let [k, n, m, g] = numbers;
        assert_equal(k, n, m, g);
    }
}
