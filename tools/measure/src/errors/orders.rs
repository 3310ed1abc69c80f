//! Arrival orders, each from a seed: what is told to a book, and when it is asked. Some are a forecourt's, where
//! cars come in bursts at the hours of the day and are mostly reported at once. No forecourt sends the others.

use draw::random::Random;
use draw::shapes::{within, SITE};
use reference::calls::Call;
use reference::window::window_from;

use super::observe::{CAPACITY, TICKS};

/// The orders of the picture.
pub const ORDERS: [fn(u64) -> Order; 9] =
    [prompt, hourly, uniform, reverse, late, inwards, heavy_tick, extremes, aimed];

/// What the picture and the table call a kind of orders, and its colour in the picture.
#[derive(Clone, Copy, PartialEq, Eq)]
pub struct Kind(pub &'static str, pub &'static str);

const FORECOURT: Kind = Kind("as a forecourt reports", "#1f6fb2");
const RANDOM: Kind = Kind("at random", "#2e8b57");
const PATTERN: Kind = Kind("by an unusual pattern", "#c8611a");
const ADVERSARIAL: Kind = Kind("aimed at the bound", "#7b3fa0");
pub const KINDS: [Kind; 4] = [FORECOURT, RANDOM, PATTERN, ADVERSARIAL];

/// A named order, over one book or several.
pub struct Order {
    pub name: &'static str,
    pub kind: Kind,
    /// The calls on each book, which starts empty. They all name grade 0.
    pub books: Vec<Vec<Call>>,
}

impl Order {
    pub fn new(name: &'static str, kind: Kind, books: Vec<Vec<Call>>) -> Order {
        Order { name, kind, books }
    }
}

pub fn delivery(stamp: u32, volume: u32) -> Call {
    Call::Delivery { grade: 0, stamp, volume }
}

pub fn question(window: u32) -> Call {
    Call::Query { grade: 0, window }
}

/// Questions over windows from a second to an interval, evenly on a log scale, and over such as open at
/// one of the given ticks or next to it.
fn questions(random: &mut Random, clock: u32, ticks: &[u32]) -> Vec<Call> {
    let spread = (0..=64).map(|part| {
        let power = f64::from(part) / 64.0;
        f64::from(TICKS).powf(power).round() as u32
    });
    let aimed = (0..96).map(|_| {
        let opening = (random.pick(ticks) + random.between(0, 1)).min(clock);
        let window = window_from(clock, opening);
        window.expect("no tick after the clock").min(TICKS)
    });
    spread.chain(aimed).map(question).collect()
}

const HOUR: u32 = 3600;
/// Cars by hour of the day.
const CARS: [u32; 24] =
    [3, 2, 2, 2, 4, 12, 35, 50, 45, 28, 22, 24, 30, 26, 22, 26, 40, 55, 48, 30, 18, 12, 8, 5];

/// Draws two numbers for one.
type Draw = fn(&mut Random, u32) -> (u32, u32);

/// Most reports come within seconds, some within half an hour, a few hours later.
fn prompt(seed: u64) -> Order {
    forecourt("forecourt, some hours late", seed, |random, stamp| {
        let delay = match random.below(100) {
            0..=2 => random.between(HOUR, 12 * HOUR),
            3..=9 => random.between(60, HOUR / 2),
            _ => random.between(0, 20),
        };
        (stamp + delay, 0)
    })
}

/// Each hour's reports arrive together, the newest first.
fn hourly(seed: u64) -> Order {
    forecourt("forecourt, sent each hour", seed, |_, stamp| {
        ((stamp / HOUR + 1) * HOUR, u32::MAX - stamp)
    })
}

/// The stamps and volumes of a little less than two intervals.
fn cars(random: &mut Random) -> Vec<(u32, u32)> {
    let mut cars = Vec::new();
    for (hour, usual) in (0..24 * 24).zip(CARS.iter().cycle()) {
        for _ in 0..random.between(usual / 2, usual * 3 / 2) {
            let stamp = hour * HOUR + random.between(0, HOUR - 1);
            cars.push((stamp, random.between(40, 900)));
        }
    }
    cars
}

/// Each car is reported at the tick that is drawn for its stamp, those of one tick in the order of the other
/// number. The clock moves with the reports; questions come every six hours.
fn forecourt(name: &'static str, seed: u64, draw: Draw) -> Order {
    let random = &mut Random::new(seed);
    let cars = cars(random).into_iter();
    let mut reports: Vec<_> = cars.map(|car| (draw(random, car.0), car)).collect();
    reports.sort_by_key(|(arrival, _)| *arrival);
    let (mut calls, mut stamps) = (Vec::new(), Vec::new());
    let (mut clock, mut next) = (0, 6 * HOUR);
    for ((arrival, _), (stamp, volume)) in reports {
        if arrival > next && !stamps.is_empty() {
            let recent = &stamps[stamps.len().saturating_sub(4000)..];
            calls.extend(questions(random, clock, recent));
            next += 6 * HOUR;
        }
        if arrival > clock {
            clock = arrival;
            calls.push(Call::Clock { clock });
        }
        // A late one would be refused.
        if !within(SITE).is_late(clock, stamp) {
            stamps.push(stamp);
            calls.push(delivery(stamp, volume));
        }
    }
    Order::new(name, FORECOURT, vec![calls])
}

/// Deliveries of an order.
const COUNT: u32 = 12_000;
/// From one of them to the next, where they are spread evenly.
const STEP: u32 = TICKS / COUNT;
/// Questions come after so many deliveries.
const ASK_AFTER: usize = 200;
/// The first and the last tick of interval 1, in which the deliveries lie.
const START: u32 = TICKS;
const END: u32 = 2 * TICKS - 1;

/// Anywhere in the interval.
fn uniform(seed: u64) -> Order {
    at_the_end("uniformly random", RANDOM, seed, |random, _| {
        (random.between(START, END), volume(random))
    })
}

/// The newest first, evenly spread.
fn reverse(seed: u64) -> Order {
    at_the_end("newest first", PATTERN, seed, |random, number| {
        (END - number * STEP, volume(random))
    })
}

/// From both ends of the interval inwards by turns.
fn inwards(seed: u64) -> Order {
    at_the_end("both ends by turns", PATTERN, seed, |random, number| {
        let inwards = number / 2 * STEP;
        let stamp = [START + inwards, END - inwards][number as usize % 2];
        (stamp, volume(random))
    })
}

/// Every second delivery is a large one at the same tick.
fn heavy_tick(seed: u64) -> Order {
    let name = "every second one at one tick";
    at_the_end(name, PATTERN, seed, |random, number| match number % 2 {
        0 => (START + TICKS / 3, 2000),
        _ => (random.between(START, END), random.between(1, 400)),
    })
}

/// Much in the first half hour of the interval and little in the last one, by turns.
fn extremes(seed: u64) -> Order {
    let name = "much at the start, little at the end";
    at_the_end(name, PATTERN, seed, |random, number| match number % 2 {
        0 => (START + random.between(0, HOUR / 2), 2600),
        _ => (END - random.between(0, HOUR / 2), 1),
    })
}

fn volume(random: &mut Random) -> u32 {
    random.between(1, 1200)
}

/// All deliveries while the clock stands at the interval's end, as long as they fit; each has the stamp
/// and the volume that are drawn for its number.
fn at_the_end(name: &'static str, kind: Kind, seed: u64, draw: Draw) -> Order {
    let (mut random, mut asking) = (Random::new(seed), Random::new(!seed));
    let mut calls = vec![Call::Clock { clock: END }];
    let (mut stamps, mut total) = (Vec::new(), 0);
    for number in 0..COUNT {
        let (stamp, volume) = draw(&mut random, number);
        total += u64::from(volume);
        if total > CAPACITY {
            break;
        }
        stamps.push(stamp);
        calls.push(delivery(stamp, volume));
        if stamps.len().is_multiple_of(ASK_AFTER) {
            calls.extend(questions(&mut asking, END, &stamps));
        }
    }
    Order::new(name, kind, vec![calls])
}

/// Each half an interval behind the clock or more, while the clock goes through an interval.
fn late(seed: u64) -> Order {
    let mut random = Random::new(seed);
    let (mut calls, mut stamps) = (Vec::new(), Vec::new());
    for number in 0..COUNT {
        let clock = START + number * STEP;
        let longest = clock - within(SITE).oldest(clock);
        let stamp = clock - random.between(TICKS / 2, longest);
        stamps.push(stamp);
        calls.push(Call::Clock { clock });
        calls.push(delivery(stamp, volume(&mut random)));
        if stamps.len().is_multiple_of(ASK_AFTER) {
            calls.extend(questions(&mut random, clock, &stamps));
        }
    }
    Order::new("each six days late or more", PATTERN, vec![calls])
}

/// Against the bound. First the interval's first tick gets so much that level i splits down to it, which
/// leaves 2^i on every bucket beside the way, all of it wrong. Then each 2^(i-1) elsewhere splits one bucket
/// of level i - 1, so that it evicts the opening after as little as possible, and level i serves.
fn aimed(seed: u64) -> Order {
    let mut random = Random::new(seed);
    let books = (2..=14).map(|level| aimed_at(&mut random, level)).collect();
    Order::new("aimed at the bound", ADVERSARIAL, books)
}

fn aimed_at(random: &mut Random, level: u32) -> Vec<Call> {
    const SPLITS: u32 = 460;
    let mut calls = vec![Call::Clock { clock: END }];
    let mut first = 21 << level;
    while first > 0 {
        let volume = first.min(60_000);
        first -= volume;
        calls.push(delivery(START, volume));
    }
    for split in 0..SPLITS {
        // Two ticks that stay in one bucket, else level 0 would know all of them.
        let even = random.between(START / 2 + 1, END / 2) * 2;
        calls.extend([even, even + 1].map(|stamp| delivery(stamp, 1 << (level - 2))));
        if split >= SPLITS / 2 && (split % 8 == 0 || split > SPLITS - 60) {
            let windows = (0..4).filter_map(|tick| window_from(END, START + tick));
            calls.extend(windows.map(question));
        }
    }
    calls
}
