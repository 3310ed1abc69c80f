//! The check that the compiler vectorises: it reads each slot of a level once, collects what can be
//! wrong with `|` and looks at it once a level.
//!
//! Words are of any content, so that sums and differences wrap; the bits collected show whether any
//! could have.

use super::{Calls, Slot};
use reference::layout;
use reference::shape::Shape;
use std::array::from_fn;

pub struct Fast;

impl Calls for Fast {
    /// Whether every word is 0: all joined with `|`, four vectors at a time. Each begins where 16 divides the
    /// address, so that none lies in two lines of the cache, but for those of the first and the last
    /// sixteen words, which need not be read one by one then.
    #[inline]
    fn are_zero(slots: &[Slot]) -> bool {
        let words = slots.as_flattened();
        let ends = words.first_chunk::<16>().zip(words.last_chunk::<16>());
        let Some((first, last)) = ends else {
            return words.iter().all(|word| *word == 0);
        };
        let mut bits: [u32; 16] = from_fn(|at| first[at] | last[at]);
        let within = &words[words.as_ptr().align_offset(16).min(16)..];
        for group in within.as_chunks::<16>().0 {
            for (bits, word) in bits.iter_mut().zip(group) {
                *bits |= word;
            }
        }
        bits.iter().fold(0, |all, word| all | word) == 0
    }

    #[inline]
    fn ticks(shape: Shape, first: u32, buckets: &[Slot]) -> Option<u64> {
        let seen = Ticks::run(first, buckets);
        let last = buckets.last().map_or(0, |slot| slot[0]);
        let sound = (first | seen.gaps | last) < 1 << shape.k()
            && seen.lengths == 0
            && seen.weights < 1 << Shape::M_MAX;
        sound.then(|| exact(buckets, seen.weights, seen.sum))
    }

    /// Only buckets of one tick may have a weight of 2^(i+1) or more. Where a bound of the sum is enough,
    /// the weights are added only if their bits bound it too widely, in a second pass unless that is
    /// certain before.
    #[inline]
    fn spans(shape: Shape, index: u32, first: u32, buckets: &[Slot], total: u32) -> Option<u64> {
        let least = if buckets.len() > 1 { 1 << index } else { 0 };
        let above = (2 << index) - least;
        // No weight is more than the least one and all bits of the weights above it.
        let bound = |bits: u32| (u64::from(least) + u64::from(bits)) * buckets.len() as u64;
        let is_enough = |bits: u32| first != 0 && bound(bits) <= total.into();
        let bounded = is_enough(above - 1);
        let run = if bounded { Spans::run::<false> } else { Spans::run::<true> };
        let seen = run(first, least, above, buckets)?;
        let sound = seen.faults == 0
            && seen.bits < WRAPPING
            && seen.weights < 2 << Shape::M_MAX
            && seen.next == 1 << shape.k();
        sound.then(|| match bounded {
            false => exact(buckets, seen.weights | least, seen.sum),
            true if is_enough(seen.weights) => bound(seen.weights),
            true => added(buckets),
        })
    }
}

/// Weights of at most 2^21 + 2^20 add up to less than 2^32 on every level.
const LIGHT: u32 = 1 << 21;

/// The sum of the weights: the one that may have wrapped, unless the bits of the weights show that
/// it can have. Weights as large as that are few on a sound level.
fn exact(buckets: &[Slot], bits: u32, wrapped: u32) -> u64 {
    if bits < LIGHT {
        wrapped.into()
    } else {
        added(buckets)
    }
}

fn added(buckets: &[Slot]) -> u64 {
    buckets.iter().map(|slot| u64::from(slot[2])).sum()
}

/// What a run through level 0 collects, in all or lane by lane.
#[derive(Default)]
struct Ticks<T> {
    /// Bits of what lies between an offset and the least that it may be: below 2^k, unless it is too
    /// small; 1,024 such gaps do not wrap.
    gaps: T,
    /// Bits in which lengths differ from 1.
    lengths: T,
    /// Bits of the weights less 1; at least 2^31 where one is 0.
    weights: T,
    /// The sum of the weights, modulo 2^32.
    sum: T,
}

impl Ticks<u32> {
    #[inline(never)]
    fn run(first: u32, buckets: &[Slot]) -> Ticks<u32> {
        let words = buckets.as_flattened();
        let turns = buckets.len().saturating_sub(1) / TURN;
        let mut lanes = Ticks::<Lanes>::default();
        let mut gaps = 0;
        for turn in 0..turns {
            let from = TURN_WORDS * turn;
            let window: &Window = words[from..from + TURN_WORDS + 1].try_into().unwrap();
            lanes.turn(window);
            for row in 1..=LANES {
                let at = ROW_WORDS * row;
                gaps |= between(window[at - 3], window[at]);
            }
        }
        let mut seen = Ticks {
            gaps: gaps | joined(lanes.gaps),
            lengths: joined(lanes.lengths),
            weights: joined(lanes.weights),
            sum: added_up(lanes.sum),
        };
        if let Some(slot) = buckets.first() {
            seen.gaps |= slot[0].wrapping_sub(first);
        }
        let rest = &buckets[TURN * turns..];
        for pair in rest.windows(2) {
            seen.gaps |= between(pair[0][0], pair[1][0]);
        }
        for bucket in rest {
            seen.lengths |= bucket[1] ^ 1;
            seen.weights |= bucket[2].wrapping_sub(1);
            seen.sum = seen.sum.wrapping_add(bucket[2]);
        }
        seen
    }
}

impl Ticks<Lanes> {
    #[inline(always)]
    fn turn(&mut self, window: &Window) {
        let columns = columns(window);
        for slot in 0..ROW {
            for lane in 0..LANES {
                let [offset, length, weight] = bucket(&columns, slot, lane);
                self.lengths[lane] |= length ^ 1;
                self.weights[lane] |= weight.wrapping_sub(1);
                self.sum[lane] = self.sum[lane].wrapping_add(weight);
                if slot + 1 < ROW {
                    self.gaps[lane] |= between(offset, bucket(&columns, slot + 1, lane)[0]);
                }
            }
        }
    }
}

/// How many ticks lie between two offsets; large where the next one is not above.
#[inline(always)]
fn between(offset: u32, next: u32) -> u32 {
    next.wrapping_sub(offset).wrapping_sub(1)
}

/// No offset or length of a sound level is so large; of ten buckets up to 2^32 all are.
const WRAPPING: u32 = 4 << Shape::K_MAX;

/// What a run through the buckets of a level from 1 on collects.
struct Spans {
    /// Not zero where a condition fails.
    faults: u32,
    /// Bits of the first length and of offsets, which show whether a sum of the two can have wrapped.
    /// The first offset and every eighth one after it are enough, if there is no fault and the first
    /// length is not 0. Then a length divides its offset, and until a sum wraps only the first bucket
    /// begins at 0: from the second on an offset at most doubles, so that of the buckets that reach
    /// 2^32 the last ten begin at 2^22 or above. Where they are fewer, the first is one of them, and
    /// begins there too or has a length as large as the offset of the second.
    bits: u32,
    /// Bits of the weights less the least one; at least 2^31 where a weight is less than that.
    weights: u32,
    /// The sum of the weights, modulo 2^32; of a run without a sum it says nothing.
    sum: u32,
    /// Where the next bucket begins.
    next: u32,
}

/// The same, lane by lane.
#[derive(Default)]
struct SpanLanes {
    faults: Lanes,
    weights: Lanes,
    sums: Lanes,
}

impl Spans {
    /// Nothing where there is no bucket or the first has no length.
    #[inline(never)]
    fn run<const SUM: bool>(first: u32, least: u32, above: u32, buckets: &[Slot]) -> Option<Spans> {
        let &[offset, length, _] = buckets.first().filter(|slot| slot[1] != 0)?;
        let words = buckets.as_flattened();
        let turns = buckets.len().saturating_sub(1) / TURN;
        let mut lanes = SpanLanes::default();
        let (mut gaps, mut bits) = (first ^ offset, length);
        for turn in 0..turns {
            let from = TURN_WORDS * turn;
            let window: &Window = words[from..from + TURN_WORDS + 1].try_into().unwrap();
            lanes.turn::<SUM>(least, above, window);
            bits |= window[0] | window[TURN_WORDS / 2];
            for row in 1..=LANES {
                let at = ROW_WORDS * row;
                gaps |= gap(window[at - 3], window[at - 2], window[at]);
            }
        }
        let rest = &buckets[TURN * turns..];
        let mut seen = Spans {
            faults: gaps | joined(lanes.faults),
            bits,
            weights: joined(lanes.weights),
            sum: added_up(lanes.sums),
            next: rest[0][0],
        };
        for bucket in rest {
            seen.bucket(least, above, bucket);
        }
        Some(seen)
    }

    fn bucket(&mut self, least: u32, above: u32, &[offset, length, weight]: &Slot) {
        let extra = weight.wrapping_sub(least);
        self.faults |= self.next ^ offset | span(offset, length, extra, above);
        self.bits |= offset;
        self.weights |= extra;
        self.sum = self.sum.wrapping_add(weight);
        self.next = offset.wrapping_add(length);
    }
}

impl SpanLanes {
    #[inline(always)]
    fn turn<const SUM: bool>(&mut self, least: u32, above: u32, window: &Window) {
        let columns = columns(window);
        for slot in 0..ROW {
            for lane in 0..LANES {
                let [offset, length, weight] = bucket(&columns, slot, lane);
                let extra = weight.wrapping_sub(least);
                self.faults[lane] |= span(offset, length, extra, above);
                self.weights[lane] |= extra;
                if SUM {
                    self.sums[lane] = self.sums[lane].wrapping_add(weight);
                }
                if slot + 1 < ROW {
                    self.faults[lane] |= gap(offset, length, bucket(&columns, slot + 1, lane)[0]);
                }
            }
        }
    }
}

/// Zero where the next bucket begins where this one ends.
#[inline(always)]
fn gap(offset: u32, length: u32, next: u32) -> u32 {
    offset.wrapping_add(length) ^ next
}

/// Zero where the length is a power of two that divides the offset, and is 1 if the weight is heavy;
/// or where offset and length are 0, which only those of a first bucket can be.
#[inline(always)]
fn span(offset: u32, length: u32, extra: u32, above: u32) -> u32 {
    let heavy = if extra as i32 > above as i32 - 1 { u32::MAX } else { 0 };
    (offset | length | heavy) & length.wrapping_sub(1)
}

/// The words of a vector. The slots of a level go in turns of as many rows, a lane for each: no load of
/// the baseline processor parts offsets, lengths and weights, but where a turn is taken column by
/// column the compiler loads whole vectors, parts of a row, and transposes them. What lies in one row
/// is compared in its lane, the last slot of a row and the first of the next as single words.
const LANES: usize = 4;

type Lanes = [u32; LANES];

/// The slots of a row and of a turn.
const ROW: usize = 4;
const TURN: usize = LANES * ROW;

/// The words of a row and of a turn.
const ROW_WORDS: usize = layout::SLOT_WORDS * ROW;
const TURN_WORDS: usize = LANES * ROW_WORDS;

/// The words of a turn and the offset of the slot after it. The compiler does not see that each window
/// fits, and its check of the bounds keeps the loop vectoriser away, which would load each word of a
/// turn alone. It does see it where the window is cut in a function that is inlined; so the loops do it.
type Window = [u32; TURN_WORDS + 1];

/// The words of a turn, those that stand at the same place of each row together.
#[inline(always)]
fn columns(window: &Window) -> [Lanes; ROW_WORDS] {
    from_fn(|column| from_fn(|row| window[ROW_WORDS * row + column]))
}

/// The slot that stands at a place of a lane's row.
#[inline(always)]
fn bucket(columns: &[Lanes; ROW_WORDS], slot: usize, lane: usize) -> Slot {
    from_fn(|word| columns[layout::SLOT_WORDS * slot + word][lane])
}

fn joined(lanes: Lanes) -> u32 {
    lanes.iter().fold(0, |all, lane| all | lane)
}

/// The sum of all lanes, modulo 2^32.
fn added_up(lanes: Lanes) -> u32 {
    lanes.iter().fold(0, |all, lane| all.wrapping_add(*lane))
}
