//! A volume into one level, in place: the buckets that the splits leave are worked out first, then
//! the slots are moved once. The level is sound, and so is its total with the volume.

use super::Slot;
use reference::layout;
use reference::shape::Shape;

/// A bucket is split at most so often by one volume: its length is at most 2^20.
const SPLITS_MAX: usize = Shape::K_MAX as usize;

/// What an insertion makes of a level, but for its slots: the bucket count, the first kept offset, and how
/// many buckets were split.
type Inserted = (usize, u32, u32);

/// Inserts a volume into exactly the words of the level of this index (document 01's 'pour'); how many
/// buckets it splits.
pub fn insert(level: &mut [u32], index: u32, offset: u32, volume: u32) -> u32 {
    let (head, slots) = level.split_at_mut(layout::LEVEL_HEAD_WORDS);
    let (count, first) = (head[0] as usize, head[1]);
    let slots = slots.as_chunks_mut().0;
    if offset < first {
        return 0;
    }
    let (count, first, splits) = if index == 0 {
        at_tick(slots, count, first, offset, volume)
    } else {
        in_span(slots, count, index, offset, volume)
    };
    head.copy_from_slice(&[count as u32, first]);
    splits
}

/// How many slots have an offset below the bound. Most stamps are recent, so it is looked for from
/// the upper end, in steps that double.
fn below(slots: &[Slot], bound: u32) -> usize {
    let (mut high, mut step) = (slots.len(), 1);
    while step <= high && slots[high - step][0] >= bound {
        high -= step;
        step *= 2;
    }
    let low = high.saturating_sub(step);
    low + slots[low..high].partition_point(|slot| slot[0] < bound)
}

/// Level 0: a bucket for every tick.
fn at_tick(slots: &mut [Slot], count: usize, first: u32, offset: u32, volume: u32) -> Inserted {
    let at = below(&slots[..count], offset);
    if at < count && slots[at][0] == offset {
        slots[at][2] += volume;
        return (count, first, 0);
    }
    let made = [offset, 1, volume];
    if count < slots.len() {
        slots.copy_within(at..count, at + 1);
        slots[at] = made;
        (count + 1, first, 0)
    } else if at == 0 {
        // The bucket that the first decilitre makes is evicted; the rest is below the first offset.
        (count, offset + 1, 0)
    } else {
        let first = slots[0][0] + 1;
        slots.copy_within(1..at, 0);
        slots[at - 1] = made;
        (count, first, 0)
    }
}

/// Level i from 1 on: the bucket that spans the offset takes the volume, or is split. The first bucket begins
/// at the first kept offset.
fn in_span(slots: &mut [Slot], count: usize, index: u32, offset: u32, volume: u32) -> Inserted {
    let at = below(&slots[..count], offset + 1) - 1;
    let [_, length, weight] = slots[at];
    if length > 1 && volume >= (2 << index) - weight {
        return split(slots, count, index, offset, volume, at);
    }
    slots[at][2] += volume;
    (count, slots[0][0], 0)
}

/// Fills the bucket of this slot, splits it, and goes on in the half that spans the offset.
#[inline(never)]
fn split(
    slots: &mut [Slot],
    count: usize,
    index: u32,
    offset: u32,
    volume: u32,
    at: usize,
) -> Inserted {
    let (full, part) = (2 << index, 1 << index);
    let [mut start, mut length, mut weight] = slots[at];
    let mut rest = volume;
    let mut before = [[0; 3]; SPLITS_MAX];
    let mut after = [[0; 3]; SPLITS_MAX];
    let (mut befores, mut afters, mut evicted) = (0, 0, 0);
    let mut kept = true;
    while length > 1 && rest >= full - weight {
        rest -= full - weight;
        (length, weight) = (length / 2, part);
        // Which half spans the offset cannot be foreseen: both are written, and one is kept.
        let right = offset >= start + length;
        before[befores] = [start, length, part];
        after[afters] = [start + length, length, part];
        befores += usize::from(right);
        afters += usize::from(!right);
        start += if right { length } else { 0 };
        if count + befores + afters - evicted > slots.len() {
            if evicted == at + befores {
                kept = false;
                break;
            }
            evicted += 1;
        }
    }
    // What is evicted is the lowest: slots before the bucket, then parts that it left behind it.
    let gone = evicted.min(at);
    let before = &before[evicted - gone..befores];
    let after = &after[..afters];
    let mut to = at - gone + before.len() + usize::from(kept) + after.len();
    let count_after = to + count - (at + 1);
    slots.copy_within(at + 1..count, to);
    slots.copy_within(gone..at, 0);
    // The part made last lies next to the bucket.
    for part in after {
        to -= 1;
        slots[to] = *part;
    }
    if kept {
        to -= 1;
        slots[to] = [start, length, weight + rest];
    }
    slots[at - gone..to].copy_from_slice(before);
    // Each split left one half before the bucket or after it.
    (count_after, slots[0][0], (befores + afters) as u32)
}
