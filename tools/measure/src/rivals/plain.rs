//! The check that leaves at the first fault, condition by condition.

use super::{Calls, Slot};
use reference::shape::Shape;

pub struct Plain;

impl Calls for Plain {
    fn are_zero(slots: &[Slot]) -> bool {
        slots.iter().all(|slot| *slot == [0; 3])
    }

    fn ticks(shape: Shape, first: u32, buckets: &[Slot]) -> Option<u64> {
        let end = 1 << shape.k();
        if first >= end {
            return None;
        }
        let (mut lowest, mut sum) = (first, 0);
        for &[offset, length, weight] in buckets {
            if offset < lowest || offset >= end || length != 1 || weight == 0 {
                return None;
            }
            lowest = offset + 1;
            sum += u64::from(weight);
        }
        Some(sum)
    }

    fn spans(shape: Shape, index: u32, first: u32, buckets: &[Slot], _: u32) -> Option<u64> {
        let end = 1 << shape.k();
        let (mut next, mut sum) = (first, 0);
        for &[offset, length, weight] in buckets {
            let aligned = length.is_power_of_two() && offset & (length - 1) == 0;
            let heavy = length > 1 && weight >= 2 << index;
            let light = buckets.len() > 1 && weight < 1 << index;
            if offset != next || offset >= end || !aligned || length > end || heavy || light {
                return None;
            }
            next = offset + length;
            sum += u64::from(weight);
        }
        (!buckets.is_empty() && next == end).then_some(sum)
    }
}
