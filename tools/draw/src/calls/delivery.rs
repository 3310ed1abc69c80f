//! Deliveries: stamps about the clock, the oldest stamp and the ends of intervals, and volumes that fill
//! levels one by one.

use reference::calls::Call;
use reference::shape::Shape;

use super::Caller;
use crate::shapes::quick_volume;

/// Volumes above what the second program takes in little time are cut, some only far above it.
const PATIENCE: u64 = 20;
/// Volumes up to here fill an interval exactly, however long that takes.
const QUICK_FILL: u64 = 4_096;
const VOLUME_MAX: u64 = Shape::VOLUME_MAX as u64;

impl Caller<'_> {
    /// A delivery, or a clock where the interval is full and would mostly refuse.
    pub fn delivery(&mut self) -> Call {
        let (grade, stamp) = (self.grade(), self.stamp());
        let room = self.view.room(grade, stamp);
        if room == 0 && grade < self.shape().g() && !self.random.one_in(4) {
            let clock = self.leap();
            return Call::Clock { clock };
        }
        Call::Delivery { grade, stamp, volume: self.volume(room) }
    }

    /// Anywhere that is not late, often recent or where something stands already.
    fn stamp(&mut self) -> u32 {
        if self.is_edge() || self.is_beside_border() && self.random.one_in(4) {
            return self.edge_stamp();
        }
        let (now, oldest) = (self.now(), self.oldest());
        let (near, any) = (self.near_landmark(), self.random.between(oldest, now));
        let recent = oldest.max(now.saturating_sub(self.ticks() / 8 + 1));
        match self.random.below(8) {
            0..=1 if (oldest..=now).contains(&near) => near,
            2..=3 => self.random.between(recent, now),
            _ => any,
        }
    }

    /// Next to the clock, to the oldest stamp, to the ends of the intervals or of the numbers.
    fn edge_stamp(&mut self) -> u32 {
        let (now, oldest, ticks) = (self.now(), self.oldest(), self.ticks());
        let (start, next) = (self.start_of_interval(), self.next_interval());
        let before = start.saturating_sub(ticks);
        let random = &mut *self.random;
        let (few, any) = (random.between(1, 3), random.word());
        match random.below(8) {
            0 => now.wrapping_add(few),
            1..=2 => oldest.saturating_sub(random.pick(&[1, 1, few])),
            3..=4 => random.pick(&[now, oldest, oldest, oldest.wrapping_add(1)]),
            5 => random.pick(&[start, start.saturating_sub(1), before, before.max(1) - 1]),
            6 => random.pick(&[u32::MAX, u32::MAX - ticks, u32::MAX - ticks + 1, 1 << 31, next]),
            _ => random.pick(&[0, ticks, ticks - 1, any]),
        }
    }

    /// Mostly small, so that an interval takes several deliveries and its levels fill one by one.
    fn volume(&mut self, room: u64) -> u32 {
        if self.floods() {
            return room.clamp(1, VOLUME_MAX) as u32;
        }
        let drawn = if self.is_edge() {
            self.edge_volume(room)
        } else {
            let most = self.pace.volume.min(self.shape().capacity() / 8).max(1);
            (1 + self.random.below(most)).min(room).max(1)
        };
        // Refused volumes cost nothing, accepted ones by the decilitre.
        let most = if drawn > room || drawn > VOLUME_MAX {
            u32::MAX.into()
        } else if drawn == room && room <= QUICK_FILL {
            room
        } else {
            quick_volume(self.shape()) * self.random.pick(&[1, PATIENCE])
        };
        drawn.min(most) as u32
    }

    /// None, the most, as much as there is room for, one more, or about a power of two, where
    /// buckets split.
    fn edge_volume(&mut self, room: u64) -> u64 {
        let capacity = self.shape().capacity();
        let random = &mut *self.random;
        match random.below(8) {
            0 => 0,
            1 => random.pick(&[VOLUME_MAX + 1, VOLUME_MAX + 2, 1 << 31, u32::MAX.into()]),
            2 => VOLUME_MAX,
            3 => room,
            4 => room + 1,
            5 => random.below(capacity + 1),
            _ => (1 << random.between(1, 14)) + random.below(3) - 1,
        }
    }

    /// Whether this volume should be as large as can be; only where a few such fill an interval.
    fn floods(&mut self) -> bool {
        let rarity = match self.shape().m() {
            16 => 16,
            17..=18 => 8,
            _ => return false,
        };
        let quick = quick_volume(self.shape()) * PATIENCE >= VOLUME_MAX;
        self.pace.flood && quick && self.random.one_in(rarity)
    }
}
