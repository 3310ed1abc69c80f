//! Questions: any window, and often one at an edge, where a mistake of one tick shows.

use reference::calls::Call;
use reference::window::window_from;

use super::Caller;

impl Caller<'_> {
    /// A question.
    pub fn question(&mut self) -> Call {
        Call::Query { grade: self.grade(), window: self.window() }
    }

    /// Any window, often one that opens where something stands or a tick beside it.
    fn window(&mut self) -> u32 {
        let (now, ticks) = (self.now(), self.ticks());
        // In the first interval a window can be the clock or exceed it.
        let many_edges = self.is_beside_border() || now < ticks;
        if self.is_edge() || self.is_edge() {
            return match self.random.one_in(4) {
                true => self.long_window(),
                false => self.edge_window(),
            };
        }
        if many_edges && self.random.one_in(2) {
            return self.edge_window();
        }
        let (near, any) = (self.near_landmark(), self.random.between(0, ticks));
        match window_from(now, near) {
            Some(window) if window <= ticks && self.random.one_in(3) => window,
            _ => any,
        }
    }

    /// Of no tick or a few, about an interval long, or opening about the start of the current interval
    /// or of time.
    fn edge_window(&mut self) -> u32 {
        let (now, ticks) = (self.now(), self.ticks());
        let inside = now - self.start_of_interval();
        let random = &mut *self.random;
        match random.below(6) {
            0..=1 => random.pick(&[0, 0, 1, 1, 2, 3]),
            2..=3 => random.pick(&[ticks, ticks, ticks - 1, ticks - 1, ticks - 2]),
            4 => random.pick(&[inside, inside + 1, inside + 2]),
            _ => random.pick(&[now, now.wrapping_add(1), now.wrapping_sub(1)]),
        }
    }

    /// Longer than an interval.
    fn long_window(&mut self) -> u32 {
        let ticks = self.ticks();
        let far = [2 * ticks, 65_536, 1 << 31, u32::MAX, u32::MAX - ticks];
        let far = self.random.pick(&far);
        self.random.pick(&[ticks + 1, far])
    }
}
