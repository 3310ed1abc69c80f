//! Which scripts a run consists of: how many, how long, from which seeds.

use draw::random::Random;

use super::script::script;

/// The scripts of a run; their lines add up to what was asked.
pub struct Plan {
    random: Random,
    lines_left: u64,
    scripts_left: u64,
}

impl Plan {
    /// So many scripts with so many lines in all.
    pub fn new(seed: u64, lines: u64, scripts: u64) -> Plan {
        Plan { random: Random::new(seed), lines_left: lines, scripts_left: scripts }
    }

    /// Some scripts are empty, some hold a few lines, some are longer than a reader's chunks.
    fn length(&mut self) -> u64 {
        let mean = self.lines_left / self.scripts_left;
        let drawn = match self.random.below(16) {
            0 => 0,
            1 => 1 + self.random.below(4),
            2 => 4 * mean,
            3 if self.random.one_in(4) => 20 * mean,
            _ => self.random.below(2 * mean + 1),
        };
        drawn.min(self.lines_left)
    }
}

impl Iterator for Plan {
    type Item = Vec<u8>;

    fn next(&mut self) -> Option<Vec<u8>> {
        let length = match self.scripts_left {
            0 => return None,
            1 => self.lines_left,
            _ => self.length(),
        };
        self.lines_left -= length;
        self.scripts_left -= 1;
        Some(script(self.random.bits(), length))
    }
}
