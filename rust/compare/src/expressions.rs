//! Random expressions whose values tell the cases of a kind apart.

use crate::generator::Draft;
use crate::shape::{CONSTANT, GATHERED};

/// Divisor 0, the last door and the first that is none, process counts, fields that are full.
const CONSTANTS: [u32; 16] = [
    0, 0, 1, 1, 2, 3, 5, 11, 12, 13, 15, 16, 17, 511, 512, 262_143,
];

impl Draft<'_> {
    /// At most `budget` nodes; single in every process if `single`.
    pub fn expression(&mut self, budget: usize, single: bool) -> u32 {
        match self.random.below(12) {
            0 | 1 if budget >= 2 && !single => self.door(budget),
            2 | 3 if budget >= 2 => self.gathered(budget, single),
            4..=10 if budget >= 3 => self.combined(budget, single),
            _ if budget > 8 => self.combined(budget, single),
            _ => self.plain(single),
        }
    }

    fn plain(&mut self, single: bool) -> u32 {
        match self.random.below(5) {
            0 | 1 => self.constant(),
            2 => self.add(3, [0, 0, 0], false),
            3 if !single => self.add(2, [0, 0, 0], false),
            _ => {
                let single = single || self.random.one_in(2);
                match self.variable(single) {
                    Some(variable) => self.add(1, [variable, 0, 0], false),
                    None => self.constant(),
                }
            }
        }
    }

    fn constant(&mut self) -> u32 {
        let value = match self.random.one_in(4) {
            true => self.random.below(262_144) as u32,
            false => self.random.pick(&CONSTANTS),
        };
        self.constant_of(value)
    }

    pub fn constant_of(&mut self, value: u32) -> u32 {
        self.add(CONSTANT, [0, value / 512, value % 512], false)
    }

    fn door(&mut self, budget: usize) -> u32 {
        let door = self.index(budget - 1, false);
        self.add(4, [door, 0, 0], false)
    }

    fn gathered(&mut self, budget: usize, single: bool) -> u32 {
        let slot = self.index(budget - 1, single);
        let area = self.area();
        self.add(GATHERED, [slot, area, 0], false)
    }

    /// Mostly of few nodes.
    fn index(&mut self, budget: usize, single: bool) -> u32 {
        let most = if self.random.one_in(8) { budget } else { 3 };
        self.expression(budget.min(most), single)
    }

    fn combined(&mut self, budget: usize, single: bool) -> u32 {
        let kind = self.random.from(6, 12) as u32;
        let most = if self.random.one_in(8) { budget } else { 31 };
        let (left, right) = self.split(budget.min(most));
        let left = self.expression(left, single);
        let right = self.expression(right, single);
        self.add(kind, [left, right, 0], false)
    }
}
