//! Random conditions that are fixed, or nearly.

use crate::generator::Draft;
use crate::shape::{COUNT, FIRST_OPERATOR, LAST_OPERATOR, VARIABLE};

/// Small ones, and one whose square is 0.
const CONSTANTS: [u32; 8] = [0, 0, 1, 1, 2, 3, 65_536, 65_536];

impl Draft<'_> {
    /// At most `budget` nodes: constants, and operators over them.
    pub fn fixed(&mut self, budget: usize) -> u32 {
        if budget < 3 || self.random.one_in(4) {
            let value = self.random.pick(&CONSTANTS);
            return self.constant_of(value);
        }
        let (left, right) = self.split(budget);
        let left = self.fixed(left);
        let right = self.fixed(right);
        self.operation(left, right)
    }

    /// The same, but for one node that is single and not fixed.
    pub fn nearly_fixed(&mut self, budget: usize) -> u32 {
        if budget < 3 {
            return self.unfixed();
        }
        let (nearly, fixed) = self.split(budget);
        let nearly = self.nearly_fixed(nearly);
        let fixed = self.fixed(fixed);
        match self.random.one_in(2) {
            true => self.operation(nearly, fixed),
            false => self.operation(fixed, nearly),
        }
    }

    fn unfixed(&mut self) -> u32 {
        match self.variable(true) {
            Some(variable) if self.random.one_in(2) => self.add(VARIABLE, [variable, 0, 0], false),
            _ => self.add(COUNT, [0, 0, 0], false),
        }
    }

    fn operation(&mut self, left: u32, right: u32) -> u32 {
        let kinds = (FIRST_OPERATOR as usize, LAST_OPERATOR as usize);
        let kind = self.random.from(kinds.0, kinds.1) as u32;
        self.add(kind, [left, right, 0], false)
    }
}
