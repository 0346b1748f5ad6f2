//! Switches "fixed when the table is written", and the branches that they leave dead.

use crate::evaluation::{combine, constant};
use crate::table::{Kind, Table};
use std::iter::once;

impl Table {
    /// "Constants are fixed, and so are kinds 6 to 12 over fixed parts": the value that the
    /// expression has wherever the table runs. The number of processes is not in the table.
    fn fixed_value(&self, node: usize) -> Option<u32> {
        let [a, b, c] = self.nodes[node].fields;
        match self.nodes[node].kind {
            Kind::Constant => Some(constant(b, c)),
            Kind::Variable | Kind::OwnNumber | Kind::Count | Kind::Door | Kind::Gathered => None,
            kind => Some(combine(kind, self.fixed_value(a)?, self.fixed_value(b)?)),
        }
    }

    /// "Of an if with a fixed condition only the branch that will be taken"; of another both.
    pub fn counted_branches(&self, node: usize) -> Vec<usize> {
        let [condition, then, otherwise] = self.nodes[node].fields;
        match self.fixed_value(condition) {
            None => vec![then, otherwise],
            Some(0) => vec![otherwise],
            Some(_) => vec![then],
        }
    }

    /// Whether the node stands in no dead branch: looks at every if on the way up, and at the part
    /// of it that the way comes from.
    pub fn is_live(&self, node: usize) -> bool {
        let parts = once(node).chain(self.around(node));
        let mut steps = parts.zip(self.around(node));
        steps.all(|(part, around)| !self.is_dead_branch(around, part))
    }

    fn is_dead_branch(&self, node: usize, part: usize) -> bool {
        let is_branch = self.nodes[node].kind == Kind::If && self.is_statement(part);
        is_branch && !self.counted_branches(node).contains(&part)
    }
}
