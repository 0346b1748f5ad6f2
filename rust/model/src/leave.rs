//! The while that a leave ends, and question 26.

use crate::table::{Kind, Table};
use std::iter::successors;

impl Table {
    /// The nodes around a node, nearest first, up to its procedure's body.
    pub fn around(&self, node: usize) -> impl Iterator<Item = usize> + '_ {
        successors(self.user(node), |&around| self.user(around))
    }

    /// The node of which this one is a part; a body has none. By question 11
    /// there is no other, by question 9 it is above its part.
    fn user(&self, part: usize) -> Option<usize> {
        (part + 1..self.nodes.len()).find(|&node| self.nodes[node].parts().any(|of| of == part))
    }

    /// "Ends the nearest while around it in the same procedure": that while, if
    /// the node is a leave and has one.
    pub fn while_left(&self, node: usize) -> Option<usize> {
        let is_while = |&around: &usize| self.nodes[around].kind == Kind::While;
        match self.nodes[node].kind {
            Kind::Leave => self.around(node).find(is_while),
            _ => None,
        }
    }

    /// Question 26.
    pub fn leave_has_while(&self, node: usize) -> bool {
        self.nodes[node].kind != Kind::Leave || self.while_left(node).is_some()
    }
}
