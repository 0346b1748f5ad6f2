//! The value of an expression.

use crate::process::Process;
use crate::table::{Kind, Table};

impl Process {
    /// Recursion ends because a part's node is below the node naming it.
    pub fn value(&self, table: &Table, node: usize) -> u32 {
        let [a, b, c] = table.nodes[node].fields;
        match table.nodes[node].kind {
            Kind::Constant => constant(b, c),
            Kind::Variable => self.variables[a],
            Kind::OwnNumber => self.number,
            Kind::Count => self.count,
            Kind::Door => self.door(self.value(table, a)),
            Kind::Gathered => self.slot(b, self.value(table, a)),
            kind => combine(kind, self.value(table, a), self.value(table, b)),
        }
    }

    fn door(&self, door: u32) -> u32 {
        self.doors.get(door as usize).copied().unwrap_or(0)
    }

    fn slot(&self, area: usize, slot: u32) -> u32 {
        if slot < self.count {
            self.gathered[area][slot as usize]
        } else {
            0
        }
    }
}

/// Kind 0, of its fields B and C.
pub fn constant(b: usize, c: usize) -> u32 {
    (b * 512 + c) as u32
}

/// Kinds 6 to 12; question 9 lets no statement be evaluated.
pub fn combine(kind: Kind, left: u32, right: u32) -> u32 {
    match kind {
        Kind::Sum => left.wrapping_add(right),
        Kind::Difference => left.wrapping_sub(right),
        Kind::Product => left.wrapping_mul(right),
        Kind::Quotient => left.checked_div(right).unwrap_or(0),
        Kind::Less => (left < right) as u32,
        Kind::Equal => (left == right) as u32,
        Kind::Both => (left != 0 && right != 0) as u32,
        _ => 0,
    }
}
