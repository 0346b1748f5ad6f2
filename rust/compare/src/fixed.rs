//! Expressions whose value stands in the table, and the nodes that they leave dead.

use crate::shape::{parts, CONSTANT, FIRST_OPERATOR, IF, LAST_OPERATOR};
use crate::tree::{nodes_of, Node};

/// The value that a kind from 6 to 12 has for those of its parts.
pub type Arithmetic = fn(u32, u32, u32) -> u32;

/// The value of a node, if it is fixed.
pub fn fixed(nodes: &[Node], node: u32, arithmetic: Arithmetic) -> Option<u32> {
    let [kind, a, b, c] = nodes[node as usize];
    let part = |part| fixed(nodes, part, arithmetic);
    match kind {
        CONSTANT => Some(512 * b + c),
        FIRST_OPERATOR..=LAST_OPERATOR => Some(arithmetic(kind, part(a)?, part(b)?)),
        _ => None,
    }
}

/// As the rules have it.
pub fn ruled(kind: u32, left: u32, right: u32) -> u32 {
    match kind {
        6 => left.wrapping_add(right),
        7 => left.wrapping_sub(right),
        8 => left.wrapping_mul(right),
        9 => left.checked_div(right).unwrap_or(0),
        10 => (left < right) as u32,
        11 => (left == right) as u32,
        _ => (left != 0 && right != 0) as u32,
    }
}

/// A mistake: results stop where they should wrap around.
pub fn saturating(kind: u32, left: u32, right: u32) -> u32 {
    match kind {
        6 => left.saturating_add(right),
        7 => left.saturating_sub(right),
        8 => left.saturating_mul(right),
        _ => ruled(kind, left, right),
    }
}

/// Another: what is divided by 0 is large.
pub fn large_by_zero(kind: u32, left: u32, right: u32) -> u32 {
    match (kind, right) {
        (9, 0) => u32::MAX,
        _ => ruled(kind, left, right),
    }
}

/// Whether each node of a table that passes questions 2 to 12 stands in a dead branch.
pub fn dead_nodes(table: &[u8]) -> Vec<bool> {
    dead(&nodes_of(table).collect::<Vec<Node>>())
}

/// The same, of its nodes.
pub fn dead(nodes: &[Node]) -> Vec<bool> {
    let mut dead = vec![false; nodes.len()];
    for (number, &node) in nodes.iter().enumerate().rev() {
        let never_taken = never_taken(nodes, node);
        for place in parts(node[0]) {
            dead[node[place] as usize] = dead[number] || never_taken == Some(place);
        }
    }
    dead
}

/// The place of the branch that a fixed condition leaves dead.
fn never_taken(nodes: &[Node], [kind, condition, ..]: Node) -> Option<usize> {
    match kind {
        IF if fixed(nodes, condition, ruled)? == 0 => Some(2),
        IF => Some(3),
        _ => None,
    }
}
