//! Another numbering of a table's nodes.

use crate::random::Random;
use crate::shape::parts;
use crate::tree::{users, Node};
use finchchaise_samples::Builder;

/// The same table with its nodes in another order, parts still before the nodes that name them.
pub fn renumber(table: &Builder, random: &mut Random) -> Builder {
    renumber_behind(0, table, random)
}

/// The same, but for so many nodes at the beginning, which no node names.
pub fn renumber_behind(first: usize, table: &Builder, random: &mut Random) -> Builder {
    let order = order(first, table, random);
    let mut numbers = vec![0; order.len()];
    for (number, &node) in order.iter().enumerate() {
        numbers[node] = number as u32;
    }
    let mut renumbered = table.clone();
    for (body, _) in &mut renumbered.procedures {
        *body = numbers[*body as usize];
    }
    renumbered.nodes = order.iter().map(|&node| table.nodes[node]).collect();
    for node in &mut renumbered.nodes {
        for place in parts(node[0]) {
            node[place] = numbers[node[place] as usize];
        }
    }
    renumbered
}

/// Takes any node next whose parts have all been taken.
fn order(first: usize, table: &Builder, random: &mut Random) -> Vec<usize> {
    let users = users(&table.nodes);
    let count = |node: &Node| parts(node[0]).count();
    let mut missing: Vec<usize> = table.nodes.iter().map(count).collect();
    let nodes = first..missing.len();
    let mut ready: Vec<usize> = nodes.filter(|&node| missing[node] == 0).collect();
    let mut order: Vec<usize> = (0..first).collect();
    while !ready.is_empty() {
        let node = ready.swap_remove(random.below(ready.len()));
        order.push(node);
        if let Some(user) = users[node] {
            missing[user] -= 1;
            if missing[user] == 0 {
                ready.push(user);
            }
        }
    }
    order
}
