//! How a table's nodes stand in each other.

use crate::shape::{is_collective, parts, LEAVE, WHILE};
use std::iter::successors;

/// Kind, A, B, C.
pub type Node = [u32; 4];

/// A word of a table that has it.
pub fn word(table: &[u8], place: usize) -> u32 {
    let (words, _) = table.as_chunks();
    u32::from_be_bytes(words[place])
}

/// The nodes in a table's bytes, if its length is what its first word says.
pub fn nodes_of(table: &[u8]) -> impl Iterator<Item = Node> + '_ {
    let procedures = table.get(1).map_or(0, |byte| byte >> 1 & 0x1F);
    let words = table.chunks_exact(4).skip(2 + procedures as usize);
    words.map(|bytes| {
        let word = u32::from_be_bytes([bytes[0], bytes[1], bytes[2], bytes[3]]);
        let field = |shift: u32| word >> shift & 0x1FF;
        [word >> 27, field(18), field(9), field(0)]
    })
}

/// The table with each node's word as `change` has it, given the node's number and word.
pub fn with_nodes(table: &[u8], change: impl Fn(usize, u32) -> u32) -> Vec<u8> {
    let mut table = table.to_vec();
    let first = table.len() - 4 * nodes_of(&table).count();
    let (words, _) = table[first..].as_chunks_mut();
    for (number, bytes) in words.iter_mut().enumerate() {
        *bytes = change(number, u32::from_be_bytes(*bytes)).to_be_bytes();
    }
    table
}

/// The node that names each one as a part, if there is one.
pub fn users(nodes: &[Node]) -> Vec<Option<usize>> {
    let mut users = vec![None; nodes.len()];
    for (number, node) in nodes.iter().enumerate() {
        for place in parts(node[0]) {
            users[node[place] as usize] = Some(number);
        }
    }
    users
}

/// Each leave that has a while around it, and the nearest one.
pub fn leaves(nodes: &[Node]) -> Vec<(u32, u32)> {
    let users = users(nodes);
    let left = |leave: usize| around(&users, leave).find(|&node| nodes[node][0] == WHILE);
    let leaves = (0..nodes.len()).filter(|&node| nodes[node][0] == LEAVE);
    leaves
        .filter_map(|leave| Some((leave as u32, left(leave)? as u32)))
        .collect()
}

/// Whether some leave ends a while that holds a collective.
pub fn leaves_collectives(nodes: &[Node]) -> bool {
    let users = users(nodes);
    let left: Vec<usize> = leaves(nodes).iter().map(|pair| pair.1 as usize).collect();
    (0..nodes.len())
        .filter(|&node| is_collective(nodes[node][0]))
        .any(|node| around(&users, node).any(|around| left.contains(&around)))
}

fn around(users: &[Option<usize>], node: usize) -> impl Iterator<Item = usize> + '_ {
    successors(users[node], |&around| users[around])
}
