//! What a comparison has covered of leaves.

use crate::shape::{LEAVE, NOTHING};
use crate::tree::{leaves_collectives, nodes_of, with_nodes, Node};
use crate::words;
use finchchaise::{Refusal, DEPTH_AT, PROCESS_WORDS, SCRATCH_WORDS, STACK_AT};

/// What a call shows of leaves.
#[derive(Clone, Copy, Debug, PartialEq)]
pub enum Shown {
    /// An accepted table has one.
    Accepted,
    /// An accepted table has one that ends a loop with a collective.
    AcceptedLoud,
    /// A table is refused with 16, and would not be without its leaves.
    LeftLocally,
    /// A step left a loop.
    Left,
    /// It popped others than the leave and its while.
    PastOthers,
    /// The while was also an entry further below.
    Repeated,
    /// The process had no statement left.
    Finished,
    /// A step was refused with 23, as a leave's while was not below.
    NotBelow,
}

/// In the order of `Shown`.
pub const SHOWN: [&str; 8] = [
    "accepted with leaves",
    "accepted leaving collectives",
    "16 by a leave",
    "left",
    "left past others",
    "left one of several",
    "left and finished",
    "23 by a leave",
];

/// What a check shows.
pub fn of_check(table: &[u8], answer: Result<(), Refusal>) -> Vec<Shown> {
    let nodes: Vec<Node> = nodes_of(table).collect();
    let has_leaves = nodes.iter().any(|node| node[0] == LEAVE);
    match answer {
        Ok(()) if has_leaves && leaves_collectives(&nodes) => {
            vec![Shown::Accepted, Shown::AcceptedLoud]
        }
        Ok(()) if has_leaves => vec![Shown::Accepted],
        Err(Refusal { number: 16, .. }) if has_leaves && without_leaves(table) != answer => {
            vec![Shown::LeftLocally]
        }
        _ => vec![],
    }
}

/// The model's judgement of the table with nothing in place of every leave.
fn without_leaves(table: &[u8]) -> Result<(), Refusal> {
    let table = with_nodes(table, |_, word| match word >> 27 {
        LEAVE => NOTHING << 27,
        _ => word,
    });
    words::check(&table, &mut [0; SCRATCH_WORDS])
}

/// The stack of a process that has a leave on top.
pub fn leaving<'state>(table: &[u8], state: &'state [u32], process: u32) -> Option<&'state [u32]> {
    let stack = stack(state, process)?;
    let [kind, ..] = nodes_of(table).nth(*stack.last()? as usize)?;
    (kind == LEAVE).then_some(stack)
}

/// A process's stack, if the state has the process and its depth is possible.
pub fn stack(state: &[u32], process: u32) -> Option<&[u32]> {
    let words = state.chunks_exact(PROCESS_WORDS).nth(process as usize)?;
    words[STACK_AT..].get(..words[DEPTH_AT] as usize)
}

/// What a step shows that left so many entries of a stack with a leave on top: the first that is
/// gone is the while.
pub fn of_step(stack: &[u32], kept: usize) -> Vec<Shown> {
    let (below, gone) = stack.split_at(kept);
    let mut shown = vec![Shown::Left];
    if gone.len() > 2 {
        shown.push(Shown::PastOthers);
    }
    if below.contains(&gone[0]) {
        shown.push(Shown::Repeated);
    }
    if below.is_empty() {
        shown.push(Shown::Finished);
    }
    shown
}
