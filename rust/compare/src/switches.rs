//! What a comparison has covered of switches: ifs with fixed conditions.

use crate::fixed::{dead, fixed, large_by_zero, ruled, saturating, Arithmetic};
use crate::shape::{CALL, CONSTANT, COUNT, FIRST_OPERATOR, IF, LEAVE, NOTHING, VARIABLE};
use crate::tree::{nodes_of, with_nodes, Node};
use crate::words;
use finchchaise::{Refusal, SCRATCH_WORDS};

/// What a check shows of switches.
#[derive(Clone, Copy, Debug, PartialEq)]
pub enum Switch {
    /// A table is accepted, and would not be if no branch were dead.
    Accepted,
    /// A table is refused, and would then be refused by the same question at a lower place.
    Further,
    /// A table is refused, and would then be refused by an earlier question.
    Later,
    /// 26 is answered at a leave in a dead branch.
    DeadStray,
    /// 16 would be answered for a leave in a dead branch.
    DeadLeave,
    /// 15, 16 or 17 would be answered for a call in a dead branch.
    DeadCall,
    /// This number, 13 to 16, would be answered at a node in a dead branch.
    DeadNode(u32),
    /// This number, 15 to 17, would be answered for another global effect in a dead branch.
    DeadEffect(u32),
    /// A fixed condition of this kind decides: if the other branch were taken, another answer
    /// would be given.
    By(u32),
    /// A fixed condition decides that would come out otherwise if nothing wrapped around.
    Wrapped,
    /// The same if a quotient by 0 were large.
    ByZero,
    /// If the number of processes and single variables were fixed, another answer would be given.
    Nearly,
}

/// In the order of their places.
pub const SWITCHES: [&str; 24] = [
    "accepted by a dead branch",
    "refused further on",
    "refused later",
    "26 in a dead branch",
    "no 16 for a dead leave",
    "no refusal for a dead call",
    "no 13 at a dead node",
    "no 14 at a dead node",
    "no 15 at a dead node",
    "no 16 at a dead node",
    "no 15 for a dead effect",
    "no 16 for a dead effect",
    "no 17 for a dead effect",
    "switched by a constant",
    "switched by a sum",
    "switched by a difference",
    "switched by a product",
    "switched by a quotient",
    "switched by less",
    "switched by equal",
    "switched by both",
    "switched by wrapping around",
    "switched by a quotient by 0",
    "nearly switched",
];

impl Switch {
    pub fn place(self) -> usize {
        match self {
            Switch::Accepted => 0,
            Switch::Further => 1,
            Switch::Later => 2,
            Switch::DeadStray => 3,
            Switch::DeadLeave => 4,
            Switch::DeadCall => 5,
            Switch::DeadNode(number) => 6 + number as usize - 13,
            Switch::DeadEffect(number) => 10 + number as usize - 15,
            Switch::By(CONSTANT) => 13,
            Switch::By(kind) => 14 + (kind - FIRST_OPERATOR) as usize,
            Switch::Wrapped => 21,
            Switch::ByZero => 22,
            Switch::Nearly => 23,
        }
    }
}

/// What a check shows, of a table that passes questions 2 to 12.
pub fn of_check(table: &[u8], answer: Result<(), Refusal>) -> Vec<Switch> {
    let nodes: Vec<Node> = nodes_of(table).collect();
    match answer {
        Err(Refusal { number: ..=12, .. }) => vec![],
        Err(Refusal { number: 26, place }) => match dead(&nodes)[place as usize] {
            true => vec![Switch::DeadStray],
            false => vec![],
        },
        _ => of_judgement(table, &nodes, answer),
    }
}

/// The same, where 13 to 17 were asked.
fn of_judgement(table: &[u8], nodes: &[Node], answer: Result<(), Refusal>) -> Vec<Switch> {
    let mut shown = of_dead_branches(table, nodes, answer);
    shown.extend(of_conditions(table, nodes, answer));
    shown.extend(nearly(table, answer).then_some(Switch::Nearly));
    shown
}

fn judged(table: &[u8]) -> Result<(), Refusal> {
    words::check(table, &mut [0; SCRATCH_WORDS])
}

/// What shows when the answer is put beside the one that would be given if no branch were dead.
fn of_dead_branches(table: &[u8], nodes: &[Node], answer: Result<(), Refusal>) -> Vec<Switch> {
    let unfixed = unfixed(table);
    let before = judged(&unfixed);
    let Err(refusal) = before else {
        assert_eq!(answer, before, "a dead branch is no reason to refuse");
        return vec![];
    };
    let change = match answer {
        _ if answer == before => return vec![],
        Ok(()) => Switch::Accepted,
        Err(Refusal { number, .. }) if number == refusal.number => Switch::Further,
        Err(_) => Switch::Later,
    };
    vec![change, cause(&unfixed, &dead(nodes), refusal)]
}

/// Why a table is no longer refused so, of which some nodes are dead.
fn cause(unfixed: &[u8], dead: &[bool], refusal: Refusal) -> Switch {
    let is_for = |kind: u32| {
        let without = with_nodes(unfixed, |number, word| match word >> 27 {
            this if this == kind && dead[number] => NOTHING << 27,
            _ => word,
        });
        judged(&without) != Err(refusal)
    };
    match refusal.number {
        number @ 13..=16 if dead[refusal.place as usize] => Switch::DeadNode(number),
        16 if is_for(LEAVE) => Switch::DeadLeave,
        _ if is_for(CALL) => Switch::DeadCall,
        number => Switch::DeadEffect(number),
    }
}

/// The table with the number of processes in place of every constant, which is single too.
fn unfixed(table: &[u8]) -> Vec<u8> {
    with_nodes(table, |_, word| match word >> 27 {
        CONSTANT => COUNT << 27,
        _ => word,
    })
}

/// What shows of the fixed conditions that decide.
fn of_conditions(table: &[u8], nodes: &[Node], answer: Result<(), Refusal>) -> Vec<Switch> {
    let mut shown = Vec::new();
    for (number, &[kind, condition, ..]) in nodes.iter().enumerate() {
        let holds = |arithmetic: Arithmetic| Some(fixed(nodes, condition, arithmetic)? != 0);
        let is_switch = kind == IF && holds(ruled).is_some();
        if is_switch && judged(&exchanged(table, number)) != answer {
            shown.push(Switch::By(nodes[condition as usize][0]));
            shown.extend((holds(saturating) != holds(ruled)).then_some(Switch::Wrapped));
            shown.extend((holds(large_by_zero) != holds(ruled)).then_some(Switch::ByZero));
        }
    }
    shown
}

/// The table with the branches of an if in each other's places.
fn exchanged(table: &[u8], node: usize) -> Vec<u8> {
    with_nodes(table, |number, word| match number == node {
        true => word & !0x3FFFF | (word & 0x1FF) << 9 | word >> 9 & 0x1FF,
        false => word,
    })
}

/// Whether another answer would be given if what is single and not fixed were 0, or 1.
fn nearly(table: &[u8], answer: Result<(), Refusal>) -> bool {
    let flags = u32::from_be_bytes([table[4], table[5], table[6], table[7]]);
    let is_single = |variable: u32| flags << variable >> 31 == 1;
    let with = |value: u32| {
        with_nodes(table, |_, word| match word >> 27 {
            COUNT => value,
            VARIABLE if is_single(word >> 18 & 0x1FF) => value,
            _ => word,
        })
    };
    [0, 1].iter().any(|&value| judged(&with(value)) != answer)
}
