//! What the fields of each kind of node name.

#[derive(Clone, Copy, PartialEq)]
pub enum Field {
    Unnamed,
    Number,
    Variable,
    Procedure,
    /// A gathered area.
    Area,
    Expression,
    Statement,
}

/// Kinds that exist.
pub const KINDS: [u32; 24] = [
    0, 1, 2, 3, 4, 5, 6, 7, 8, 9, 10, 11, 12, 16, 17, 18, 19, 20, 21, 22, 23, 24, 25, 26,
];

pub const LAST_EXPRESSION: u32 = 12;
pub const FIRST_STATEMENT: u32 = 16;
pub const LAST_STATEMENT: u32 = LEAVE;
pub const FIRST_COLLECTIVE: u32 = BARRIER;
pub const LAST_COLLECTIVE: u32 = EXCHANGE;

pub const CONSTANT: u32 = 0;
pub const VARIABLE: u32 = 1;
pub const OWN: u32 = 2;
pub const COUNT: u32 = 3;
pub const GATHERED: u32 = 5;
pub const FIRST_OPERATOR: u32 = 6;
pub const LAST_OPERATOR: u32 = LAST_EXPRESSION;
pub const NOTHING: u32 = FIRST_STATEMENT;
pub const IF: u32 = 19;
pub const WHILE: u32 = 20;
pub const CALL: u32 = 21;
pub const BARRIER: u32 = 23;
pub const BROADCAST: u32 = 24;
pub const EXCHANGE: u32 = 25;
pub const LEAVE: u32 = 26;

pub fn is_statement(kind: u32) -> bool {
    kind >= FIRST_STATEMENT
}

pub fn is_collective(kind: u32) -> bool {
    (FIRST_COLLECTIVE..=LAST_COLLECTIVE).contains(&kind)
}

/// A, B and C.
pub fn fields(kind: u32) -> [Field; 3] {
    use Field::*;
    match kind {
        0 => [Unnamed, Number, Number],
        1 => [Variable, Unnamed, Unnamed],
        4 => [Expression, Unnamed, Unnamed],
        GATHERED | EXCHANGE => [Expression, Area, Unnamed],
        6..=12 | 22 => [Expression, Expression, Unnamed],
        17 => [Variable, Expression, Unnamed],
        18 => [Statement, Statement, Unnamed],
        19 => [Expression, Statement, Statement],
        20 => [Expression, Statement, Unnamed],
        21 => [Procedure, Unnamed, Unnamed],
        24 => [Variable, Expression, Expression],
        _ => [Unnamed; 3],
    }
}

/// The places of a node's parts in `[kind, A, B, C]`.
pub fn parts(kind: u32) -> impl Iterator<Item = usize> {
    let is_part = |field| matches!(field, Field::Expression | Field::Statement);
    (1..4).filter(move |&place| is_part(fields(kind)[place - 1]))
}
