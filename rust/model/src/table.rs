//! The table out of its bytes, and questions 2 to 12 and 26.

use crate::process::AREAS;
use crate::refusal::{ask, ask_each, Refusal};

pub const MOST_NODES: usize = 256;

/// A table that has passed questions 2 to 12 and 26.
pub struct Table {
    pub variables: usize,
    pub procedures: Vec<Procedure>,
    pub nodes: Vec<Node>,
    pub single_flags: u32,
}

#[derive(Clone, Copy, PartialEq, Eq)]
pub struct Procedure {
    pub body: usize,
    pub effect: bool,
}

#[derive(Clone, Copy)]
pub struct Node {
    pub kind: Kind,
    /// A, B and C.
    pub fields: [usize; 3],
}

/// The kinds with the paper's numbers, expressions before statements.
#[derive(Clone, Copy, Debug, PartialEq, Eq, PartialOrd)]
pub enum Kind {
    Constant = 0,
    Variable = 1,
    OwnNumber = 2,
    Count = 3,
    Door = 4,
    Gathered = 5,
    Sum = 6,
    Difference = 7,
    Product = 8,
    Quotient = 9,
    Less = 10,
    Equal = 11,
    Both = 12,
    Nothing = 16,
    Assign = 17,
    Sequence = 18,
    If = 19,
    While = 20,
    Call = 21,
    Latch = 22,
    Barrier = 23,
    Broadcast = 24,
    Exchange = 25,
    Leave = 26,
}

#[rustfmt::skip]
const KINDS: [Kind; 24] = [
    Kind::Constant, Kind::Variable, Kind::OwnNumber, Kind::Count, Kind::Door, Kind::Gathered,
    Kind::Sum, Kind::Difference, Kind::Product, Kind::Quotient,
    Kind::Less, Kind::Equal, Kind::Both,
    Kind::Nothing, Kind::Assign, Kind::Sequence, Kind::If, Kind::While, Kind::Call, Kind::Latch,
    Kind::Barrier, Kind::Broadcast, Kind::Exchange, Kind::Leave,
];

/// What a node's field holds.
#[derive(Clone, Copy, PartialEq, Eq)]
enum Field {
    Unnamed,
    Number,
    Variable,
    Procedure,
    /// A gathered area.
    Area,
    Expression,
    Statement,
}

impl Kind {
    fn numbered(number: u32) -> Option<Kind> {
        KINDS.into_iter().find(|&kind| kind as u32 == number)
    }

    fn is_statement(self) -> bool {
        self >= Kind::Nothing
    }

    /// The paper's meeting: barrier, broadcast or exchange.
    pub fn is_collective(self) -> bool {
        matches!(self, Kind::Barrier | Kind::Broadcast | Kind::Exchange)
    }

    fn fields(self) -> [Field; 3] {
        use Field::*;
        match self {
            Kind::Constant => [Unnamed, Number, Number],
            Kind::Variable => [Variable, Unnamed, Unnamed],
            Kind::OwnNumber | Kind::Count => [Unnamed; 3],
            Kind::Nothing | Kind::Barrier | Kind::Leave => [Unnamed; 3],
            Kind::Door => [Expression, Unnamed, Unnamed],
            Kind::Gathered | Kind::Exchange => [Expression, Area, Unnamed],
            Kind::Sum | Kind::Difference | Kind::Product | Kind::Quotient => {
                [Expression, Expression, Unnamed]
            }
            Kind::Less | Kind::Equal | Kind::Both | Kind::Latch => {
                [Expression, Expression, Unnamed]
            }
            Kind::Assign => [Variable, Expression, Unnamed],
            Kind::Sequence => [Statement, Statement, Unnamed],
            Kind::If => [Expression, Statement, Statement],
            Kind::While => [Expression, Statement, Unnamed],
            Kind::Call => [Procedure, Unnamed, Unnamed],
            Kind::Broadcast => [Variable, Expression, Expression],
        }
    }
}

impl Node {
    fn of(word: u32) -> Option<Node> {
        let field = |shift: u32| (word >> shift) as usize & 0x1ff;
        Some(Node {
            kind: Kind::numbered(word >> 27)?,
            fields: [field(18), field(9), field(0)],
        })
    }

    fn labelled_fields(&self) -> impl Iterator<Item = (Field, usize)> {
        self.kind.fields().into_iter().zip(self.fields)
    }

    pub fn parts(&self) -> impl Iterator<Item = usize> + '_ {
        self.part_places().map(|place| self.fields[place])
    }

    /// Which of A, B and C are parts.
    pub fn part_places(&self) -> impl Iterator<Item = usize> {
        let fields = self.kind.fields();
        (0..fields.len())
            .filter(move |&place| matches!(fields[place], Field::Expression | Field::Statement))
    }
}

/// V, P and N of word 0.
struct Header {
    variables: usize,
    procedures: usize,
    nodes: usize,
}

impl Header {
    /// Question 3.
    fn of(word: u32) -> Option<Header> {
        let field = |shift: u32, bits: u32| (word >> shift) as usize & ((1 << bits) - 1);
        let header = Header {
            variables: field(22, 6),
            procedures: field(17, 5),
            nodes: field(8, 9),
        };
        let valid = field(28, 4) == 1
            && (1..=32).contains(&header.variables)
            && (1..=16).contains(&header.procedures)
            && (1..=MOST_NODES).contains(&header.nodes)
            && field(0, 8) == 0;
        valid.then_some(header)
    }
}

impl Table {
    /// Asks questions 2 to 12 and then 26.
    pub fn read(bytes: &[u8]) -> Result<Table, Refusal> {
        ask(2, length_is_possible(bytes.len()))?;
        let words = words_of(bytes);
        let header = Header::of(words[0]).ok_or(Refusal {
            number: 3,
            place: 0,
        })?;
        ask(4, words.len() == 2 + header.procedures + header.nodes)?;
        let single_flags = words[1];
        ask(5, flags_stop_at(header.variables, single_flags))?;
        let (procedure_words, node_words) = words[2..].split_at(header.procedures);
        ask_each(6, header.procedures, |procedure| {
            procedure_is_possible(procedure_words[procedure], header.nodes)
        })?;
        ask_each(7, header.nodes, |node| Node::of(node_words[node]).is_some())?;
        let table = Table {
            variables: header.variables,
            procedures: procedure_words.iter().map(procedure_of).collect(),
            nodes: node_words.iter().copied().filter_map(Node::of).collect(),
            single_flags,
        };
        table.ask_8_to_12()?;
        ask_each(26, header.nodes, |node| table.leave_has_while(node))?;
        Ok(table)
    }

    fn ask_8_to_12(&self) -> Result<(), Refusal> {
        let (nodes, procedures) = (self.nodes.len(), self.procedures.len());
        ask_each(8, nodes, |node| self.unnamed_fields_are_zero(node))?;
        ask_each(9, nodes, |node| self.named_fields_fit(node))?;
        ask_each(10, procedures, |procedure| {
            self.body_is_statement(procedure)
        })?;
        let uses = self.uses();
        ask_each(11, nodes, |node| uses[node] == 1)?;
        let owners = self.owners();
        ask_each(12, nodes, |node| self.call_goes_down(node, owners[node]))
    }

    /// Question 8.
    fn unnamed_fields_are_zero(&self, node: usize) -> bool {
        self.nodes[node]
            .labelled_fields()
            .all(|(field, value)| field != Field::Unnamed || value == 0)
    }

    /// Question 9; for an area "above 3 is number 9".
    fn named_fields_fit(&self, node: usize) -> bool {
        self.nodes[node]
            .labelled_fields()
            .all(|(field, value)| match field {
                Field::Unnamed | Field::Number => true,
                Field::Variable => value < self.variables,
                Field::Procedure => value < self.procedures.len(),
                Field::Area => value < AREAS,
                Field::Expression => value < node && !self.is_statement(value),
                Field::Statement => value < node && self.is_statement(value),
            })
    }

    /// Question 10.
    fn body_is_statement(&self, procedure: usize) -> bool {
        self.is_statement(self.procedures[procedure].body)
    }

    /// For question 11: how often each node is a part or a body.
    fn uses(&self) -> Vec<usize> {
        let mut uses = vec![0; self.nodes.len()];
        let bodies = self.procedures.iter().map(|procedure| procedure.body);
        for used in bodies.chain(self.nodes.iter().flat_map(Node::parts)) {
            uses[used] += 1;
        }
        uses
    }

    /// For question 12: the procedure in whose body each node stands. By
    /// question 11 a node has one user, by question 9 a user above it.
    fn owners(&self) -> Vec<usize> {
        let mut owners = vec![0; self.nodes.len()];
        for (number, procedure) in self.procedures.iter().enumerate() {
            owners[procedure.body] = number;
        }
        for (number, node) in self.nodes.iter().enumerate().rev() {
            for part in node.parts() {
                owners[part] = owners[number];
            }
        }
        owners
    }

    /// Question 12.
    fn call_goes_down(&self, node: usize, owner: usize) -> bool {
        let Node { kind, fields } = &self.nodes[node];
        *kind != Kind::Call || fields[0] < owner
    }

    /// Also asked of numbers that are no node.
    pub fn is_statement(&self, node: usize) -> bool {
        self.nodes
            .get(node)
            .is_some_and(|node| node.kind.is_statement())
    }

    /// The highest flag is variable 0's.
    pub fn is_flagged(&self, variable: usize) -> bool {
        (self.single_flags << variable) >> 31 == 1
    }

    /// The last procedure is the main one.
    pub fn main_body(&self) -> usize {
        self.procedures[self.procedures.len() - 1].body
    }
}

/// Question 2.
fn length_is_possible(length: usize) -> bool {
    length.is_multiple_of(4) && (16..=1096).contains(&length)
}

/// High byte first; a cut last word is dropped.
pub fn words_of(bytes: &[u8]) -> Vec<u32> {
    bytes
        .chunks_exact(4)
        .map(|word| u32::from_be_bytes([word[0], word[1], word[2], word[3]]))
        .collect()
}

/// Question 5.
fn flags_stop_at(variables: usize, flags: u32) -> bool {
    flags.checked_shl(variables as u32).unwrap_or(0) == 0
}

/// Question 6.
fn procedure_is_possible(word: u32, nodes: usize) -> bool {
    word & 0x7f_ffff == 0 && procedure_of(&word).body < nodes
}

fn procedure_of(word: &u32) -> Procedure {
    Procedure {
        body: (word >> 24) as usize,
        effect: word >> 23 & 1 == 1,
    }
}
