//! Joining a library to a table (request U8). The table that it is joined to is the program, a
//! stand-in is a stub.

use crate::refusal::{ask, ask_at, ask_each, Refusal};
use crate::table::{Kind, Node, Procedure, Table, MOST_NODES};
use std::fmt;

/// One of the two tables that are joined.
#[derive(Clone, Copy, Debug, PartialEq, Eq)]
pub enum LinkedTable {
    Library,
    Program,
}

/// A refusal, "the answer saying which table".
#[derive(Clone, Copy, Debug, PartialEq, Eq)]
pub struct LinkRefusal {
    pub refusal: Refusal,
    pub table: LinkedTable,
}

impl fmt::Display for LinkRefusal {
    fn fmt(&self, out: &mut fmt::Formatter) -> fmt::Result {
        let table = match self.table {
            LinkedTable::Library => "library",
            LinkedTable::Program => "program",
        };
        write!(out, "{} {table}", self.refusal)
    }
}

fn refused_by(table: LinkedTable) -> impl Fn(Refusal) -> LinkRefusal {
    move |refusal| LinkRefusal { refusal, table }
}

/// Writes the joined table. Asks questions 2 to 12 and 26 of both, then 27 to 29.
pub fn link(library: &[u8], program: &[u8], out: &mut [u8]) -> Result<(), LinkRefusal> {
    let joined = joined_bytes(library, program)?;
    ask(29, out.len() == joined.len()).map_err(refused_by(LinkedTable::Program))?;
    out.copy_from_slice(&joined);
    Ok(())
}

/// The length that an output must have, or 0 if none would do.
pub fn joined_length(library: &[u8], program: &[u8]) -> usize {
    joined_bytes(library, program).map_or(0, |joined| joined.len())
}

/// The joined table, unless a question is refused that does not depend on the output.
pub fn joined_bytes(library: &[u8], program: &[u8]) -> Result<Vec<u8>, LinkRefusal> {
    let library = Table::read(library).map_err(refused_by(LinkedTable::Library))?;
    let program = Table::read(program).map_err(refused_by(LinkedTable::Program))?;
    joined(library, program).map_err(refused_by(LinkedTable::Program))
}

fn joined(library: Table, program: Table) -> Result<Vec<u8>, Refusal> {
    let stubs = library.procedures.len();
    ask_each(27, stubs, |number| is_stub(&library, &program, number))?;
    ask_at(27, stubs as u32, program.procedures.len() > stubs)?;
    let shared = library.variables.min(program.variables);
    ask_each(28, shared, |variable| {
        library.is_flagged(variable) == program.is_flagged(variable)
    })?;
    let joined = library.followed_by(program);
    ask(29, joined.nodes.len() <= MOST_NODES)?;
    Ok(joined.bytes())
}

/// Whether the program has a procedure of this number that stands in for the library's: its body
/// is the node of its number, "of kind 16", and it has the same effect flag.
fn is_stub(library: &Table, program: &Table, number: usize) -> bool {
    let expected = Procedure {
        body: number,
        ..library.procedures[number]
    };
    program.procedures.get(number) == Some(&expected) && program.nodes[number].kind == Kind::Nothing
}

impl Table {
    /// "Joining puts the library's procedures in their place and renumbers."
    fn followed_by(self, program: Table) -> Table {
        let stubs = self.procedures.len();
        let first = self.nodes.len();
        // Each stub's node is its procedure's body and so no part, nor another procedure's body.
        let renumbered = |node: usize| node - stubs + first;
        let procedures = program.procedures[stubs..].iter().map(|own| Procedure {
            body: renumbered(own.body),
            ..*own
        });
        let nodes = program.nodes[stubs..].iter();
        let nodes = nodes.map(|own| own.with_parts(renumbered));
        Table {
            variables: self.variables.max(program.variables),
            // Shared flags are equal, and no table has flags beyond its variables.
            single_flags: self.single_flags | program.single_flags,
            procedures: self.procedures.iter().copied().chain(procedures).collect(),
            nodes: self.nodes.iter().copied().chain(nodes).collect(),
        }
    }

    /// The bytes that are read as this table.
    fn bytes(&self) -> Vec<u8> {
        let (procedures, nodes) = (self.procedures.len(), self.nodes.len());
        let header = 1 << 28 | self.variables << 22 | procedures << 17 | nodes << 8;
        let procedure = |of: &Procedure| (of.body << 24 | (of.effect as usize) << 23) as u32;
        let words = [header as u32, self.single_flags].into_iter();
        let words = words.chain(self.procedures.iter().map(procedure));
        let words = words.chain(self.nodes.iter().map(Node::word));
        words.flat_map(u32::to_be_bytes).collect()
    }
}

impl Node {
    /// The same node with other numbers for its parts.
    fn with_parts(&self, number: impl Fn(usize) -> usize) -> Node {
        let mut node = *self;
        for place in self.part_places() {
            node.fields[place] = number(self.fields[place]);
        }
        node
    }

    fn word(&self) -> u32 {
        let [a, b, c] = self.fields.map(|field| field as u32);
        (self.kind as u32) << 27 | a << 18 | b << 9 | c
    }
}
