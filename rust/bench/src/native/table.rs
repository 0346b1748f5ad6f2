//! A table's words, where they lie, and questions 2 to 6.

use super::refusal::refused;
use finchchaise::{Refusal, GATHERED_AREAS};

pub const MOST_NODES: usize = 256;

/// The fields of a node's word.
pub const A: u32 = 0x1FF << 18;
pub const B: u32 = 0x1FF << 9;
pub const C: u32 = 0x1FF;
/// The bits of B that no area's number has, which are tested with C at once.
pub const BEYOND_AREAS: u32 = B & !((GATHERED_AREAS as u32 - 1) << 9);
const _: () = assert!(GATHERED_AREAS.is_power_of_two());

/// A table that has passed questions 2 to 6. It stays in its bytes.
pub struct Table<'bytes> {
    pub variables: usize,
    pub flags: u32,
    pub procedures: &'bytes [[u8; 4]],
    pub nodes: &'bytes [[u8; 4]],
}

/// A node's word. A field is taken out of it where it is needed.
#[derive(Clone, Copy)]
pub struct Node(u32);

impl Node {
    #[inline(always)]
    pub fn of(word: [u8; 4]) -> Node {
        Node(u32::from_be_bytes(word))
    }

    #[inline(always)]
    pub fn kind(self) -> u32 {
        self.0 >> 27
    }

    #[inline(always)]
    pub fn a(self) -> usize {
        (self.0 >> 18 & 0x1FF) as usize
    }

    #[inline(always)]
    pub fn b(self) -> usize {
        (self.0 >> 9 & 0x1FF) as usize
    }

    #[inline(always)]
    pub fn c(self) -> usize {
        (self.0 & 0x1FF) as usize
    }

    /// The value of a constant.
    #[inline(always)]
    pub fn constant(self) -> u32 {
        (self.b() * 512 + self.c()) as u32
    }

    /// `None` if one of these fields, or parts of them, for which its kind has no use, is not 0.
    #[inline(always)]
    pub fn unnamed(self, fields: u32) -> Option<()> {
        (self.0 & fields == 0).then_some(())
    }
}

/// Kinds from 16 on, known or not.
#[inline(always)]
pub fn is_statement(word: &[u8; 4]) -> bool {
    word[0] >> 7 == 1
}

/// Of a procedure's word.
#[inline(always)]
pub fn has_effect(word: &[u8; 4]) -> bool {
    word[1] >> 7 == 1
}

impl Table<'_> {
    #[inline(always)]
    pub fn of(bytes: &[u8]) -> Result<Table<'_>, Refusal> {
        let (words, rest) = bytes.as_chunks();
        if !rest.is_empty() || !(4..=274).contains(&words.len()) {
            return refused(2, 0);
        }
        let header = u32::from_be_bytes(words[0]);
        let variables = (header >> 22 & 0x3F) as usize;
        let procedures = (header >> 17 & 0x1F) as usize;
        let nodes = (header >> 8 & 0x1FF) as usize;
        let in_range = (1..=32).contains(&variables)
            && (1..=16).contains(&procedures)
            && (1..=MOST_NODES).contains(&nodes);
        if !in_range || header >> 28 != 1 || header & 0xFF != 0 {
            return refused(3, 0);
        }
        if words.len() != 2 + procedures + nodes {
            return refused(4, 0);
        }
        let flags = u32::from_be_bytes(words[1]);
        if (flags as u64) << variables & 0xFFFF_FFFF != 0 {
            return refused(5, 0);
        }
        let (procedures, nodes) = words[2..].split_at(procedures);
        let table = Table {
            variables,
            flags,
            procedures,
            nodes,
        };
        match procedures
            .iter()
            .position(|&word| !table.procedure_fits(word))
        {
            None => Ok(table),
            Some(procedure) => refused(6, procedure),
        }
    }

    fn procedure_fits(&self, word: [u8; 4]) -> bool {
        u32::from_be_bytes(word) & 0x7F_FFFF == 0 && (word[0] as usize) < self.nodes.len()
    }

    pub fn body(&self, procedure: usize) -> usize {
        self.procedures[procedure][0] as usize
    }

    pub fn node(&self, number: usize) -> Node {
        Node::of(self.nodes[number])
    }

    /// Also asked of numbers that no node has.
    pub fn is_statement(&self, number: usize) -> bool {
        self.nodes.get(number).is_some_and(is_statement)
    }

    /// The nearest while around a statement. Each node around it is above the one before, so they
    /// are found in one pass.
    pub fn while_around(&self, statement: usize) -> Option<usize> {
        let mut inner = statement;
        for number in statement + 1..self.nodes.len() {
            let node = self.node(number);
            match node.kind() {
                20 if node.b() == inner => return Some(number),
                18 if node.a() == inner || node.b() == inner => inner = number,
                19 if node.b() == inner || node.c() == inner => inner = number,
                _ => (),
            }
        }
        None
    }

    /// Whether a variable is flagged, if there is one of this number.
    #[inline(always)]
    pub fn variable(&self, number: usize) -> Option<bool> {
        (number < self.variables).then(|| self.flags << number >> 31 == 1)
    }
}
