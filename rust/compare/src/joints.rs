//! What a comparison has covered of links.

use crate::shape::NOTHING;
use crate::tree::{nodes_of, word};
use finchchaise::{LinkRefusal, LinkedTable};
use std::cmp::Ordering;

/// What a link shows.
#[derive(Clone, Copy, Debug, PartialEq)]
pub enum Joint {
    /// Joined: both have as many variables.
    AsMany,
    /// The same, and the library has fewer.
    FewerInLibrary,
    /// The same, and the program has fewer.
    FewerInProgram,
    /// The joined table has as many nodes as there can be.
    Full,
    /// 27: the stub has another body.
    Body,
    /// Its body is of another kind.
    Kind,
    /// It has another effect flag.
    Effect,
    /// The program ends before it.
    Missing,
    /// All stubs are there and nothing else.
    NoneLeft,
    /// A higher stub is wrong too.
    LowestStub,
    /// 28: the variable is single in the library alone.
    SingleInLibrary,
    /// It is single in the program alone.
    SingleInProgram,
    /// A higher variable's flags differ too.
    LowestVariable,
    /// 29: one node too many.
    JustTooMany,
    /// More than that.
    TooMany,
    /// The output is too short.
    Short,
    /// The output is too long.
    Long,
}

/// In the order of `Joint`.
pub const JOINTS: [&str; 17] = [
    "with as many variables",
    "with fewer in the library",
    "with fewer in the program",
    "with 256 nodes",
    "27 by a body",
    "27 by a kind",
    "27 by an effect",
    "27 by a stub that is missing",
    "27 as none is left",
    "27 at the lowest of several",
    "28 by the library's flag",
    "28 by the program's flag",
    "28 at the lowest of several",
    "29 by one node",
    "29 by more nodes",
    "29 by a short output",
    "29 by a long output",
];

/// What a link with an output of so many bytes shows, by its answer.
pub fn of_link(
    library: &[u8],
    program: &[u8],
    length: usize,
    answer: Result<(), LinkRefusal>,
) -> Vec<Joint> {
    let tables = Tables { library, program };
    let (number, place) = match answer {
        Ok(()) => return tables.joined(),
        Err(LinkRefusal { refusal, table }) if refusal.number >= 27 => {
            assert_eq!(table, LinkedTable::Program);
            (refusal.number, refusal.place)
        }
        Err(_) => return vec![],
    };
    match number {
        27 => tables.of_stubs(place as usize),
        28 => tables.of_flags(place),
        _ => vec![tables.of_sizes(length)],
    }
}

/// Two tables that are well formed.
struct Tables<'bytes> {
    library: &'bytes [u8],
    program: &'bytes [u8],
}

fn variables(table: &[u8]) -> u32 {
    word(table, 0) >> 22 & 0x3F
}

fn procedures(table: &[u8]) -> usize {
    (word(table, 0) >> 17 & 0x1F) as usize
}

fn nodes(table: &[u8]) -> usize {
    (word(table, 0) >> 8 & 0x1FF) as usize
}

impl Tables<'_> {
    fn joined_nodes(&self) -> usize {
        nodes(self.library) + nodes(self.program) - procedures(self.library)
    }

    fn joined(&self) -> Vec<Joint> {
        let variables = match variables(self.library).cmp(&variables(self.program)) {
            Ordering::Equal => Joint::AsMany,
            Ordering::Less => Joint::FewerInLibrary,
            Ordering::Greater => Joint::FewerInProgram,
        };
        let mut shown = vec![variables];
        shown.extend((self.joined_nodes() == 256).then_some(Joint::Full));
        shown
    }

    fn of_stubs(&self, place: usize) -> Vec<Joint> {
        let stubs = procedures(self.library);
        let first = match place == stubs {
            true => Joint::NoneLeft,
            false => self.wrong_stub(place).expect("a stub that is wrong"),
        };
        let mut higher = place + 1..stubs;
        let is_lowest = higher.any(|stub| self.wrong_stub(stub).is_some());
        let mut shown = vec![first];
        shown.extend(is_lowest.then_some(Joint::LowestStub));
        shown
    }

    /// Why a stub is refused, if it is.
    fn wrong_stub(&self, stub: usize) -> Option<Joint> {
        if stub >= procedures(self.program) {
            return Some(Joint::Missing);
        }
        let [expected, found] = [self.library, self.program].map(|table| word(table, 2 + stub));
        let kind = nodes_of(self.program).nth(stub).map(|[kind, ..]| kind);
        if found >> 24 != stub as u32 {
            Some(Joint::Body)
        } else if kind != Some(NOTHING) {
            Some(Joint::Kind)
        } else {
            ((found ^ expected) >> 23 & 1 == 1).then_some(Joint::Effect)
        }
    }

    fn of_flags(&self, place: u32) -> Vec<Joint> {
        let [of_library, of_program] = [self.library, self.program].map(|table| word(table, 1));
        let shared = variables(self.library).min(variables(self.program));
        let differing = (of_library ^ of_program).reverse_bits() as u64 & ((1 << shared) - 1);
        assert_eq!(differing.trailing_zeros(), place);
        let single = match of_library << place >> 31 {
            1 => Joint::SingleInLibrary,
            _ => Joint::SingleInProgram,
        };
        let mut shown = vec![single];
        shown.extend((differing.count_ones() > 1).then_some(Joint::LowestVariable));
        shown
    }

    fn of_sizes(&self, length: usize) -> Joint {
        let nodes = self.joined_nodes();
        let expected = 4 * (2 + procedures(self.program) + nodes);
        match nodes {
            257 => Joint::JustTooMany,
            258.. => Joint::TooMany,
            _ if length < expected => Joint::Short,
            _ => {
                assert!(length > expected);
                Joint::Long
            }
        }
    }
}
