//! Tables that are refused. Each is an accepted one with a word changed, so that one question fails
//! first, as late in the table as it can.

use crate::{inputs, switched};
use finchchaise::SCRATCH_WORDS;
use finchchaise_samples::{bytes, Builder};

/// The checks that are accepted, with which the refused ones are compared.
pub const FULL: &str = "check, N 256, P 16";
pub const MIXED: &str = "check, N 256, P 16, out of order";
pub const STATEMENTS: &str = "check, N 255, P 1, statements only";
pub const SWITCHED: &str = "check, N 256, P 16, switches";

const HEADER: usize = 0;
const ONE_NODE_LESS: u32 = 1 << 28 | 2 << 22 | 16 << 17 | 255 << 8;
const FLAGS: usize = 1;
const MAIN_PROCEDURE: usize = 17;
const MAIN_BODY: u32 = 255 << 24;
const EFFECT: u32 = 1 << 23;

pub struct Refused {
    /// The question that fails first.
    pub number: u32,
    /// The check of the table without the change.
    pub accepted: &'static str,
    /// Tells a question's second table from its first, in the row's name.
    pub how: &'static str,
    pub table: Vec<u8>,
}

impl Refused {
    /// Too few for the question about them.
    pub fn scratch_words(&self) -> usize {
        match self.number {
            1 => SCRATCH_WORDS - 1,
            _ => SCRATCH_WORDS,
        }
    }
}

/// In the order of the questions, and those of a table with switches once more.
pub fn all() -> Vec<Refused> {
    let mut all = of_the_whole();
    all.extend(of_contents());
    all.extend(of_switches());
    all
}

/// 1 to 5 only look at lengths and the first two words.
fn of_the_whole() -> Vec<Refused> {
    let lengthened = |count| [inputs::table(256, 16).bytes(), vec![0; count]].concat();
    vec![
        refused(1, "", lengthened(0)),
        refused(2, "", lengthened(1)),
        refused(3, "", with_word(HEADER, 0)),
        refused(4, "", with_word(HEADER, ONE_NODE_LESS)),
        refused(5, "", with_word(FLAGS, 1)),
    ]
}

fn of_contents() -> Vec<Refused> {
    // The main procedure calls itself, where it did nothing.
    let calling = changed(inputs::table(256, 16), 249, [21, 15, 0, 0]);
    let mixed = inputs::out_of_order(&calling);
    let row = changed(inputs::statements(128), 253, [21, 0, 0, 0]);
    vec![
        refused(6, "", with_word(MAIN_PROCEDURE, MAIN_BODY | EFFECT | 1)),
        // The main body, a while, gets a kind that is unknown, a field C, itself as its body.
        refused(7, "", with_node(255, [28, 240, 254, 0])),
        refused(8, "", with_node(255, [20, 240, 254, 1])),
        refused(9, "", with_node(255, [20, 240, 255, 0])),
        // The main body is an expression.
        refused(10, "", with_word(MAIN_PROCEDURE, 251 << 24 | EFFECT)),
        // The second part of a sequence is also that of the sequence in it.
        refused(11, ", node used twice", with_node(254, [18, 244, 252, 0])),
        // An exchange becomes a barrier, which has no value.
        refused(11, ", node never used", with_node(252, [23, 0, 0, 0])),
        refused(12, "", calling.bytes()),
        compared_with(MIXED, refused(12, "", mixed.bytes())),
        compared_with(STATEMENTS, refused(12, "", row.bytes())),
        // The last call leaves, in a procedure that has no loop.
        refused(26, "", with_node(219, [26, 0, 0, 0])),
        // The single variable takes a sum that is not.
        refused(13, "", with_node(244, [17, 1, 243, 0])),
        // The last broadcast's value and source change places.
        refused(14, "", with_node(226, [24, 1, 225, 224])),
        // The last if's condition reads a variable that is not single.
        refused(15, "", with_node(245, [1, 0, 0, 0])),
        // The main body's condition becomes the own number.
        refused(16, "", with_node(240, [2, 0, 0, 0])),
        refused(17, "", with_word(MAIN_PROCEDURE, MAIN_BODY)),
    ]
}

/// What fails counts. Before it, some of what does not count would fail 13 to 17.
fn of_switches() -> Vec<Refused> {
    let table = || switched::failing(256, 16);
    let with_node = |number, node| changed(table(), number, node).bytes();
    let with_word = |place, word| with_word_in(&table(), place, word);
    let all = vec![
        // The single variable takes a sum that is not.
        refused(13, "", with_node(244, [17, 1, 243, 0])),
        // A condition compares a variable that is not single, and is no longer fixed.
        refused(15, "", with_node(145, [1, 0, 0, 0])),
        // The main body's condition becomes the own number.
        refused(16, "", with_node(240, [2, 0, 0, 0])),
        refused(17, "", with_word(MAIN_PROCEDURE, MAIN_BODY)),
    ];
    let compared = all.into_iter().map(|one| compared_with(SWITCHED, one));
    compared.collect()
}

fn refused(number: u32, how: &'static str, table: Vec<u8>) -> Refused {
    Refused {
        number,
        accepted: FULL,
        how,
        table,
    }
}

fn compared_with(accepted: &'static str, refused: Refused) -> Refused {
    Refused {
        accepted,
        ..refused
    }
}

/// A node is its kind, A, B and C.
fn changed(mut table: Builder, number: usize, node: [u32; 4]) -> Builder {
    table.nodes[number] = node;
    table
}

fn with_node(number: usize, node: [u32; 4]) -> Vec<u8> {
    changed(inputs::table(256, 16), number, node).bytes()
}

fn with_word(place: usize, word: u32) -> Vec<u8> {
    with_word_in(&inputs::table(256, 16), place, word)
}

fn with_word_in(table: &Builder, place: usize, word: u32) -> Vec<u8> {
    let mut words = table.words();
    words[place] = word;
    bytes(&words)
}
