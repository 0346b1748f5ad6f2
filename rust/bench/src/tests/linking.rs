//! The same of libraries joined to programs.

use super::checked_alike;
use crate::{inputs, native};
use finchchaise::{LinkRefusal, MOST_TABLE_BYTES, SCRATCH_WORDS};
use finchchaise_compare::{Joint, Pair, Random, Tally};

const PAIRS: usize = 40_000;

/// What both sides answer; the output, of any contents before, is the same too.
fn linked_alike(library: &[u8], program: &[u8], mut out: Vec<u8>) -> Result<(), LinkRefusal> {
    let mut expected = out.clone();
    let answer = native::link(library, program, &mut out);
    assert_eq!(answer, finchchaise::link(library, program, &mut expected));
    assert_eq!(out, expected);
    answer
}

#[test]
fn links_are_answered_alike() {
    let mut random = Random::new(5);
    let mut tally = Tally::default();
    for turn in 0..PAIRS {
        let random = &mut random;
        let pair = Pair::new(random);
        let [library, program] = match turn % 2 {
            0 => pair.bytes(),
            _ => pair.damaged(random),
        };
        let joined = finchchaise::joined_length(&library, &program);
        let length = match random.one_in(8) {
            true => random.below(MOST_TABLE_BYTES),
            false => joined.unwrap_or(library.len()),
        };
        let answer = linked_alike(&library, &program, random.bytes(length));
        tally.linked(&library, &program, length, answer);
    }
    assert!(tally.taken > PAIRS / 4, "{tally}");
    tally.assert_both_refused((2..=12).chain([26]), 10);
    tally.assert_refused([27, 28, 29], 500);
    tally.assert_joints(&[(Joint::Full, 500), (Joint::JustTooMany, 500)]);
    tally.assert_joints(&[(Joint::Short, 200), (Joint::Long, 200)]);
}

/// Otherwise the rows would not be of tables as staff have them.
#[test]
fn tables_are_accepted_where_joining_is_timed() {
    for nodes in [32, 64, 128] {
        let library = inputs::table(nodes, 8);
        let program = inputs::program_for(&library, nodes);
        assert_eq!([library.nodes.len(), program.nodes.len()], [nodes; 2]);
        let (library, program) = (library.bytes(), program.bytes());
        let length = finchchaise::joined_length(&library, &program).expect("tables that fit");
        let mut joined = vec![7; length];
        assert_eq!(native::link(&library, &program, &mut joined), Ok(()));
        for table in [library, program, joined] {
            assert_eq!(checked_alike(&table, vec![7; SCRATCH_WORDS]), Ok(()));
        }
    }
}
