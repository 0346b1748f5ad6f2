//! A library joined to a program: what is written, and every refusal.

mod common;

use common::*;
use finchchaise_model::LinkedTable::{Library, Program};
use finchchaise_model::{check_table, joined_length, link, link_tables};
use finchchaise_model::{LinkRefusal, LinkedTable, Refusal};

/// A table to be written.
#[derive(Clone)]
struct Draft {
    variables: u32,
    flags: u32,
    /// Body and effect flag.
    procedures: Vec<(u32, bool)>,
    nodes: Vec<Node>,
}

impl Draft {
    fn bytes(&self) -> Vec<u8> {
        table_flagged(self.variables, self.flags, &self.procedures, &self.nodes)
    }

    /// The same with another word of flags, and so many variables.
    fn with_variables(&self, variables: u32, flags: u32) -> Draft {
        Draft {
            variables,
            flags,
            ..self.clone()
        }
    }
}

fn draft(procedures: &[(u32, bool)], nodes: &[Node]) -> Draft {
    Draft {
        variables: 1,
        flags: 0,
        procedures: procedures.to_vec(),
        nodes: nodes.to_vec(),
    }
}

/// Procedure 0 is a barrier, procedure 1 a loop, 2 calls both.
fn library() -> Draft {
    draft(
        &[(0, true), (3, false), (6, true)],
        &[
            BARRIER,
            COUNT,
            LEAVE,
            repeat(1, 2),
            call(0),
            call(1),
            sequence(4, 5),
        ],
    )
}

/// Stubs for it, a procedure that calls 2 and 1, and one that calls that.
fn program() -> Draft {
    draft(
        &[(0, true), (1, false), (2, true), (5, true), (6, true)],
        &[
            NOTHING,
            NOTHING,
            NOTHING,
            call(2),
            call(1),
            sequence(3, 4),
            call(3),
        ],
    )
}

/// A body of so many nodes, of which the first is numbered as given.
fn row(nodes: usize, first: u32) -> Vec<Node> {
    let mut row = match nodes % 2 {
        0 => vec![COUNT, [25, first, 0, 0]],
        _ => vec![NOTHING],
    };
    while row.len() < nodes {
        let before = first + row.len() as u32 - 1;
        row.push(NOTHING);
        row.push(sequence(before, before + 1));
    }
    row
}

/// A library of one procedure with so many nodes.
fn library_of(nodes: usize) -> Vec<u8> {
    table_with(&[nodes as u32 - 1], &row(nodes, 0))
}

/// A program for it whose main procedure has so many.
fn program_of(nodes: usize) -> Vec<u8> {
    let all = [vec![NOTHING], row(nodes, 1)].concat();
    table_with(&[0, nodes as u32], &all)
}

/// The joined table, for which only an output of its length will do.
fn joined(library: &[u8], program: &[u8]) -> Vec<u8> {
    let length = joined_length(library, program);
    let wrong = [
        0,
        1,
        4,
        length - 4,
        length - 1,
        length + 1,
        length + 4,
        1096,
    ];
    for wrong in wrong.into_iter().filter(|&wrong| wrong != length) {
        assert_eq!(answer(library, program, wrong), Err((29, 0, Program)));
    }
    answer(library, program, length).expect("a joined table")
}

/// What is refused whatever the output.
fn refused(library: &[u8], program: &[u8]) -> (u32, u32, LinkedTable) {
    assert_eq!(joined_length(library, program), 0);
    let answers = [0, 16, 32, 1096].map(|length| answer(library, program, length));
    assert_eq!(answers[1..], answers[..3]);
    answers[0].clone().expect_err("a refusal")
}

/// An output of so many bytes that was written, or number, place and table of a refusal, which
/// leaves every byte.
fn answer(
    library: &[u8],
    program: &[u8],
    length: usize,
) -> Result<Vec<u8>, (u32, u32, LinkedTable)> {
    let before: Vec<u8> = (0..length).map(|place| place as u8 ^ 0xA5).collect();
    let mut out = before.clone();
    match link(library, program, &mut out) {
        Ok(()) => Ok(out),
        Err(LinkRefusal { refusal, table }) => {
            assert_eq!(out, before);
            let Refusal { number, place } = refusal;
            Err((number, place, table))
        }
    }
}

#[test]
fn a_library_takes_the_place_of_its_stubs() {
    let own = vec![call(2), call(1), sequence(7, 8), call(3)];
    let expected = draft(
        &[(0, true), (3, false), (6, true), (9, true), (10, true)],
        &[library().nodes, own].concat(),
    );
    let joined = joined(&library().bytes(), &program().bytes());
    assert_eq!(joined, expected.bytes());
    assert_eq!(check_table(&joined), "accepted\n");
    // Call, list, call, list, call, and the library's barrier.
    let met = "bank what node site\n0 moved 0 going\n0 moved 0 going\n0 moved 0 going\n\
               0 moved 0 going\n0 moved 0 going\n0 met 0 going\n";
    assert_eq!(run(&joined, 1, &[0; 6]), met);
}

/// One node of each kind that names something, in a program after one stub.
const EVERY_KIND: [Node; 32] = [
    NOTHING,
    [0, 0, 5, 7],
    [1, 2, 0, 0],
    [4, 1, 0, 0],
    [5, 2, 3, 0],
    [6, 3, 4, 0],
    OWN,
    [7, 5, 6, 0],
    COUNT,
    [8, 7, 8, 0],
    OWN,
    [9, 9, 10, 0],
    OWN,
    [10, 11, 12, 0],
    OWN,
    [11, 13, 14, 0],
    OWN,
    [12, 15, 16, 0],
    [17, 1, 17, 0],
    OWN,
    OWN,
    [22, 19, 20, 0],
    sequence(18, 21),
    OWN,
    OWN,
    [24, 2, 23, 24],
    OWN,
    [25, 26, 2, 0],
    OWN,
    choose(28, 25, 27),
    call(0),
    sequence(22, 29),
];

/// The library has three nodes where the program has one stub, so each part has 2 added.
#[test]
fn parts_alone_are_renumbered() {
    let mut nodes = EVERY_KIND.to_vec();
    nodes.extend([
        sequence(31, 30),
        BARRIER,
        COUNT,
        repeat(34, 33),
        sequence(32, 35),
    ]);
    let program = Draft {
        variables: 3,
        ..draft(&[(0, true), (36, true)], &nodes)
    };
    let library = draft(&[(2, true)], &[COUNT, LEAVE, repeat(0, 1)]);
    let parts = |kind: u32| match kind {
        4 | 5 | 25 => vec![1],
        6..=12 | 18 | 20 | 22 => vec![1, 2],
        17 => vec![2],
        19 => vec![1, 2, 3],
        24 => vec![2, 3],
        _ => vec![],
    };
    let mut expected = program.clone();
    for node in &mut expected.nodes {
        parts(node[0]).iter().for_each(|&place| node[place] += 2);
    }
    expected.nodes.splice(..1, library.nodes.clone());
    expected.procedures = vec![(2, true), (38, true)];
    assert_eq!(joined(&library.bytes(), &program.bytes()), expected.bytes());
}

#[test]
fn variables_are_shared_by_number() {
    let with = |of: &Draft, (variables, flags)| of.with_variables(variables, flags).bytes();
    let (library, program) = (library(), program());
    let cases = [
        // Of the library, of the program, joined.
        ((2, 0x8000_0000), (2, 0x8000_0000), (2, 0x8000_0000)),
        ((1, 0x8000_0000), (4, 0xB000_0000), (4, 0xB000_0000)),
        ((4, 0xB000_0000), (1, 0x8000_0000), (4, 0xB000_0000)),
        ((1, 0), (32, 0x7FFF_FFFF), (32, 0x7FFF_FFFF)),
        ((32, 0x7FFF_FFFF), (1, 0), (32, 0x7FFF_FFFF)),
        ((31, 0xFFFF_FFFE), (32, 0xFFFF_FFFE), (32, 0xFFFF_FFFE)),
        ((32, 1), (31, 0), (32, 1)),
    ];
    for (of_library, of_program, expected) in cases {
        let joined = joined(&with(&library, of_library), &with(&program, of_program));
        let (variables, flags) = expected;
        // With five procedures.
        assert_eq!(
            joined[..2],
            [0x10 | (variables >> 2) as u8, (variables << 6) as u8 | 10]
        );
        assert_eq!(joined[4..8], u32::to_be_bytes(flags));
    }
}

#[test]
fn flags_that_differ_are_refused_at_the_lowest_variable() {
    let cases = [
        ((1, 0x8000_0000), (1, 0), 0),
        ((1, 0), (1, 0x8000_0000), 0),
        ((3, 0x6000_0000), (2, 0), 1),
        ((2, 0), (3, 0x6000_0000), 1),
        ((32, 0xFFFF_FFFE), (32, 0xFFFF_FFFF), 31),
        ((32, 0xF0F0_0000), (32, 0xF000_00FF), 8),
    ];
    for (of_library, of_program, place) in cases {
        let with = |of: Draft, (variables, flags)| of.with_variables(variables, flags).bytes();
        let (library, program) = (with(library(), of_library), with(program(), of_program));
        assert_eq!(refused(&library, &program), (28, place, Program));
    }
}

/// The program with a procedure in place of one of its own.
fn with_procedure(number: usize, procedure: (u32, bool)) -> Draft {
    let mut program = program();
    program.procedures[number] = procedure;
    program
}

#[test]
fn a_stub_is_as_said() {
    let library = library().bytes();
    let refused = |program: &Draft| refused(&library, &program.bytes());
    for (number, effect) in [true, false, true].into_iter().enumerate() {
        let refusal = (27, number as u32, Program);
        let body = number as u32;
        assert_eq!(refused(&with_procedure(number, (body, !effect))), refusal);
        // Another kind.
        let mut other = program();
        other.nodes[number] = BARRIER;
        assert_eq!(refused(&other), refusal);
    }
    // Bodies in each other's places, also with a procedure that is no stub.
    let mut exchanged = with_procedure(1, (2, false));
    exchanged.procedures[2].0 = 1;
    assert_eq!(refused(&exchanged), (27, 1, Program));
    let mut elsewhere = with_procedure(2, (6, true));
    elsewhere.nodes[6] = NOTHING;
    elsewhere.procedures[4].0 = 2;
    assert_eq!(refused(&elsewhere), (27, 2, Program));
    // Where several are not, the lowest counts.
    let mut two = with_procedure(1, (1, true));
    two.procedures[2].1 = false;
    assert_eq!(refused(&two), (27, 1, Program));
}

/// So many stubs for the library, and no other procedure; from 4 on one of the program's own.
fn stubs(count: u32) -> Draft {
    let procedure = |number: u32| (number, number != 1);
    let procedures: Vec<_> = (0..count).map(procedure).collect();
    draft(&procedures, &vec![NOTHING; count as usize])
}

#[test]
fn stubs_that_are_missing_and_no_procedure_left_are_refused() {
    let library = library().bytes();
    for count in 1..=3 {
        let program = stubs(count).bytes();
        assert_eq!(refused(&library, &program), (27, count, Program));
    }
    joined(&library, &stubs(4).bytes());
    // The first that is there is asked before one that is not.
    let mut wrong = stubs(2);
    wrong.procedures[0].1 = false;
    assert_eq!(refused(&library, &wrong.bytes()), (27, 0, Program));
    // With 16 procedures no program has one left.
    let bodies: Vec<u32> = (0..16).collect();
    let full = table_with(&bodies, &[NOTHING; 16]);
    assert_eq!(refused(&full, &full), (27, 16, Program));
    let nearly_full = table_with(&bodies[..15], &[NOTHING; 15]);
    assert_eq!(joined(&nearly_full, &full), full);
}

#[test]
fn there_are_at_most_256_nodes() {
    for of_library in [1, 2, 128, 254, 255] {
        let library = library_of(of_library);
        let joined = joined(&library, &program_of(256 - of_library));
        assert_eq!(joined.len(), 4 * (2 + 2 + 256));
        assert_eq!(check_table(&joined), "accepted\n");
        let too_many = program_of(257 - of_library);
        // A program that is itself too large is refused alone.
        let expected = match of_library {
            1 => (3, 0, Program),
            _ => (29, 0, Program),
        };
        assert_eq!(refused(&library, &too_many), expected);
    }
    assert_eq!(refused(&library_of(256), &program_of(1)), (29, 0, Program));
}

/// Tables that fail each of 2 to 12 and 26, with number and place.
fn ill_formed() -> Vec<(Vec<u8>, u32, u32)> {
    let word = |place: usize, word: u32| {
        let mut table = program().bytes();
        table[4 * place..][..4].copy_from_slice(&word.to_be_bytes());
        table
    };
    let node = |number: usize, node: Node| {
        let mut program = program();
        program.nodes[number] = node;
        program.bytes()
    };
    vec![
        (vec![], 2, 0),
        (word(0, 0), 3, 0),
        (word(0, 0x104A0800), 4, 0),
        (word(1, 1), 5, 0),
        (word(3, 1), 6, 1),
        (node(1, [31, 0, 0, 0]), 7, 1),
        (node(0, [16, 0, 0, 1]), 8, 0),
        (node(5, sequence(3, 5)), 9, 5),
        (table_of(&[COUNT]), 10, 0),
        (node(5, sequence(3, 3)), 11, 3),
        (node(6, call(4)), 12, 6),
        (node(2, LEAVE), 26, 2),
    ]
}

#[test]
fn tables_are_asked_by_themselves_first_the_library_before_the_program() {
    let (sound_library, sound_program) = (library().bytes(), program().bytes());
    for (table, number, place) in ill_formed() {
        assert_eq!(
            refused(&table, &sound_program),
            (number, place, Library),
            "{number}"
        );
        assert_eq!(refused(&sound_library, &table), (number, place, Program));
        // Whatever the other is.
        for (other, ..) in ill_formed() {
            assert_eq!(refused(&table, &other), (number, place, Library));
        }
    }
}

#[test]
fn later_questions_are_asked_in_their_order() {
    let of = |table: Vec<u8>, flags: u8| [&table[..4], &[flags, 0, 0, 0], &table[8..]].concat();
    let library = of(library_of(200), 0x80);
    let other_kind = table_with(&[0, 57], &[vec![BARRIER], row(57, 1)].concat());
    assert_eq!(refused(&library, &other_kind), (27, 0, Program));
    assert_eq!(refused(&library, &program_of(57)), (28, 0, Program));
    assert_eq!(
        refused(&library, &of(program_of(57), 0x80)),
        (29, 0, Program)
    );
    joined(&library, &of(program_of(56), 0x80));
}

/// Acceptance is asked of neither table.
#[test]
fn tables_that_are_not_accepted_join() {
    let unflagged = draft(&[(0, false)], &[BARRIER]);
    let local = draft(
        &[(0, false), (4, true)],
        &[NOTHING, OWN, BARRIER, NOTHING, choose(1, 2, 3)],
    );
    let joined = joined(&unflagged.bytes(), &local.bytes());
    assert_eq!(check_table(&joined), "refused 15 4\n");
}

fn linked(library: &[u8], program: &[u8]) -> Vec<u8> {
    let length = bytes(&[library.len() as u32]);
    link_tables(&[&length, library, program].concat())
}

#[test]
fn the_program_prints_the_table_or_a_refusal() {
    let (library, program) = (library().bytes(), program().bytes());
    assert_eq!(linked(&library, &program), joined(&library, &program));
    assert_eq!(linked(&library, &[]), b"refused 2 0 program\n");
    assert_eq!(linked(&[], &program), b"refused 2 0 library\n");
    assert_eq!(
        linked(&library, &stubs(2).bytes()),
        b"refused 27 2 program\n"
    );
    assert_eq!(
        linked(&library_of(256), &program_of(1)),
        b"refused 29 0 program\n"
    );
}

#[test]
fn input_that_is_too_long_or_cut_short_is_refused_without_a_table() {
    let refused = b"refused 25 0\n";
    for length in 0..4 {
        assert_eq!(link_tables(&vec![0; length]), refused);
    }
    assert_eq!(link_tables(&[0; 4]), b"refused 2 0 library\n");
    assert_eq!(link_tables(&[0, 0, 0, 1]), refused);
    assert_eq!(link_tables(&[0xFF; 64]), refused);
    let sound = [bytes(&[24]), vec![0; 23]].concat();
    assert_eq!(link_tables(&sound), refused);
    assert_eq!(link_tables(&[0; 32_768]), b"refused 2 0 library\n");
    assert_eq!(link_tables(&[0; 32_769]), refused);
}
