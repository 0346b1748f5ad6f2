//! Gathered areas (the paper's rosters): their numbers, which one is filled, which one read.

mod common;

use common::*;
use finchchaise_model::{check_table, step, PROCESS_WORDS};

/// Slot `part` of an area.
const fn slot(part: u32, area: u32) -> Node {
    [5, part, area, 0]
}

const fn exchange(part: u32, area: u32) -> Node {
    [25, part, area, 0]
}

/// What a check says of a table in which node 1 names an area, with this field C.
fn judged(mut node: Node, c: u32) -> String {
    node[3] = c;
    check_table(&match node {
        [5, ..] => table_of(&[COUNT, node, [17, 0, 1, 0]]),
        _ => table_of(&[COUNT, node]),
    })
}

#[test]
fn words_stand_as_the_request_says() {
    let places = [GATHERED, DOORS, LATCHES, DEPTH, STACK, PROCESS_WORDS];
    assert_eq!(places, [32, 96, 108, 120, 121, 377]);
}

#[test]
fn there_are_four_areas() {
    for node in [slot, exchange] {
        for area in 0..AREAS {
            assert_eq!(judged(node(0, area), 0), "accepted\n");
            assert_eq!(judged(node(0, area), 1), "refused 8 1\n");
        }
        for area in [AREAS, 5, 8, 256, 511] {
            assert_eq!(judged(node(0, area), 0), "refused 9 1\n");
            assert_eq!(judged(node(0, area), 1), "refused 8 1\n");
        }
    }
    // Of an area and of a part, at the lowest node.
    let both = [COUNT, exchange(0, AREAS), exchange(2, 0), sequence(1, 2)];
    assert_eq!(check_table(&table_of(&both)), "refused 9 1\n");
}

#[test]
fn doors_have_no_areas() {
    let table = table_of(&[COUNT, [4, 0, 1, 0], [17, 0, 1, 0]]);
    assert_eq!(check_table(&table), "refused 8 1\n");
}

#[test]
fn an_exchange_fills_the_area_that_it_names() {
    for number in 0..AREAS {
        // Of own number + 5.
        let nodes = [OWN, [0, 0, 0, 5], [6, 0, 1, 0], exchange(2, number)];
        let table = table_of(&nodes);
        let (mut state, mut arrivals) = started(&table, 2, &[0; 26]);
        for words in state.chunks_mut(PROCESS_WORDS) {
            words[GATHERED..DOORS].fill(MARK);
        }
        let mut expected = state.clone();
        for process in [0, 1] {
            step(&table, &mut state, &mut arrivals, process).expect("a step");
        }
        for words in expected.chunks_mut(PROCESS_WORDS) {
            words[GATHERED + number as usize * SLOTS..][..2].copy_from_slice(&[5, 6]);
            words[DEPTH..=STACK].fill(0);
        }
        assert_eq!(state, expected, "area {number}");
    }
}

#[test]
fn areas_are_read_after_they_are_filled() {
    // Own number + 5 into area 2, own number into area 0, slot 1 of area 2 into area 1.
    let table = table_of(&[
        OWN,
        [0, 0, 0, 5],
        [6, 0, 1, 0],
        exchange(2, 2),
        OWN,
        exchange(4, 0),
        sequence(3, 5),
        [0, 0, 0, 1],
        slot(7, 2),
        exchange(8, 1),
        sequence(6, 9),
    ]);
    let (mut state, mut arrivals) = started(&table, 2, &[0; 26]);
    for process in [0, 1].repeat(5) {
        step(&table, &mut state, &mut arrivals, process).expect("a step");
    }
    assert_eq!(arrivals, [ENDED; 2]);
    for words in state.chunks(PROCESS_WORDS) {
        assert_eq!(area(words, 0)[..3], [0, 1, 0]);
        assert_eq!(area(words, 1)[..3], [6, 6, 0]);
        assert_eq!(area(words, 2)[..3], [5, 6, 0]);
        assert_eq!(area(words, 3), [0; SLOTS]);
    }
}
